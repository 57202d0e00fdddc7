//! A batch of cases: its requests, what the model expects of them, and the
//! comparison with what the library left.

use crate::cases::case::Case;
use crate::comparison::caller::{self, Caller, Left};
use crate::comparison::coverage::Coverage;
use crate::comparison::databases::{Followed, Tally};
use crate::comparison::rare::Past;
use crate::model::call::{Call, Lent, out_words};
use crate::model::outcome::make_call;
use std::io;

/// The cases of a batch, ready to be sent.
#[derive(Default)]
pub struct Batch {
    cases: Vec<Case>,
    requests: Vec<u8>,
    expected: Vec<u8>,
    /// where each call's answer ends, in order
    ends: Vec<usize>,
    coverage: Coverage,
}

/// The first difference found in a case.
#[derive(Debug)]
pub struct Difference {
    pub case: Case,
    pub what: What,
}

#[derive(Debug)]
pub enum What {
    /// the library left something else than the model at this call
    Left(Box<LeftApart>),
    /// the library's answer to this call is not what demand 3 says
    Followed { at: usize, because: String },
    /// the caller ended, or a call did not end
    Ended(io::Error),
}

#[derive(Debug)]
pub struct LeftApart {
    pub at: usize,
    pub before: Lent,
    pub library: Left,
    pub model: Left,
}

impl Batch {
    pub fn of(case: Case) -> Batch {
        let mut batch = Batch::default();
        batch.add(case);
        batch
    }

    pub fn add(&mut self, case: Case) {
        let mut lent = case.start.clone();
        let mut past = Past::default();
        for call in &case.calls {
            caller::put_request(&mut self.requests, call, &lent);
            let before = lent.clone();
            let outcome = make_call(call, &mut lent);
            self.coverage.count(call, &before, &outcome, &past);
            past.add(call, &before, &outcome);
            let block = call.left_block(&outcome);
            caller::put_answer(&mut self.expected, &out_words(&outcome), &lent, &block);
            self.ends.push(self.expected.len());
        }
        self.cases.push(case);
    }

    pub fn calls(&self) -> usize {
        self.ends.len()
    }

    pub fn bytes(&self) -> usize {
        self.requests.len()
    }

    pub fn coverage(&self) -> &Coverage {
        &self.coverage
    }

    pub fn send(&self, caller: &mut Caller) -> io::Result<()> {
        caller.send(&self.requests)
    }

    /// Receives the answers and compares them. The batch must have been sent.
    pub fn compare(&self, caller: &mut Caller) -> Result<Tally, Box<Difference>> {
        match caller.receive(self.expected.len()) {
            Ok(answers) => self.compare_answers(&answers),
            Err(error) => Err(self.ended(caller, error)),
        }
    }

    fn compare_answers(&self, answers: &[u8]) -> Result<Tally, Box<Difference>> {
        let agree = answers == self.expected;
        let mut tally = Tally::default();
        let mut first = 0;
        for case in &self.cases {
            if !agree && let Some(what) = self.first_apart(case, first, answers) {
                return Err(difference(case, what));
            }
            let followed = self.follow(case, first, answers);
            tally += followed.map_err(|what| difference(case, what))?;
            first += case.calls.len();
        }
        Ok(tally)
    }

    /// Where the answer to the call stands, among the answers of the batch.
    fn place_of(&self, call: usize) -> std::ops::Range<usize> {
        let start = if call == 0 { 0 } else { self.ends[call - 1] };
        start..self.ends[call]
    }

    fn first_apart(&self, case: &Case, first: usize, answers: &[u8]) -> Option<What> {
        let mut before = case.start.clone();
        for (at, call) in case.calls.iter().enumerate() {
            let place = self.place_of(first + at);
            let parted = |side: &[u8]| {
                let words = before.table.words.len();
                caller::part_answer(&side[place.clone()], words, call.lent_block().len())
            };
            if answers[place.clone()] != self.expected[place.clone()] {
                return Some(What::Left(Box::new(LeftApart {
                    at,
                    library: parted(answers),
                    model: parted(&self.expected),
                    before,
                })));
            }
            before = parted(&self.expected).lent;
        }
        None
    }

    /// Follows the databases of a case from fresh by the library's answers.
    fn follow(&self, case: &Case, first: usize, answers: &[u8]) -> Result<Tally, What> {
        let fresh = case.starts_fresh().then(|| case.start.table.slots());
        let Some(Ok(slots)) = fresh else {
            return Ok(Tally::default());
        };
        let mut followed = Followed::new(slots);
        for (at, call) in case.calls.iter().enumerate() {
            let out = caller::out_of(&answers[self.place_of(first + at)]);
            if matches!(call, Call::LoadBlock { .. }) && out[0] == 0 {
                break; // loading starts a new history
            }
            let right = followed.follow(call, &out);
            right.map_err(|because| What::Followed { at, because })?;
        }
        Ok(followed.tally())
    }

    /// Finds a case on which the caller ends, sending them one by one.
    pub fn ended(&self, caller: &mut Caller, error: io::Error) -> Box<Difference> {
        if self.cases.len() > 1 {
            for case in &self.cases {
                if let Some(found) = differ(case, caller) {
                    return found;
                }
            }
        }
        difference(&self.cases[0], What::Ended(error))
    }
}

/// The difference that the case shows by itself, if it shows one.
pub fn differ(case: &Case, caller: &mut Caller) -> Option<Box<Difference>> {
    let batch = Batch::of(case.clone());
    match batch.send(caller) {
        Ok(()) => batch.compare(caller).err(),
        Err(error) => Some(batch.ended(caller, error)),
    }
}

fn difference(case: &Case, what: What) -> Box<Difference> {
    let case = case.clone();
    Box::new(Difference { case, what })
}
