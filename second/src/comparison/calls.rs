//! The comparison of calls: the cases given first, then cases at random, batch by
//! batch until enough calls were made.

use crate::cases::case::Case;
use crate::cases::random::Random;
use crate::cases::{ends, hostile, lawful};
use crate::comparison::batch::{Batch, Difference};
use crate::comparison::caller::Caller;
use crate::comparison::coverage::Coverage;
use crate::comparison::databases::Tally;

const BATCH_CALLS: usize = 4_000;
const BATCH_BYTES: usize = 8_000_000;

type Draw = fn(&mut Random) -> Case;

/// The ways to draw a case, each as often as its weight says.
const DRAWS: [(usize, Draw); 4] = [
    (1, ends::case),
    (50, lawful::reloaded_case),
    (150, lawful::case),
    (800, hostile::case),
];

/// What was compared and agreed.
#[derive(Default)]
pub struct Found {
    calls: usize,
    coverage: Coverage,
    tally: Tally,
}

impl Found {
    fn add(&mut self, batch: &Batch, tally: Tally) {
        self.calls += batch.calls();
        self.coverage.add(batch.coverage());
        self.tally += tally;
    }

    /// What can be reached and was not.
    pub fn missing(&self) -> Vec<String> {
        self.coverage.missing()
    }

    pub fn print(&self) {
        self.coverage.print();
        let Tally {
            histories,
            reads,
            expired,
            rolled_back,
            stay_expired,
            left_out,
            scans,
            puts,
            full,
            held,
        } = self.tally;
        println!(
            "demand 3 followed over {histories} histories: {reads} reads, {expired} of them \
             expired, {stay_expired} of these after the run that expired them was rolled back; \
             {rolled_back} runs rolled back; {left_out} roll-ups that leave out a total not \
             reported; {scans} sessions that read every slot; {puts} puts of lawful totals, {full} \
             of them refused as full and {held} of a key held where there was no room"
        );
        println!(
            "{} calls: numbers, table, record and block agree",
            self.calls
        );
    }
}

/// Compares so many calls. While the caller works on a batch, the next is made.
pub fn compare(
    caller: &mut Caller,
    random: &mut Random,
    count: usize,
    first: Vec<Case>,
) -> Result<Found, Box<Difference>> {
    let mut found = Found::default();
    let mut batch = Batch::default();
    first.into_iter().for_each(|case| batch.add(case));
    let mut made = batch.calls();
    loop {
        batch
            .send(caller)
            .map_err(|error| batch.ended(caller, error))?;
        let next = (made < count).then(|| random_batch(random));
        found.add(&batch, batch.compare(caller)?);
        let Some(next) = next else {
            return Ok(found);
        };
        made += next.calls();
        batch = next;
    }
}

fn random_batch(random: &mut Random) -> Batch {
    let mut batch = Batch::default();
    while batch.calls() < BATCH_CALLS && batch.bytes() < BATCH_BYTES {
        let draw = random.weighted(&DRAWS);
        batch.add(draw(random));
    }
    batch
}
