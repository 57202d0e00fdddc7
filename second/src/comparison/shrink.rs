//! The shortest case found that still shows a difference.

use crate::cases::case::Case;
use crate::comparison::batch::{Difference, What, differ};
use crate::comparison::caller::Caller;
use crate::model::block::{Block, CHECK};
use crate::model::call::Call;
use crate::model::slot::SLOT_WORDS;
use std::collections::BTreeSet;
use std::ops::RangeInclusive;

const SMALL_WORDS: RangeInclusive<i64> = 1..=9;
const SIMPLEST_WORDS: [i64; 5] = [0, 1, -1, 2, 3];
const MOST_TRIES: usize = 4_000;
/// A case on which a call does not end takes long to try.
const MOST_ENDINGS: usize = 6;

/// Removes parts of the list, longest first, as long as the rest still fails.
/// One that had to stay may go once others have gone, so single ones are tried
/// until all of them have to stay.
pub fn fewest<T: Clone>(list: &[T], mut fails: impl FnMut(&[T]) -> bool) -> Vec<T> {
    let mut kept = list.to_vec();
    let mut part = kept.len().div_ceil(2);
    while part > 0 {
        let before = kept.len();
        let mut start = 0;
        while start < kept.len() {
            let end = kept.len().min(start + part);
            let mut fewer = kept[..start].to_vec();
            fewer.extend_from_slice(&kept[end..]);
            if fails(&fewer) {
                kept = fewer;
            } else {
                start = end;
            }
        }
        if part > 1 || kept.len() == before {
            part /= 2;
        }
    }
    kept
}

/// A difference as it gets smaller.
struct Shrinking<'a> {
    caller: &'a mut Caller,
    smallest: Box<Difference>,
    tries: usize,
    endings: usize,
}

/// The smallest difference found from this one.
pub fn shrunk(difference: Box<Difference>, caller: &mut Caller) -> Box<Difference> {
    let mut shrinking = Shrinking {
        caller,
        smallest: difference,
        tries: 0,
        endings: 0,
    };
    loop {
        let before = shrinking.case();
        shrinking.cut_after();
        shrinking.drop_calls();
        shrinking.drop_slots();
        shrinking.rename_words();
        shrinking.simplify_start();
        shrinking.simplify_calls();
        if shrinking.case() == before {
            return shrinking.smallest;
        }
    }
}

impl Shrinking<'_> {
    /// Tries the case, and takes it if it shows a difference.
    fn fails(&mut self, case: Case) -> bool {
        if self.tries == MOST_TRIES || self.endings == MOST_ENDINGS || case.calls.is_empty() {
            return false;
        }
        self.tries += 1;
        let Some(difference) = differ(&case, self.caller) else {
            return false;
        };
        self.endings += usize::from(matches!(difference.what, What::Ended(_)));
        self.smallest = difference;
        true
    }

    fn case(&self) -> Case {
        self.smallest.case.clone()
    }

    /// Drops the calls after the one that shows the difference.
    fn cut_after(&mut self) {
        let at = match &self.smallest.what {
            What::Left(apart) => apart.at,
            What::Followed { at, .. } => *at,
            What::Ended(_) => return,
        };
        let mut case = self.case();
        case.calls.truncate(at + 1);
        self.fails(case);
    }

    fn drop_calls(&mut self) {
        let case = self.case();
        fewest(&case.calls, |calls| {
            self.fails(Case {
                start: case.start.clone(),
                calls: calls.to_vec(),
            })
        });
    }

    fn drop_slots(&mut self) {
        let case = self.case();
        let slots: Vec<&[i64]> = case.start.table.words.chunks(SLOT_WORDS).collect();
        fewest(&slots, |slots| {
            let mut fewer = self.case();
            fewer.start.table.words = slots.concat();
            self.fails(fewer)
        });
    }

    /// Puts a small word in place of a large one, everywhere at once.
    fn rename_words(&mut self) {
        let case = self.case();
        let words = case.start.table.words.into_iter();
        let numbers = case.calls.iter().flat_map(Call::numbers);
        let large: BTreeSet<i64> = words
            .chain(numbers)
            .filter(|word| !SMALL_WORDS.contains(word))
            .collect();
        for word in large {
            for small in SMALL_WORDS {
                if self.fails(renamed(self.case(), word, small)) {
                    break;
                }
            }
        }
    }

    fn simplify_start(&mut self) {
        for place in 0..self.case().start.table.words.len() {
            self.simplify(|case| &mut case.start.table.words[place]);
        }
        for place in 0..self.case().start.record.words.len() {
            self.simplify(|case| &mut case.start.record.words[place]);
        }
    }

    /// Tries smaller words in one place of the case.
    fn simplify(&mut self, place: impl Fn(&mut Case) -> &mut i64) {
        let word = *place(&mut self.case());
        for smaller in smaller_words(word) {
            let mut case = self.case();
            *place(&mut case) = smaller;
            if self.fails(case) {
                return;
            }
        }
    }

    fn simplify_calls(&mut self) {
        for index in 0..self.case().calls.len() {
            for place in 0..self.case().calls[index].numbers().len() {
                self.simplify_number(index, place);
            }
            self.simplify_block(index);
        }
    }

    fn simplify_number(&mut self, index: usize, place: usize) {
        let numbers = self.case().calls[index].numbers();
        for smaller in smaller_words(numbers[place]) {
            let mut case = self.case();
            let mut simpler = numbers;
            simpler[place] = smaller;
            case.calls[index] = case.calls[index].with_numbers(simpler);
            if self.fails(case) {
                return;
            }
        }
    }

    /// Zeroes the words of a block to load, its check kept right.
    fn simplify_block(&mut self, index: usize) {
        for place in 0..CHECK {
            let mut case = self.case();
            let (Call::LoadHeader { block } | Call::LoadBlock { block, .. }) =
                &mut case.calls[index]
            else {
                return;
            };
            let Ok(mut simpler) = Block::from_bytes(block) else {
                return;
            };
            if std::mem::take(&mut simpler.words[place]) != 0 {
                simpler.mend();
                *block = simpler.bytes();
                self.fails(case);
            }
        }
    }
}

/// The case with one word in place of another in the table and in the calls.
fn renamed(mut case: Case, old: i64, new: i64) -> Case {
    let rename = |word: i64| if word == old { new } else { word };
    for word in &mut case.start.table.words {
        *word = rename(*word);
    }
    for call in &mut case.calls {
        *call = call.with_numbers(call.numbers().map(rename));
    }
    case
}

/// Words that are simpler than this one, the simplest first.
fn smaller_words(word: i64) -> Vec<i64> {
    let mut words = SIMPLEST_WORDS.to_vec();
    words.extend([word / 2, word.saturating_sub(word.signum())]);
    let simpler = words.iter().take_while(|&&smaller| smaller != word);
    simpler.copied().collect()
}
