//! A figure: a case whose outcome the documents say, and the calls that figures are
//! made of.

use crate::cases::case::Case;
use crate::model::block::{BLOCK_BYTES, HALF_BYTES};
use crate::model::call::{Call, Lent, OUT_WORDS, out_words};
use crate::model::outcome::make_call;
use crate::model::record::RECORD_WORDS;
use crate::model::slot::{Key, Totals};

/// What a call of a figure is to give: the first numbers, zeros after them, the check
/// of the block that it saves, or the record that it leaves.
pub enum Gives {
    Numbers(Vec<i64>),
    Check(u32),
    Record([i64; RECORD_WORDS]),
}

/// A case whose outcome the documents say.
pub struct Figure {
    pub start: Lent,
    pub calls: Vec<(Call, Gives)>,
    /// the table's words after the calls, where the documents say them
    pub end: Option<Vec<i64>>,
}

/// The case of the figure, or what the model gives otherwise than the documents.
pub fn held_to(figure: Figure) -> Result<Case, String> {
    let mut lent = figure.start.clone();
    for (call, gives) in &figure.calls {
        let outcome = make_call(call, &mut lent);
        let right = match gives {
            Gives::Numbers(numbers) => {
                let mut out = numbers.clone();
                out.resize(OUT_WORDS, 0);
                out_words(&outcome).as_slice() == out
            }
            Gives::Check(check) => {
                call.left_block(&outcome)[BLOCK_BYTES - HALF_BYTES..] == check.to_le_bytes()
            }
            Gives::Record(words) => lent.record.words == *words,
        };
        if !right {
            let record = lent.record.words;
            return Err(format!("{call}: {outcome:?}, record {record:?}"));
        }
    }
    if figure.end.is_some_and(|end| end != lent.table.words) {
        return Err(format!("the table at the end: {:?}", lent.table.words));
    }
    Ok(Case {
        start: figure.start,
        calls: figure.calls.into_iter().map(|(call, _)| call).collect(),
    })
}

pub fn put(one: i64, two: i64, totals: Totals, gives: &[i64]) -> (Call, Gives) {
    let key = Key { one, two };
    (Call::Put { key, totals }, Gives::Numbers(gives.to_vec()))
}

pub fn delete(one: i64, two: i64, gives: &[i64]) -> (Call, Gives) {
    let key = Key { one, two };
    (Call::Delete { key }, Gives::Numbers(gives.to_vec()))
}

pub fn begin(run: i64) -> (Call, Gives) {
    (Call::Begin, Gives::Numbers(vec![0, run]))
}

pub fn commit(version: i64) -> (Call, Gives) {
    (Call::Commit, Gives::Numbers(vec![0, version]))
}

pub fn read(session: i64, slot: u64, gives: &[i64]) -> (Call, Gives) {
    let call = Call::ReadSlot { session, slot };
    (call, Gives::Numbers(gives.to_vec()))
}

pub fn read_key(session: i64, one: i64, two: i64, gives: &[i64]) -> (Call, Gives) {
    let key = Key { one, two };
    let call = Call::ReadKey { session, key };
    (call, Gives::Numbers(gives.to_vec()))
}

pub fn roll_up(session: i64, one: i64, gives: &[i64]) -> (Call, Gives) {
    let call = Call::RollUp { session, one };
    (call, Gives::Numbers(gives.to_vec()))
}
