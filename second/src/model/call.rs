//! The calls, their answers, and the numbers that a C caller gets.

use crate::model::block::{BLOCK_BYTES, Block, HALF_BYTES, Header};
use crate::model::record::VersionRecord;
use crate::model::refusal::Refusal;
use crate::model::slot::{Key, Row, Totals};
use crate::model::table::Table;
use std::fmt;

pub const OUT_WORDS: usize = 8;
pub const CALL_NUMBERS: usize = 4;

/// The eight words that every call leaves.
pub type Out = [i64; OUT_WORDS];

/// The numbers of a call in the order of the C function, unused ones zero.
pub type Numbers = [i64; CALL_NUMBERS];

/// What a caller lends: the table and the record.
#[derive(Clone, PartialEq, Eq, Debug)]
pub struct Lent {
    pub table: Table,
    pub record: VersionRecord,
}

impl Lent {
    pub fn fresh(slots: usize) -> Lent {
        Lent {
            table: Table::fresh(slots),
            record: VersionRecord::fresh(0),
        }
    }
}

#[derive(Clone, Copy, PartialEq, Eq, Debug)]
pub enum Kind {
    Open,
    Begin,
    Commit,
    ReadSlot,
    ReadKey,
    RollUp,
    Put,
    Delete,
    RollBack,
    SaveHeader,
    SaveBlock,
    LoadHeader,
    LoadBlock,
}

/// Every kind of call, in the order of their numbers.
pub const KINDS: [Kind; 13] = [
    Kind::Open,
    Kind::Begin,
    Kind::Commit,
    Kind::ReadSlot,
    Kind::ReadKey,
    Kind::RollUp,
    Kind::Put,
    Kind::Delete,
    Kind::RollBack,
    Kind::SaveHeader,
    Kind::SaveBlock,
    Kind::LoadHeader,
    Kind::LoadBlock,
];

#[derive(Clone, PartialEq, Eq, Debug)]
pub enum Call {
    Open,
    Begin,
    Commit,
    ReadSlot { session: i64, slot: u64 },
    ReadKey { session: i64, key: Key },
    RollUp { session: i64, one: i64 },
    Put { key: Key, totals: Totals },
    Delete { key: Key },
    RollBack,
    SaveHeader,
    SaveBlock { number: u64 },
    LoadHeader { block: Vec<u8> },
    LoadBlock { number: u64, block: Vec<u8> },
}

/// How many rows there are, how many of them reported each total, and the sums of
/// what they reported.
#[derive(Clone, PartialEq, Eq, Default, Debug)]
pub struct RollUp {
    pub rows: i64,
    pub reported: [i64; 2],
    pub sums: Totals,
}

#[derive(Clone, PartialEq, Eq, Debug)]
pub enum Answer {
    Version(i64),
    Row(Option<Row>),
    RollUp(RollUp),
    Slot(usize),
    Saved(Box<Block>),
    Header(Header),
    Loaded,
}

pub type Outcome = Result<Answer, Refusal>;

impl Kind {
    pub fn number(self) -> i64 {
        self as i64
    }
}

impl Call {
    pub fn kind(&self) -> Kind {
        match self {
            Call::Open => Kind::Open,
            Call::Begin => Kind::Begin,
            Call::Commit => Kind::Commit,
            Call::ReadSlot { .. } => Kind::ReadSlot,
            Call::ReadKey { .. } => Kind::ReadKey,
            Call::RollUp { .. } => Kind::RollUp,
            Call::Put { .. } => Kind::Put,
            Call::Delete { .. } => Kind::Delete,
            Call::RollBack => Kind::RollBack,
            Call::SaveHeader => Kind::SaveHeader,
            Call::SaveBlock { .. } => Kind::SaveBlock,
            Call::LoadHeader { .. } => Kind::LoadHeader,
            Call::LoadBlock { .. } => Kind::LoadBlock,
        }
    }

    pub fn numbers(&self) -> Numbers {
        match *self {
            Call::ReadSlot { session, slot } => [session, slot as i64, 0, 0],
            Call::ReadKey { session, key } => [session, key.one, key.two, 0],
            Call::RollUp { session, one } => [session, one, 0, 0],
            Call::Put { key, totals } => [key.one, key.two, totals[0], totals[1]],
            Call::Delete { key } => [key.one, key.two, 0, 0],
            Call::SaveBlock { number } | Call::LoadBlock { number, .. } => [number as i64, 0, 0, 0],
            _ => [0; CALL_NUMBERS],
        }
    }

    /// The session of a read.
    pub fn session(&self) -> Option<i64> {
        match *self {
            Call::ReadSlot { session, .. }
            | Call::ReadKey { session, .. }
            | Call::RollUp { session, .. } => Some(session),
            _ => None,
        }
    }

    /// The same call with other numbers.
    pub fn with_numbers(&self, numbers: Numbers) -> Call {
        let [first, second, third, fourth] = numbers;
        let key = Key {
            one: first,
            two: second,
        };
        let totals = [third, fourth];
        match self.clone() {
            Call::ReadSlot { .. } => Call::ReadSlot {
                session: first,
                slot: second as u64,
            },
            Call::ReadKey { .. } => Call::ReadKey {
                session: first,
                key: Key {
                    one: second,
                    two: third,
                },
            },
            Call::RollUp { .. } => Call::RollUp {
                session: first,
                one: second,
            },
            Call::Put { .. } => Call::Put { key, totals },
            Call::Delete { .. } => Call::Delete { key },
            Call::SaveBlock { .. } => Call::SaveBlock {
                number: first as u64,
            },
            Call::LoadBlock { block, .. } => Call::LoadBlock {
                number: first as u64,
                block,
            },
            other => other,
        }
    }

    /// The block that is lent to the call: the one to load, or room for a save.
    pub fn lent_block(&self) -> &[u8] {
        const ROOM: [u8; BLOCK_BYTES] = [0xc3; BLOCK_BYTES];
        match self {
            Call::SaveHeader | Call::SaveBlock { .. } => &ROOM,
            Call::LoadHeader { block } | Call::LoadBlock { block, .. } => block,
            _ => &[],
        }
    }

    /// The block as the call leaves it.
    pub fn left_block(&self, outcome: &Outcome) -> Vec<u8> {
        match (self.kind(), outcome) {
            (_, Ok(Answer::Saved(block))) => block.bytes(),
            (Kind::SaveHeader | Kind::SaveBlock, Err(_)) => vec![0; BLOCK_BYTES],
            _ => self.lent_block().to_vec(),
        }
    }
}

/// The eight words for an answer or a refusal.
pub fn out_words(outcome: &Outcome) -> Out {
    let mut out = [0; OUT_WORDS];
    let numbers: Vec<i64> = match outcome {
        Err(refusal) => {
            out[0] = refusal.number();
            vec![]
        }
        Ok(Answer::Version(version)) => vec![*version],
        Ok(Answer::Row(None) | Answer::Saved(_) | Answer::Loaded) => vec![],
        Ok(Answer::Row(Some(row))) => {
            vec![1, row.key.one, row.key.two, row.totals[0], row.totals[1]]
        }
        Ok(Answer::RollUp(RollUp {
            rows,
            reported,
            sums,
        })) => vec![*rows, reported[0], reported[1], sums[0], sums[1]],
        Ok(Answer::Slot(place)) => vec![*place as i64],
        Ok(Answer::Header(Header {
            slots,
            current,
            oldest,
        })) => vec![*slots as i64, *current, *oldest],
    };
    out[1..=numbers.len()].copy_from_slice(&numbers);
    out
}

impl fmt::Display for Call {
    fn fmt(&self, to: &mut fmt::Formatter<'_>) -> fmt::Result {
        match self {
            Call::ReadSlot { session, slot } => write!(to, "read slot {slot} at session {session}"),
            Call::ReadKey { session, key } => {
                write!(to, "read key {} {} at session {session}", key.one, key.two)
            }
            Call::RollUp { session, one } => write!(to, "roll-up of {one} at session {session}"),
            Call::Put { key, totals } => {
                let [first, second] = totals;
                write!(to, "put {} {}, totals {first} {second}", key.one, key.two)
            }
            Call::Delete { key } => write!(to, "delete {} {}", key.one, key.two),
            Call::RollBack => write!(to, "roll back"),
            Call::SaveHeader => write!(to, "save header"),
            Call::SaveBlock { number } => write!(to, "save block {number}"),
            Call::LoadHeader { block } => write!(to, "load header from {}", shown(block)),
            Call::LoadBlock { number, block } => {
                write!(to, "load block {number} from {}", shown(block))
            }
            _ => write!(to, "{}", format!("{:?}", self.kind()).to_lowercase()),
        }
    }
}

/// A block's length and its nonzero words.
fn shown(block: &[u8]) -> String {
    let words = block.chunks(HALF_BYTES).enumerate();
    let nonzero = words.filter(|(_, four)| four.iter().any(|&byte| byte != 0));
    let listed: Vec<String> = nonzero
        .map(|(index, four)| {
            let value = four
                .iter()
                .rev()
                .fold(0, |sum: u32, &byte| sum << u8::BITS | u32::from(byte));
            format!("{index}={value}")
        })
        .collect();
    format!("{} bytes, words [{}]", block.len(), listed.join(" "))
}
