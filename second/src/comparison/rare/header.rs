//! The rare cases of the load of a header: each kind of word 3 in a block that has
//! nothing else wrong.

use crate::comparison::rare::RareCase;
use crate::model::block::{Block, HEADER_OLDEST, NO_OLDEST};
use crate::model::call::{Call, Outcome};
use crate::model::record::{FIRST_VERSION, LARGEST_VERSION};
use crate::model::refusal::Refusal;

/// A word is far that is farther than this from the current version.
const NEAR: i64 = 2;

/// A header that is allowed but for its word 3, and the load's outcome.
pub struct MetInHeader {
    current: i64,
    /// word 3
    word: i64,
    refusal: Option<Refusal>,
}

pub const CASES: [RareCase<MetInHeader>; 10] = [
    ("0 at current 1, read as 1", |met| {
        met.is_answered(NO_OLDEST) && met.current == FIRST_VERSION
    }),
    ("0 at a later current, read as current - 1", |met| {
        met.is_answered(NO_OLDEST) && met.current > FIRST_VERSION
    }),
    ("current, which is 1", |met| {
        met.is_answered(met.current) && met.current == FIRST_VERSION
    }),
    ("current, which is later", |met| {
        met.is_answered(met.current) && met.current > FIRST_VERSION
    }),
    ("current, which is the largest", |met| {
        met.is_answered(met.current) && met.current == LARGEST_VERSION
    }),
    ("current - 1", |met| {
        met.is_answered(met.current - 1) && met.current > FIRST_VERSION
    }),
    ("current - 2, refused 16", |met| {
        met.is_refused() && met.word == met.current - 2
    }),
    ("current + 1, refused 16", |met| {
        met.is_refused() && met.word == met.current + 1
    }),
    ("far above, refused 16", |met| {
        met.is_refused() && met.word > met.current + NEAR
    }),
    ("far below, refused 16", |met| {
        met.is_refused() && met.word < met.current - NEAR
    }),
];

impl MetInHeader {
    /// What the call met, if it is the load of a header that is allowed with another
    /// word 3.
    pub fn of(call: &Call, outcome: &Outcome) -> Option<MetInHeader> {
        let Call::LoadHeader { block } = call else {
            return None;
        };
        let block = Block::from_bytes(block).ok()?;
        let mut allowed = block;
        allowed.words[HEADER_OLDEST] = NO_OLDEST as u32;
        Some(MetInHeader {
            current: allowed.read_header().ok()?.current,
            word: i64::from(block.words[HEADER_OLDEST]),
            refusal: outcome.as_ref().err().copied(),
        })
    }

    fn is_answered(&self, word: i64) -> bool {
        self.refusal.is_none() && self.word == word
    }

    fn is_refused(&self) -> bool {
        self.refusal == Some(Refusal::BlockField)
    }
}
