//! A slot: eight words of the table, and Tables 1 to 4 on them.

use crate::model::record::Version;
use crate::model::refusal::Refusal;

pub const SLOT_WORDS: usize = 8;
pub const LARGEST_TOTAL: i64 = 1_000_000_000_000_000;

/// What stands where a total is not reported.
pub const NOT_REPORTED: i64 = -LARGEST_TOTAL - 1;

pub const EMPTY: i64 = 0;
pub const INSERT: i64 = 1;
pub const UPDATE: i64 = 2;
pub const DELETE: i64 = 3;

pub type Totals = [i64; 2];

pub const NULLS: Totals = [0, 0];

#[derive(Clone, Copy, PartialEq, Eq, PartialOrd, Ord, Debug)]
pub struct Key {
    pub one: i64,
    pub two: i64,
}

/// What a session sees of a slot.
#[derive(Clone, Copy, PartialEq, Eq, PartialOrd, Ord, Debug)]
pub struct Row {
    pub key: Key,
    pub totals: Totals,
}

#[derive(Clone, Copy, PartialEq, Eq, Debug)]
pub struct Slot {
    pub run: i64,
    pub operation: i64,
    pub key: Key,
    pub current: Totals,
    pub old: Totals,
}

/// Whether the total is reported, as a 0 is.
pub fn is_reported(total: i64) -> bool {
    total != NOT_REPORTED
}

/// Whether each total is in range or not reported.
pub fn is_lawful(totals: Totals) -> bool {
    totals
        .iter()
        .all(|&total| !is_reported(total) || (-LARGEST_TOTAL..=LARGEST_TOTAL).contains(&total))
}

impl Slot {
    pub fn zeros() -> Slot {
        Slot::from_words(&[0; SLOT_WORDS])
    }

    pub fn from_words(words: &[i64]) -> Slot {
        Slot {
            run: words[0],
            operation: words[1],
            key: Key {
                one: words[2],
                two: words[3],
            },
            current: [words[4], words[5]],
            old: [words[6], words[7]],
        }
    }

    pub fn words(&self) -> [i64; SLOT_WORDS] {
        [
            self.run,
            self.operation,
            self.key.one,
            self.key.two,
            self.current[0],
            self.current[1],
            self.old[0],
            self.old[1],
        ]
    }

    pub fn is_well_formed(&self, version: Version) -> bool {
        if *self == Slot::zeros() {
            return true;
        }
        (INSERT..=DELETE).contains(&self.operation)
            && (1..=version.newest_run()).contains(&self.run)
            && is_lawful(self.current)
            && is_lawful(self.old)
            && (self.operation != INSERT || self.old == NULLS)
    }

    pub fn is_live(&self) -> bool {
        self.operation == INSERT || self.operation == UPDATE
    }

    /// Whether another key may take the slot in the run.
    pub fn can_be_taken(&self, version: Version) -> bool {
        let deleted_before = self.operation == DELETE && self.run < version.run();
        *self == Slot::zeros() || (self.is_well_formed(version) && deleted_before)
    }

    /// Table 1: what the session sees of a well formed slot.
    pub fn seen_by(&self, session: i64) -> Option<Row> {
        let current_version = self.run <= session;
        let totals = match (self.operation, current_version) {
            (INSERT | UPDATE, true) => self.current,
            (UPDATE | DELETE, false) => self.old,
            _ => return None,
        };
        Some(Row {
            key: self.key,
            totals,
        })
    }

    /// Table 2, no conflicting tuple.
    pub fn new_insert(run: i64, key: Key, given: Totals) -> Slot {
        Slot {
            run,
            operation: INSERT,
            key,
            current: given,
            old: NULLS,
        }
    }

    /// A put, the key's slot found: a live key follows Table 3, a deleted one
    /// Table 2.
    pub fn put(self, run: i64, given: Totals) -> Slot {
        if self.is_live() {
            self.updated(run, given)
        } else {
            self.inserted(run, given)
        }
    }

    /// Table 2, the key's slot found. It is deleted.
    fn inserted(self, run: i64, given: Totals) -> Slot {
        if self.run < run {
            return Slot::new_insert(run, self.key, given);
        }
        Slot {
            operation: UPDATE,
            current: given,
            ..self
        }
    }

    /// Table 3. The slot is live.
    fn updated(self, run: i64, given: Totals) -> Slot {
        let mut slot = self;
        if self.run < run {
            slot.old = self.current;
            slot.run = run;
            slot.operation = UPDATE;
        }
        slot.current = given;
        slot
    }

    /// A well formed slot without what the run did to it: a row that the run inserted
    /// goes, and one that it updated or deleted is again what it was before.
    pub fn rolled_back(self, version: Version) -> Slot {
        if self.run != version.run() {
            return self;
        }
        if self.operation == INSERT {
            return Slot::zeros();
        }
        Slot::new_insert(version.current, self.key, self.old)
    }

    /// Table 4.
    pub fn deleted(self, run: i64) -> Result<Slot, Refusal> {
        if !self.is_live() {
            return Err(Refusal::KeyNotLive);
        }
        if self.run == run && self.operation == INSERT {
            return Ok(Slot::zeros());
        }
        let mut slot = self;
        if self.run < run {
            slot.old = self.current;
        }
        slot.run = run;
        slot.operation = DELETE;
        Ok(slot)
    }
}
