//! The version record: the current version, whether a run is active, and the oldest
//! open version.

use crate::model::refusal::Refusal;

pub const RECORD_WORDS: usize = 4;
pub const FIRST_VERSION: i64 = 1;
pub const LARGEST_VERSION: i64 = 1_000_000_000;

pub const NO_RUN: i64 = 0;
pub const A_RUN: i64 = 1;

const CURRENT: usize = 0;
const RUN_MARK: usize = 1;
const OLDEST: usize = 2;

/// The record as it is lent: any four words.
#[derive(Clone, Copy, PartialEq, Eq, Debug)]
pub struct VersionRecord {
    pub words: [i64; RECORD_WORDS],
}

/// What a record says that is not refused.
#[derive(Clone, Copy, PartialEq, Eq, Debug)]
pub struct Version {
    pub current: i64,
    pub run_active: bool,
    /// the oldest open version
    pub oldest: i64,
}

impl VersionRecord {
    /// A record of these words, the last of which no call looks at.
    pub fn new(current: i64, run_mark: i64, oldest: i64, rest: i64) -> VersionRecord {
        VersionRecord {
            words: [current, run_mark, oldest, rest],
        }
    }

    /// A fresh record, with any word where no call looks.
    pub fn fresh(rest: i64) -> VersionRecord {
        VersionRecord::new(FIRST_VERSION, NO_RUN, FIRST_VERSION, rest)
    }

    pub fn is_fresh(&self) -> bool {
        let [.., rest] = self.words;
        *self == VersionRecord::fresh(rest)
    }

    /// What the record says, though it may be refused.
    pub fn says(&self) -> Version {
        Version {
            current: self.words[CURRENT],
            run_active: self.words[RUN_MARK] == A_RUN,
            oldest: self.words[OLDEST],
        }
    }

    /// The version, or refusal 2.
    pub fn version(&self) -> Result<Version, Refusal> {
        let version = self.says();
        let is_mark = [NO_RUN, A_RUN].contains(&self.words[RUN_MARK]);
        if is_mark && version.has_lawful_current() && version.has_lawful_oldest() {
            Ok(version)
        } else {
            Err(Refusal::VersionRecord)
        }
    }

    pub fn set(&mut self, version: Version) {
        self.words[CURRENT] = version.current;
        self.words[RUN_MARK] = if version.run_active { A_RUN } else { NO_RUN };
        self.words[OLDEST] = version.oldest;
    }
}

impl Version {
    /// The number of the running maintenance, or of the next one.
    pub fn run(self) -> i64 {
        self.current + 1
    }

    /// The highest run number that a slot may have.
    pub fn newest_run(self) -> i64 {
        self.current + i64::from(self.run_active)
    }

    fn has_lawful_current(self) -> bool {
        let largest = LARGEST_VERSION - i64::from(self.run_active);
        (FIRST_VERSION..=largest).contains(&self.current)
    }

    /// Whether the oldest open version, at a lawful current one, is that one or, while
    /// no run is active, the one before it, if there is one.
    fn has_lawful_oldest(self) -> bool {
        let lowest = self.current - i64::from(!self.run_active);
        (lowest.max(FIRST_VERSION)..=self.current).contains(&self.oldest)
    }

    /// Refusals 3 and 4.
    pub fn admit(self, session: i64) -> Result<(), Refusal> {
        if session < FIRST_VERSION || session > self.current {
            return Err(Refusal::SessionUnknown);
        }
        if session < self.oldest {
            return Err(Refusal::SessionExpired);
        }
        Ok(())
    }
}
