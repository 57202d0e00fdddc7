//! The rare cases of a record's oldest open version, by the call: what is just not
//! allowed, what is, and which sessions it keeps out.

use crate::comparison::rare::{CaseByKind, READS};
use crate::model::call::{Call, Kind, Lent, Outcome};
use crate::model::record::{FIRST_VERSION, Version, VersionRecord};
use crate::model::refusal::Refusal;

/// The calls that look at a record.
pub const KINDS: [Kind; 12] = [
    Kind::Open,
    Kind::Begin,
    Kind::Commit,
    Kind::ReadSlot,
    Kind::ReadKey,
    Kind::RollUp,
    Kind::Put,
    Kind::Delete,
    Kind::RollBack,
    Kind::SaveHeader,
    Kind::SaveBlock,
    Kind::LoadBlock,
];

/// Those that are answered while no run is active.
const BETWEEN_RUNS: [Kind; 8] = [
    Kind::Open,
    Kind::Begin,
    Kind::ReadSlot,
    Kind::ReadKey,
    Kind::RollUp,
    Kind::SaveHeader,
    Kind::SaveBlock,
    Kind::LoadBlock,
];

/// An oldest open version is far that is farther than this from the current one.
const NEAR: i64 = 2;

/// A record that is lawful but for its oldest open version, and the call's outcome.
pub struct MetRecord {
    version: Version,
    /// the session of a read
    session: Option<i64>,
    refusal: Option<Refusal>,
}

pub const CASES: [CaseByKind<MetRecord>; 12] = [
    ("oldest 0 at current 1, refused 2", &KINDS, |met| {
        met.is_refused_at(0) && met.version.current == FIRST_VERSION
    }),
    ("oldest current - 1 in a run, refused 2", &KINDS, |met| {
        met.is_refused_at(met.before()) && met.is_in_a_run() && met.has_one_before()
    }),
    ("oldest current - 2, refused 2", &KINDS, |met| {
        met.is_refused_at(met.before() - 1) && met.version.oldest >= FIRST_VERSION
    }),
    ("oldest current + 1, refused 2", &KINDS, |met| {
        met.is_refused_at(met.version.current + 1)
    }),
    ("oldest below 0, refused 2", &KINDS, |met| {
        met.is_refused(Refusal::VersionRecord) && met.version.oldest < 0
    }),
    ("oldest far above, refused 2", &KINDS, |met| {
        met.is_refused(Refusal::VersionRecord) && met.version.oldest > met.version.current + NEAR
    }),
    ("oldest 1 far below, refused 2", &KINDS, |met| {
        met.is_refused_at(FIRST_VERSION) && met.version.current > FIRST_VERSION + NEAR
    }),
    (
        "oldest current with no run, answered",
        &BETWEEN_RUNS,
        |met| met.is_answered_at(met.version.current) && !met.is_in_a_run() && met.has_one_before(),
    ),
    (
        "oldest current - 1 with no run, answered",
        &BETWEEN_RUNS,
        |met| met.is_answered_at(met.before()),
    ),
    (
        "session current - 1 at oldest current with no run, refused 4",
        &READS,
        |met| met.is_expired_before() && !met.is_in_a_run(),
    ),
    ("session current - 1 in a run, refused 4", &READS, |met| {
        met.is_expired_before() && met.is_in_a_run()
    }),
    ("session current - 1, answered", &READS, |met| {
        met.is_answered_at(met.before()) && met.session == Some(met.before())
    }),
];

impl MetRecord {
    /// What the call met, if it looks at a record and this one is lawful with another
    /// oldest open version.
    pub fn of(call: &Call, before: &Lent, outcome: &Outcome) -> Option<MetRecord> {
        if !KINDS.contains(&call.kind()) {
            return None;
        }
        let [current, run_mark, _, rest] = before.record.words;
        VersionRecord::new(current, run_mark, current, rest)
            .version()
            .ok()?;
        Some(MetRecord {
            version: before.record.says(),
            session: call.session(),
            refusal: outcome.as_ref().err().copied(),
        })
    }

    fn is_refused(&self, by: Refusal) -> bool {
        self.refusal == Some(by)
    }

    /// Whether the oldest open version is this one and refused.
    fn is_refused_at(&self, oldest: i64) -> bool {
        self.is_refused(Refusal::VersionRecord) && self.version.oldest == oldest
    }

    /// Whether the oldest open version is this one and the call was answered.
    fn is_answered_at(&self, oldest: i64) -> bool {
        self.refusal.is_none() && self.version.oldest == oldest
    }

    fn is_in_a_run(&self) -> bool {
        self.version.run_active
    }

    fn before(&self) -> i64 {
        self.version.current - 1
    }

    fn has_one_before(&self) -> bool {
        self.before() >= FIRST_VERSION
    }

    /// Whether the session is at the version before the current one, and refused.
    fn is_expired_before(&self) -> bool {
        self.is_refused(Refusal::SessionExpired) && self.session == Some(self.before())
    }
}
