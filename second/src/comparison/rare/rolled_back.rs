//! The rare cases of the calls after a roll back, up to the next commit and just after
//! it: which sessions stay expired, and how the run's number, its keys and its slots
//! are used again.

use crate::comparison::rare::RareCase;
use crate::comparison::rare::past::Past;
use crate::model::call::{Call, Kind, Lent, Outcome};
use crate::model::record::{FIRST_VERSION, Version};
use crate::model::refusal::Refusal;
use crate::model::slot::Key;

/// What a call met after a roll back in its case, and its outcome.
pub struct MetRolledBack {
    kind: Kind,
    version: Version,
    /// the current version at the roll back
    kept: i64,
    /// the session of a read
    session: Option<i64>,
    /// whether the key of the change was that of a row that was emptied, or that got its
    /// old totals back
    is_of_taken_out: bool,
    is_of_put_back: bool,
    /// whether the key of the change has no slot
    is_absent: bool,
    /// whether a new key had no slot to take before the roll back
    was_full: bool,
    refusal: Option<Refusal>,
}

pub const CASES: [RareCase<MetRolledBack>; 14] = [
    ("session current - 1 with no run, refused 4", |met| {
        met.is_before_kept() && !met.version.run_active
    }),
    ("session current - 1 in the next run, refused 4", |met| {
        met.is_before_kept() && met.version.run_active
    }),
    ("session current with no run, answered", |met| {
        met.is_answered_at_kept() && met.is_at_kept() && !met.version.run_active
    }),
    ("session current in the next run, answered", |met| {
        met.is_answered_at_kept() && met.is_at_kept() && met.version.run_active
    }),
    ("that session after the next commit, answered", |met| {
        met.is_answered_at_kept() && met.version.current == met.kept + 1
    }),
    ("a run begins with the same number", |met| {
        met.is_accepted(Kind::Begin) && met.is_at_kept()
    }),
    ("a run with the same number is committed", |met| {
        met.is_accepted(Kind::Commit) && met.is_at_kept()
    }),
    ("a run with the same number is rolled back too", |met| {
        met.is_accepted(Kind::RollBack) && met.is_at_kept()
    }),
    ("a key that was taken out is put in again", |met| {
        met.is_accepted(Kind::Put) && met.is_at_kept() && met.is_of_taken_out && met.is_absent
    }),
    ("a key that was taken out is deleted, refused 11", |met| {
        met.kind == Kind::Delete
            && met.refusal == Some(Refusal::KeyNotLive)
            && met.is_at_kept()
            && met.is_of_taken_out
            && met.is_absent
    }),
    ("a key that got its old totals back is put", |met| {
        met.is_accepted(Kind::Put) && met.is_at_kept() && met.is_of_put_back
    }),
    ("a key that got its old totals back is deleted", |met| {
        met.is_accepted(Kind::Delete) && met.is_at_kept() && met.is_of_put_back
    }),
    ("a new key goes in where the table was full", |met| {
        met.is_accepted(Kind::Put) && met.is_at_kept() && met.was_full && met.is_absent
    }),
    ("a header is saved", |met| {
        met.is_accepted(Kind::SaveHeader) && met.is_at_kept() && met.kept > FIRST_VERSION
    }),
];

impl MetRolledBack {
    /// What the call met, if its case had a roll back before it and its record is not
    /// refused.
    pub fn of(call: &Call, before: &Lent, outcome: &Outcome, past: &Past) -> Option<MetRolledBack> {
        let rolled_back = past.rolled_back()?;
        let key = key_of(call);
        let is_one_of = |keys: &[Key]| key.is_some_and(|key| keys.contains(&key));
        Some(MetRolledBack {
            kind: call.kind(),
            version: before.record.version().ok()?,
            kept: rolled_back.current,
            session: call.session(),
            is_of_taken_out: is_one_of(&rolled_back.taken_out),
            is_of_put_back: is_one_of(&rolled_back.put_back),
            is_absent: key.is_some_and(|key| before.table.keys_slot(key).is_none()),
            was_full: rolled_back.was_full,
            refusal: outcome.as_ref().err().copied(),
        })
    }

    fn is_accepted(&self, kind: Kind) -> bool {
        self.kind == kind && self.refusal.is_none()
    }

    /// Whether the current version is still that at the roll back.
    fn is_at_kept(&self) -> bool {
        self.version.current == self.kept
    }

    /// Whether the session is at the version before that, and refused as expired.
    fn is_before_kept(&self) -> bool {
        self.is_at_kept()
            && self.session == Some(self.kept - 1)
            && self.refusal == Some(Refusal::SessionExpired)
    }

    /// Whether the session is at the version that was current, and answered.
    fn is_answered_at_kept(&self) -> bool {
        self.session == Some(self.kept) && self.refusal.is_none()
    }
}

/// The key of a change.
fn key_of(call: &Call) -> Option<Key> {
    match *call {
        Call::Put { key, .. } | Call::Delete { key } => Some(key),
        _ => None,
    }
}
