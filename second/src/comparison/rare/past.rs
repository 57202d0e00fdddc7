//! What a case had before a call: the changes of the run that is active, and the last
//! roll back.

use crate::model::call::{Call, Kind, Lent, Outcome};
use crate::model::slot::{INSERT, Key, Slot};

#[derive(Default)]
pub struct Past {
    /// the accepted changes of the run that is active, in order
    changes: Vec<Change>,
    rolled_back: Option<RolledBack>,
}

struct Change {
    kind: Kind,
    key: Key,
    was_live: bool,
}

/// A roll back that was accepted.
pub struct RolledBack {
    /// the current version, which it kept
    pub current: i64,
    /// the keys of the rows that it emptied
    pub taken_out: Vec<Key>,
    /// the keys of the rows that it gave their old totals back
    pub put_back: Vec<Key>,
    /// whether a new key had no slot to take before it
    pub was_full: bool,
}

impl Past {
    /// Adds a call on what was lent before it, and its outcome.
    pub fn add(&mut self, call: &Call, before: &Lent, outcome: &Outcome) {
        if outcome.is_err() {
            return;
        }
        match *call {
            Call::Put { key, .. } | Call::Delete { key } => self.changes.push(Change {
                kind: call.kind(),
                key,
                was_live: is_live(before, key),
            }),
            Call::Begin | Call::Commit => self.changes.clear(),
            Call::RollBack => {
                self.changes.clear();
                self.rolled_back = Some(RolledBack::of(before));
            }
            Call::LoadBlock { .. } => self.rolled_back = None, // a new history
            _ => {}
        }
    }

    pub fn rolled_back(&self) -> Option<&RolledBack> {
        self.rolled_back.as_ref()
    }

    pub fn has_changes(&self) -> bool {
        !self.changes.is_empty()
    }

    /// Whether the run deleted a live row, and then put it again.
    pub fn has_deleted_and_put(&self) -> bool {
        self.has_change(|first, last| first.kind == Kind::Delete && last.kind == Kind::Put)
    }

    /// Whether the run put a row that was not live, and then deleted it.
    pub fn has_put_and_deleted(&self) -> bool {
        self.has_change(|first, last| {
            first.kind == Kind::Put && !first.was_live && last.kind == Kind::Delete
        })
    }

    /// Whether the first and the last change of some key are such.
    fn has_change(&self, such: fn(&Change, &Change) -> bool) -> bool {
        self.changes.iter().any(|change| {
            let mut of_key = self.changes.iter().filter(|other| other.key == change.key);
            let first = of_key.next().unwrap_or(change);
            let last = of_key.next_back().unwrap_or(first);
            such(first, last)
        })
    }
}

impl RolledBack {
    fn of(before: &Lent) -> RolledBack {
        let version = before.record.says();
        let of_the_run = |slot: &Slot| slot.run == version.run();
        let rows = before.table.all_slots().filter(of_the_run);
        let (inserted, others): (Vec<Slot>, Vec<Slot>) =
            rows.partition(|slot| slot.operation == INSERT);
        RolledBack {
            current: version.current,
            taken_out: inserted.iter().map(|slot| slot.key).collect(),
            put_back: others.iter().map(|slot| slot.key).collect(),
            was_full: before.table.slot_to_take(version).is_err(),
        }
    }
}

fn is_live(before: &Lent, key: Key) -> bool {
    let place = before.table.keys_slot(key);
    place.is_some_and(|place| before.table.slot(place).is_live())
}
