//! The rare cases of a roll back: by what the run did, and by where a slot is broken.

use crate::comparison::rare::RareCase;
use crate::comparison::rare::past::Past;
use crate::model::call::{Call, Lent, Outcome};
use crate::model::record::{FIRST_VERSION, LARGEST_VERSION, Version};
use crate::model::refusal::Refusal;
use crate::model::slot::{DELETE, EMPTY, INSERT, Slot, UPDATE, is_reported};
use crate::model::table::MOST_SLOTS;

/// What a roll back met in a table and a record that are not refused, and its outcome.
pub struct MetByRollBack {
    version: Version,
    slots: Vec<Slot>,
    has_changes: bool,
    has_deleted_and_put: bool,
    has_put_and_deleted: bool,
    refusal: Option<Refusal>,
}

pub const CASES: [RareCase<MetByRollBack>; 17] = [
    ("of a run that inserted", |met| met.undoes(INSERT)),
    ("of a run that updated", |met| met.undoes(UPDATE)),
    ("of a run that deleted", |met| met.undoes(DELETE)),
    ("of a run that inserted, updated and deleted", |met| {
        met.undoes(INSERT) && met.undoes(UPDATE) && met.undoes(DELETE)
    }),
    ("of a run that deleted a row and put it again", |met| {
        met.is_accepted() && met.has_deleted_and_put
    }),
    ("of a run that put a new row and deleted it again", |met| {
        met.is_accepted() && met.has_put_and_deleted
    }),
    ("of a run that did nothing, beside rows", |met| {
        met.is_accepted() && !met.has_changes && met.has_rows_of_older_runs_alone()
    }),
    ("an old total not reported comes back", |met| {
        met.is_accepted() && met.has(|met, slot| met.is_of_the_run(slot) && lacks_old(slot))
    }),
    ("of a run that wrote all of 1,024 slots", |met| {
        met.is_accepted() && met.slots.len() == MOST_SLOTS && met.is_all_of_the_run()
    }),
    ("of the first run", |met| {
        met.is_accepted() && met.version.current == FIRST_VERSION
    }),
    ("of a run with the largest number", |met| {
        met.is_accepted() && met.version.run() == LARGEST_VERSION
    }),
    ("no run, refused 8", |met| {
        met.is_refused(Refusal::NoRunActive)
    }),
    ("8 before 6", |met| {
        met.is_refused(Refusal::NoRunActive) && met.has(MetByRollBack::is_broken)
    }),
    (
        "a broken slot behind one that the run wrote, refused 6",
        |met| met.is_broken_beside(|broken, written| broken > written),
    ),
    (
        "a broken slot before one that the run wrote, refused 6",
        |met| met.is_broken_beside(|broken, written| broken < written),
    ),
    ("none broken but a slot of an older run, refused 6", |met| {
        met.is_broken_alone(|slot, run| slot.operation != EMPTY && slot.run < run)
    }),
    ("none broken but a slot that is empty, refused 6", |met| {
        met.is_broken_alone(|slot, _| slot.operation == EMPTY)
    }),
];

impl MetByRollBack {
    /// What the call met if it is a roll back, unless its table or its record is
    /// refused.
    pub fn of(call: &Call, before: &Lent, outcome: &Outcome, past: &Past) -> Option<MetByRollBack> {
        if !matches!(call, Call::RollBack) {
            return None;
        }
        before.table.slots().ok()?;
        Some(MetByRollBack {
            version: before.record.version().ok()?,
            slots: before.table.all_slots().collect(),
            has_changes: past.has_changes(),
            has_deleted_and_put: past.has_deleted_and_put(),
            has_put_and_deleted: past.has_put_and_deleted(),
            refusal: outcome.as_ref().err().copied(),
        })
    }

    fn is_accepted(&self) -> bool {
        self.refusal.is_none()
    }

    fn is_refused(&self, by: Refusal) -> bool {
        self.refusal == Some(by)
    }

    fn has(&self, such: impl Fn(&MetByRollBack, &Slot) -> bool) -> bool {
        self.slots.iter().any(|slot| such(self, slot))
    }

    fn is_broken(&self, slot: &Slot) -> bool {
        !slot.is_well_formed(self.version)
    }

    fn is_of_the_run(&self, slot: &Slot) -> bool {
        slot.run == self.version.run()
    }

    fn is_all_of_the_run(&self) -> bool {
        self.slots.iter().all(|slot| self.is_of_the_run(slot))
    }

    /// Whether the run left this operation in some slot, and that was undone.
    fn undoes(&self, operation: i64) -> bool {
        self.is_accepted()
            && self.has(|met, slot| met.is_of_the_run(slot) && slot.operation == operation)
    }

    fn has_rows_of_older_runs_alone(&self) -> bool {
        self.has(|_, slot| slot.operation != EMPTY) && !self.has(MetByRollBack::is_of_the_run)
    }

    /// Whether it was refused for a broken slot whose place lies so from that of a well
    /// formed one that the run wrote.
    fn is_broken_beside(&self, lies: fn(usize, usize) -> bool) -> bool {
        let places = |such: fn(&MetByRollBack, &Slot) -> bool| {
            let slots = self.slots.iter().enumerate();
            let found = slots.filter(move |(_, slot)| such(self, slot));
            found.map(|(place, _)| place)
        };
        let is_written =
            |met: &MetByRollBack, slot: &Slot| met.is_of_the_run(slot) && !met.is_broken(slot);
        let mut broken = places(MetByRollBack::is_broken);
        self.is_refused(Refusal::NotWellFormed)
            && broken.any(|broken| places(is_written).any(|written| lies(broken, written)))
    }

    /// Whether it was refused, and every broken slot is such, by the run's number.
    fn is_broken_alone(&self, such: fn(&Slot, i64) -> bool) -> bool {
        let run = self.version.run();
        let mut broken = self.slots.iter().filter(|slot| self.is_broken(slot));
        self.is_refused(Refusal::NotWellFormed) && broken.all(|slot| such(slot, run))
    }
}

/// Whether one of the old totals of a row that was there before is not reported.
fn lacks_old(slot: &Slot) -> bool {
    slot.old.iter().any(|&total| !is_reported(total))
}
