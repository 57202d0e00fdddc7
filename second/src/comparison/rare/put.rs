//! The rare cases of a put: where it matters whether the key has a slot and what is
//! free beside it, where two tests apply, and where a total is not reported.

use crate::comparison::rare::RareCase;
use crate::model::call::{Call, Lent, Outcome};
use crate::model::record::Version;
use crate::model::refusal::Refusal;
use crate::model::slot::{DELETE, NOT_REPORTED, Slot, Totals, is_lawful, is_reported};

/// What a put met in a table and a record that are not refused, and its outcome.
pub struct MetByPut {
    version: Version,
    /// the place of the key's slot, and the slot
    keys_slot: Option<(usize, Slot)>,
    /// the place of the slot that a new key takes
    to_take: Option<usize>,
    /// how many live slots have the key
    live_slots: usize,
    totals: Totals,
    refusal: Option<Refusal>,
}

pub const CASES: [RareCase<MetByPut>; 17] = [
    ("a live key in a full table, accepted", |met| {
        met.is_accepted() && met.is_full() && met.is_live()
    }),
    (
        "a key deleted by this run in a full table, accepted",
        |met| met.is_accepted() && met.is_full() && met.is_deleted_by_this_run(),
    ),
    (
        "a key deleted by an older run, in its own slot though a lower one is free",
        |met| met.is_accepted() && met.is_deleted_before() && met.is_lower_one_free(),
    ),
    (
        "a key deleted in its lowest slot and live in another, accepted",
        |met| met.is_accepted() && !met.is_live() && met.live_slots > 0,
    ),
    ("an absent key in a full table, refused 12", |met| {
        met.is_refused(Refusal::NoSlotToTake) && met.is_full() && met.is_absent()
    }),
    ("a key whose slot is broken, refused 6", |met| {
        met.is_refused(Refusal::NotWellFormed) && met.is_broken()
    }),
    ("8 before 13", |met| {
        met.is_refused(Refusal::NoRunActive) && !is_lawful(met.totals)
    }),
    ("13 before 6", |met| {
        met.is_refused(Refusal::UnlawfulTotal) && met.is_broken()
    }),
    ("13 before 12", |met| {
        met.is_refused(Refusal::UnlawfulTotal) && met.is_full() && met.is_absent()
    }),
    (
        "a key whose slot is broken in a full table, refused 6",
        |met| met.is_refused(Refusal::NotWellFormed) && met.is_broken() && met.is_full(),
    ),
    ("total one not reported, accepted", |met| {
        met.is_accepted() && met.reports() == [false, true]
    }),
    ("total two not reported, accepted", |met| {
        met.is_accepted() && met.reports() == [true, false]
    }),
    ("neither total reported, accepted", |met| {
        met.is_accepted() && met.reports() == [false, false]
    }),
    ("total one next below not reported, refused 13", |met| {
        met.is_refused(Refusal::UnlawfulTotal) && met.is_too_low_by_one(0)
    }),
    ("total two next below not reported, refused 13", |met| {
        met.is_refused(Refusal::UnlawfulTotal) && met.is_too_low_by_one(1)
    }),
    ("a number where an older run put not reported", |met| {
        met.is_accepted() && met.turns_to(true)
    }),
    ("not reported where an older run put a number", |met| {
        met.is_accepted() && met.turns_to(false)
    }),
];

impl MetByPut {
    /// What the call met if it is a put, unless its table or its record is refused.
    pub fn of(call: &Call, before: &Lent, outcome: &Outcome) -> Option<MetByPut> {
        let Call::Put { key, totals } = *call else {
            return None;
        };
        let table = &before.table;
        table.slots().ok()?;
        let version = before.record.version().ok()?;
        let live = |slot: &Slot| slot.is_live() && slot.key == key;
        Some(MetByPut {
            version,
            keys_slot: table.keys_slot(key).map(|place| (place, table.slot(place))),
            to_take: table.slot_to_take(version).ok(),
            live_slots: table.all_slots().filter(live).count(),
            totals,
            refusal: outcome.as_ref().err().copied(),
        })
    }

    fn is_accepted(&self) -> bool {
        self.refusal.is_none()
    }

    fn is_refused(&self, by: Refusal) -> bool {
        self.refusal == Some(by)
    }

    /// Whether each total that was given is reported.
    fn reports(&self) -> [bool; 2] {
        self.totals.map(is_reported)
    }

    /// Whether the total with this index is the highest below the lawful ones, and the
    /// other is lawful.
    fn is_too_low_by_one(&self, index: usize) -> bool {
        let mut higher = self.totals;
        higher[index] = NOT_REPORTED;
        self.totals[index] == NOT_REPORTED - 1 && is_lawful(higher)
    }

    /// Whether an older run left the key live, and the put turns one of its totals to
    /// reported, or to not reported.
    fn turns_to(&self, reported: bool) -> bool {
        self.has_slot(|slot| {
            let stood = slot.current.map(is_reported);
            let mut pairs = self.reports().into_iter().zip(stood);
            slot.is_live()
                && slot.run < self.version.run()
                && pairs.any(|(put, stood)| put == reported && stood != reported)
        })
    }

    /// Whether a new key has no slot to take.
    fn is_full(&self) -> bool {
        self.to_take.is_none()
    }

    fn is_absent(&self) -> bool {
        self.keys_slot.is_none()
    }

    fn has_slot(&self, such: impl Fn(&Slot) -> bool) -> bool {
        self.keys_slot.is_some_and(|(_, slot)| such(&slot))
    }

    fn is_broken(&self) -> bool {
        self.has_slot(|slot| !slot.is_well_formed(self.version))
    }

    fn is_live(&self) -> bool {
        self.has_slot(Slot::is_live)
    }

    fn is_deleted_by_this_run(&self) -> bool {
        self.has_slot(|slot| slot.operation == DELETE && slot.run == self.version.run())
    }

    fn is_deleted_before(&self) -> bool {
        self.has_slot(|slot| slot.operation == DELETE && slot.run < self.version.run())
    }

    /// Whether a slot below the key's slot could be taken.
    fn is_lower_one_free(&self) -> bool {
        match (self.keys_slot, self.to_take) {
            (Some((place, _)), Some(to_take)) => to_take < place,
            _ => false,
        }
    }
}
