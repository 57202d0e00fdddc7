//! The rare cases of a slot that a call rests on, by the call: a total in it that is
//! not reported, or what is just not allowed for such a total.

use crate::comparison::rare::{CaseByKind, READS};
use crate::model::block::{self, Block};
use crate::model::call::{Call, Kind, Lent, Outcome};
use crate::model::record::Version;
use crate::model::refusal::Refusal;
use crate::model::slot::{INSERT, NOT_REPORTED, Slot, Totals, UPDATE, is_reported};

/// The calls that rest on slots.
pub const KINDS: [Kind; 8] = [
    Kind::ReadSlot,
    Kind::ReadKey,
    Kind::RollUp,
    Kind::Put,
    Kind::Delete,
    Kind::RollBack,
    Kind::SaveBlock,
    Kind::LoadBlock,
];

/// The slots that a call rests on: of a roll-up that is answered, those with its first
/// key word; of a load, those that the block brings.
pub struct MetSlots {
    version: Version,
    /// the session of a read
    session: Option<i64>,
    slots: Vec<Slot>,
    answered: bool,
}

pub const CASES: [CaseByKind<MetSlots>; 8] = [
    ("a current total not reported, answered", &KINDS, |met| {
        met.answered && met.has(|slot| lacks_report(slot.current))
    }),
    ("an old total not reported, answered", &KINDS, |met| {
        met.answered && met.has(|slot| lacks_report(slot.old))
    }),
    (
        "a total next below not reported, refused 6 or 16",
        &KINDS,
        |met| met.is_refused_unless(raised),
    ),
    (
        "an insert's old total not reported, refused 6 or 16",
        &KINDS,
        |met| met.is_refused_unless(without_old_totals),
    ),
    ("an old total not reported, at current - 1", &READS, |met| {
        met.is_before() && met.reads_old(|slot| lacks_report(slot.old))
    }),
    (
        "an old total not reported, at current in a run",
        &READS,
        |met| met.is_in_a_run() && met.reads_old(|slot| lacks_report(slot.old)),
    ),
    (
        "the number before one not reported, at current - 1",
        &READS,
        |met| met.is_before() && met.reads_old(has_number_before),
    ),
    (
        "the number before one not reported, at current in a run",
        &READS,
        |met| met.is_in_a_run() && met.reads_old(has_number_before),
    ),
];

impl MetSlots {
    /// The slots that the call rests on, if it was answered or refused for them.
    pub fn of(call: &Call, before: &Lent, outcome: &Outcome) -> Option<MetSlots> {
        let answered = match outcome {
            Ok(_) => true,
            Err(Refusal::NotWellFormed | Refusal::BlockField) => false,
            Err(_) => return None,
        };
        Some(MetSlots {
            version: before.record.version().ok()?,
            session: call.session(),
            slots: rested_on(call, before, answered)?,
            answered,
        })
    }

    fn has(&self, such: fn(&Slot) -> bool) -> bool {
        self.slots.iter().any(such)
    }

    /// Whether the call was refused, and every slot mended so is well formed.
    fn is_refused_unless(&self, mended: fn(Slot) -> Slot) -> bool {
        let mut slots = self.slots.iter().map(|&slot| mended(slot));
        !self.answered && slots.all(|slot| slot.is_well_formed(self.version))
    }

    /// Whether the session is at the version before the current one.
    fn is_before(&self) -> bool {
        self.session == Some(self.version.current - 1)
    }

    /// Whether the session is at the current version, and a run is active.
    fn is_in_a_run(&self) -> bool {
        self.session == Some(self.version.current) && self.version.run_active
    }

    /// Whether the session read the old totals of such a slot.
    fn reads_old(&self, such: fn(&Slot) -> bool) -> bool {
        let Some(session) = self.session.filter(|_| self.answered) else {
            return false;
        };
        let is_old = |slot: &Slot| session < slot.run && slot.seen_by(session).is_some();
        self.slots.iter().any(|slot| is_old(slot) && such(slot))
    }
}

/// The slots that an answered or refused call rests on, if there are any.
fn rested_on(call: &Call, before: &Lent, answered: bool) -> Option<Vec<Slot>> {
    let table = &before.table;
    let slots = match call {
        Call::ReadSlot { slot, .. } => vec![table.slot(*slot as usize)],
        Call::ReadKey { key, .. } | Call::Put { key, .. } | Call::Delete { key } => {
            vec![table.slot(table.keys_slot(*key)?)]
        }
        Call::RollUp { one, .. } => table
            .all_slots()
            .filter(|slot| !answered || slot.key.one == *one)
            .collect(),
        Call::RollBack => table.all_slots().collect(),
        Call::SaveBlock { number } => block::places(*number as usize, table.slots().ok()?)
            .map(|place| table.slot(place))
            .collect(),
        Call::LoadBlock { number, block } => {
            let held = block::places(*number as usize, table.slots().ok()?).len();
            slots_of(*number as usize, held, block)?
        }
        _ => return None,
    };
    Some(slots)
}

/// The slots of a block in which nothing else can be wrong.
fn slots_of(number: usize, held: usize, bytes: &[u8]) -> Option<Vec<Slot>> {
    let block = Block::from_bytes(bytes).ok()?;
    let slots: Vec<Slot> = (0..held).map(|index| block.slot(index)).collect();
    (Block::of_slots(number, &slots) == block).then_some(slots)
}

/// Whether one of the totals is not reported.
fn lacks_report(totals: Totals) -> bool {
    totals.iter().any(|&total| !is_reported(total))
}

/// Whether a number stood where a total is not reported now.
fn has_number_before(slot: &Slot) -> bool {
    let mut pairs = slot.current.into_iter().zip(slot.old);
    slot.operation == UPDATE && pairs.any(|(now, old)| !is_reported(now) && is_reported(old))
}

/// The slot, not reported in place of what is next below.
fn raised(slot: Slot) -> Slot {
    let raise = |total| total + i64::from(total == NOT_REPORTED - 1);
    Slot {
        current: slot.current.map(raise),
        old: slot.old.map(raise),
        ..slot
    }
}

/// The slot, zeros in place of an insert's old totals that are not reported.
fn without_old_totals(slot: Slot) -> Slot {
    let zero = |total| if is_reported(total) { total } else { 0 };
    let old = if slot.operation == INSERT {
        slot.old.map(zero)
    } else {
        slot.old
    };
    Slot { old, ..slot }
}
