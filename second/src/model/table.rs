//! The table: lent words, eight to a slot.

use crate::model::record::Version;
use crate::model::refusal::Refusal;
use crate::model::slot::{EMPTY, Key, SLOT_WORDS, Slot};

pub const MOST_SLOTS: usize = 1_024;
pub const MOST_WORDS: usize = MOST_SLOTS * SLOT_WORDS;

/// The table as it is lent: any words, of any length.
#[derive(Clone, PartialEq, Eq, Debug)]
pub struct Table {
    pub words: Vec<i64>,
}

impl Table {
    pub fn fresh(slots: usize) -> Table {
        Table {
            words: vec![0; slots * SLOT_WORDS],
        }
    }

    /// Refusal 1, else the number of slots.
    pub fn slots(&self) -> Result<usize, Refusal> {
        let length = self.words.len();
        if length == 0 || !length.is_multiple_of(SLOT_WORDS) || length > MOST_WORDS {
            return Err(Refusal::TableLength);
        }
        Ok(length / SLOT_WORDS)
    }

    pub fn slot(&self, place: usize) -> Slot {
        Slot::from_words(&self.words[place * SLOT_WORDS..][..SLOT_WORDS])
    }

    pub fn write(&mut self, place: usize, slot: &Slot) {
        self.words[place * SLOT_WORDS..][..SLOT_WORDS].copy_from_slice(&slot.words());
    }

    pub fn all_slots(&self) -> impl Iterator<Item = Slot> + '_ {
        self.words.chunks_exact(SLOT_WORDS).map(Slot::from_words)
    }

    /// The slot, or refusal 6.
    pub fn well_formed_slot(&self, place: usize, version: Version) -> Result<Slot, Refusal> {
        let slot = self.slot(place);
        if slot.is_well_formed(version) {
            Ok(slot)
        } else {
            Err(Refusal::NotWellFormed)
        }
    }

    /// Refusal 6, for any slot.
    pub fn all_well_formed(&self, version: Version) -> Result<(), Refusal> {
        if self.all_slots().all(|slot| slot.is_well_formed(version)) {
            Ok(())
        } else {
            Err(Refusal::NotWellFormed)
        }
    }

    /// The place of the key's slot.
    pub fn keys_slot(&self, key: Key) -> Option<usize> {
        self.all_slots()
            .position(|slot| slot.operation != EMPTY && slot.key == key)
    }

    /// The place of the slot that a new key takes, or refusal 12.
    pub fn slot_to_take(&self, version: Version) -> Result<usize, Refusal> {
        self.all_slots()
            .position(|slot| slot.can_be_taken(version))
            .ok_or(Refusal::NoSlotToTake)
    }
}
