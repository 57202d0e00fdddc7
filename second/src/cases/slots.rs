//! Slots drawn for tables and for blocks: well formed ones, and ones that most
//! often just are not.

use crate::cases::edges;
use crate::cases::random::Random;
use crate::model::record::{LARGEST_VERSION, Version};
use crate::model::slot::{
    DELETE, INSERT, Key, NOT_REPORTED, NULLS, SLOT_WORDS, Slot, Totals, UPDATE,
};

const EMPTY_PERCENT: usize = 25;

/// Old totals that are allowed, but not in an insert.
const NOT_OF_AN_INSERT: [Totals; 3] = [
    [NOT_REPORTED, 0],
    [0, NOT_REPORTED],
    [NOT_REPORTED, NOT_REPORTED],
];

/// A slot that is well formed, if any is at the version.
pub fn well_formed(random: &mut Random, version: Version, keys: &[Key]) -> Slot {
    if random.percent(EMPTY_PERCENT) {
        return Slot::zeros();
    }
    let newest = version
        .current
        .saturating_add(i64::from(version.run_active));
    let newest = newest.clamp(1, LARGEST_VERSION);
    let run = match random.below(4) {
        0 => random.between(1, newest),
        1 => 1.max(newest - 1),
        _ => newest,
    };
    let operation = random.between(INSERT, DELETE);
    let old = if operation == INSERT {
        NULLS
    } else {
        edges::totals(random)
    };
    Slot {
        run,
        operation,
        key: random.pick(keys),
        current: edges::totals(random),
        old,
    }
}

/// A slot that most often is just not well formed.
pub fn hostile(random: &mut Random, version: Version, keys: &[Key]) -> Slot {
    let mut slot = match random.below(8) {
        0 => Slot::zeros(),
        1 => any_slot(random),
        _ => well_formed(random, version, keys),
    };
    match random.below(7) {
        0 => slot.run = edges::word_near(random, version.current),
        1 => slot.operation = edges::word_near(random, UPDATE),
        2 => slot.current = edges::unlawful_totals(random),
        3 => slot.old = edges::unlawful_totals(random),
        4 => slot.old = edges::totals(random),
        5 => slot.old = random.pick(&NOT_OF_AN_INSERT),
        _ => slot.key.one = edges::word(random),
    }
    slot
}

fn any_slot(random: &mut Random) -> Slot {
    let words: [i64; SLOT_WORDS] = std::array::from_fn(|_| edges::word(random));
    Slot::from_words(&words)
}
