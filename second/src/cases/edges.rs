//! Words at the edges of what is allowed, and keys that are easily confused.

use crate::cases::random::Random;
use crate::model::record::LARGEST_VERSION;
use crate::model::slot::{Key, LARGEST_TOTAL, NOT_REPORTED, Totals};

const HALF_RANGE: i64 = 1 << 32;

/// The word that the caller fills the room around each thing lent with.
const GUARD_WORD: i64 = 0xa5a5_a5a5_a5a5_a5a5_u64 as i64;

const WORDS: [i64; 19] = [
    0,
    1,
    -1,
    2,
    3,
    4,
    255,
    256,
    i32::MAX as i64,
    HALF_RANGE - 1,
    HALF_RANGE,
    HALF_RANGE + 1,
    -HALF_RANGE,
    LARGEST_VERSION,
    LARGEST_VERSION + 1,
    NOT_REPORTED,
    GUARD_WORD,
    i64::MIN,
    i64::MAX,
];

/// How many lawful totals of a hundred are not reported.
const NOT_REPORTED_PERCENT: usize = 20;

/// Lawful totals that are reported.
const LAWFUL_TOTALS: [i64; 9] = [
    0,
    1,
    -1,
    LARGEST_TOTAL,
    LARGEST_TOTAL - 1,
    -LARGEST_TOTAL,
    1 - LARGEST_TOTAL,
    HALF_RANGE,
    -HALF_RANGE,
];

const UNLAWFUL_TOTALS: [i64; 6] = [
    LARGEST_TOTAL + 1,
    NOT_REPORTED - 1,
    i64::MAX,
    i64::MIN,
    i64::MAX - 1,
    i64::MIN + 1,
];

const KEY_WORDS: [i64; 11] = [
    0,
    1,
    2,
    -1,
    HALF_RANGE,
    HALF_RANGE + 1,
    19_961_014,
    NOT_REPORTED,
    i64::MIN,
    i64::MAX,
    GUARD_WORD,
];

pub fn word(random: &mut Random) -> i64 {
    match random.below(4) {
        0 => random.word() as i64,
        1 => random.between(-9, 9),
        _ => random.pick(&WORDS),
    }
}

/// A word at or beside the given one, or anywhere.
pub fn word_near(random: &mut Random, centre: i64) -> i64 {
    match random.below(3) {
        0 => word(random),
        _ => centre.wrapping_add(random.between(-2, 2)),
    }
}

/// A lawful total, reported or not.
pub fn total(random: &mut Random) -> i64 {
    if random.percent(NOT_REPORTED_PERCENT) {
        return NOT_REPORTED;
    }
    match random.below(3) {
        0 => random.pick(&LAWFUL_TOTALS),
        1 => random.between(-LARGEST_TOTAL, LARGEST_TOTAL),
        _ => random.between(-99, 99),
    }
}

pub fn totals(random: &mut Random) -> Totals {
    [total(random), total(random)]
}

/// Two totals, one of them not lawful.
pub fn unlawful_totals(random: &mut Random) -> Totals {
    let mut totals = totals(random);
    totals[random.below(2)] = random.pick(&UNLAWFUL_TOTALS);
    totals
}

/// Different keys, some of which share a word.
pub fn keys(random: &mut Random, count: usize) -> Vec<Key> {
    let mut keys = Vec::new();
    while keys.len() < count {
        let key = Key {
            one: key_word(random),
            two: key_word(random),
        };
        if !keys.contains(&key) {
            keys.push(key);
        }
    }
    keys
}

fn key_word(random: &mut Random) -> i64 {
    match random.below(8) {
        0 => random.word() as i64,
        1 => random.between(0, 9),
        2 | 3 => random.between(0, 2),
        _ => random.pick(&KEY_WORDS),
    }
}
