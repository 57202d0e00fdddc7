//! Hostile cases: any table words, any record, any arguments.

use crate::cases::arguments::Arguments;
use crate::cases::case::Case;
use crate::cases::edges;
use crate::cases::random::Random;
use crate::cases::slots;
use crate::model::call::{KINDS, Lent};
use crate::model::outcome::make_call;
use crate::model::record::{A_RUN, FIRST_VERSION, LARGEST_VERSION, NO_RUN, VersionRecord};
use crate::model::slot::{Key, SLOT_WORDS};
use crate::model::table::{MOST_WORDS, Table};

const ODD_ARGUMENTS: usize = 20;
const MOST_KEYS: usize = 5;
const MOST_SMALL_SLOTS: usize = 9;
const MOST_CALLS: usize = 12;
const MOST_CALLS_ON_LONG: usize = 3;

/// One table in so many is long.
const LONG_ARE_ONE_IN: usize = 400;
const SHORT_PERCENT: usize = 7;
const ALL_SLOTS_HOSTILE_PERCENT: usize = 20;
const ONE_SLOT_HOSTILE_PERCENT: usize = 40;

const SHORT_LENGTHS: [usize; 12] = [0, 1, 4, 7, 9, 12, 15, 17, 63, 65, 71, 121];
const LONG_LENGTHS: [usize; 9] = [
    MOST_WORDS - 8,
    MOST_WORDS - 1,
    MOST_WORDS,
    MOST_WORDS,
    MOST_WORDS,
    MOST_WORDS + 1,
    MOST_WORDS + 7,
    MOST_WORDS + 8,
    2 * MOST_WORDS,
];

const VERSIONS: [i64; 11] = [
    0,
    -1,
    1,
    2,
    LARGEST_VERSION - 2,
    LARGEST_VERSION - 1,
    LARGEST_VERSION,
    LARGEST_VERSION + 1,
    (1 << 32) + 1,
    i64::MIN,
    i64::MAX,
];

/// How many records of a hundred have an oldest open version from anywhere, and how
/// many of the others with no run have the version before.
const ODD_OLDEST_PERCENT: usize = 15;
const VERSION_BEFORE_PERCENT: usize = 50;

/// The least words that an oldest open version may be taken for.
const LEAST_OLDEST: [i64; 4] = [FIRST_VERSION, 0, -1, i64::MIN];

/// A case from hostile words.
pub fn case(random: &mut Random) -> Case {
    let record = record(random);
    let count = 1 + random.below(MOST_KEYS);
    let keys = edges::keys(random, count);
    let long = random.below(LONG_ARE_ONE_IN) == 0;
    let length = table_length(random, long);
    let start = Lent {
        table: table(random, length, record, &keys),
        record,
    };
    let arguments = Arguments {
        keys,
        odd: ODD_ARGUMENTS,
    };
    let most_calls = if long { MOST_CALLS_ON_LONG } else { MOST_CALLS };
    let mut lent = start.clone();
    let mut calls = Vec::new();
    for _ in 0..=random.below(most_calls) {
        let kind = random.pick(&KINDS);
        let call = arguments.call(random, kind, &lent);
        // what is lent to the next call is what this one leaves
        let _ = make_call(&call, &mut lent);
        calls.push(call);
    }
    Case { start, calls }
}

fn record(random: &mut Random) -> VersionRecord {
    let current = match random.below(8) {
        0 => random.pick(&VERSIONS),
        1 => random.between(LARGEST_VERSION - 2, LARGEST_VERSION),
        _ => random.between(1, 6),
    };
    let run_mark = match random.below(12) {
        0 => edges::word(random),
        1..=5 => NO_RUN,
        _ => A_RUN,
    };
    let oldest = oldest(random, current, run_mark);
    VersionRecord::new(current, run_mark, oldest, edges::word(random))
}

/// An oldest open version. Most are lawful, if the other words are.
fn oldest(random: &mut Random, current: i64, run_mark: i64) -> i64 {
    if random.percent(ODD_OLDEST_PERCENT) {
        return match random.below(4) {
            0 => random.pick(&LEAST_OLDEST),
            _ => edges::word_near(random, current),
        };
    }
    let is_before = run_mark == NO_RUN && random.percent(VERSION_BEFORE_PERCENT);
    let oldest = current.wrapping_sub(i64::from(is_before));
    oldest.max(FIRST_VERSION)
}

fn table_length(random: &mut Random, long: bool) -> usize {
    if long {
        random.pick(&LONG_LENGTHS)
    } else if random.percent(SHORT_PERCENT) {
        random.pick(&SHORT_LENGTHS)
    } else {
        SLOT_WORDS * (1 + random.below(MOST_SMALL_SLOTS))
    }
}

/// A table of any length. Most have at most one slot that is not well formed.
fn table(random: &mut Random, length: usize, record: VersionRecord, keys: &[Key]) -> Table {
    let version = record.says();
    let all_hostile = random.percent(ALL_SLOTS_HOSTILE_PERCENT);
    let mut words = Vec::new();
    while words.len() < length {
        let slot = if all_hostile {
            slots::hostile(random, version, keys)
        } else {
            slots::well_formed(random, version, keys)
        };
        words.extend(slot.words());
    }
    if random.percent(ONE_SLOT_HOSTILE_PERCENT) && length >= SLOT_WORDS {
        let place = random.below(length / SLOT_WORDS) * SLOT_WORDS;
        let slot = slots::hostile(random, version, keys);
        words[place..][..SLOT_WORDS].copy_from_slice(&slot.words());
    }
    words.truncate(length);
    Table { words }
}
