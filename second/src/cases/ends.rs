//! Cases of one region that fills the largest table, with totals at the ends of what
//! is lawful, so that its sums are as far from 0 as sums can be, and of a run that
//! wrote every slot of it and is rolled back.

use crate::cases::case::Case;
use crate::cases::edges;
use crate::cases::random::Random;
use crate::model::call::{Call, Lent};
use crate::model::record::{A_RUN, LARGEST_VERSION, NO_RUN, VersionRecord};
use crate::model::slot::{Key, LARGEST_TOTAL, NOT_REPORTED, Slot, Totals, UPDATE};
use crate::model::table::{MOST_SLOTS, Table};
use std::array;

const ENDS: [i64; 2] = [LARGEST_TOTAL, -LARGEST_TOTAL];

/// How many totals of a hundred are not reported, in one case and in another.
const NOT_REPORTED_PERCENTS: [usize; 2] = [0, 10];

/// The least version before which rows can have been committed.
const LEAST_VERSION: i64 = 3;

const ROLL_BACK_PERCENT: usize = 30;

/// The current and the old totals of a slot.
pub type BothTotals = [Totals; 2];

/// A case of two roll-ups: of the current totals and of the old ones, or of the old
/// ones before the run is rolled back and after it.
pub fn case(random: &mut Random) -> Case {
    let one = edges::keys(random, 1)[0].one;
    let current = random.between(LEAST_VERSION, LARGEST_VERSION);
    let percent = random.pick(&NOT_REPORTED_PERCENTS);
    let ends: BothTotals = array::from_fn(|_| array::from_fn(|_| random.pick(&ENDS)));
    let start = full_region(one, current, |_| {
        ends.map(|totals| totals.map(|total| not_reported_or(random, percent, total)))
    });
    if random.percent(ROLL_BACK_PERCENT) {
        let session = current - 1;
        let roll_up = Call::RollUp { session, one };
        return Case {
            start: in_the_run(start, current),
            calls: vec![roll_up.clone(), Call::RollBack, roll_up],
        };
    }
    let sessions = [current, current - 1];
    Case {
        start,
        calls: sessions
            .map(|session| Call::RollUp { session, one })
            .to_vec(),
    }
}

/// The largest table, every slot of which was updated at the current version and has
/// this first key word. The totals are given for each place.
pub fn full_region(one: i64, current: i64, mut totals: impl FnMut(usize) -> BothTotals) -> Lent {
    let slots = (0..MOST_SLOTS).map(|place| {
        let two = place as i64;
        let [now, old] = totals(place);
        Slot {
            run: current,
            operation: UPDATE,
            key: Key { one, two },
            current: now,
            old,
        }
    });
    Lent {
        table: Table {
            words: slots.flat_map(|slot| slot.words()).collect(),
        },
        record: VersionRecord::new(current, NO_RUN, current - 1, 0),
    }
}

/// The same while this run is active.
pub fn in_the_run(lent: Lent, run: i64) -> Lent {
    let current = run - 1;
    Lent {
        record: VersionRecord::new(current, A_RUN, current, 0),
        ..lent
    }
}

/// Not reported in so many cases of a hundred, else the total.
fn not_reported_or(random: &mut Random, percent: usize, total: i64) -> i64 {
    if random.percent(percent) {
        NOT_REPORTED
    } else {
        total
    }
}
