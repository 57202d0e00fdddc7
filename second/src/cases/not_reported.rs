//! Figures for request 3: totals that are not reported are put, read, saved and
//! loaded as they are, and a roll-up leaves them out and counts those that are.

use crate::cases::ends::{BothTotals, full_region};
use crate::cases::figure::{Figure, Gives, begin, commit, delete, put, read, read_key, roll_up};
use crate::model::block::Block;
use crate::model::call::{Call, Lent};
use crate::model::record::{NO_RUN, VersionRecord};
use crate::model::slot::{LARGEST_TOTAL, NOT_REPORTED, SLOT_WORDS, Slot};
use crate::model::table::Table;

/// The highest total below the lawful ones.
const BELOW: i64 = NOT_REPORTED - 1;

/// The rows of a full region, and the sum over them of the largest total.
const ROWS: i64 = 1_024;
const LARGEST_SUM: i64 = 1_024_000_000_000_000_000;

/// Half of either, and three quarters.
const HALF_ROWS: i64 = 512;
const HALF_SUM: i64 = 512_000_000_000_000_000;
const MOST_ROWS: i64 = 768;
const MOST_SUM: i64 = 768_000_000_000_000_000;

/// The current and the old totals of each row of a full region.
const FROM_END_TO_END: BothTotals = [
    [LARGEST_TOTAL, -LARGEST_TOTAL],
    [-LARGEST_TOTAL, LARGEST_TOTAL],
];

/// The check of document 01's block 1 at current 2, total two not reported.
pub const CHECK: u32 = 1_550_233_163;

/// The slot of that block.
const SAVED_SLOT: [i64; SLOT_WORDS] = [2, 1, 1, 19_961_014, 10_000, NOT_REPORTED, 0, 0];

/// Slots that are well formed at current 3, though neither is reported in full.
const WELL_FORMED: [[i64; SLOT_WORDS]; 2] = [
    [3, 2, 1, 1, NOT_REPORTED, 5, 6, NOT_REPORTED],
    [3, 2, 1, 2, 5, NOT_REPORTED, NOT_REPORTED, 6],
];

/// The check of the block that holds them.
const WELL_FORMED_CHECK: u32 = 1_826_081_318;

/// Slots that are not well formed: by a total that is too low, and by an insert's old
/// total, which is 0 even where the new one is not reported.
const BROKEN: [[i64; SLOT_WORDS]; 6] = [
    [3, 2, 1, 3, BELOW, 0, 0, 0],
    [3, 2, 1, 4, 0, BELOW, 0, 0],
    [3, 2, 1, 5, 0, 0, BELOW, 0],
    [3, 2, 1, 6, 0, 0, 0, BELOW],
    [3, 1, 1, 7, NOT_REPORTED, 0, NOT_REPORTED, 0],
    [3, 1, 1, 8, 0, NOT_REPORTED, 0, NOT_REPORTED],
];

/// What the program steps reads and prints of totals that are not reported.
pub const SESSION: (&str, &str) = (
    "\
B
P 1 19961014 -1000000000000001 7
P 1 19961015 0 -1000000000000001
P 1 19961016 -1000000000000002 0
P 1 19961016 0 -1000000000000002
C
B
P 1 19961014 10000 -1000000000000001
R 2 1 19961014
C
R 2 1 19961014
R 3 1 19961014
R 3 1 19961015
R 3 1 19961016
",
    "\
version 2
slot 0
slot 1
refused 13
refused 13
version 2
version 3
slot 0
row -1000000000000001 7
version 3
row -1000000000000001 7
row 10000 -1000000000000001
row 0 -1000000000000001
none
",
);

pub fn figures() -> Vec<Figure> {
    let mut figures = vec![
        puts(),
        regions(),
        old_totals(),
        well_formed_slots(),
        ends(),
        ends_in_part(),
        loaded_block(),
    ];
    figures.extend(BROKEN.map(broken_slot));
    figures
}

/// Either total or both may be not reported. Refusal 13 begins below that.
fn puts() -> Figure {
    let end = [
        [2, 1, 1, 1, NOT_REPORTED, 5, 0, 0],
        [2, 1, 1, 2, 6, NOT_REPORTED, 0, 0],
        [2, 1, 1, 3, NOT_REPORTED, NOT_REPORTED, 0, 0],
        [2, 1, 1, 4, -LARGEST_TOTAL, -LARGEST_TOTAL, 0, 0],
    ];
    Figure {
        start: Lent::fresh(4),
        calls: vec![
            begin(2),
            put(1, 1, [NOT_REPORTED, 5], &[0, 0]),
            put(1, 2, [6, NOT_REPORTED], &[0, 1]),
            put(1, 3, [NOT_REPORTED, NOT_REPORTED], &[0, 2]),
            put(1, 4, [BELOW, 7], &[13]),
            put(1, 4, [7, BELOW], &[13]),
            put(1, 4, [NOT_REPORTED, BELOW], &[13]),
            put(1, 4, [-LARGEST_TOTAL, -LARGEST_TOTAL], &[0, 3]),
        ],
        end: Some(end.concat()),
    }
}

/// Region 1 has three counts that differ, in region 2 nothing is reported, in region 3
/// nothing but 0, and another region's number is that of a total not reported.
fn regions() -> Figure {
    Figure {
        start: Lent::fresh(9),
        calls: vec![
            begin(2),
            put(1, 1, [NOT_REPORTED, 5], &[0, 0]),
            put(1, 2, [NOT_REPORTED, 7], &[0, 1]),
            put(1, 3, [10, NOT_REPORTED], &[0, 2]),
            put(1, 4, [0, 0], &[0, 3]),
            put(2, 1, [NOT_REPORTED, NOT_REPORTED], &[0, 4]),
            put(2, 2, [NOT_REPORTED, NOT_REPORTED], &[0, 5]),
            put(3, 1, [0, NOT_REPORTED], &[0, 6]),
            put(3, 2, [0, 0], &[0, 7]),
            put(NOT_REPORTED, NOT_REPORTED, [8, 9], &[0, 8]),
            commit(2),
            roll_up(2, 1, &[0, 4, 2, 3, 10, 12]),
            roll_up(2, 2, &[0, 2]),
            roll_up(2, 3, &[0, 2, 2, 1]),
            roll_up(2, 4, &[0]),
            roll_up(2, NOT_REPORTED, &[0, 1, 1, 1, 8, 9]),
            roll_up(1, 1, &[0]),
        ],
        end: None,
    }
}

/// A session sees that a total was not reported though it has been since, and the
/// number that stood where the total is not reported now.
fn old_totals() -> Figure {
    let end = [
        [4, 3, 1, 1, 7, NOT_REPORTED, 7, NOT_REPORTED],
        [3, 2, 1, 2, NOT_REPORTED, 8, 4, NOT_REPORTED],
    ];
    Figure {
        start: Lent::fresh(2),
        calls: vec![
            begin(2),
            put(1, 1, [NOT_REPORTED, 3], &[0, 0]),
            put(1, 2, [4, NOT_REPORTED], &[0, 1]),
            commit(2),
            begin(3),
            put(1, 1, [6, NOT_REPORTED], &[0, 0]),
            put(1, 2, [NOT_REPORTED, 8], &[0, 1]),
            read(2, 0, &[0, 1, 1, 1, NOT_REPORTED, 3]),
            read(2, 1, &[0, 1, 1, 2, 4, NOT_REPORTED]),
            read_key(2, 1, 1, &[0, 1, 1, 1, NOT_REPORTED, 3]),
            read_key(2, 1, 2, &[0, 1, 1, 2, 4, NOT_REPORTED]),
            roll_up(2, 1, &[0, 2, 1, 1, 4, 3]),
            put(1, 1, [7, NOT_REPORTED], &[0, 0]),
            commit(3),
            read(2, 0, &[0, 1, 1, 1, NOT_REPORTED, 3]),
            read(2, 1, &[0, 1, 1, 2, 4, NOT_REPORTED]),
            read_key(2, 1, 1, &[0, 1, 1, 1, NOT_REPORTED, 3]),
            read_key(2, 1, 2, &[0, 1, 1, 2, 4, NOT_REPORTED]),
            roll_up(2, 1, &[0, 2, 1, 1, 4, 3]),
            roll_up(3, 1, &[0, 2, 1, 1, 7, 8]),
            begin(4),
            delete(1, 1, &[0, 0]),
            roll_up(3, 1, &[0, 2, 1, 1, 7, 8]),
            commit(4),
            read(3, 0, &[0, 1, 1, 1, 7, NOT_REPORTED]),
            roll_up(4, 1, &[0, 1, 0, 1, 0, 8]),
        ],
        end: Some(end.concat()),
    }
}

fn at_current_3(slots: &[[i64; SLOT_WORDS]]) -> Lent {
    Lent {
        table: Table {
            words: slots.concat(),
        },
        record: VersionRecord::new(3, NO_RUN, 2, 0),
    }
}

/// What is not reported may stand in each of the four totals, and is saved and loaded.
fn well_formed_slots() -> Figure {
    Figure {
        start: at_current_3(&WELL_FORMED),
        calls: vec![
            read(3, 0, &[0, 1, 1, 1, NOT_REPORTED, 5]),
            read(2, 0, &[0, 1, 1, 1, 6, NOT_REPORTED]),
            read(3, 1, &[0, 1, 1, 2, 5, NOT_REPORTED]),
            read(2, 1, &[0, 1, 1, 2, NOT_REPORTED, 6]),
            roll_up(3, 1, &[0, 2, 1, 1, 5, 5]),
            roll_up(2, 1, &[0, 2, 1, 1, 6, 6]),
            (
                Call::SaveBlock { number: 1 },
                Gives::Check(WELL_FORMED_CHECK),
            ),
            (load_of(&WELL_FORMED), Gives::Numbers(vec![0])),
        ],
        end: Some(WELL_FORMED.concat()),
    }
}

/// The load of block 1 with these slots.
fn load_of(slots: &[[i64; SLOT_WORDS]]) -> Call {
    let slots: Vec<Slot> = slots.iter().map(|words| Slot::from_words(words)).collect();
    Call::LoadBlock {
        number: 1,
        block: Block::of_slots(1, &slots).bytes(),
    }
}

/// A table of one broken slot, which every call refuses.
fn broken_slot(words: [i64; SLOT_WORDS]) -> Figure {
    let [_, _, one, two, ..] = words;
    Figure {
        start: at_current_3(&[words]),
        calls: vec![
            read(3, 0, &[6]),
            read_key(3, one, two, &[6]),
            roll_up(3, one, &[6]),
            (Call::SaveBlock { number: 1 }, Gives::Numbers(vec![6])),
            (load_of(&[words]), Gives::Numbers(vec![16])),
            begin(4),
            put(one, two, [0, 0], &[6]),
            delete(one, two, &[6]),
        ],
        end: Some(words.to_vec()),
    }
}

/// The rows of a full region at either end, summed exactly.
fn ends() -> Figure {
    Figure {
        start: full_region(1, 3, |_| FROM_END_TO_END),
        calls: vec![
            roll_up(3, 1, &[0, ROWS, ROWS, ROWS, LARGEST_SUM, -LARGEST_SUM]),
            roll_up(2, 1, &[0, ROWS, ROWS, ROWS, -LARGEST_SUM, LARGEST_SUM]),
        ],
        end: None,
    }
}

/// The same where total one is not reported in every second row, and total two in
/// every fourth.
fn ends_in_part() -> Figure {
    let in_part = |place: usize| {
        FROM_END_TO_END.map(|[first, second]| {
            [
                not_reported_at_every(2, place, first),
                not_reported_at_every(4, place, second),
            ]
        })
    };
    Figure {
        start: full_region(1, 3, in_part),
        calls: vec![
            roll_up(3, 1, &[0, ROWS, HALF_ROWS, MOST_ROWS, HALF_SUM, -MOST_SUM]),
            roll_up(2, 1, &[0, ROWS, HALF_ROWS, MOST_ROWS, -HALF_SUM, MOST_SUM]),
        ],
        end: None,
    }
}

/// Not reported at every place that the step comes to, else the total.
fn not_reported_at_every(step: usize, place: usize, total: i64) -> i64 {
    if place.is_multiple_of(step) {
        NOT_REPORTED
    } else {
        total
    }
}

/// A block with a total not reported is loaded, read and saved again as it is.
fn loaded_block() -> Figure {
    Figure {
        start: Lent {
            table: Table::fresh(1),
            record: VersionRecord::new(2, NO_RUN, 1, 0),
        },
        calls: vec![
            (load_of(&[SAVED_SLOT]), Gives::Numbers(vec![0])),
            read(2, 0, &[0, 1, 1, 19_961_014, 10_000, NOT_REPORTED]),
            roll_up(2, 1, &[0, 1, 1, 0, 10_000]),
            (Call::SaveBlock { number: 1 }, Gives::Check(CHECK)),
        ],
        end: Some(SAVED_SLOT.to_vec()),
    }
}
