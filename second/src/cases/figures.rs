//! Document 01's figures, what request 1 says of put, cell by cell, what request 3 says
//! of totals not reported and request 4 of the oldest open version and of a run that is
//! rolled back, by which the model itself is held to the documents.

use crate::cases::case::Case;
use crate::cases::figure::{self, Figure, Gives, begin, commit, delete, held_to, read};
use crate::cases::not_reported;
use crate::cases::oldest;
use crate::cases::rolled_back;
use crate::model::block::{Block, Header};
use crate::model::call::{Call, Lent};
use crate::model::record::{A_RUN, NO_RUN, VersionRecord};
use crate::model::slot::{LARGEST_TOTAL, NOT_REPORTED, SLOT_WORDS};
use crate::model::steps;
use crate::model::table::Table;

/// The source's Figure 4, and an empty slot.
const FIGURE_4: [[i64; SLOT_WORDS]; 5] = [
    [3, 1, 1, 19_961_014, 10_000, 0, 0, 0],
    [4, 1, 1, 19_961_015, 1_500, 0, 0, 0],
    [4, 2, 2, 19_961_014, 12_000, 0, 10_000, 0],
    [4, 3, 3, 19_961_013, 8_000, 0, 8_000, 0],
    [0; SLOT_WORDS],
];

/// Figure 6, with the places that slots are taken in.
const FIGURE_6: [[i64; SLOT_WORDS]; 5] = [
    [5, 2, 1, 19_961_014, 10_200, 0, 10_000, 0],
    [4, 1, 1, 19_961_015, 1_500, 0, 0, 0],
    [5, 3, 2, 19_961_014, 12_000, 0, 12_000, 0],
    [5, 1, 1, 19_961_016, 11_000, 0, 0, 0],
    [5, 1, 3, 19_961_013, 6_000, 0, 0, 0],
];

/// A table in which each cell that a put can come to is met, at current 2 in run 3.
const EVERY_CELL: [[i64; SLOT_WORDS]; 6] = [
    [2, 1, 1, 1, 10, 0, 0, 0],
    [2, 2, 2, 2, 20, 0, 5, 0],
    [2, 3, 3, 3, 30, 0, 30, 0],
    [3, 1, 4, 4, 40, 0, 0, 0],
    [3, 2, 5, 5, 50, 0, 6, 0],
    [3, 3, 6, 6, 60, 0, 7, 0],
];

/// The same after a put of each key: Table 3, but Table 2 in slots 2 and 5.
const EVERY_CELL_PUT: [[i64; SLOT_WORDS]; 6] = [
    [3, 2, 1, 1, 11, 0, 10, 0],
    [3, 2, 2, 2, 21, 0, 20, 0],
    [3, 1, 3, 3, 31, 0, 0, 0],
    [3, 1, 4, 4, 41, 0, 0, 0],
    [3, 2, 5, 5, 51, 0, 6, 0],
    [3, 2, 6, 6, 61, 0, 7, 0],
];

/// A slot that is not well formed at current 2 in run 3: an insert with old totals.
const BROKEN_SLOT: [i64; SLOT_WORDS] = [3, 1, 1, 1, 10, 0, 9, 0];

/// What the program steps reads, and what it prints for it.
pub const SESSIONS: [(&str, &str); 3] = [
    (STEPS_INPUT, STEPS_OUTPUT),
    (BAD_LETTERS_INPUT, BAD_LETTERS_OUTPUT),
    not_reported::SESSION,
];

const STEPS_INPUT: &str = "\
B
P 1 19961014 10000 0
P 1 19961015 1500 0
C
B
P 1 19961014 10200 0
P 1 19961014 10300 0
D 1 19961015
R 2 1 19961014
R 1 1 19961014
C
R 2 1 19961015
R 3 1 19961014
R 3 1 19961015
";

const STEPS_OUTPUT: &str = "\
version 2
slot 0
slot 1
version 2
version 3
slot 0
slot 0
slot 1
row 10000 0
refused 4
version 3
row 1500 0
row 10300 0
none
";

const BAD_LETTERS_INPUT: &str = "\
B
I 1 19961014 10000 0
P 1 19961014 10000 0
U 1 19961014 10200 0
C
R 2 1 19961014
";

const BAD_LETTERS_OUTPUT: &str = "\
version 2
bad line
slot 0
bad line
version 2
row 10000 0
";

/// The cases of the figures, or what the model gives otherwise than the documents.
pub fn cases() -> Result<Vec<Case>, String> {
    for (input, output) in SESSIONS {
        if steps::output(input.as_bytes()) != output {
            return Err(format!("a session of the program steps:\n{input}"));
        }
    }
    let figures = vec![
        reads_of_figure_4(),
        changes_of_figure_5(),
        net_effects(),
        one_slot(),
        totals(),
        every_cell_of_put(),
        tests_of_put(),
        checks(0, 19_971_019),
        checks(-1, 19_971_017),
        checks(NOT_REPORTED, not_reported::CHECK),
    ];
    let of_requests = [
        not_reported::figures(),
        oldest::figures(),
        rolled_back::figures(),
    ];
    let all = figures.into_iter().chain(of_requests.into_iter().flatten());
    all.map(held_to).collect()
}

/// A put whose total two is 0.
fn put(one: i64, two: i64, total: i64, gives: &[i64]) -> (Call, Gives) {
    figure::put(one, two, [total, 0], gives)
}

pub fn figure_4() -> Lent {
    Lent {
        table: Table {
            words: FIGURE_4.concat(),
        },
        record: VersionRecord::new(4, NO_RUN, 3, 0),
    }
}

fn reads_of_figure_4() -> Figure {
    Figure {
        start: figure_4(),
        calls: vec![
            read(3, 0, &[0, 1, 1, 19_961_014, 10_000]),
            read(3, 1, &[0]),
            read(3, 2, &[0, 1, 2, 19_961_014, 10_000]),
            read(3, 3, &[0, 1, 3, 19_961_013, 8_000]),
            read(4, 0, &[0, 1, 1, 19_961_014, 10_000]),
            read(4, 1, &[0, 1, 1, 19_961_015, 1_500]),
            read(4, 2, &[0, 1, 2, 19_961_014, 12_000]),
            read(4, 3, &[0]),
            read(2, 0, &[4]),
            read(5, 0, &[3]),
            begin(5),
            read(3, 0, &[4]),
        ],
        end: Some(FIGURE_4.concat()),
    }
}

fn changes_of_figure_5() -> Figure {
    Figure {
        start: figure_4(),
        calls: vec![
            begin(5),
            put(1, 19_961_016, 11_000, &[0, 3]),
            put(3, 19_961_013, 6_000, &[0, 4]),
            put(1, 19_961_014, 10_200, &[0, 0]),
            delete(2, 19_961_014, &[0, 2]),
        ],
        end: Some(FIGURE_6.concat()),
    }
}

fn net_effects() -> Figure {
    let end = [
        [3, 2, 1, 1, 7, 0, 6, 0],
        [3, 1, 2, 2, 9, 0, 0, 0],
        [0; SLOT_WORDS],
    ];
    Figure {
        start: Lent::fresh(3),
        calls: vec![
            begin(2),
            put(1, 1, 6, &[0, 0]),
            commit(2),
            begin(3),
            delete(1, 1, &[0, 0]),
            put(1, 1, 7, &[0, 0]),
            put(2, 2, 8, &[0, 1]),
            put(2, 2, 9, &[0, 1]),
            put(3, 3, 5, &[0, 2]),
            delete(3, 3, &[0, 2]),
        ],
        end: Some(end.concat()),
    }
}

fn one_slot() -> Figure {
    Figure {
        start: Lent::fresh(1),
        calls: vec![
            begin(2),
            put(1, 1, 6, &[0, 0]),
            commit(2),
            begin(3),
            delete(1, 1, &[0, 0]),
            put(2, 2, 8, &[12]),
            commit(3),
            begin(4),
            put(2, 2, 8, &[0, 0]),
        ],
        end: None,
    }
}

fn totals() -> Figure {
    Figure {
        start: Lent::fresh(1),
        calls: vec![
            begin(2),
            put(1, 1, LARGEST_TOTAL + 1, &[13]),
            put(1, 1, LARGEST_TOTAL, &[0, 0]),
        ],
        end: None,
    }
}

fn in_run_3(slots: &[[i64; SLOT_WORDS]]) -> Lent {
    Lent {
        table: Table {
            words: slots.concat(),
        },
        record: VersionRecord::new(2, A_RUN, 2, 0),
    }
}

/// Each key goes into its own slot by its own cell, though slot 2 is free at first.
/// Once that slot is put the table is full, which stops an absent key alone.
fn every_cell_of_put() -> Figure {
    Figure {
        start: in_run_3(&EVERY_CELL),
        calls: vec![
            put(6, 6, 61, &[0, 5]),
            put(5, 5, 51, &[0, 4]),
            put(4, 4, 41, &[0, 3]),
            put(3, 3, 31, &[0, 2]),
            put(7, 7, 71, &[12]),
            put(2, 2, 21, &[0, 1]),
            put(1, 1, 11, &[0, 0]),
        ],
        end: Some(EVERY_CELL_PUT.concat()),
    }
}

/// The tests of a put in their order: at a broken slot, at an absent key in a full table, and with no run.
fn tests_of_put() -> Figure {
    Figure {
        start: in_run_3(&[BROKEN_SLOT]),
        calls: vec![
            put(1, 1, LARGEST_TOTAL + 1, &[13]),
            put(1, 1, LARGEST_TOTAL, &[6]),
            put(2, 2, LARGEST_TOTAL + 1, &[13]),
            put(2, 2, LARGEST_TOTAL, &[12]),
            commit(3),
            put(1, 1, LARGEST_TOTAL + 1, &[8]),
        ],
        end: Some(BROKEN_SLOT.to_vec()),
    }
}

/// The checks of the blocks of eight slots, one of them with this total two.
fn checks(total_two: i64, check: u32) -> Figure {
    let save = Call::SaveBlock { number: 1 };
    let header = Header {
        slots: 8,
        current: 2,
        oldest: 1,
    };
    Figure {
        start: Lent::fresh(8),
        calls: vec![
            (Call::SaveHeader, Gives::Check(10)),
            (save.clone(), Gives::Check(1)),
            begin(2),
            (Call::SaveHeader, Gives::Numbers(vec![7])),
            (save.clone(), Gives::Numbers(vec![7])),
            figure::put(1, 19_961_014, [10_000, total_two], &[0, 0]),
            commit(2),
            (save, Gives::Check(check)),
            (
                Call::LoadHeader {
                    block: Block::of_header(header).bytes(),
                },
                Gives::Numbers(vec![0, 8, 2, 1]),
            ),
        ],
        end: None,
    }
}
