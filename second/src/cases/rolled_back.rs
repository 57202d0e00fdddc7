//! Figures for the second part of request 4: a run that is rolled back.

use crate::cases::ends::{full_region, in_the_run};
use crate::cases::figure::{Figure, Gives, begin, commit, delete, put, read, read_key, roll_up};
use crate::cases::figures::figure_4;
use crate::model::call::{Call, Lent};
use crate::model::record::{A_RUN, LARGEST_VERSION, NO_RUN, RECORD_WORDS, VersionRecord};
use crate::model::slot::{NOT_REPORTED, SLOT_WORDS};
use crate::model::table::{MOST_SLOTS, MOST_WORDS, Table};

/// The rows of the largest table.
const ROWS: i64 = MOST_SLOTS as i64;

const ZEROS: [i64; SLOT_WORDS] = [0; SLOT_WORDS];

/// The source's Figure 4 after Figure 5's changes in run 5 and their roll back.
const FIGURE_5_ROLLED_BACK: [[i64; SLOT_WORDS]; 5] = [
    [4, 1, 1, 19_961_014, 10_000, 0, 0, 0],
    [4, 1, 1, 19_961_015, 1_500, 0, 0, 0],
    [4, 1, 2, 19_961_014, 12_000, 0, 0, 0],
    ZEROS,
    ZEROS,
];

/// Each way that a slot can stand in run 4, at current 3.
const EVERY_WAY: [[i64; SLOT_WORDS]; 7] = [
    [2, 1, 1, 1, 10, 11, 0, 0],
    [3, 2, 2, 2, 20, 21, 22, 23],
    [3, 3, 3, 3, 30, 31, 32, 33],
    [4, 1, 4, 4, 40, 41, 0, 0],
    [4, 2, 5, 5, 50, 51, 52, 53],
    [4, 3, 6, 6, 60, 61, 62, 63],
    ZEROS,
];

/// The same after the roll back: rows of older runs stay as they are.
const EVERY_WAY_ROLLED_BACK: [[i64; SLOT_WORDS]; 7] = [
    [2, 1, 1, 1, 10, 11, 0, 0],
    [3, 2, 2, 2, 20, 21, 22, 23],
    [3, 3, 3, 3, 30, 31, 32, 33],
    ZEROS,
    [3, 1, 5, 5, 52, 53, 0, 0],
    [3, 1, 6, 6, 62, 63, 0, 0],
    ZEROS,
];

/// Slots that are not well formed at current 3 in run 4: of the run, of an older run,
/// of a later run, and empty with a word in it.
const BROKEN: [[i64; SLOT_WORDS]; 4] = [
    [4, 1, 7, 7, 70, 71, 72, 73],
    [3, 1, 7, 7, 70, 71, 72, 73],
    [5, 2, 7, 7, 70, 71, 72, 73],
    [0, 0, 0, 0, 0, 0, 0, 1],
];

/// Records with which a roll back is refused 2.
const REFUSED_RECORDS: [[i64; RECORD_WORDS]; 4] = [
    [3, A_RUN, 2, 0],
    [3, A_RUN, 4, 0],
    [3, 2, 3, 0],
    [LARGEST_VERSION, A_RUN, LARGEST_VERSION, 0],
];

/// Table lengths with which a roll back is refused 1.
const REFUSED_LENGTHS: [usize; 4] = [0, 1, SLOT_WORDS + 1, MOST_WORDS + SLOT_WORDS];

pub fn figures() -> Vec<Figure> {
    let mut figures = vec![
        figure_5(),
        every_way(),
        every_change(),
        nothing_done(),
        slot_taken_from_another(),
        room_again(),
        same_number(),
        not_reported(),
        largest_number(),
        largest_table(),
        no_run(),
        headers(),
    ];
    figures.extend(BROKEN.map(|slot| broken(&[&EVERY_WAY[..], &[slot]].concat())));
    figures.extend(BROKEN.map(|slot| broken(&[&[slot], &EVERY_WAY[..]].concat())));
    figures.extend(REFUSED_RECORDS.map(refused_record));
    figures.extend(REFUSED_LENGTHS.map(refused_length));
    figures
}

fn roll_back(gives: &[i64]) -> (Call, Gives) {
    (Call::RollBack, Gives::Numbers(gives.to_vec()))
}

/// An open of a session, by which the record is seen to be these words.
fn open_with(words: [i64; RECORD_WORDS]) -> (Call, Gives) {
    (Call::Open, Gives::Record(words))
}

fn lent(slots: &[[i64; SLOT_WORDS]], record: [i64; RECORD_WORDS]) -> Lent {
    Lent {
        table: Table {
            words: slots.concat(),
        },
        record: VersionRecord { words: record },
    }
}

/// What session 4 reads stays, session 3 stays expired, and run 5 begins again.
fn figure_5() -> Figure {
    Figure {
        start: figure_4(),
        calls: vec![
            begin(5),
            put(1, 19_961_016, [11_000, 0], &[0, 3]),
            put(3, 19_961_013, [6_000, 0], &[0, 4]),
            put(1, 19_961_014, [10_200, 0], &[0, 0]),
            delete(2, 19_961_014, &[0, 2]),
            roll_up(4, 1, &[0, 2, 2, 2, 11_500]),
            roll_back(&[0, 4]),
            open_with([4, NO_RUN, 4, 0]),
            read(4, 0, &[0, 1, 1, 19_961_014, 10_000]),
            read(4, 1, &[0, 1, 1, 19_961_015, 1_500]),
            read(4, 2, &[0, 1, 2, 19_961_014, 12_000]),
            read(4, 3, &[0]),
            read(4, 4, &[0]),
            roll_up(4, 1, &[0, 2, 2, 2, 11_500]),
            read(3, 0, &[4]),
            read_key(3, 3, 19_961_013, &[4]),
            roll_up(3, 1, &[4]),
            begin(5),
            open_with([4, A_RUN, 4, 0]),
            read(3, 0, &[4]),
        ],
        end: Some(FIGURE_5_ROLLED_BACK.concat()),
    }
}

fn every_way() -> Figure {
    Figure {
        start: lent(&EVERY_WAY, [3, A_RUN, 3, 9]),
        calls: vec![
            roll_up(3, 5, &[0, 1, 1, 1, 52, 53]),
            roll_back(&[0, 3]),
            open_with([3, NO_RUN, 3, 9]),
            roll_up(3, 5, &[0, 1, 1, 1, 52, 53]),
            read(3, 4, &[0, 1, 5, 5, 52, 53]),
            read(3, 5, &[0, 1, 6, 6, 62, 63]),
            read(2, 4, &[4]),
        ],
        end: Some(EVERY_WAY_ROLLED_BACK.concat()),
    }
}

/// Rows of run 2 at current 3, and a run that inserts one, updates one, deletes one,
/// deletes one and puts it again, puts one and deletes it again, and puts a row and
/// then deletes it that was there before.
fn every_change() -> Figure {
    let end = [
        [3, 1, 1, 1, 10, 0, 0, 0],
        [3, 1, 2, 2, 20, 0, 0, 0],
        [3, 1, 3, 3, 30, 0, 0, 0],
        [3, 1, 4, 4, 40, 0, 0, 0],
        [2, 1, 5, 5, 50, 0, 0, 0],
        ZEROS,
        ZEROS,
    ];
    Figure {
        start: Lent::fresh(end.len()),
        calls: vec![
            begin(2),
            put(1, 1, [10, 0], &[0, 0]),
            put(2, 2, [20, 0], &[0, 1]),
            put(3, 3, [30, 0], &[0, 2]),
            put(4, 4, [40, 0], &[0, 3]),
            put(5, 5, [50, 0], &[0, 4]),
            commit(2),
            begin(3),
            commit(3),
            begin(4),
            put(1, 1, [11, 0], &[0, 0]),
            put(1, 1, [12, 0], &[0, 0]),
            delete(2, 2, &[0, 1]),
            delete(3, 3, &[0, 2]),
            put(3, 3, [31, 0], &[0, 2]),
            put(4, 4, [41, 0], &[0, 3]),
            delete(4, 4, &[0, 3]),
            put(6, 6, [60, 0], &[0, 5]),
            put(7, 7, [70, 0], &[0, 6]),
            delete(7, 7, &[0, 6]),
            roll_back(&[0, 3]),
        ],
        end: Some(end.concat()),
    }
}

/// No word of the table is altered, and yet session 3 stays expired.
fn nothing_done() -> Figure {
    Figure {
        start: figure_4(),
        calls: vec![
            read(3, 3, &[0, 1, 3, 19_961_013, 8_000]),
            begin(5),
            roll_back(&[0, 4]),
            open_with([4, NO_RUN, 4, 0]),
            read(3, 3, &[4]),
            roll_back(&[8]),
            begin(5),
            roll_back(&[0, 4]),
        ],
        end: Some(figure_4().table.words),
    }
}

/// The slot of a row that an older run deleted is emptied, whether another key took it
/// or its own came back.
fn slot_taken_from_another() -> Figure {
    let start = [[2, 3, 1, 1, 10, 0, 10, 0], [2, 3, 2, 2, 20, 0, 20, 0]];
    Figure {
        start: lent(&start, [2, NO_RUN, 1, 0]),
        calls: vec![
            begin(3),
            put(3, 3, [30, 0], &[0, 0]),
            put(2, 2, [21, 0], &[0, 1]),
            read(2, 1, &[0]),
            roll_back(&[0, 2]),
            read(2, 0, &[0]),
            read(2, 1, &[0]),
            read(1, 0, &[4]),
        ],
        end: Some([ZEROS, ZEROS].concat()),
    }
}

/// A roll back makes room in a full table: for another key, and for the same again.
fn room_again() -> Figure {
    Figure {
        start: Lent::fresh(2),
        calls: vec![
            begin(2),
            put(1, 1, [10, 0], &[0, 0]),
            commit(2),
            begin(3),
            put(2, 2, [20, 0], &[0, 1]),
            put(3, 3, [30, 0], &[12]),
            roll_back(&[0, 2]),
            begin(3),
            delete(2, 2, &[11]),
            put(3, 3, [30, 0], &[0, 1]),
            put(2, 2, [20, 0], &[12]),
            roll_back(&[0, 2]),
            begin(3),
            put(2, 2, [21, 0], &[0, 1]),
            commit(3),
            read(2, 1, &[0]),
            read(3, 1, &[0, 1, 2, 2, 21]),
        ],
        end: None,
    }
}

/// The next run has the same number and starts from the rows as they were. Its commit
/// leaves the session open that was current at the roll back.
fn same_number() -> Figure {
    Figure {
        start: Lent::fresh(1),
        calls: vec![
            begin(2),
            put(1, 1, [10, 0], &[0, 0]),
            commit(2),
            begin(3),
            put(1, 1, [99, 0], &[0, 0]),
            read(1, 0, &[4]),
            roll_back(&[0, 2]),
            read(1, 0, &[4]),
            read(2, 0, &[0, 1, 1, 1, 10]),
            begin(3),
            read(1, 0, &[4]),
            put(1, 1, [11, 0], &[0, 0]),
            commit(3),
            open_with([3, NO_RUN, 2, 0]),
            read(1, 0, &[4]),
            read(2, 0, &[0, 1, 1, 1, 10]),
            read(3, 0, &[0, 1, 1, 1, 11]),
        ],
        end: Some(vec![3, 2, 1, 1, 11, 0, 10, 0]),
    }
}

fn not_reported() -> Figure {
    let start = [
        [3, 2, 1, 1, 5, 6, NOT_REPORTED, 7],
        [3, 3, 1, 2, 5, 6, 8, NOT_REPORTED],
    ];
    let end = [
        [2, 1, 1, 1, NOT_REPORTED, 7, 0, 0],
        [2, 1, 1, 2, 8, NOT_REPORTED, 0, 0],
    ];
    Figure {
        start: lent(&start, [2, A_RUN, 2, 0]),
        calls: vec![
            roll_up(2, 1, &[0, 2, 1, 1, 8, 7]),
            roll_back(&[0, 2]),
            roll_up(2, 1, &[0, 2, 1, 1, 8, 7]),
        ],
        end: Some(end.concat()),
    }
}

fn largest_number() -> Figure {
    let current = LARGEST_VERSION - 1;
    Figure {
        start: lent(
            &[[LARGEST_VERSION, 2, 1, 1, 5, 6, 7, 8]],
            [current, A_RUN, current, 0],
        ),
        calls: vec![
            roll_back(&[0, current]),
            open_with([current, NO_RUN, current, 0]),
            begin(LARGEST_VERSION),
        ],
        end: Some(vec![current, 1, 1, 1, 7, 8, 0, 0]),
    }
}

/// Every row of the largest table gets its old totals back.
fn largest_table() -> Figure {
    let start = in_the_run(full_region(1, 4, |_| [[5, 6], [7, 8]]), 4);
    let end = (0..ROWS).flat_map(|two| [3, 1, 1, two, 7, 8, 0, 0]);
    Figure {
        start,
        calls: vec![
            roll_up(3, 1, &[0, ROWS, ROWS, ROWS, 7 * ROWS, 8 * ROWS]),
            roll_back(&[0, 3]),
            roll_up(3, 1, &[0, ROWS, ROWS, ROWS, 7 * ROWS, 8 * ROWS]),
        ],
        end: Some(end.collect()),
    }
}

/// With no run it is refused 8, before it looks at any slot.
fn no_run() -> Figure {
    Figure {
        start: lent(&BROKEN, [3, NO_RUN, 2, 0]),
        calls: vec![roll_back(&[8]), open_with([3, NO_RUN, 2, 0])],
        end: Some(BROKEN.concat()),
    }
}

/// A broken slot anywhere has it refused before anything is written.
fn broken(slots: &[[i64; SLOT_WORDS]]) -> Figure {
    Figure {
        start: lent(slots, [3, A_RUN, 3, 0]),
        calls: vec![roll_back(&[6]), open_with([3, A_RUN, 3, 0])],
        end: Some(slots.concat()),
    }
}

fn refused_record(words: [i64; RECORD_WORDS]) -> Figure {
    Figure {
        start: lent(&EVERY_WAY, words),
        calls: vec![roll_back(&[2]), open_with(words)],
        end: Some(EVERY_WAY.concat()),
    }
}

fn refused_length(length: usize) -> Figure {
    let words = vec![0; length];
    let mut start = lent(&[], [3, A_RUN, 3, 0]);
    start.table.words = words.clone();
    Figure {
        start,
        calls: vec![roll_back(&[1]), open_with([3, A_RUN, 3, 0])],
        end: Some(words),
    }
}

/// The checks of block 0 of eight slots where a roll back left nothing open but the
/// current version.
fn headers() -> Figure {
    Figure {
        start: Lent::fresh(8),
        calls: vec![
            begin(2),
            roll_back(&[0, 1]),
            (Call::SaveHeader, Gives::Check(10)),
            begin(2),
            commit(2),
            begin(3),
            (Call::SaveHeader, Gives::Numbers(vec![7])),
            roll_back(&[0, 2]),
            (Call::SaveHeader, Gives::Check(12)),
        ],
        end: None,
    }
}
