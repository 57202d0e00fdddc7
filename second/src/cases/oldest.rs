//! Figures for the first part of request 4: the oldest open version, in the record and
//! in the header.

use crate::cases::figure::{Figure, Gives, begin, commit, put, read, read_key, roll_up};
use crate::cases::figures::figure_4;
use crate::model::block::{Block, Header, NO_OLDEST};
use crate::model::call::{Call, Lent};
use crate::model::record::{A_RUN, LARGEST_VERSION, NO_RUN, RECORD_WORDS, VersionRecord};
use crate::model::table::Table;

/// The slots of the tables and headers here.
const SLOTS: usize = 8;

/// The word of a record that no call looks at.
const REST: i64 = -7;

/// Records that are not refused.
const LAWFUL_RECORDS: [[i64; RECORD_WORDS]; 8] = [
    [1, NO_RUN, 1, REST],
    [1, A_RUN, 1, REST],
    [2, NO_RUN, 1, REST],
    [2, NO_RUN, 2, REST],
    [2, A_RUN, 2, REST],
    [LARGEST_VERSION, NO_RUN, LARGEST_VERSION - 1, REST],
    [LARGEST_VERSION, NO_RUN, LARGEST_VERSION, REST],
    [LARGEST_VERSION - 1, A_RUN, LARGEST_VERSION - 1, REST],
];

/// Records that are refused for their oldest open version alone.
const REFUSED_RECORDS: [[i64; RECORD_WORDS]; 14] = [
    [1, NO_RUN, 0, REST],
    [1, NO_RUN, 2, REST],
    [1, A_RUN, 0, REST],
    [1, A_RUN, 2, REST],
    [2, NO_RUN, 0, REST],
    [2, A_RUN, 1, REST],
    [4, NO_RUN, 2, REST],
    [4, NO_RUN, 5, REST],
    [4, NO_RUN, 1, REST],
    [4, NO_RUN, -4, REST],
    [4, A_RUN, 3, REST],
    [4, A_RUN, 5, REST],
    [4, NO_RUN, i64::MIN, REST],
    [4, NO_RUN, i64::MAX, REST],
];

/// The current version of a header, its word 3, and the oldest open version that it is
/// read as.
const READ_AS: [(i64, i64, i64); 10] = [
    (1, NO_OLDEST, 1),
    (1, 1, 1),
    (2, NO_OLDEST, 1),
    (2, 1, 1),
    (2, 2, 2),
    (5, NO_OLDEST, 4),
    (5, 4, 4),
    (5, 5, 5),
    (LARGEST_VERSION, NO_OLDEST, LARGEST_VERSION - 1),
    (LARGEST_VERSION, LARGEST_VERSION, LARGEST_VERSION),
];

/// The current version of a header, and a word 3 that is not allowed with it.
const NOT_ALLOWED: [(i64, i64); 8] = [
    (1, 2),
    (1, u32::MAX as i64),
    (2, 3),
    (5, 3),
    (5, 6),
    (5, 1),
    (5, u32::MAX as i64),
    (LARGEST_VERSION, 1),
];

pub fn figures() -> Vec<Figure> {
    let mut figures = vec![expiry(), figure_4_at_current(), headers_read(), headers()];
    figures.extend(LAWFUL_RECORDS.map(lawful_record));
    figures.extend(REFUSED_RECORDS.map(refused_record));
    figures
}

fn with_record(words: [i64; RECORD_WORDS]) -> Lent {
    Lent {
        table: Table::fresh(SLOTS),
        record: VersionRecord { words },
    }
}

fn lawful_record(words: [i64; RECORD_WORDS]) -> Figure {
    let [current, ..] = words;
    Figure {
        start: with_record(words),
        calls: vec![
            (Call::Open, Gives::Numbers(vec![0, current])),
            (Call::Open, Gives::Record(words)),
        ],
        end: None,
    }
}

/// The record is refused by every call that looks at one, and stays as it is.
fn refused_record(words: [i64; RECORD_WORDS]) -> Figure {
    let [current, ..] = words;
    let refused = |call: Call| (call, Gives::Numbers(vec![2]));
    Figure {
        start: with_record(words),
        calls: vec![
            refused(Call::Open),
            refused(Call::Begin),
            refused(Call::Commit),
            read(current, 0, &[2]),
            read_key(current, 1, 1, &[2]),
            roll_up(current, 1, &[2]),
            put(1, 1, [1, 1], &[2]),
            refused(Call::SaveHeader),
            refused(Call::SaveBlock { number: 1 }),
            (Call::Open, Gives::Record(words)),
        ],
        end: Some(vec![0; with_record(words).table.words.len()]),
    }
}

/// Begin sets the oldest open version to the current one, and commit keeps it.
fn expiry() -> Figure {
    Figure {
        start: with_record([1, NO_RUN, 1, REST]),
        calls: vec![
            (Call::Begin, Gives::Record([1, A_RUN, 1, REST])),
            read(1, 0, &[0]),
            (Call::Commit, Gives::Record([2, NO_RUN, 1, REST])),
            read(1, 0, &[0]),
            read(2, 0, &[0]),
            (Call::Begin, Gives::Record([2, A_RUN, 2, REST])),
            read(1, 0, &[4]),
            read(2, 0, &[0]),
            (Call::Commit, Gives::Record([3, NO_RUN, 2, REST])),
            read(1, 0, &[4]),
            read(2, 0, &[0]),
            read(3, 0, &[0]),
        ],
        end: None,
    }
}

/// The source's Figure 4 where the current version is the oldest that is open: session
/// 3 is refused though no run is active.
fn figure_4_at_current() -> Figure {
    let mut start = figure_4();
    start.record = VersionRecord::new(4, NO_RUN, 4, REST);
    Figure {
        start,
        calls: vec![
            read(3, 0, &[4]),
            read_key(3, 1, 19_961_014, &[4]),
            roll_up(3, 1, &[4]),
            read(4, 0, &[0, 1, 1, 19_961_014, 10_000]),
            roll_up(4, 1, &[0, 2, 2, 2, 11_500]),
        ],
        end: Some(figure_4().table.words),
    }
}

fn load_header(current: i64, oldest: i64) -> Call {
    let block = Block::of_header(Header {
        slots: SLOTS,
        current,
        oldest,
    });
    Call::LoadHeader {
        block: block.bytes(),
    }
}

/// What each word 3 is read as, a 0 in a header of before among them, or refused for.
fn headers_read() -> Figure {
    let read_as = READ_AS.map(|(current, word, oldest)| {
        let numbers = vec![0, SLOTS as i64, current, oldest];
        (load_header(current, word), Gives::Numbers(numbers))
    });
    let not_allowed =
        NOT_ALLOWED.map(|(current, word)| (load_header(current, word), Gives::Numbers(vec![16])));
    Figure {
        start: Lent::fresh(SLOTS),
        calls: read_as.into_iter().chain(not_allowed).collect(),
        end: None,
    }
}

/// The checks of block 0 of eight slots: 8, the current version and the oldest.
fn headers() -> Figure {
    Figure {
        start: Lent::fresh(SLOTS),
        calls: vec![
            (Call::SaveHeader, Gives::Check(10)),
            begin(2),
            commit(2),
            (Call::SaveHeader, Gives::Check(11)),
            begin(3),
            commit(3),
            (Call::SaveHeader, Gives::Check(13)),
        ],
        end: None,
    }
}
