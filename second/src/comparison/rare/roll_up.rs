//! The rare cases of a roll-up that is answered: where rows did not report, and where
//! sums are at the ends.

use crate::comparison::rare::RareCase;
use crate::model::call::{Call, Lent, Outcome};
use crate::model::slot::{LARGEST_TOTAL, NOT_REPORTED, Totals, is_reported};
use crate::model::table::MOST_SLOTS;

/// What a roll-up met.
pub struct MetByRollUp {
    /// the first key word
    one: i64,
    /// the totals of the rows that the session sees
    rows: Vec<Totals>,
}

pub const CASES: [RareCase<MetByRollUp>; 9] = [
    (
        "rows that report one total alone, and three counts that differ",
        |met| met.has_row([false, true]) && met.has_row([true, false]) && met.counts_differ(),
    ),
    ("rows of which none reports anything", |met| {
        !met.rows.is_empty() && met.rows.iter().all(|&totals| reports(totals) == [false; 2])
    }),
    ("a total of 0 beside one that is not reported", |met| {
        met.has_column(|column| column.contains(&0) && column.contains(&NOT_REPORTED))
    }),
    ("no total reported but 0", |met| {
        met.has_column(|column| column.contains(&0) && is_of(column, &[0, NOT_REPORTED]))
    }),
    ("1,024 rows of the largest total", |met| {
        met.is_largest() && met.has_column(|column| is_of(column, &[LARGEST_TOTAL]))
    }),
    ("1,024 rows of the lowest number", |met| {
        met.is_largest() && met.has_column(|column| is_of(column, &[-LARGEST_TOTAL]))
    }),
    (
        "1,024 rows of the largest total, some of them not reported",
        |met| met.is_largest() && met.has_column(|column| is_mixed(column, LARGEST_TOTAL)),
    ),
    (
        "1,024 rows of the lowest number, some of them not reported",
        |met| met.is_largest() && met.has_column(|column| is_mixed(column, -LARGEST_TOTAL)),
    ),
    ("rows whose first key word is that of not reported", |met| {
        met.one == NOT_REPORTED && !met.rows.is_empty()
    }),
];

impl MetByRollUp {
    /// What the call met if it is a roll-up that was answered.
    pub fn of(call: &Call, before: &Lent, outcome: &Outcome) -> Option<MetByRollUp> {
        let (&Call::RollUp { session, one }, Ok(_)) = (call, outcome) else {
            return None;
        };
        let seen = before
            .table
            .all_slots()
            .filter_map(|slot| slot.seen_by(session));
        let rows = seen.filter(|row| row.key.one == one);
        Some(MetByRollUp {
            one,
            rows: rows.map(|row| row.totals).collect(),
        })
    }

    /// Whether there is a row that reports just these of its totals.
    fn has_row(&self, reported: [bool; 2]) -> bool {
        self.rows.iter().any(|&totals| reports(totals) == reported)
    }

    /// Whether the count of rows and of those that report either total all differ.
    fn counts_differ(&self) -> bool {
        let [first, second] = self
            .columns()
            .map(|column| column.iter().filter(|&&total| is_reported(total)).count());
        let rows = self.rows.len();
        rows != first && rows != second && first != second
    }

    /// Whether there are as many rows as there can be.
    fn is_largest(&self) -> bool {
        self.rows.len() == MOST_SLOTS
    }

    /// Total one of each row, and total two.
    fn columns(&self) -> [Vec<i64>; 2] {
        [0, 1].map(|index| self.rows.iter().map(|totals| totals[index]).collect())
    }

    fn has_column(&self, such: fn(&[i64]) -> bool) -> bool {
        self.columns().iter().any(|column| such(column))
    }
}

/// Whether each total is reported.
fn reports(totals: Totals) -> [bool; 2] {
    totals.map(is_reported)
}

/// Whether there is no other total than these.
fn is_of(column: &[i64], totals: &[i64]) -> bool {
    column.iter().all(|total| totals.contains(total))
}

/// Whether there is this total and what is not reported, and no other.
fn is_mixed(column: &[i64], total: i64) -> bool {
    let both = [total, NOT_REPORTED];
    is_of(column, &both) && both.iter().all(|of_both| column.contains(of_both))
}
