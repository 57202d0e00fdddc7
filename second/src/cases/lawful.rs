//! Lawful histories: runs, sessions and saves from a fresh table and a fresh
//! record, and tables brought from one record to another by their blocks.

use crate::cases::arguments::Arguments;
use crate::cases::case::Case;
use crate::cases::edges;
use crate::cases::random::Random;
use crate::model::block;
use crate::model::call::{Answer, Call, KINDS, Kind, Lent};
use crate::model::outcome::make_call;
use crate::model::record::{NO_RUN, VersionRecord};
use crate::model::table::{MOST_SLOTS, Table};

const ODD_ARGUMENTS: usize = 3;
const MOST_FEW_SLOTS: usize = 4;
const MOST_SMALL_SLOTS: usize = 16;
const MOST_MIDDLE_SLOTS: usize = 64;
const MOST_CALLS: usize = 160;
const MOST_CALLS_ON_LARGE: usize = 20;

/// The most slots of a table, by weight.
const SIZES: [(usize, usize); 4] = [
    (5, MOST_SLOTS),
    (45, MOST_MIDDLE_SLOTS),
    (450, MOST_SMALL_SLOTS),
    (500, MOST_FEW_SLOTS),
];

/// There may be so many keys more than slots.
const MOST_KEYS_TOO_MANY: usize = 4;

const MAY_LOAD_PERCENT: usize = 30;
const GO_ON_WITH_A_SCAN_PERCENT: usize = 40;
const SCAN_THE_VERSION_BEFORE_PERCENT: usize = 30;
const ROLL_BACK_BEFORE_A_SAVE_PERCENT: usize = 30;

#[derive(Clone, Copy)]
enum Next {
    Call(Kind),
    /// a session begins to read each slot once
    Scan,
    Save,
    /// loads what was saved last
    Load,
    AnyKind,
}

const IN_A_RUN: [(usize, Next); 10] = [
    (40, Next::Call(Kind::Put)),
    (17, Next::Call(Kind::Delete)),
    (8, Next::Call(Kind::ReadKey)),
    (4, Next::Call(Kind::ReadSlot)),
    (6, Next::Call(Kind::RollUp)),
    (6, Next::Call(Kind::Commit)),
    (3, Next::Call(Kind::RollBack)),
    (1, Next::Call(Kind::Open)),
    (4, Next::Scan),
    (3, Next::AnyKind),
];

const BETWEEN_RUNS: [(usize, Next); 9] = [
    (25, Next::Call(Kind::Begin)),
    (8, Next::Call(Kind::ReadKey)),
    (4, Next::Call(Kind::ReadSlot)),
    (6, Next::Call(Kind::RollUp)),
    (1, Next::Call(Kind::Open)),
    (6, Next::Scan),
    (3, Next::Save),
    (3, Next::Load),
    (3, Next::AnyKind),
];

/// A history as it grows.
struct History {
    lent: Lent,
    arguments: Arguments,
    calls: Vec<Call>,
    /// the reads that are left of a session's scan
    scan: Vec<Call>,
    /// the loads that bring back what was saved last, the header's first
    saved: Vec<Call>,
    may_load: bool,
}

/// A history from a fresh table and a fresh record.
pub fn case(random: &mut Random) -> Case {
    let slots = slot_count(random);
    let start = Lent {
        table: Table::fresh(slots),
        record: VersionRecord::fresh(edges::word(random)),
    };
    let most_calls = if slots > MOST_MIDDLE_SLOTS {
        MOST_CALLS_ON_LARGE
    } else {
        MOST_CALLS
    };
    let mut history = History::new(random, &start);
    history.grow(random, most_calls);
    Case {
        start,
        calls: history.calls,
    }
}

/// A case that loads the blocks of a table into another of that size, with the record
/// that the header brings, and goes on from there. The model must give the same words.
pub fn reloaded_case(random: &mut Random) -> Case {
    let slots = 1 + random.below(MOST_SMALL_SLOTS);
    let mut source = History::new(random, &Lent::fresh(slots));
    source.grow(random, MOST_CALLS);
    source.push(if random.percent(ROLL_BACK_BEFORE_A_SAVE_PERCENT) {
        Call::RollBack
    } else {
        Call::Commit
    });
    source.save();
    let words = source.lent.table.words.iter();
    let start = Lent {
        table: Table {
            words: words.map(|_| edges::word(random)).collect(),
        },
        record: record_of(&source),
    };
    let mut history = History::new(random, &start);
    history.arguments.keys = source.arguments.keys;
    source.saved.into_iter().for_each(|load| history.push(load));
    assert_eq!(history.lent, source.lent, "a saved table, loaded");
    history.grow(random, MOST_CALLS_ON_LARGE);
    Case {
        start,
        calls: history.calls,
    }
}

/// The record that the saved header of a history brings.
fn record_of(source: &History) -> VersionRecord {
    match make_call(&source.saved[0], &mut source.lent.clone()) {
        Ok(Answer::Header(header)) => {
            let [.., rest] = source.lent.record.words;
            VersionRecord::new(header.current, NO_RUN, header.oldest, rest)
        }
        other => unreachable!("the header was just saved: {other:?}"),
    }
}

fn slot_count(random: &mut Random) -> usize {
    let most = random.weighted(&SIZES);
    1 + random.below(most)
}

impl History {
    fn new(random: &mut Random, start: &Lent) -> History {
        let slots = start.table.slots().unwrap_or(1);
        let count = 1 + random.below(slots.min(MOST_MIDDLE_SLOTS) + MOST_KEYS_TOO_MANY);
        History {
            lent: start.clone(),
            arguments: Arguments {
                keys: edges::keys(random, count),
                odd: ODD_ARGUMENTS,
            },
            calls: Vec::new(),
            scan: Vec::new(),
            saved: Vec::new(),
            may_load: random.percent(MAY_LOAD_PERCENT),
        }
    }

    /// Makes the call.
    fn push(&mut self, call: Call) {
        // a refused call is part of a history too
        let _ = make_call(&call, &mut self.lent);
        self.calls.push(call);
    }

    fn grow(&mut self, random: &mut Random, most_calls: usize) {
        let length = self.calls.len() + 1 + random.below(most_calls);
        while self.calls.len() < length {
            if random.percent(GO_ON_WITH_A_SCAN_PERCENT)
                && let Some(read) = self.scan.pop()
            {
                self.push(read);
                continue;
            }
            let next = if self.lent.record.says().run_active {
                random.weighted(&IN_A_RUN)
            } else {
                random.weighted(&BETWEEN_RUNS)
            };
            self.step(random, next);
        }
    }

    fn step(&mut self, random: &mut Random, next: Next) {
        match next {
            Next::Call(kind) => self.push_kind(random, kind),
            Next::AnyKind => {
                let kind = random.pick(&KINDS);
                self.push_kind(random, kind);
            }
            Next::Scan => self.begin_scan(random),
            Next::Save => self.save(),
            Next::Load if self.may_load => {
                self.saved
                    .clone()
                    .into_iter()
                    .for_each(|load| self.push(load));
            }
            Next::Load => {}
        }
    }

    fn push_kind(&mut self, random: &mut Random, kind: Kind) {
        let call = self.arguments.call(random, kind, &self.lent);
        let run_active = self.lent.record.says().run_active;
        if kind != Kind::LoadBlock || self.may_load || run_active {
            self.push(call);
        }
    }

    /// Opens a session that is to read each slot once, in any order.
    fn begin_scan(&mut self, random: &mut Random) {
        let slots = self.lent.table.slots().unwrap_or(0) as u64;
        let before = random.percent(SCAN_THE_VERSION_BEFORE_PERCENT);
        let session = self.lent.record.says().current - i64::from(before);
        self.scan = (0..slots)
            .map(|slot| Call::ReadSlot { session, slot })
            .collect();
        random.shuffle(&mut self.scan);
        self.push(Call::Open);
    }

    /// Saves the header and every block, and keeps the loads for later.
    fn save(&mut self) {
        self.saved.clear();
        self.push_save(Call::SaveHeader, |block| Call::LoadHeader { block });
        let last = block::last_number(self.lent.table.slots().unwrap_or(0)) as u64;
        for number in 1..=last {
            let load = |block| Call::LoadBlock { number, block };
            self.push_save(Call::SaveBlock { number }, load);
        }
    }

    /// Makes the save, and keeps the load of what it saved.
    fn push_save(&mut self, save: Call, load: impl FnOnce(Vec<u8>) -> Call) {
        if let Ok(Answer::Saved(block)) = make_call(&save, &mut self.lent) {
            self.saved.push(load(block.bytes()));
        }
        self.calls.push(save);
    }
}
