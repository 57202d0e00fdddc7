//! What the calls reached: every refusal of every call, every cell of the source's
//! Tables 1 to 4 that a call can come to, and the rare cases.

use crate::comparison::counts::{add_all, shown};
use crate::comparison::rare::{Past, Rare};
use crate::model::call::{Answer, Call, KINDS, Kind, Lent, Outcome};
use crate::model::refusal::{REFUSALS, Refusal};
use crate::model::slot::{DELETE, EMPTY, INSERT, Key, Slot, UPDATE};

const LARGEST_REFUSAL: usize = REFUSALS[REFUSALS.len() - 1] as usize;
const OUTCOMES: usize = LARGEST_REFUSAL + 1;
const ANSWERED: usize = 0;
const OPERATIONS: [i64; 3] = [INSERT, UPDATE, DELETE];
const ROWS: usize = 2;

/// The refusals of each call, by its number; 0 is an answer.
const REACHABLE: [&[usize]; KINDS.len()] = [
    &[0, 2],
    &[0, 2, 7, 9],
    &[0, 2, 8],
    &[0, 1, 2, 3, 4, 5, 6],
    &[0, 1, 2, 3, 4, 6],
    &[0, 1, 2, 3, 4, 6],
    &[0, 1, 2, 6, 8, 12, 13],
    &[0, 1, 2, 6, 8, 11],
    &[0, 1, 2, 6, 8],
    &[0, 1, 2, 7],
    &[0, 1, 2, 5, 6, 7],
    &[0, 14, 15, 16],
    &[0, 1, 2, 5, 7, 14, 15, 16],
];

/// The cells of a decision table by row, as the source has them, and operation.
type Cells = [[u64; OPERATIONS.len()]; ROWS];

#[derive(Clone, Default, Debug)]
pub struct Coverage {
    outcomes: [[u64; OUTCOMES]; KINDS.len()],
    /// Table 1 by slot, by key and by roll-up; Tables 2, 3 and 4; then the roll back
    cells: [Cells; TABLES.len()],
    /// Table 2, no conflicting tuple: an empty slot taken, a deleted one taken
    taken: [u64; 2],
    rare: Rare,
}

/// The tables by the call that comes to them, and the operations of a slot by which
/// it does: a put of a live key comes to Table 3, of a deleted one to Table 2. A roll
/// back, which the source does not have, is counted as a table of its own.
const TABLES: [(&str, Kind, &[i64]); 7] = [
    ("Table 1, read a slot", Kind::ReadSlot, &OPERATIONS),
    ("Table 1, read a key", Kind::ReadKey, &OPERATIONS),
    ("Table 1, roll-up", Kind::RollUp, &OPERATIONS),
    ("Table 2, put", Kind::Put, &[DELETE]),
    ("Table 3, put", Kind::Put, &[INSERT, UPDATE]),
    ("Table 4, delete", Kind::Delete, &OPERATIONS),
    ("roll back", Kind::RollBack, &OPERATIONS),
];

impl Coverage {
    /// Counts a call on what was lent before it, its outcome, and what its case had
    /// before.
    pub fn count(&mut self, call: &Call, before: &Lent, outcome: &Outcome, past: &Past) {
        let number = match outcome {
            Ok(_) => ANSWERED,
            Err(refusal) => refusal.number() as usize,
        };
        self.outcomes[call.kind() as usize][number] += 1;
        match (call, outcome) {
            (Call::ReadSlot { session, slot }, Ok(_)) => {
                let slot = before.table.slot(*slot as usize);
                self.count_cell(call.kind(), &slot, slot.run <= *session);
            }
            (Call::ReadKey { session, key }, Ok(_)) => {
                if let Some(slot) = slot_of(before, *key) {
                    self.count_cell(call.kind(), &slot, slot.run <= *session);
                }
            }
            (Call::RollUp { session, one }, Ok(_)) => {
                for slot in before.table.all_slots().filter(|slot| slot.key.one == *one) {
                    self.count_cell(call.kind(), &slot, slot.run <= *session);
                }
            }
            (Call::Put { key, .. } | Call::Delete { key }, Ok(_) | Err(Refusal::KeyNotLive)) => {
                self.count_change(call.kind(), *key, before, outcome);
            }
            (Call::RollBack, Ok(_)) => {
                let run = before.record.says().run();
                for slot in before.table.all_slots() {
                    self.count_cell(call.kind(), &slot, slot.run < run);
                }
            }
            _ => {}
        }
        self.rare.count(call, before, outcome, past);
    }

    fn count_change(&mut self, kind: Kind, key: Key, before: &Lent, outcome: &Outcome) {
        let run = before.record.says().run();
        match (slot_of(before, key), outcome) {
            (Some(slot), _) => self.count_cell(kind, &slot, slot.run < run),
            (None, Ok(Answer::Slot(place))) => {
                let was_empty = before.table.slot(*place).operation == EMPTY;
                self.taken[usize::from(!was_empty)] += 1;
            }
            _ => {}
        }
    }

    fn count_cell(&mut self, kind: Kind, slot: &Slot, first_row: bool) {
        let table = TABLES
            .iter()
            .position(|(_, of, by)| *of == kind && by.contains(&slot.operation));
        if let Some(table) = table {
            self.cells[table][usize::from(!first_row)][column(slot.operation)] += 1;
        }
    }

    pub fn add(&mut self, other: &Coverage) {
        add_all(
            self.outcomes.as_flattened_mut(),
            other.outcomes.as_flattened(),
        );
        let cells = self.cells.as_flattened_mut().as_flattened_mut();
        add_all(cells, other.cells.as_flattened().as_flattened());
        add_all(&mut self.taken, &other.taken);
        self.rare.add(&other.rare);
    }

    /// What can be reached and was not.
    pub fn missing(&self) -> Vec<String> {
        let mut missing = Vec::new();
        for kind in KINDS {
            for &number in REACHABLE[kind as usize] {
                if self.outcomes[kind as usize][number] == 0 {
                    missing.push(format!("{kind:?}, outcome {number}"));
                }
            }
        }
        for ((name, _, operations), rows) in TABLES.iter().zip(&self.cells) {
            let mut columns = operations.iter().map(|&operation| column(operation));
            if columns.any(|column| rows.iter().any(|row| row[column] == 0)) {
                missing.push(format!("a cell of {name}"));
            }
        }
        if self.taken.contains(&0) {
            missing.push("a way to take a slot in Table 2".to_string());
        }
        missing.extend(self.rare.missing());
        missing
    }

    /// The tables of counts.
    pub fn print(&self) {
        self.print_outcomes();
        self.print_cells();
        self.rare.print();
    }

    /// A column is an outcome: 0 or the refusal's number.
    fn print_outcomes(&self) {
        let mut numbers = vec![ANSWERED];
        numbers.extend(REFUSALS.map(|refusal| refusal as usize));
        let heads = numbers.iter().map(|number| format!("{number:>8}"));
        println!("{:<12}{}", "call", heads.collect::<String>());
        for kind in KINDS {
            let counts = self.outcomes[kind as usize];
            let shown = numbers.iter().map(|&number| shown(counts[number]));
            println!("{:<12}{}", format!("{kind:?}"), shown.collect::<String>());
        }
    }

    fn print_cells(&self) {
        let heads = ["insert", "update", "delete"].map(|name| format!("{name:>8}"));
        println!("cells of the source's tables, the first row and then the second; of a roll");
        println!("back, rows of an older run and then of this one");
        println!("{:<24}{}{}", "", heads.concat(), heads.concat());
        for ((name, ..), rows) in TABLES.iter().zip(&self.cells) {
            let shown = rows.as_flattened().iter().map(|&count| shown(count));
            println!("{name:<24}{}", shown.collect::<String>());
        }
        let [empty, deleted] = self.taken;
        println!("No conflicting tuple: {empty} empty and {deleted} deleted slots taken");
    }
}

/// The column of an operation in a decision table.
fn column(operation: i64) -> usize {
    (operation - INSERT) as usize
}

fn slot_of(before: &Lent, key: Key) -> Option<Slot> {
    let place = before.table.keys_slot(key)?;
    Some(before.table.slot(place))
}
