//! A case: what is lent at its start, and the calls made on it in order.

use crate::model::call::{Call, Lent};

#[derive(Clone, PartialEq, Eq, Debug)]
pub struct Case {
    pub start: Lent,
    pub calls: Vec<Call>,
}

impl Case {
    /// Whether the case is a history of demand 3: a fresh table and record.
    pub fn starts_fresh(&self) -> bool {
        let table = &self.start.table;
        table.slots().is_ok()
            && table.words.iter().all(|&word| word == 0)
            && self.start.record.is_fresh()
    }
}
