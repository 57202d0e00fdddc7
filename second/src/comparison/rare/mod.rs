//! The rare cases, each of which must be met: of a put, of a roll-up, of a roll back and
//! the calls after it, of the load of a header, of the slots that a call rests on, and
//! of the record that it looks at.

mod header;
mod past;
mod put;
mod records;
mod roll_back;
mod roll_up;
mod rolled_back;
mod slots;

pub use past::Past;

use crate::comparison::counts::{add_all, shown};
use crate::model::call::{Call, KINDS, Kind, Lent, Outcome};
use header::MetInHeader;
use put::MetByPut;
use records::MetRecord;
use roll_back::MetByRollBack;
use roll_up::MetByRollUp;
use rolled_back::MetRolledBack;
use slots::MetSlots;

/// What a case is called, and whether a call met it.
type RareCase<Met> = (&'static str, fn(&Met) -> bool);

/// What a case is called, the calls that must meet it, and whether one did.
type CaseByKind<Met> = (&'static str, &'static [Kind], fn(&Met) -> bool);

/// A count for each kind of call.
type CountByKind = [u64; KINDS.len()];

/// The calls that a session makes.
const READS: [Kind; 3] = [Kind::ReadSlot, Kind::ReadKey, Kind::RollUp];

/// How often each rare case was met.
#[derive(Clone, Default, Debug)]
pub struct Rare {
    puts: [u64; put::CASES.len()],
    roll_ups: [u64; roll_up::CASES.len()],
    roll_backs: [u64; roll_back::CASES.len()],
    rolled_back: [u64; rolled_back::CASES.len()],
    headers: [u64; header::CASES.len()],
    slots: [CountByKind; slots::CASES.len()],
    records: [CountByKind; records::CASES.len()],
}

impl Rare {
    /// Counts what a call met in what was lent before it, with its outcome, after what
    /// its case had before.
    pub fn count(&mut self, call: &Call, before: &Lent, outcome: &Outcome, past: &Past) {
        let kind = call.kind();
        if let Some(met) = MetByPut::of(call, before, outcome) {
            count_met(&mut self.puts, &put::CASES, &met);
        }
        if let Some(met) = MetByRollUp::of(call, before, outcome) {
            count_met(&mut self.roll_ups, &roll_up::CASES, &met);
        }
        if let Some(met) = MetByRollBack::of(call, before, outcome, past) {
            count_met(&mut self.roll_backs, &roll_back::CASES, &met);
        }
        if let Some(met) = MetRolledBack::of(call, before, outcome, past) {
            count_met(&mut self.rolled_back, &rolled_back::CASES, &met);
        }
        if let Some(met) = MetInHeader::of(call, outcome) {
            count_met(&mut self.headers, &header::CASES, &met);
        }
        if let Some(met) = MetSlots::of(call, before, outcome) {
            count_met_by(kind, &mut self.slots, &slots::CASES, &met);
        }
        if let Some(met) = MetRecord::of(call, before, outcome) {
            count_met_by(kind, &mut self.records, &records::CASES, &met);
        }
    }

    pub fn add(&mut self, other: &Rare) {
        add_all(&mut self.puts, &other.puts);
        add_all(&mut self.roll_ups, &other.roll_ups);
        add_all(&mut self.roll_backs, &other.roll_backs);
        add_all(&mut self.rolled_back, &other.rolled_back);
        add_all(&mut self.headers, &other.headers);
        let slots = self.slots.as_flattened_mut();
        add_all(slots, other.slots.as_flattened());
        let records = self.records.as_flattened_mut();
        add_all(records, other.records.as_flattened());
    }

    /// What was not met.
    pub fn missing(&self) -> Vec<String> {
        [
            not_met("put", &put::CASES, &self.puts),
            not_met("roll-up", &roll_up::CASES, &self.roll_ups),
            not_met("roll back", &roll_back::CASES, &self.roll_backs),
            not_met("after a roll back", &rolled_back::CASES, &self.rolled_back),
            not_met("load header", &header::CASES, &self.headers),
            not_met_by_kind(&slots::CASES, &self.slots),
            not_met_by_kind(&records::CASES, &self.records),
        ]
        .concat()
    }

    pub fn print(&self) {
        println!("rare cases of a put; a table is full that has no slot to take");
        print_met(&put::CASES, &self.puts);
        println!("rare cases of a roll-up");
        print_met(&roll_up::CASES, &self.roll_ups);
        println!("rare cases of a roll back");
        print_met(&roll_back::CASES, &self.roll_backs);
        println!("rare cases after a roll back; current is that at the roll back");
        print_met(&rolled_back::CASES, &self.rolled_back);
        println!("rare cases of a header's word 3, in which nothing else can be wrong");
        print_met(&header::CASES, &self.headers);
        println!("rare cases of a slot that a call rests on");
        print_met_by_kind(&slots::KINDS, &slots::CASES, &self.slots);
        println!("rare cases of a record in which nothing but the oldest can be wrong");
        print_met_by_kind(&records::KINDS, &records::CASES, &self.records);
    }
}

fn count_met<Met>(counts: &mut [u64], cases: &[RareCase<Met>], met: &Met) {
    for (count, (_, is_met)) in counts.iter_mut().zip(cases) {
        *count += u64::from(is_met(met));
    }
}

fn count_met_by<Met>(kind: Kind, counts: &mut [CountByKind], cases: &[CaseByKind<Met>], met: &Met) {
    for (counts, (_, _, is_met)) in counts.iter_mut().zip(cases) {
        counts[kind as usize] += u64::from(is_met(met));
    }
}

fn not_met<Met>(of: &str, cases: &[RareCase<Met>], counts: &[u64]) -> Vec<String> {
    let met = counts.iter().zip(cases);
    met.filter(|&(&count, _)| count == 0)
        .map(|(_, (name, _))| format!("{of}: {name}"))
        .collect()
}

fn not_met_by_kind<Met>(cases: &[CaseByKind<Met>], counts: &[CountByKind]) -> Vec<String> {
    let mut missing = Vec::new();
    for ((name, kinds, _), counts) in cases.iter().zip(counts) {
        let kinds = kinds.iter().filter(|&&kind| counts[kind as usize] == 0);
        missing.extend(kinds.map(|kind| format!("{kind:?}: {name}")));
    }
    missing
}

fn print_met<Met>(cases: &[RareCase<Met>], counts: &[u64]) {
    for (&count, (name, _)) in counts.iter().zip(cases) {
        println!("{}  {name}", shown(count));
    }
}

/// A column is a call.
fn print_met_by_kind<Met>(kinds: &[Kind], cases: &[CaseByKind<Met>], counts: &[CountByKind]) {
    let heads = kinds
        .iter()
        .map(|kind| format!("{:>11}", format!("{kind:?}")));
    println!("{}", heads.collect::<String>());
    for ((name, ..), counts) in cases.iter().zip(counts) {
        let columns = kinds.iter().map(|&kind| shown(counts[kind as usize]));
        let columns = columns.map(|count| format!("{count:>11}"));
        println!("{}  {name}", columns.collect::<String>());
    }
}
