//! Demand 3: the committed databases, followed by accepted changes alone and
//! never read off the table, and what reads and puts must answer by them.

use crate::model::call::{Call, OUT_WORDS, Out};
use crate::model::refusal::Refusal;
use crate::model::slot::{Key, Row, Totals, is_lawful, is_reported};
use std::collections::BTreeMap;
use std::ops::AddAssign;

type Database = BTreeMap<Key, Totals>;

const ACCEPTED: i64 = 0;

/// How much of demand 3 was checked.
#[derive(Clone, Copy, Default, Debug)]
pub struct Tally {
    pub histories: usize,
    pub reads: usize,
    pub expired: usize,
    /// runs that were rolled back
    pub rolled_back: usize,
    /// reads that are expired by no other run than one that was rolled back
    pub stay_expired: usize,
    /// roll-ups that leave out a total that is not reported
    pub left_out: usize,
    /// sessions whose every slot was read
    pub scans: usize,
    /// puts of lawful totals in a run
    pub puts: usize,
    /// puts that were refused as full
    pub full: usize,
    /// puts of a key that a database holds, where there is no room for another
    pub held: usize,
}

/// The databases of one history from a fresh table and a fresh record.
pub struct Followed {
    slots: usize,
    /// database v stands at v − 1
    committed: Vec<Database>,
    running: Option<Database>,
    /// the number of the last run that has begun, though it may be rolled back
    begun: i64,
    /// what each session read first in each slot, by session and then slot
    sights: BTreeMap<i64, BTreeMap<u64, Option<Row>>>,
    tally: Tally,
}

impl Followed {
    pub fn new(slots: usize) -> Followed {
        Followed {
            slots,
            committed: vec![Database::new()],
            running: None,
            begun: 1,
            sights: BTreeMap::new(),
            tally: Tally {
                histories: 1,
                ..Tally::default()
            },
        }
    }

    pub fn tally(&self) -> Tally {
        self.tally
    }

    fn current(&self) -> i64 {
        self.committed.len() as i64
    }

    fn database(&self, session: i64) -> Option<&Database> {
        let index = usize::try_from(session.checked_sub(1)?).ok()?;
        self.committed.get(index)
    }

    /// Takes the library's answer to the next call, or says what is wrong with it.
    pub fn follow(&mut self, call: &Call, out: &Out) -> Result<(), String> {
        match *call {
            Call::Begin if out[0] == ACCEPTED => self.begin(out[1]),
            Call::Commit if out[0] == ACCEPTED => self.commit(out[1]),
            Call::ReadSlot { session, slot } => self.read_slot(session, slot, out),
            Call::ReadKey { session, key } => self.read_key(session, key, out),
            Call::RollUp { session, one } => self.roll_up(session, one, out),
            Call::Put { key, totals } => self.put(key, totals, out),
            Call::Delete { key } if out[0] == ACCEPTED => self.delete(key),
            Call::RollBack => self.roll_back(out),
            _ => Ok(()),
        }
    }

    fn begin(&mut self, run: i64) -> Result<(), String> {
        self.running = self.committed.last().cloned();
        self.begun = run;
        expect(run == self.current() + 1, || {
            format!("run {run} began at version {}", self.current())
        })
    }

    fn commit(&mut self, version: i64) -> Result<(), String> {
        self.committed.extend(self.running.take());
        expect(version == self.current(), || {
            format!("{version} is not the count of committed databases")
        })
    }

    /// In a run it is accepted. It makes no database, though the run has begun.
    fn roll_back(&mut self, out: &Out) -> Result<(), String> {
        if self.running.take().is_none() {
            return expect(out[0] != ACCEPTED, || "a roll back with no run".to_string());
        }
        self.tally.rolled_back += 1;
        let current = self.current();
        expect(*out == version_words(current), || {
            format!("a run at version {current} was rolled back")
        })
    }

    fn delete(&mut self, key: Key) -> Result<(), String> {
        let running = self.running.as_mut().ok_or("a delete with no run")?;
        let live = running.remove(&key).is_some();
        expect(live, || "a delete of a key that is not live".to_string())
    }

    /// The database that the session reads, if the session is a committed version
    /// and the answer is not rightly refused as expired.
    fn readable(&mut self, session: i64, out: &Out) -> Result<Option<Database>, String> {
        let Some(database) = self.database(session).cloned() else {
            return Ok(None);
        };
        let expired = self.begun >= session + 2;
        expect(
            expired == (out[0] == Refusal::SessionExpired.number()),
            || format!("session {session} with run {} begun", self.begun),
        )?;
        self.tally.reads += 1;
        self.tally.expired += usize::from(expired);
        let by_committed = self.current() >= session + 2;
        let stays = expired && !by_committed && self.running.is_none();
        self.tally.stay_expired += usize::from(stays);
        Ok((!expired).then_some(database))
    }

    fn read_key(&mut self, session: i64, key: Key, out: &Out) -> Result<(), String> {
        let Some(database) = self.readable(session, out)? else {
            return Ok(());
        };
        let row = database.get(&key).map(|&totals| Row { key, totals });
        expect(*out == row_words(row), || {
            format!("database {session} has {row:?}")
        })
    }

    fn roll_up(&mut self, session: i64, one: i64, out: &Out) -> Result<(), String> {
        let Some(database) = self.readable(session, out)? else {
            return Ok(());
        };
        let rows = database.iter().filter(|(key, _)| key.one == one);
        let rows: Vec<Totals> = rows.map(|(_, &totals)| totals).collect();
        let leaves_out = rows.iter().flatten().any(|&total| !is_reported(total));
        self.tally.left_out += usize::from(leaves_out);
        let words = roll_up_words(&rows);
        expect(*out == words, || {
            format!("database {session} rolls up to {words:?}")
        })
    }

    fn read_slot(&mut self, session: i64, slot: u64, out: &Out) -> Result<(), String> {
        let Some(database) = self.readable(session, out)? else {
            return Ok(());
        };
        if slot >= self.slots as u64 {
            return Ok(());
        }
        let row = row_of(out)?;
        let sights = self.sights.entry(session).or_default();
        let first = sights.insert(slot, row);
        if let Some(first) = first {
            return expect(first == row, || format!("read as {first:?} before"));
        }
        if sights.len() < self.slots {
            return Ok(());
        }
        self.tally.scans += 1;
        let mut read: Vec<Row> = sights.values().flatten().copied().collect();
        read.sort();
        let rows = database.iter().map(|(&key, &totals)| Row { key, totals });
        expect(rows.eq(read.iter().copied()), || {
            format!("its slots gave {read:?} and database {session} is {database:?}")
        })
    }

    /// In a run, a put of lawful totals is refused as full exactly when both
    /// databases leave no room and neither holds the key. Else it is accepted.
    fn put(&mut self, key: Key, totals: Totals, out: &Out) -> Result<(), String> {
        let (Some(running), Some(current)) = (&mut self.running, self.committed.last()) else {
            return expect(out[0] != ACCEPTED, || "a put with no run".to_string());
        };
        if !is_lawful(totals) {
            return expect(out[0] != ACCEPTED, || {
                "totals that are not lawful".to_string()
            });
        }
        let keys = count_keys(running, current);
        let no_room = keys == self.slots;
        let held = running.contains_key(&key) || current.contains_key(&key);
        let full = no_room && !held;
        self.tally.puts += 1;
        self.tally.full += usize::from(full);
        self.tally.held += usize::from(no_room && held);
        let right = if full {
            Refusal::NoSlotToTake.number()
        } else {
            ACCEPTED
        };
        expect(out[0] == right, || {
            format!("both databases hold {keys} keys, of {} slots", self.slots)
        })?;
        if !full {
            running.insert(key, totals);
        }
        Ok(())
    }
}

impl AddAssign for Tally {
    fn add_assign(&mut self, other: Tally) {
        self.histories += other.histories;
        self.reads += other.reads;
        self.expired += other.expired;
        self.rolled_back += other.rolled_back;
        self.stay_expired += other.stay_expired;
        self.left_out += other.left_out;
        self.scans += other.scans;
        self.puts += other.puts;
        self.full += other.full;
        self.held += other.held;
    }
}

/// The number of keys that two databases hold together.
fn count_keys(one: &Database, other: &Database) -> usize {
    let beside = other.keys().filter(|key| !one.contains_key(key));
    one.len() + beside.count()
}

fn expect(right: bool, because: impl FnOnce() -> String) -> Result<(), String> {
    if right { Ok(()) } else { Err(because()) }
}

/// What a roll-up of the rows leaves: how many there are, how many of them reported
/// total one and how many total two, and the sums of what they reported.
fn roll_up_words(rows: &[Totals]) -> Out {
    let [first, second] = [0, 1].map(|index| reported(rows, index));
    let counts = [rows.len(), first.len(), second.len()];
    let [rows, reported_first, reported_second] = counts.map(|count| count as i64);
    let [sum_first, sum_second] = [first, second].map(|totals| totals.iter().sum());
    [
        ACCEPTED,
        rows,
        reported_first,
        reported_second,
        sum_first,
        sum_second,
        0,
        0,
    ]
}

/// The total with this index, of the rows that reported it.
fn reported(rows: &[Totals], index: usize) -> Vec<i64> {
    let totals = rows.iter().map(|totals| totals[index]);
    totals.filter(|&total| is_reported(total)).collect()
}

/// What an accepted call leaves that answers a version.
fn version_words(version: i64) -> Out {
    [ACCEPTED, version, 0, 0, 0, 0, 0, 0]
}

fn row_words(row: Option<Row>) -> Out {
    match row {
        None => [0; OUT_WORDS],
        Some(Row { key, totals }) => [0, 1, key.one, key.two, totals[0], totals[1], 0, 0],
    }
}

/// The row that an accepted read answered.
fn row_of(out: &Out) -> Result<Option<Row>, String> {
    match *out {
        [0, 0, 0, 0, 0, 0, 0, 0] => Ok(None),
        [0, 1, one, two, first, second, 0, 0] => Ok(Some(Row {
            key: Key { one, two },
            totals: [first, second],
        })),
        _ => Err("neither a row nor no row".to_string()),
    }
}
