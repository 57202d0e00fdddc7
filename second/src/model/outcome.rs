//! What each call answers and writes.

use crate::model::block::{self, Block, Header};
use crate::model::call::{Answer, Call, Lent, Outcome, RollUp};
use crate::model::record::{LARGEST_VERSION, Version};
use crate::model::refusal::Refusal;
use crate::model::slot::{Key, Row, Slot, Totals, is_lawful, is_reported};

/// Makes the call. A refusal leaves what is lent as it was.
pub fn make_call(call: &Call, lent: &mut Lent) -> Outcome {
    match call {
        Call::Open => Ok(Answer::Version(lent.record.version()?.current)),
        Call::Begin => begin(lent),
        Call::Commit => commit(lent),
        Call::ReadSlot { session, slot } => read_slot(lent, *session, *slot),
        Call::ReadKey { session, key } => read_key(lent, *session, *key),
        Call::RollUp { session, one } => roll_up(lent, *session, *one),
        Call::Put { key, totals } => put(lent, *key, *totals),
        Call::Delete { key } => delete(lent, *key),
        Call::RollBack => roll_back(lent),
        Call::SaveHeader => save_header(lent),
        Call::SaveBlock { number } => save_block(lent, *number),
        Call::LoadHeader { block } => load_header(block),
        Call::LoadBlock { number, block } => load_block(lent, *number, block),
    }
}

fn begin(lent: &mut Lent) -> Outcome {
    let version = lent.record.version()?;
    if version.run_active {
        return Err(Refusal::RunActive);
    }
    if version.current == LARGEST_VERSION {
        return Err(Refusal::LargestVersion);
    }
    lent.record.set(Version {
        run_active: true,
        oldest: version.current,
        ..version
    });
    Ok(Answer::Version(version.run()))
}

fn commit(lent: &mut Lent) -> Outcome {
    let version = lent.record.version()?;
    if !version.run_active {
        return Err(Refusal::NoRunActive);
    }
    lent.record.set(Version {
        current: version.run(),
        run_active: false,
        ..version
    });
    Ok(Answer::Version(version.run()))
}

/// Refusals 1 to 4, which every read tests first.
fn admit(lent: &Lent, session: i64) -> Result<Version, Refusal> {
    lent.table.slots()?;
    let version = lent.record.version()?;
    version.admit(session)?;
    Ok(version)
}

fn read_slot(lent: &Lent, session: i64, slot: u64) -> Outcome {
    let version = admit(lent, session)?;
    let slots = lent.table.slots()?;
    if slot >= slots as u64 {
        return Err(Refusal::NoSuchPlace);
    }
    let slot = lent.table.well_formed_slot(slot as usize, version)?;
    Ok(Answer::Row(slot.seen_by(session)))
}

fn read_key(lent: &Lent, session: i64, key: Key) -> Outcome {
    let version = admit(lent, session)?;
    let Some(place) = lent.table.keys_slot(key) else {
        return Ok(Answer::Row(None));
    };
    let slot = lent.table.well_formed_slot(place, version)?;
    Ok(Answer::Row(slot.seen_by(session)))
}

fn roll_up(lent: &Lent, session: i64, one: i64) -> Outcome {
    let version = admit(lent, session)?;
    lent.table.all_well_formed(version)?;
    let seen = lent
        .table
        .all_slots()
        .filter_map(|slot| slot.seen_by(session));
    let mut answer = RollUp::default();
    for row in seen.filter(|row| row.key.one == one) {
        add_row(&mut answer, &row);
    }
    Ok(Answer::RollUp(answer))
}

/// Every row is counted. A total that is not reported stays out of its own sum and
/// count alone.
fn add_row(answer: &mut RollUp, row: &Row) {
    answer.rows += 1;
    for (index, &total) in row.totals.iter().enumerate() {
        if is_reported(total) {
            answer.reported[index] += 1;
            answer.sums[index] += total;
        }
    }
}

/// Refusals 1, 2 and 8, which every change and the roll back test first.
fn running(lent: &Lent) -> Result<Version, Refusal> {
    lent.table.slots()?;
    let version = lent.record.version()?;
    if !version.run_active {
        return Err(Refusal::NoRunActive);
    }
    Ok(version)
}

fn lawful(totals: Totals) -> Result<(), Refusal> {
    if is_lawful(totals) {
        Ok(())
    } else {
        Err(Refusal::UnlawfulTotal)
    }
}

fn put(lent: &mut Lent, key: Key, totals: Totals) -> Outcome {
    let version = running(lent)?;
    lawful(totals)?;
    let (place, slot) = match lent.table.keys_slot(key) {
        Some(place) => {
            let slot = lent.table.well_formed_slot(place, version)?;
            (place, slot.put(version.run(), totals))
        }
        None => {
            let place = lent.table.slot_to_take(version)?;
            (place, Slot::new_insert(version.run(), key, totals))
        }
    };
    lent.table.write(place, &slot);
    Ok(Answer::Slot(place))
}

fn delete(lent: &mut Lent, key: Key) -> Outcome {
    let version = running(lent)?;
    let place = lent.table.keys_slot(key).ok_or(Refusal::KeyNotLive)?;
    let slot = lent.table.well_formed_slot(place, version)?;
    lent.table.write(place, &slot.deleted(version.run())?);
    Ok(Answer::Slot(place))
}

/// Every slot is tested before the first is written.
fn roll_back(lent: &mut Lent) -> Outcome {
    let version = running(lent)?;
    lent.table.all_well_formed(version)?;
    for place in 0..lent.table.slots()? {
        let slot = lent.table.slot(place);
        lent.table.write(place, &slot.rolled_back(version));
    }
    lent.record.set(Version {
        run_active: false,
        ..version
    });
    Ok(Answer::Version(version.current))
}

/// Refusals 1, 2 and 7, which every save and the load of slots test first.
fn between_runs(lent: &Lent) -> Result<Version, Refusal> {
    lent.table.slots()?;
    let version = lent.record.version()?;
    if version.run_active {
        return Err(Refusal::RunActive);
    }
    Ok(version)
}

/// The number of a block that the table has, or refusal 5.
fn block_number(lent: &Lent, number: u64) -> Result<usize, Refusal> {
    let last = block::last_number(lent.table.slots()?) as u64;
    if (1..=last).contains(&number) {
        Ok(number as usize)
    } else {
        Err(Refusal::NoSuchPlace)
    }
}

fn save_header(lent: &Lent) -> Outcome {
    let version = between_runs(lent)?;
    let block = Block::of_header(Header {
        slots: lent.table.slots()?,
        current: version.current,
        oldest: version.oldest,
    });
    Ok(Answer::Saved(Box::new(block)))
}

fn save_block(lent: &Lent, number: u64) -> Outcome {
    let version = between_runs(lent)?;
    let number = block_number(lent, number)?;
    let block = Block::save(&lent.table, number, version)?;
    Ok(Answer::Saved(Box::new(block)))
}

fn load_header(bytes: &[u8]) -> Outcome {
    let header = Block::from_bytes(bytes)?.read_header()?;
    Ok(Answer::Header(header))
}

fn load_block(lent: &mut Lent, number: u64, bytes: &[u8]) -> Outcome {
    let version = between_runs(lent)?;
    let number = block_number(lent, number)?;
    let slots = lent.table.slots()?;
    let read = Block::from_bytes(bytes)?.read_slots(number, slots, version)?;
    for (place, slot) in block::places(number, slots).zip(&read) {
        lent.table.write(place, slot);
    }
    Ok(Answer::Loaded)
}
