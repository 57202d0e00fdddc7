//! The host of host.c in Rust. On x86-64, in the repository's root:
//!
//!     bin/archive
//!     rustc --edition 2024 -L target/staticlib -l static=probe -o host examples/host.rs && ./host

// include/probe.h as Rust has it, with the refusal that this host answers to and the total that it gives. A call that takes references alone is safe; beside a pointer the length has to be right.
const EXPIRED: i64 = 4;
const LOWEST_TOTAL: i64 = -1_000_000_000_000_000;
const NOT_REPORTED: i64 = LOWEST_TOTAL - 1;

type Record = [i64; 4];
type Out = [i64; 8];
type Block = [u8; 512];

#[rustfmt::skip]
#[allow(dead_code)]
unsafe extern "C" {
    safe fn probe_open(record: &Record, out: &mut Out);
    safe fn probe_begin(record: &mut Record, out: &mut Out);
    safe fn probe_commit(record: &mut Record, out: &mut Out);
    fn probe_read_slot(table: *const i64, words: usize, record: &Record, session: i64, slot: usize, out: &mut Out);
    fn probe_read_key(table: *const i64, words: usize, record: &Record, session: i64, key1: i64, key2: i64, out: &mut Out);
    fn probe_roll_up(table: *const i64, words: usize, record: &Record, session: i64, key1: i64, out: &mut Out);
    fn probe_put(table: *mut i64, words: usize, record: &Record, key1: i64, key2: i64, total1: i64, total2: i64, out: &mut Out);
    fn probe_delete(table: *mut i64, words: usize, record: &Record, key1: i64, key2: i64, out: &mut Out);
    fn probe_save_header(table: *const i64, words: usize, record: &Record, block: &mut Block, out: &mut Out);
    fn probe_save_block(table: *const i64, words: usize, record: &Record, number: usize, block: &mut Block, out: &mut Out);
    fn probe_load_header(block: *const u8, bytes: usize, out: &mut Out);
    fn probe_load_block(table: *mut i64, words: usize, record: &Record, number: usize, block: *const u8, bytes: usize, out: &mut Out);
}

const WORDS: usize = 64;
const STORE: i64 = 1;
const DAY: i64 = 19961014;

struct Host {
    table: [i64; WORDS],
    record: Record,
}

/// The numbers behind the refusal, or the refusal.
fn answered([refusal, numbers @ ..]: Out) -> Result<[i64; 7], i64> {
    if refusal == 0 { Ok(numbers) } else { Err(refusal) }
}

/// A run that stores a day's total, and the next day's as not reported, and the version that it makes.
fn refresh(host: &mut Host, total: i64) -> Result<i64, i64> {
    let mut out = Out::default();
    probe_begin(&mut host.record, &mut out);
    answered(out)?;
    for (day, total) in [(DAY, total), (DAY + 1, NOT_REPORTED)] {
        unsafe { probe_put(host.table.as_mut_ptr(), WORDS, &host.record, STORE, day, total, NOT_REPORTED, &mut out) };
        answered(out)?;
    }
    probe_commit(&mut host.record, &mut out);
    let [version, ..] = answered(out)?;
    Ok(version)
}

fn report(host: &Host, session: i64) -> Result<(), i64> {
    let mut out = Out::default();
    unsafe { probe_read_key(host.table.as_ptr(), WORDS, &host.record, session, STORE, DAY, &mut out) };
    if answered(out) == Err(EXPIRED) {
        println!("session {session} has expired");
        return Ok(());
    }
    let [_is_row, _key1, _key2, total, ..] = answered(out)?;
    println!("session {session} reads {total}");
    Ok(())
}

/// The mean of a total over the store's days, which a roll-up's answer has as a sum and how many reported it.
fn report_mean(name: &str, reported: i64, sum: i64) {
    if reported == 0 {
        println!("{name}: none reported");
    } else {
        println!("{name}: mean {:.1} of {reported} that reported", sum as f64 / reported as f64);
    }
}

fn report_means(host: &Host, session: i64) -> Result<(), i64> {
    let mut out = Out::default();
    unsafe { probe_roll_up(host.table.as_ptr(), WORDS, &host.record, session, STORE, &mut out) };
    let [rows, reported1, reported2, sum1, sum2, ..] = answered(out)?;
    println!("session {session} sums up {rows} rows");
    report_mean("total one", reported1, sum1);
    report_mean("total two", reported2, sum2);
    Ok(())
}

/// A refusal that the host has no answer to ends it, by its number.
fn main() -> Result<(), i64> {
    let mut host = Host { table: [0; WORDS], record: [1, 0, 1, 0] };
    let session = refresh(&mut host, 10000)?;
    report(&host, session)?;
    refresh(&mut host, 10200)?;
    report(&host, session)?;
    let latest = refresh(&mut host, 10300)?;
    report(&host, session)?;
    report(&host, latest)?;
    report_means(&host, latest)
}
