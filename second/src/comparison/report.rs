//! What is printed of a difference.

use crate::cases::case::Case;
use crate::comparison::batch::{Difference, LeftApart, What};
use crate::comparison::caller::Left;
use crate::model::slot::SLOT_WORDS;

pub fn print(difference: &Difference) {
    print_start(&difference.case);
    for (index, call) in difference.case.calls.iter().enumerate() {
        println!("  call {}: {call}", index + 1);
    }
    match &difference.what {
        What::Left(apart) => print_apart(apart),
        What::Followed { at, because } => {
            println!("  call {} breaks demand 3: {because}", at + 1);
        }
        What::Ended(error) => println!("  the caller ended, or a call did not end: {error}"),
    }
}

fn print_start(case: &Case) {
    let table = &case.start.table.words;
    println!("  record {:?}", case.start.record.words);
    if table.iter().all(|&word| word == 0) {
        println!("  table of {} words, all zeros", table.len());
        return;
    }
    println!("  table of {} words", table.len());
    print_slots(table);
}

/// The slots that are not all zeros.
fn print_slots(words: &[i64]) {
    for (place, slot) in words.chunks(SLOT_WORDS).enumerate() {
        if slot.iter().any(|&word| word != 0) {
            println!("    slot {place}: {slot:?}");
        }
    }
}

fn print_apart(apart: &LeftApart) {
    println!("  call {} differs; before it", apart.at + 1);
    println!("    record {:?}", apart.before.record.words);
    print_slots(&apart.before.table.words);
    print_left("library", &apart.library, &apart.model);
    print_left("model", &apart.model, &apart.library);
}

/// One side: its numbers, and what it left otherwise than the other side.
fn print_left(name: &str, side: &Left, other: &Left) {
    println!("  {name}: {:?}", side.out);
    if !side.guards_stand {
        println!("    wrote outside what it was lent");
    }
    if side.lent.record != other.lent.record {
        println!("    record {:?}", side.lent.record.words);
    }
    let slots = side.lent.table.words.chunks(SLOT_WORDS);
    let others = other.lent.table.words.chunks(SLOT_WORDS);
    for (place, (slot, other)) in slots.zip(others).enumerate() {
        if slot != other {
            println!("    slot {place}: {slot:?}");
        }
    }
    let bytes = side.block.iter().zip(&other.block).enumerate();
    let apart = bytes.filter(|(_, (byte, other))| byte != other);
    let listed: Vec<String> = apart
        .map(|(at, (byte, _))| format!("{at}={byte}"))
        .collect();
    if !listed.is_empty() {
        println!("    block bytes {}", listed.join(" "));
    }
}
