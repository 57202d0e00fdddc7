//! Blocks to load: sound ones, and ones damaged in one way.

use crate::cases::edges;
use crate::cases::random::Random;
use crate::model::block::{
    self, BLOCK_BYTES, BLOCK_WORDS, Block, CHECK, FIRST_FILLER, FIRST_SLOT, HEADER_CURRENT,
    HEADER_FIRST_FILLER, HEADER_OLDEST, HEADER_SLOTS, Header, NO_OLDEST, NUMBER, SLOT_HALVES,
};
use crate::model::record::{FIRST_VERSION, LARGEST_VERSION};
use crate::model::slot::Slot;
use crate::model::table::MOST_SLOTS;

#[derive(Clone, Copy)]
enum Damage {
    None,
    AlteredWord,
    AlteredWordMended,
    SwappedWords,
    WrongNumber,
    Filler,
    BeyondTheTable,
    Length,
    AnyBytes,
}

const DAMAGES: [(usize, Damage); 9] = [
    (40, Damage::None),
    (14, Damage::AlteredWord),
    (14, Damage::AlteredWordMended),
    (4, Damage::SwappedWords),
    (7, Damage::WrongNumber),
    (7, Damage::Filler),
    (6, Damage::BeyondTheTable),
    (6, Damage::Length),
    (2, Damage::AnyBytes),
];

const LENGTHS: [usize; 8] = [0, 1, 4, 508, 511, 513, 516, 1024];

const HEADER_SLOT_COUNTS: [u32; 9] = [
    0,
    1,
    2,
    MOST_SLOTS as u32 - 1,
    MOST_SLOTS as u32,
    MOST_SLOTS as u32 + 1,
    1 << 16,
    1 << 31,
    u32::MAX,
];

const HEADER_VERSIONS: [u32; 9] = [
    0,
    1,
    2,
    LARGEST_VERSION as u32 - 1,
    LARGEST_VERSION as u32,
    LARGEST_VERSION as u32 + 1,
    1 << 31,
    i32::MAX as u32,
    u32::MAX,
];

/// Words of a header for the oldest open version, wherever the current one is.
const HEADER_OLDESTS: [u32; 6] = [
    FIRST_VERSION as u32,
    2,
    LARGEST_VERSION as u32,
    LARGEST_VERSION as u32 + 1,
    1 << 31,
    u32::MAX,
];

/// How many headers of a hundred are at one of the first versions.
const FIRST_VERSIONS_PERCENT: usize = 20;
const LAST_OF_THE_FIRST: i64 = 4;

/// What is added to the current version where the oldest one is just not allowed.
const BESIDE_THE_ALLOWED: [u32; 2] = [1, 0_u32.wrapping_sub(2)];

/// A block 0 as bytes, sound or damaged.
pub fn header(random: &mut Random) -> Vec<u8> {
    let most = if random.percent(FIRST_VERSIONS_PERCENT) {
        LAST_OF_THE_FIRST
    } else {
        LARGEST_VERSION
    };
    let mut header = Block::of_header(Header {
        slots: 1 + random.below(MOST_SLOTS),
        current: random.between(FIRST_VERSION, most),
        oldest: NO_OLDEST,
    });
    match random.below(4) {
        0 => header.words[HEADER_SLOTS] = random.pick(&HEADER_SLOT_COUNTS),
        1 => header.words[HEADER_CURRENT] = random.pick(&HEADER_VERSIONS),
        _ => {}
    }
    header.words[HEADER_OLDEST] = header_oldest(random, header.words[HEADER_CURRENT]);
    header.mend();
    damaged(random, header, HEADER_FIRST_FILLER, HEADER_FIRST_FILLER)
}

/// The word of a header for the oldest open version. Most are allowed, if the current
/// version is.
fn header_oldest(random: &mut Random, current: u32) -> u32 {
    match random.below(8) {
        0 | 1 => NO_OLDEST as u32,
        2 | 3 => current,
        4 | 5 => current.wrapping_sub(1),
        6 => current.wrapping_add(random.pick(&BESIDE_THE_ALLOWED)),
        _ => random.pick(&HEADER_OLDESTS),
    }
}

/// A block of the slots as bytes, sound or damaged, for a table of so many slots.
pub fn of_slots(random: &mut Random, number: usize, slots: usize, held: &[Slot]) -> Vec<u8> {
    let block = Block::of_slots(number, held);
    let first_beyond = FIRST_SLOT + block::places(number, slots).len() * SLOT_HALVES;
    damaged(random, block, FIRST_FILLER, first_beyond)
}

fn damaged(random: &mut Random, block: Block, first_filler: usize, first_beyond: usize) -> Vec<u8> {
    let mut block = block;
    match random.weighted(&DAMAGES) {
        Damage::None => {}
        Damage::AlteredWord => {
            alter(random, &mut block, NUMBER, BLOCK_WORDS);
            return block.bytes();
        }
        Damage::AlteredWordMended => alter(random, &mut block, NUMBER, CHECK),
        Damage::SwappedWords => block.words.swap(random.below(CHECK), random.below(CHECK)),
        Damage::WrongNumber => alter(random, &mut block, NUMBER, FIRST_SLOT),
        Damage::Filler => alter(random, &mut block, first_filler, CHECK),
        Damage::BeyondTheTable => alter(random, &mut block, first_beyond, CHECK),
        Damage::Length => {
            let mut bytes = block.bytes();
            bytes.resize(random.pick(&LENGTHS), 0);
            return bytes;
        }
        Damage::AnyBytes => return any_bytes(random),
    }
    block.mend();
    block.bytes()
}

/// Alters one word from the first up, below the end.
fn alter(random: &mut Random, block: &mut Block, first: usize, end: usize) {
    let place = first + random.below(end - first);
    let word = block.words[place];
    block.words[place] = match random.below(4) {
        0 => word ^ (1 << random.below(u32::BITS as usize)),
        1 => word.wrapping_add(1),
        2 => word.wrapping_sub(1),
        _ => edges::word(random) as u32,
    };
}

fn any_bytes(random: &mut Random) -> Vec<u8> {
    (0..BLOCK_BYTES).map(|_| random.word() as u8).collect()
}
