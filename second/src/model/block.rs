//! The block of 512 bytes.

use crate::model::record::{FIRST_VERSION, LARGEST_VERSION, Version};
use crate::model::refusal::Refusal;
use crate::model::slot::{SLOT_WORDS, Slot};
use crate::model::table::{MOST_SLOTS, Table};

pub const BLOCK_BYTES: usize = 512;
pub const BLOCK_WORDS: usize = 128;
pub const SLOTS_IN_A_BLOCK: usize = 7;

pub const NUMBER: usize = 0;
pub const FIRST_SLOT: usize = 1;
pub const CHECK: usize = 127;
pub const FIRST_FILLER: usize = 113;
pub const HEADER_SLOTS: usize = 1;
pub const HEADER_CURRENT: usize = 2;
pub const HEADER_OLDEST: usize = 3;
pub const HEADER_FIRST_FILLER: usize = 4;
pub const SLOT_HALVES: usize = WORD_HALVES * SLOT_WORDS;
pub const HALF_BYTES: usize = 4;

/// What stands for the oldest open version in a header that was saved before headers
/// had it.
pub const NO_OLDEST: i64 = 0;

const WORD_HALVES: usize = 2;

/// A block as its 128 words. Each is half of a word of the table.
#[derive(Clone, Copy, PartialEq, Eq, Debug)]
pub struct Block {
    pub words: [u32; BLOCK_WORDS],
}

/// What block 0 says.
#[derive(Clone, Copy, PartialEq, Eq, Debug)]
pub struct Header {
    pub slots: usize,
    pub current: i64,
    /// the oldest open version
    pub oldest: i64,
}

/// The number of blocks that hold so many slots; block 0 is not counted.
pub fn last_number(slots: usize) -> usize {
    slots.div_ceil(SLOTS_IN_A_BLOCK)
}

/// The places of the block's slots that the table has.
pub fn places(number: usize, slots: usize) -> std::ops::Range<usize> {
    let first = SLOTS_IN_A_BLOCK * (number - 1);
    first..slots.min(first + SLOTS_IN_A_BLOCK)
}

/// The oldest open version by the word of a header at a lawful current version, or
/// refusal 16. Where there is none, it is the version before, or the first.
fn oldest_read(word: i64, current: i64) -> Result<i64, Refusal> {
    let before = current - 1;
    if word == NO_OLDEST {
        Ok(before.max(FIRST_VERSION))
    } else if word == before || word == current {
        Ok(word)
    } else {
        Err(Refusal::BlockField)
    }
}

impl Block {
    fn zeros() -> Block {
        Block {
            words: [0; BLOCK_WORDS],
        }
    }

    /// Block 0.
    pub fn of_header(header: Header) -> Block {
        let mut block = Block::zeros();
        block.words[HEADER_SLOTS] = header.slots as u32;
        block.words[HEADER_CURRENT] = header.current as u32;
        block.words[HEADER_OLDEST] = header.oldest as u32;
        block.mend();
        block
    }

    /// A block of slots, seven at the most.
    pub fn of_slots(number: usize, slots: &[Slot]) -> Block {
        let mut block = Block::zeros();
        block.words[NUMBER] = number as u32;
        let words = slots.iter().flat_map(Slot::words);
        let pairs = block.words[FIRST_SLOT..CHECK].chunks_exact_mut(WORD_HALVES);
        for (halves, word) in pairs.zip(words) {
            halves[0] = word as u32;
            halves[1] = (word >> u32::BITS) as u32;
        }
        block.mend();
        block
    }

    fn total(&self) -> u32 {
        let summed = &self.words[..CHECK];
        summed.iter().fold(0, |sum, &word| sum.wrapping_add(word))
    }

    /// Makes the check right.
    pub fn mend(&mut self) {
        self.words[CHECK] = self.total();
    }

    pub fn bytes(&self) -> Vec<u8> {
        self.words.map(u32::to_le_bytes).concat()
    }

    /// Refusals 14 and 15.
    pub fn from_bytes(bytes: &[u8]) -> Result<Block, Refusal> {
        if bytes.len() != BLOCK_BYTES {
            return Err(Refusal::BlockLength);
        }
        let mut block = Block::zeros();
        for (word, four) in block.words.iter_mut().zip(bytes.chunks_exact(HALF_BYTES)) {
            *word = u32::from_le_bytes([four[0], four[1], four[2], four[3]]);
        }
        if block.words[CHECK] != block.total() {
            return Err(Refusal::BlockCheck);
        }
        Ok(block)
    }

    fn is_zero_from(&self, first: usize) -> bool {
        self.words[first..CHECK].iter().all(|&word| word == 0)
    }

    /// What block 0 says, or refusal 16.
    pub fn read_header(&self) -> Result<Header, Refusal> {
        let slots = self.words[HEADER_SLOTS] as usize;
        let current = i64::from(self.words[HEADER_CURRENT]);
        let allowed = self.words[NUMBER] == 0
            && (1..=MOST_SLOTS).contains(&slots)
            && (FIRST_VERSION..=LARGEST_VERSION).contains(&current)
            && self.is_zero_from(HEADER_FIRST_FILLER);
        if !allowed {
            return Err(Refusal::BlockField);
        }
        let oldest = oldest_read(i64::from(self.words[HEADER_OLDEST]), current)?;
        Ok(Header {
            slots,
            current,
            oldest,
        })
    }

    pub fn slot(&self, index: usize) -> Slot {
        let halves = &self.words[FIRST_SLOT + index * SLOT_HALVES..][..SLOT_HALVES];
        let words: Vec<i64> = halves
            .chunks_exact(WORD_HALVES)
            .map(|pair| i64::from(pair[0]) | (i64::from(pair[1]) << u32::BITS))
            .collect();
        Slot::from_words(&words)
    }

    /// The slots of block `number` of a table of so many slots, or refusal 16.
    pub fn read_slots(
        &self,
        number: usize,
        slots: usize,
        version: Version,
    ) -> Result<Vec<Slot>, Refusal> {
        let held = places(number, slots).len();
        let read: Vec<Slot> = (0..held).map(|index| self.slot(index)).collect();
        let allowed = self.words[NUMBER] as usize == number
            && self.is_zero_from(FIRST_SLOT + held * SLOT_HALVES)
            && read.iter().all(|slot| slot.is_well_formed(version));
        if !allowed {
            return Err(Refusal::BlockField);
        }
        Ok(read)
    }

    /// Block `number` of the table, or refusal 6.
    pub fn save(table: &Table, number: usize, version: Version) -> Result<Block, Refusal> {
        let slots = table.slots()?;
        let held: Result<Vec<Slot>, Refusal> = places(number, slots)
            .map(|place| table.well_formed_slot(place, version))
            .collect();
        Ok(Block::of_slots(number, &held?))
    }
}
