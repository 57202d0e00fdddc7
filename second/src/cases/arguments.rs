//! The arguments of calls: mostly sensible ones, and some that are odd.

use crate::cases::damage;
use crate::cases::edges;
use crate::cases::random::Random;
use crate::cases::slots;
use crate::model::block::{self, SLOTS_IN_A_BLOCK};
use crate::model::call::{Call, Kind, Lent};
use crate::model::record::Version;
use crate::model::slot::{Key, Slot, Totals};

/// Of the odd arguments, a key is odd only once in so many.
const ODD_KEYS_ARE_ONE_IN: usize = 4;

/// How far a session lies behind the current version, by weight.
const BEHIND: [(usize, i64); 5] = [(10, 0), (8, 1), (2, 2), (1, 3), (1, -1)];

/// Powers of two beyond which a place is lost if it is cut to a half word, taken as
/// signed, or counted in words.
const LOST_POWERS: [u32; 3] = [32, 61, 63];
const MOST_BESIDE_A_POWER: usize = 3;

/// What is added to the first place that is not there; the last takes one away.
const BESIDE_THE_END: [u64; 4] = [0, 1, 7, u64::MAX];

/// What arguments are drawn from.
pub struct Arguments {
    pub keys: Vec<Key>,
    /// how many arguments of a hundred are odd
    pub odd: usize,
}

impl Arguments {
    pub fn call(&self, random: &mut Random, kind: Kind, lent: &Lent) -> Call {
        match kind {
            Kind::Open => Call::Open,
            Kind::Begin => Call::Begin,
            Kind::Commit => Call::Commit,
            Kind::ReadSlot => Call::ReadSlot {
                session: self.session(random, lent),
                slot: self.place(random, 0, slot_count(lent)),
            },
            Kind::ReadKey => Call::ReadKey {
                session: self.session(random, lent),
                key: self.key(random),
            },
            Kind::RollUp => Call::RollUp {
                session: self.session(random, lent),
                one: self.key(random).one,
            },
            Kind::Put => Call::Put {
                key: self.key(random),
                totals: self.totals(random),
            },
            Kind::Delete => Call::Delete {
                key: self.key(random),
            },
            Kind::RollBack => Call::RollBack,
            Kind::SaveHeader => Call::SaveHeader,
            Kind::SaveBlock => Call::SaveBlock {
                number: self.number(random, lent),
            },
            Kind::LoadHeader => Call::LoadHeader {
                block: damage::header(random),
            },
            Kind::LoadBlock => self.load_block(random, lent),
        }
    }

    /// A session at or beside the current version.
    fn session(&self, random: &mut Random, lent: &Lent) -> i64 {
        let current = lent.record.says().current;
        if random.percent(self.odd) {
            return edges::word_near(random, current);
        }
        current.wrapping_sub(random.weighted(&BEHIND))
    }

    /// A place from the first up, below the end, or one that is not there.
    fn place(&self, random: &mut Random, first: usize, end: usize) -> u64 {
        if end <= first || random.percent(self.odd) {
            return match random.below(4) {
                0 => 1 << random.pick(&LOST_POWERS),
                1 => {
                    let power: u64 = 1 << random.pick(&LOST_POWERS);
                    power + random.below(MOST_BESIDE_A_POWER + 1) as u64
                }
                2 => edges::word(random) as u64,
                _ => (end as u64).wrapping_add(random.pick(&BESIDE_THE_END)),
            };
        }
        (first + random.below(end - first)) as u64
    }

    fn number(&self, random: &mut Random, lent: &Lent) -> u64 {
        self.place(random, 1, block::last_number(slot_count(lent)) + 1)
    }

    fn key(&self, random: &mut Random) -> Key {
        if random.percent(self.odd / ODD_KEYS_ARE_ONE_IN) {
            return edges::keys(random, 1)[0];
        }
        random.pick(&self.keys)
    }

    fn totals(&self, random: &mut Random) -> Totals {
        if random.percent(self.odd) {
            return edges::unlawful_totals(random);
        }
        edges::totals(random)
    }

    fn load_block(&self, random: &mut Random, lent: &Lent) -> Call {
        let number = self.number(random, lent);
        let slots = slot_count(lent).max(1);
        let version = Version {
            run_active: false,
            ..lent.record.says()
        };
        let written = (number as usize).clamp(1, block::last_number(slots));
        let held = if random.percent(self.odd) {
            SLOTS_IN_A_BLOCK // also beyond the table
        } else {
            block::places(written, slots).len()
        };
        let mut slots_held: Vec<Slot> = (0..held)
            .map(|_| slots::well_formed(random, version, &self.keys))
            .collect();
        if random.percent(self.odd) {
            let place = random.below(slots_held.len());
            slots_held[place] = slots::hostile(random, version, &self.keys);
        }
        let block = damage::of_slots(random, written, slots, &slots_held);
        Call::LoadBlock { number, block }
    }
}

fn slot_count(lent: &Lent) -> usize {
    lent.table.slots().unwrap_or(0)
}
