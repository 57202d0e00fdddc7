//! The refusals by number.

#[derive(Clone, Copy, PartialEq, Eq, Debug)]
pub enum Refusal {
    TableLength = 1,
    VersionRecord = 2,
    SessionUnknown = 3,
    SessionExpired = 4,
    NoSuchPlace = 5,
    NotWellFormed = 6,
    RunActive = 7,
    NoRunActive = 8,
    LargestVersion = 9,
    KeyNotLive = 11,
    NoSlotToTake = 12,
    UnlawfulTotal = 13,
    BlockLength = 14,
    BlockCheck = 15,
    BlockField = 16,
}

/// Every refusal, in the order of the numbers.
pub const REFUSALS: [Refusal; 15] = [
    Refusal::TableLength,
    Refusal::VersionRecord,
    Refusal::SessionUnknown,
    Refusal::SessionExpired,
    Refusal::NoSuchPlace,
    Refusal::NotWellFormed,
    Refusal::RunActive,
    Refusal::NoRunActive,
    Refusal::LargestVersion,
    Refusal::KeyNotLive,
    Refusal::NoSlotToTake,
    Refusal::UnlawfulTotal,
    Refusal::BlockLength,
    Refusal::BlockCheck,
    Refusal::BlockField,
];

impl Refusal {
    pub fn number(self) -> i64 {
        self as i64
    }
}
