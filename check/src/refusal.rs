//! Refusals of calls, by their numbers.

/// Why a call was refused; the number is the refusal's own.
#[derive(Clone, Copy, Debug, PartialEq, Eq, PartialOrd, Ord)]
#[repr(u8)]
pub enum Refusal {
    ShortMemory = 11,
    NoSuchWire = 12,
    HighIndex = 13,
    AlreadyBarred = 15,
    NotBarred = 16,
    NotOpen = 17,
    StillOpen = 18,
    Blocked = 19,
}

impl Refusal {
    pub fn number(self) -> u8 {
        self as u8
    }
}
