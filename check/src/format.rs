//! Bristol Fashion text: what a text means, and the text of a circuit.

mod read;
mod scan;
mod write;

pub use read::{read, Memory, Reading, Rooms};
pub use write::write;

/// The longest text that is read.
pub const LONGEST_TEXT: usize = 67_108_864;

/// The faults of a text, by their numbers.
pub mod number {
    pub const LONG_TEXT: u8 = 1;
    pub const BYTE: u8 = 2;
    pub const NO_NUMBER: u8 = 3;
    pub const NO_WORD: u8 = 4;
    pub const HEADER_COUNT: u8 = 5;
    pub const GATE_COUNTS: u8 = 6;
    pub const INPUT: u8 = 7;
    pub const RESULT: u8 = 8;
    pub const LEFT_OVER: u8 = 9;
    pub const LINES: u8 = 10;
    pub const SHORT_MEMORY: u8 = 11;
    pub const WIDTH: u8 = 14;

    /// All that a text can be refused by.
    pub const ALL: [u8; 12] = [1, 2, 3, 4, 5, 6, 7, 8, 9, 10, 11, 14];
}

/// Which reader finds a fault.
#[derive(Clone, Copy, Debug, PartialEq, Eq)]
pub enum Reader {
    Token,
    Line,
    Circuit,
}

/// A place in a text; lines count from 1, bytes from 0.
#[derive(Clone, Copy, Debug, PartialEq, Eq)]
pub struct Place {
    pub line: u32,
    pub byte: u32,
}

/// The first fault of a text.
#[derive(Clone, Copy, Debug, PartialEq, Eq)]
pub struct Fault {
    pub number: u8,
    pub line: u32,
    pub byte: u32,
    pub reader: Reader,
}

impl Fault {
    /// The fault of that number there; the number settles the reader.
    pub fn at(number: u8, place: Place) -> Fault {
        let reader = match number {
            number::BYTE | number::NO_NUMBER => Reader::Token,
            number::NO_WORD | number::GATE_COUNTS | number::LEFT_OVER => Reader::Line,
            _ => Reader::Circuit,
        };
        Fault { number, line: place.line, byte: place.byte, reader }
    }
}
