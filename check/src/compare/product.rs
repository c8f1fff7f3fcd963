//! What the comparison asks of a product.

use crate::circuit::Circuit;
use crate::format::{Reading, Rooms};
use crate::levels::{Levels, Scheme};
use crate::planning::{Answer, Call, Standing};

/// What lent memory holds before a call, so that untouched numbers show.
pub const FILL: u32 = 0xA5A5_5A5A;

/// A level run's answer, or its refusal by number, and the lent memory after it.
#[derive(Clone, Debug, PartialEq, Eq)]
pub struct LevelReply {
    pub answer: Result<Levels, u8>,
    pub room: Vec<u32>,
}

/// A call's answer with what it wrote, and what else can be seen after it.
#[derive(Clone, Debug, PartialEq, Eq)]
pub struct Reply {
    pub answer: Answer,
    /// Whether the lent room past what was written is as before.
    pub rest_untouched: bool,
    /// What the planning tells of itself, where the product can be asked.
    pub standing: Option<Standing>,
}

/// The program under comparison.
pub trait Product {
    /// Reads a text into memories of those sizes.
    fn read(&mut self, text: &[u8], rooms: Rooms) -> Reading;

    fn write(&mut self, circuit: &Circuit) -> Vec<u8>;

    /// Runs the levels in a room of that many numbers, each `FILL` before.
    fn level_run(&mut self, circuit: &Circuit, plan: &[u32], scheme: Scheme, room: usize) -> LevelReply;

    /// Makes a planning and runs the calls on it; every room is `FILL` before its call.
    fn run(&mut self, circuit: &Circuit, calls: &[Call]) -> Vec<Reply>;

    /// What is printed for a text of at most `limit` bytes, where the product prints.
    fn print(&mut self, limit: usize, text: &[u8]) -> Option<Vec<u8>> {
        let _ = (limit, text);
        None
    }

    /// The matching circuit of that width or its refusal by number, where the product works it out.
    fn matching(&mut self, width: u32) -> Option<Result<Circuit, u8>> {
        let _ = width;
        None
    }
}
