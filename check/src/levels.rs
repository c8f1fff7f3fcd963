//! The level run: what level each wire has when a plan's wires are refreshed.

use crate::circuit::{Circuit, Making};
use crate::refusal::Refusal;

/// The level of a product of two levels; a sum always has the larger.
#[derive(Clone, Copy, Debug, PartialEq, Eq)]
pub enum Growth {
    Exponential,
    Linear,
}

/// A growth with its limit and the level after a refresh.
#[derive(Clone, Copy, Debug, PartialEq, Eq)]
pub struct Scheme {
    pub growth: Growth,
    pub limit: u32,
    pub fresh: u32,
}

pub const EXPONENTIAL: Scheme = Scheme { growth: Growth::Exponential, limit: 2, fresh: 1 };
pub const LINEAR: Scheme = Scheme { growth: Growth::Linear, limit: 2, fresh: 1 };
pub const LINEAR_DEEP: Scheme = Scheme { growth: Growth::Linear, limit: 20, fresh: 9 };
pub const SCHEMES: [Scheme; 3] = [EXPONENTIAL, LINEAR, LINEAR_DEEP];

impl Scheme {
    fn product(self, a: u32, b: u32) -> u32 {
        match self.growth {
            Growth::Exponential => a + b,
            Growth::Linear => a.max(b) + 1,
        }
    }

    /// The own level of a wire, given the outgoing levels below it.
    fn own(self, making: Making, outgoing: &[u32]) -> u32 {
        let level = |rank: u32| outgoing[rank as usize];
        match making {
            Making::Input | Making::Constant(_) => 1,
            Making::Copy(a) | Making::Inversion(a) => level(a),
            Making::Sum(a, b) => level(a).max(level(b)),
            Making::Product(a, b) => self.product(level(a), level(b)),
        }
    }
}

/// What a level run answers: clean, or the first wire past the limit with its own level.
#[derive(Clone, Copy, Debug, PartialEq, Eq)]
pub enum Levels {
    Clean,
    Overrun { rank: u32, level: u32 },
}

/// Whether the row is strictly ascending ranks of produced wires.
pub fn is_plan(circuit: &Circuit, row: &[u32]) -> bool {
    row.windows(2).all(|pair| pair[0] < pair[1]) && row.iter().all(|&rank| circuit.is_produced(rank))
}

/// Runs the levels by rank and leaves the outgoing ones in `room`, as far as the limit holds.
pub fn run(circuit: &Circuit, plan: &[u32], scheme: Scheme, room: &mut [u32]) -> Result<Levels, Refusal> {
    if room.len() < circuit.wires() {
        return Err(Refusal::ShortMemory);
    }
    if !is_plan(circuit, plan) {
        return Err(Refusal::NoSuchWire);
    }
    let mut refreshed = plan.iter().copied().peekable();
    for (rank, &making) in (0u32..).zip(&circuit.makings) {
        let level = scheme.own(making, room);
        if level > scheme.limit {
            return Ok(Levels::Overrun { rank, level });
        }
        let fresh = refreshed.next_if_eq(&rank).is_some();
        room[rank as usize] = if fresh { scheme.fresh } else { level };
    }
    Ok(Levels::Clean)
}

/// Whether the row is a plan that keeps every level within the limit.
pub fn is_clean(circuit: &Circuit, plan: &[u32], scheme: Scheme) -> bool {
    let mut room = vec![0; circuit.wires()];
    run(circuit, plan, scheme, &mut room) == Ok(Levels::Clean)
}

#[cfg(test)]
mod tests {
    use super::*;
    use Making::{Constant, Copy, Product, Sum};

    fn chain() -> Circuit {
        Circuit::by_rank(2, &[Product(0, 1), Product(2, 0), Product(3, 0)], 1)
    }

    #[test]
    fn refresh_after_the_limit_is_too_late() {
        let mut room = [7; 6];
        let overrun = Levels::Overrun { rank: 3, level: 3 };
        assert_eq!(run(&chain(), &[3], EXPONENTIAL, &mut room), Ok(overrun));
        assert_eq!(room, [1, 1, 2, 7, 7, 7]);
    }

    #[test]
    fn clean_runs_fill_the_room() {
        let mut room = [7; 6];
        assert_eq!(run(&chain(), &[2, 3], LINEAR, &mut room), Ok(Levels::Clean));
        assert_eq!(room, [1, 1, 1, 1, 2, 7]);
        assert_eq!(run(&chain(), &[3], LINEAR_DEEP, &mut room), Ok(Levels::Clean));
        assert_eq!(room, [1, 1, 2, 9, 10, 7]);
    }

    #[test]
    fn refusals_come_in_order_and_alter_nothing() {
        let mut room = [7; 5];
        assert_eq!(run(&chain(), &[9], LINEAR, &mut room[..4]), Err(Refusal::ShortMemory));
        for plan in [&[9][..], &[0], &[3, 2], &[2, 2]] {
            assert_eq!(run(&chain(), plan, LINEAR, &mut room), Err(Refusal::NoSuchWire));
        }
        assert_eq!(room, [7; 5]);
    }

    #[test]
    fn constants_and_sums_have_their_levels() {
        let circuit = Circuit::by_rank(1, &[Constant(true), Product(0, 1), Sum(2, 1), Copy(3), Product(4, 4)], 1);
        let mut room = [0; 6];
        let exponential = Levels::Overrun { rank: 5, level: 4 };
        assert_eq!(run(&circuit, &[], EXPONENTIAL, &mut room), Ok(exponential));
        assert_eq!(run(&circuit, &[], LINEAR, &mut room), Ok(Levels::Overrun { rank: 5, level: 3 }));
        assert_eq!(room, [1, 1, 2, 2, 2, 0]);
        assert!(is_clean(&circuit, &[4], EXPONENTIAL));
    }
}
