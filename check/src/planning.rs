//! A model of the planning: its five calls, refusals and states.

use crate::circuit::Circuit;
use crate::planner::{Method, Outcome};
use crate::refusal::Refusal;

/// A call on a planning; `room` is how many numbers the lent memory has.
#[derive(Clone, Copy, Debug, PartialEq, Eq)]
pub enum Call {
    Bar(u32),
    Unbar(u32),
    Step,
    Plan { room: usize },
    Route { index: u32, room: usize },
}

/// What a call answers; plan and route hand over what they write.
#[derive(Clone, Debug, PartialEq, Eq)]
pub enum Answer {
    Done,
    Grown,
    Closed,
    Blocked,
    Plan(Vec<u32>),
    Route(Vec<u32>),
    /// By the refusal's number.
    Refused(u8),
}

#[derive(Clone, Copy, Debug, PartialEq, Eq)]
pub enum State {
    Open,
    Closed,
    Blocked,
}

/// What a planning tells of itself at any time.
#[derive(Clone, Copy, Debug, PartialEq, Eq)]
pub struct Standing {
    pub state: State,
    pub routes: u32,
    pub bars: u32,
}

/// A planning that counts its steps up to what a method has found.
pub struct Planning<'c, M> {
    circuit: &'c Circuit,
    method: &'c M,
    bars: Vec<bool>,
    state: State,
    grown: usize,
    /// What the bars come to, found at the first step after they change.
    outcome: Option<Outcome>,
}

impl<'c, M: Method> Planning<'c, M> {
    pub fn new(circuit: &'c Circuit, method: &'c M) -> Self {
        let bars = vec![false; circuit.wires()];
        Planning { circuit, method, bars, state: State::Open, grown: 0, outcome: None }
    }

    pub fn bars(&self) -> &[bool] {
        &self.bars
    }

    pub fn standing(&self) -> Standing {
        let routes = if self.state == State::Blocked { 0 } else { self.grown as u32 };
        Standing { state: self.state, routes, bars: self.bars.iter().filter(|&&bar| bar).count() as u32 }
    }

    pub fn call(&mut self, call: Call) -> Answer {
        let answer = match call {
            Call::Bar(rank) => self.set_bar(rank, true),
            Call::Unbar(rank) => self.set_bar(rank, false),
            Call::Step => self.step(),
            Call::Plan { room } => self.plan(room),
            Call::Route { index, room } => self.route(index, room),
        };
        answer.unwrap_or_else(|refusal| Answer::Refused(refusal.number()))
    }

    fn set_bar(&mut self, rank: u32, bar: bool) -> Result<Answer, Refusal> {
        if !self.circuit.is_produced(rank) {
            return Err(Refusal::NoSuchWire);
        }
        if self.bars[rank as usize] == bar {
            return Err(if bar { Refusal::AlreadyBarred } else { Refusal::NotBarred });
        }
        self.bars[rank as usize] = bar;
        self.state = State::Open;
        self.grown = 0;
        self.outcome = None;
        Ok(Answer::Done)
    }

    fn step(&mut self) -> Result<Answer, Refusal> {
        if self.state != State::Open {
            return Err(Refusal::NotOpen);
        }
        let (circuit, method, bars) = (self.circuit, self.method, &self.bars);
        match self.outcome.get_or_insert_with(|| method.outcome(circuit, bars)) {
            Outcome::Blocked { .. } => {
                self.state = State::Blocked;
                Ok(Answer::Blocked)
            }
            Outcome::Planned { plan, .. } if self.grown < plan.len() => {
                self.grown += 1;
                Ok(Answer::Grown)
            }
            Outcome::Planned { .. } => {
                self.state = State::Closed;
                Ok(Answer::Closed)
            }
        }
    }

    fn plan(&self, room: usize) -> Result<Answer, Refusal> {
        match self.settled()? {
            Outcome::Blocked { .. } => Err(Refusal::Blocked),
            Outcome::Planned { plan, .. } if room < plan.len() => Err(Refusal::ShortMemory),
            Outcome::Planned { plan, .. } => Ok(Answer::Plan(plan.clone())),
        }
    }

    fn route(&self, index: u32, room: usize) -> Result<Answer, Refusal> {
        let routes = match self.settled()? {
            Outcome::Blocked { route } => std::slice::from_ref(route),
            Outcome::Planned { routes, .. } => routes,
        };
        let route = routes.get(index as usize).ok_or(Refusal::HighIndex)?;
        if room < self.circuit.wires() {
            return Err(Refusal::ShortMemory);
        }
        Ok(Answer::Route(route.clone()))
    }

    /// The outcome, once the planning is not open.
    fn settled(&self) -> Result<&Outcome, Refusal> {
        let settled = self.outcome.as_ref().filter(|_| self.state != State::Open);
        settled.ok_or(Refusal::StillOpen)
    }
}

#[cfg(test)]
mod tests {
    use super::*;
    use crate::circuit::Making::{Inversion, Product};
    use crate::planner::MaximumFlow;

    fn answers(circuit: &Circuit, calls: &[Call]) -> Vec<Answer> {
        let mut planning = Planning::new(circuit, &MaximumFlow);
        calls.iter().map(|&call| planning.call(call)).collect()
    }

    #[test]
    fn bars_and_a_blocked_planning() {
        let circuit = Circuit::by_rank(2, &[Product(0, 1), Inversion(2), Product(3, 0)], 1);
        let (plan, route) = (Call::Plan { room: 1 }, Call::Route { index: 0, room: 5 });
        let got = answers(&circuit, &[Call::Step, Call::Step, plan, Call::Bar(2), plan, Call::Step, Call::Step, plan]);
        let expected = [
            Answer::Grown,
            Answer::Closed,
            Answer::Plan(vec![2]),
            Answer::Done,
            Answer::Refused(18),
            Answer::Grown,
            Answer::Closed,
            Answer::Plan(vec![3]),
        ];
        assert_eq!(got, expected);
        let got = answers(&circuit, &[Call::Bar(2), Call::Bar(3), Call::Step, Call::Step, plan, route]);
        assert_eq!(got[2..5], [Answer::Blocked, Answer::Refused(17), Answer::Refused(19)]);
        assert_eq!(got[5], Answer::Route(vec![2, 3]));
    }

    #[test]
    fn refusals_in_their_order() {
        let circuit = Circuit::by_rank(2, &[Product(0, 1), Product(2, 0)], 1);
        let bad = [
            (Call::Bar(0), 12),
            (Call::Unbar(4), 12),
            (Call::Unbar(2), 16),
            (Call::Plan { room: 0 }, 18),
            (Call::Route { index: 7, room: 0 }, 18),
        ];
        for (call, number) in bad {
            assert_eq!(answers(&circuit, &[call])[0], Answer::Refused(number), "{call:?}");
        }
        let late = [
            (Call::Step, 17),
            (Call::Plan { room: 0 }, 11),
            (Call::Route { index: 1, room: 0 }, 13),
            (Call::Route { index: 0, room: 3 }, 11),
        ];
        for (call, number) in late {
            assert_eq!(answers(&circuit, &[Call::Step, Call::Step, call])[2], Answer::Refused(number), "{call:?}");
        }
        assert_eq!(answers(&circuit, &[Call::Bar(2), Call::Bar(2)])[1], Answer::Refused(15));
    }
}
