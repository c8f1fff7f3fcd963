//! Random lists of calls on a planning.

use crate::augmenting::Fast;
use crate::circuit::Circuit;
use crate::planning::{Answer, Call, Planning, State};
use crate::rng::Rng;

/// At least so many calls, most of them fit for the state they meet, some fit for none.
pub fn calls(rng: &mut Rng, circuit: &Circuit, count: usize) -> Vec<Call> {
    let mut caller = Caller { circuit, planning: Planning::new(circuit, &Fast), calls: Vec::new() };
    while caller.calls.len() < count {
        if rng.once_in(5) {
            let call = caller.any(rng);
            caller.call(call);
        } else {
            caller.fitting(rng);
        }
    }
    caller.calls
}

/// Follows its own calls on a planning, so as to know the state.
struct Caller<'c> {
    circuit: &'c Circuit,
    planning: Planning<'c, Fast>,
    calls: Vec<Call>,
}

impl Caller<'_> {
    fn call(&mut self, call: Call) -> Answer {
        self.calls.push(call);
        self.planning.call(call)
    }

    /// Any call, with arguments good or bad.
    fn any(&self, rng: &mut Rng) -> Call {
        let wires = self.circuit.wires();
        let rank = *rng.pick(&[wires as u32, wires as u32 + 1, u32::MAX, 0, wires as u32 - 1]);
        match rng.below(5) {
            0 => Call::Bar(rank),
            1 => Call::Unbar(rank),
            2 => Call::Step,
            3 => Call::Plan { room: *rng.pick(&[0, 1, wires]) },
            _ => {
                let room = *rng.pick(&[wires, wires + 3, wires - 1, 0]);
                Call::Route { index: *rng.pick(&[0, 1, 2, u32::MAX]), room }
            }
        }
    }

    fn fitting(&mut self, rng: &mut Rng) {
        match self.planning.standing().state {
            State::Open if rng.once_in(3) => self.turn_bars(rng),
            State::Open => self.steps(rng),
            State::Closed | State::Blocked if rng.once_in(3) => self.turn_bars(rng),
            State::Closed | State::Blocked => self.questions(rng),
        }
    }

    /// Steps to the end, or now and then only a few.
    fn steps(&mut self, rng: &mut Rng) {
        let hasty = rng.once_in(3);
        while self.call(Call::Step) == Answer::Grown {
            if hasty && rng.once_in(4) {
                return;
            }
        }
    }

    /// A few bars and unbars.
    fn turn_bars(&mut self, rng: &mut Rng) {
        for _ in 0..rng.within(1, 4) {
            let rank = rng.index(self.circuit.wires()) as u32;
            let barred = self.planning.bars()[rank as usize];
            // One in eight does not fit the wire's bar.
            let bar = barred == rng.once_in(8);
            self.call(if bar { Call::Bar(rank) } else { Call::Unbar(rank) });
        }
    }

    /// The plan and some routes, each perhaps more than once, and an index too high.
    fn questions(&mut self, rng: &mut Rng) {
        const MOST_ROUTES: u32 = 24;
        let room = self.circuit.wires();
        let routes = self.planning.standing().routes;
        self.call(Call::Plan { room });
        self.call(Call::Plan { room: (routes as usize).saturating_sub(rng.index(2)) });
        for index in 0..routes.clamp(1, MOST_ROUTES) {
            self.call(Call::Route { index, room });
        }
        let index = rng.below(routes.max(1));
        self.call(Call::Route { index, room });
        self.call(Call::Route { index: routes, room });
    }
}

#[cfg(test)]
mod tests {
    use super::*;
    use crate::random::circuits::small;

    #[test]
    fn every_answer_and_refusal_occurs() {
        let mut rng = Rng::new(8);
        let mut refused = [0; 20];
        let mut others = 0;
        for _ in 0..300 {
            let circuit = small(&mut rng);
            let mut planning = Planning::new(&circuit, &Fast);
            for call in calls(&mut rng, &circuit, 40) {
                match planning.call(call) {
                    Answer::Refused(number) => refused[usize::from(number)] += 1,
                    _ => others += 1,
                }
            }
        }
        assert!([11, 12, 13, 15, 16, 17, 18, 19].iter().all(|&number: &usize| refused[number] > 20), "{refused:?}");
        assert!(others > refused.iter().sum(), "{others} {refused:?}");
    }
}
