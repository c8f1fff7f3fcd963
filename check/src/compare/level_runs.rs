//! Cases of level runs, at the three schemes.

use super::case::{same, Case, Kinds, Mismatch};
use super::product::{LevelReply, Product, FILL};
use super::shrink::{parts, smaller_circuits, without};
use super::texts::shown_circuit;
use crate::augmenting::Fast;
use crate::circuit::Circuit;
use crate::levels::{self, Growth, Levels, Scheme, SCHEMES};
use crate::planner::Method;
use crate::random::circuits;
use crate::rng::Rng;
use std::fmt::{self, Display};

/// A circuit, a row that may be a plan of it, a scheme, and a room of so many numbers.
#[derive(Clone)]
pub struct LevelCase {
    circuit: Circuit,
    plan: Vec<u32>,
    scheme: Scheme,
    room: usize,
}

/// A circuit with a smallest plan, a random one, or a row that is none.
pub fn case(rng: &mut Rng) -> LevelCase {
    let circuit = if rng.once_in(3) { circuits::deep(rng, 120) } else { circuits::up_to(rng, 80) };
    let mut plan = match rng.below(4) {
        0 => Vec::new(),
        1 => random_plan(rng, &circuit),
        _ => Fast.outcome(&circuit, &vec![false; circuit.wires()]).plan().unwrap_or_default().to_vec(),
    };
    if rng.once_in(3) {
        disturb(rng, &circuit, &mut plan);
    }
    let wires = circuit.wires();
    let room = if rng.once_in(10) { *rng.pick(&[wires - 1, 0]) } else { wires + rng.index(3) };
    LevelCase { circuit, plan, scheme: *rng.pick(&SCHEMES), room }
}

fn random_plan(rng: &mut Rng, circuit: &Circuit) -> Vec<u32> {
    let of_ten = rng.within(1, 9);
    (0..circuit.wires() as u32).filter(|&rank| circuit.is_produced(rank) && rng.below(10) < of_ten).collect()
}

/// Takes a rank out, or puts any rank in anywhere.
fn disturb(rng: &mut Rng, circuit: &Circuit, plan: &mut Vec<u32>) {
    let place = rng.index(plan.len() + 1);
    if place < plan.len() && rng.flip() {
        plan.remove(place);
    } else {
        let wires = circuit.wires() as u32;
        let rank = *rng.pick(&[wires, u32::MAX, wires - 1, wires / 2, 0]);
        plan.insert(place, rank);
    }
}

impl Case for LevelCase {
    fn judge<P: Product>(&self, product: &mut P) -> Result<Kinds, Mismatch> {
        let mut room = vec![FILL; self.room];
        let answer = levels::run(&self.circuit, &self.plan, self.scheme, &mut room);
        let expected = LevelReply { answer: answer.map_err(|refusal| refusal.number()), room };
        same(&expected, &product.level_run(&self.circuit, &self.plan, self.scheme, self.room))?;
        let kind = match expected.answer {
            Ok(Levels::Clean) => format!("{} clean", name(self.scheme)),
            Ok(Levels::Overrun { .. }) => format!("{} overrun", name(self.scheme)),
            Err(number) => format!("refused {number}"),
        };
        Ok(vec![kind])
    }

    fn smaller(&self) -> Box<dyn Iterator<Item = Self> + '_> {
        let circuits = smaller_circuits(&self.circuit).map(|smaller| {
            let plan = self.plan.iter().filter_map(|&rank| moved(&smaller.ranks, rank)).collect();
            LevelCase { circuit: smaller.circuit, plan, ..*self }
        });
        let plans = parts(self.plan.len()).map(|part| LevelCase {
            circuit: self.circuit.clone(),
            plan: without(&self.plan, part),
            ..*self
        });
        Box::new(circuits.chain(plans))
    }
}

/// The scheme by its growth and limit.
fn name(scheme: Scheme) -> String {
    let growth = match scheme.growth {
        Growth::Exponential => "exponential",
        Growth::Linear => "linear",
    };
    format!("{growth} {}", scheme.limit)
}

/// Where a rank lies in a smaller circuit; one past the end stays so.
pub fn moved(ranks: &[Option<u32>], rank: u32) -> Option<u32> {
    ranks.get(rank as usize).copied().unwrap_or(Some(rank))
}

impl Display for LevelCase {
    fn fmt(&self, out: &mut fmt::Formatter) -> fmt::Result {
        writeln!(out, "{}", shown_circuit(&self.circuit))?;
        writeln!(out, "plan {:?}, {:?}, room for {} numbers", self.plan, self.scheme, self.room)
    }
}
