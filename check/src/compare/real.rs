//! Real circuits: written, read, planned to the end, and asked for routes.

use super::case::{put, Difference, Mismatch};
use super::product::Product;
use super::runs::RunCase;
use super::summary::Summary;
use super::texts::WriteCase;
use crate::augmenting::Augmenting;
use crate::circuit::Circuit;
use crate::generate::{self, hub};
use crate::planning::Call;

/// The circuits compared, by kind and number.
pub const CIRCUITS: [(&str, u32); 14] = [
    ("adder", 8),
    ("adder", 64),
    ("comparator", 64),
    ("multiplier", 8),
    ("multiplier", 32),
    ("multiplier", 64),
    ("aes", 1),
    ("matching", 8),
    ("matching", 4096),
    ("keccak", 1),
    ("keccak", 24),
    ("sha256", 1),
    ("random", 100_000),
    ("layered", 100_000),
];

/// Of a large planning, so many routes are asked for.
const MOST_ROUTES: u32 = 256;

/// Builds each circuit, which checks it, and puts it to the product.
pub fn compare(product: &mut impl Product, summary: &mut Summary) -> Result<(), Difference> {
    for (kind, number) in CIRCUITS {
        let circuit = generate::circuit(kind, Some(number)).map_err(|problem| Difference {
            kind: "real circuits",
            case: format!("{kind} {number}"),
            mismatch: Mismatch::new("a circuit that gives the known answers", problem),
        })?;
        put(product, "real circuits, texts", WriteCase { circuit: circuit.clone() }, summary)?;
        let bars = vec![false; circuit.wires()];
        put(product, "real circuits, runs", whole_run(circuit, bars), summary)?;
    }
    put(product, "a barred hub", barred_hub(), summary)
}

/// A hub that all routes go through, since its sums are barred.
fn barred_hub() -> RunCase {
    const SIZE: u32 = 300;
    let circuit = hub::circuit(SIZE);
    let mut bars = vec![false; circuit.wires()];
    hub::sums(&circuit).for_each(|rank| bars[rank as usize] = true);
    whole_run(circuit, bars)
}

/// Bars, steps to the end, then the plan, routes twice, and one index too high.
fn whole_run(circuit: Circuit, bars: Vec<bool>) -> RunCase {
    let count = Augmenting::new(&circuit, &bars).close();
    let room = circuit.wires();
    let mut calls: Vec<Call> = (0..room as u32).filter(|&rank| bars[rank as usize]).map(Call::Bar).collect();
    calls.resize(calls.len() + count as usize + 2, Call::Step);
    calls.push(Call::Plan { room });
    for _ in 0..2 {
        calls.extend((0..count.min(MOST_ROUTES)).map(|index| Call::Route { index, room }));
    }
    calls.push(Call::Route { index: count, room });
    calls.push(Call::Plan { room: count as usize });
    RunCase { circuit, calls }
}
