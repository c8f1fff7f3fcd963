//! Real circuits, each checked by evaluating it against known answers.

pub mod aes;
pub mod arithmetic;
pub mod builder;
pub mod evaluate;
pub mod hub;
pub mod keccak;
pub mod matching;
pub mod sha256;

use crate::circuit::{Circuit, MOST_WIRES};
use crate::random::circuits::{Shape, Weave};
use crate::rng::Rng;

/// The kinds of circuit that can be asked for, with what their number means.
pub const KINDS: [(&str, &str); 10] = [
    ("adder", "bits, 1 to 64"),
    ("comparator", "bits, 1 to 64"),
    ("multiplier", "bits, 1 to 64"),
    ("keccak", "rounds, 1 to 24"),
    ("sha256", "no number: one block"),
    ("aes", "no number: the S-box"),
    ("matching", "width, 1 to 4096"),
    ("hub", "products on either side, 1 to 200000"),
    ("random", "wires, 1 to 1048576: operands from afar"),
    ("layered", "wires, 1 to 1048576: layers whose routes meet"),
];

/// What was wrong with a request, for people.
pub type Problem = String;

/// The circuit of that kind, once it has passed its own check.
pub fn circuit(kind: &str, number: Option<u32>) -> Result<Circuit, Problem> {
    let within = |default: u32, most: u32| {
        let number = number.unwrap_or(default);
        if (1..=most).contains(&number) {
            Ok(number)
        } else {
            Err(format!("{kind} takes a number from 1 to {most}"))
        }
    };
    match kind {
        "adder" => arithmetic::checked(arithmetic::adder, arithmetic::add, within(64, 64)?),
        "comparator" => arithmetic::checked(arithmetic::comparator, arithmetic::less, within(64, 64)?),
        "multiplier" => arithmetic::checked(arithmetic::multiplier, arithmetic::multiply, within(64, 64)?),
        "keccak" => keccak::checked(within(24, 24)?),
        "sha256" => sha256::checked(),
        "aes" => aes::checked(),
        "matching" => matching::checked(within(8, matching::WIDEST)?),
        "hub" => hub::checked(within(1000, hub::LARGEST)?),
        "random" => {
            let wires = within(MOST_WIRES, MOST_WIRES)?;
            Ok(random(wires, Weave::Mixed { products: 45, reach: 1 + wires / 2 }))
        }
        "layered" => Ok(random(within(MOST_WIRES, MOST_WIRES)?, Weave::Layered { size: 1000, period: 3 })),
        _ => Err(format!("no kind {kind}")),
    }
}

/// A large random circuit, the same for the same number of wires.
fn random(wires: u32, weave: Weave) -> Circuit {
    let inputs = wires.min(1 + wires / 64);
    Shape { wires, inputs, weave }.circuit(&mut Rng::new(u64::from(wires)))
}
