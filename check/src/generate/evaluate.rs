//! Evaluating circuits on bits, to check them against known answers.

use crate::circuit::{Circuit, Making};

/// The output bits, by name, for input bits by name.
pub fn evaluate(circuit: &Circuit, inputs: &[bool]) -> Vec<bool> {
    assert_eq!(inputs.len(), circuit.inputs as usize);
    let mut bits: Vec<bool> = Vec::with_capacity(circuit.wires());
    for (rank, &making) in circuit.makings.iter().enumerate() {
        let bit = |rank: u32| bits[rank as usize];
        let value = match making {
            Making::Input => inputs[rank],
            Making::Constant(value) => value,
            Making::Copy(a) => bit(a),
            Making::Inversion(a) => !bit(a),
            Making::Sum(a, b) => bit(a) ^ bit(b),
            Making::Product(a, b) => bit(a) & bit(b),
        };
        bits.push(value);
    }
    let ranks = circuit.ranks();
    let first = circuit.wires() - circuit.outputs as usize;
    ranks[first..].iter().map(|&rank| bits[rank as usize]).collect()
}

/// The lowest bits of a number, lowest first.
pub fn bits_of(value: u128, width: u32) -> impl Iterator<Item = bool> {
    (0..width).map(move |bit| value >> bit & 1 == 1)
}

/// The number that bits stand for, lowest first.
pub fn number_of(bits: &[bool]) -> u128 {
    bits.iter().rev().fold(0, |value, &bit| value << 1 | u128::from(bit))
}
