//! Adders, comparators and multipliers of two numbers.

use super::builder::{Bit, Builder};
use super::evaluate::{bits_of, evaluate, number_of};
use super::Problem;
use crate::circuit::Circuit;
use crate::rng::Rng;

/// Ripple-carry sum of two numbers of so many bits, with the last carry.
pub fn adder(bits: u32) -> Circuit {
    let mut builder = Builder::new(2 * bits);
    let inputs = builder.inputs();
    let (a, b) = inputs.split_at(bits as usize);
    let mut carry = Bit::Known(false);
    let mut sum = Vec::new();
    for (&x, &y) in a.iter().zip(b) {
        let (bit, next) = builder.full_add(x, y, carry);
        sum.push(bit);
        carry = next;
    }
    sum.push(carry);
    builder.finish(&sum)
}

/// Whether the first of two numbers is less than the second.
pub fn comparator(bits: u32) -> Circuit {
    let mut builder = Builder::new(2 * bits);
    let inputs = builder.inputs();
    let (a, b) = inputs.split_at(bits as usize);
    let mut less = Bit::Known(false);
    for (&x, &y) in a.iter().zip(b) {
        // Where the bits differ the second's decides, else what came before.
        let from_x = builder.xor(x, less);
        let from_y = builder.xor(y, less);
        let inverted = builder.not(from_x);
        let decides = builder.and(inverted, from_y);
        less = builder.xor(decides, less);
    }
    builder.finish(&[less])
}

/// The product of two numbers of so many bits, by rows of partial products.
pub fn multiplier(bits: u32) -> Circuit {
    let mut builder = Builder::new(2 * bits);
    let inputs = builder.inputs();
    let (a, b) = inputs.split_at(bits as usize);
    let mut total = vec![Bit::Known(false); 2 * bits as usize];
    for (shift, &y) in b.iter().enumerate() {
        let mut carry = Bit::Known(false);
        for (index, &x) in a.iter().enumerate() {
            let partial = builder.and(x, y);
            let (bit, next) = builder.full_add(total[shift + index], partial, carry);
            total[shift + index] = bit;
            carry = next;
        }
        total[shift + bits as usize] = carry;
    }
    builder.finish(&total)
}

pub fn add(a: u64, b: u64) -> u128 {
    u128::from(a) + u128::from(b)
}

pub fn less(a: u64, b: u64) -> u128 {
    u128::from(a < b)
}

pub fn multiply(a: u64, b: u64) -> u128 {
    u128::from(a) * u128::from(b)
}

/// The circuit, once it agrees with plain arithmetic on edges and on random numbers.
pub fn checked(
    build: impl Fn(u32) -> Circuit,
    answer: impl Fn(u64, u64) -> u128,
    bits: u32,
) -> Result<Circuit, Problem> {
    let circuit = build(bits);
    let mask = u64::MAX >> (64 - bits);
    let mut rng = Rng::new(u64::from(bits));
    let edges = [0, 1, mask, mask >> 1];
    let mut pairs: Vec<(u64, u64)> = edges.iter().flat_map(|&a| edges.map(|b| (a, b))).collect();
    pairs.extend((0..32).map(|_| (rng.draw() & mask, rng.draw() & mask)));
    for (a, b) in pairs {
        let inputs: Vec<bool> = bits_of(a.into(), bits).chain(bits_of(b.into(), bits)).collect();
        let found = number_of(&evaluate(&circuit, &inputs));
        if found != answer(a, b) {
            return Err(format!("of {a} and {b} in {bits} bits the circuit makes {found}"));
        }
    }
    Ok(circuit)
}

#[cfg(test)]
mod tests {
    use super::*;

    #[test]
    fn every_width_agrees_with_arithmetic() {
        for bits in 1..=64 {
            checked(adder, add, bits).unwrap();
            checked(comparator, less, bits).unwrap();
            checked(multiplier, multiply, bits).unwrap();
        }
    }

    #[test]
    fn a_wrong_circuit_is_found() {
        assert!(checked(adder, multiply, 8).is_err());
    }
}
