//! The hub: many products summed into one wire, which many products take copies of.
//!
//! With the sums barred all routes go through the hub, and there are as many as products.

use super::evaluate::evaluate;
use super::Problem;
use crate::circuit::{Circuit, Making};
use crate::rng::Rng;

/// The most products a hub can have on its side.
pub const LARGEST: u32 = 200_000;

/// A hub with so many products on either side, one input for each and one more.
pub fn circuit(size: u32) -> Circuit {
    let inputs = size + 1;
    let mut produced: Vec<Making> = (0..size).map(|i| Making::Product(i, size)).collect();
    let mut layer: Vec<u32> = (inputs..inputs + size).collect();
    while layer.len() > 1 {
        let mut halved = Vec::with_capacity(layer.len().div_ceil(2));
        for pair in layer.chunks(2) {
            if let [a, b] = *pair {
                produced.push(Making::Sum(a, b));
                halved.push(inputs + produced.len() as u32 - 1);
            } else {
                halved.extend_from_slice(pair);
            }
        }
        layer = halved;
    }
    let copies = inputs + produced.len() as u32;
    produced.extend(layer.iter().cycle().take(size as usize).map(|&hub| Making::Copy(hub)));
    produced.extend((0..size).map(|i| Making::Product(copies + i, i)));
    Circuit::by_rank(inputs, &produced, size)
}

/// The sums, by rank.
pub fn sums(circuit: &Circuit) -> impl Iterator<Item = u32> + '_ {
    let sum = |making: &Making| matches!(making, Making::Sum(..));
    (0u32..).zip(&circuit.makings).filter(move |(_, making)| sum(making)).map(|(rank, _)| rank)
}

/// The circuit, once each output is an input where the sum of all products is 1.
pub fn checked(size: u32) -> Result<Circuit, Problem> {
    let circuit = circuit(size);
    let mut rng = Rng::new(u64::from(size));
    for last in [false, true, true] {
        let mut inputs: Vec<bool> = (0..size).map(|_| rng.flip()).collect();
        let odd = last && inputs.iter().filter(|&&bit| bit).count() % 2 == 1;
        let expected: Vec<bool> = inputs.iter().map(|&bit| bit && odd).collect();
        inputs.push(last);
        if evaluate(&circuit, &inputs) != expected {
            return Err(format!("a hub of {size} is wrong"));
        }
    }
    Ok(circuit)
}

#[cfg(test)]
mod tests {
    use super::*;

    #[test]
    fn hubs_of_many_sizes() {
        for size in [1, 2, 3, 7, 64, 1000, LARGEST] {
            let circuit = checked(size).unwrap();
            assert!(circuit.is_lawful());
            assert_eq!(sums(&circuit).count() as u32, size - 1);
        }
    }
}
