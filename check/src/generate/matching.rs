//! The matching circuit: whether two rows of bits are the same.

use super::evaluate::evaluate;
use super::Problem;
use crate::circuit::{Circuit, Making};
use crate::format::number;
use crate::rng::Rng;

/// The widest matching circuit.
pub const WIDEST: u32 = 4096;

/// The matching circuit of that width: sums, their inversions and a row of products.
pub fn circuit(width: u32) -> Circuit {
    let sums = (0..width).map(|i| Making::Sum(i, width + i));
    let inversions = (0..width).map(|i| Making::Inversion(2 * width + i));
    let products = (0..width - 1).map(|i| {
        let before = if i == 0 { 3 * width } else { 4 * width + i - 1 };
        Making::Product(3 * width + i + 1, before)
    });
    let produced: Vec<Making> = sums.chain(inversions).chain(products).collect();
    Circuit::by_rank(2 * width, &produced, 1)
}

/// The circuit, or the number of the fault of a width outside its bounds.
pub fn worked_out(width: u32) -> Result<Circuit, u8> {
    if (1..=WIDEST).contains(&width) {
        Ok(circuit(width))
    } else {
        Err(number::WIDTH)
    }
}

/// The circuit, once it tells rows that match from rows that do not.
pub fn checked(width: u32) -> Result<Circuit, Problem> {
    let circuit = circuit(width);
    let mut rng = Rng::new(u64::from(width));
    for _ in 0..8 {
        let row: Vec<bool> = (0..width).map(|_| rng.flip()).collect();
        let mut other = row.clone();
        let place = rng.index(other.len());
        other[place] = !other[place];
        let matches = |second: &[bool]| evaluate(&circuit, &[&row, second].concat());
        if matches(&row) != [true] || matches(&other) != [false] {
            return Err(format!("width {width} does not match"));
        }
    }
    Ok(circuit)
}

#[cfg(test)]
mod tests {
    use super::*;

    #[test]
    fn widths_match() {
        for width in [1, 2, 3, 4, 8, 100, WIDEST] {
            let circuit = checked(width).unwrap();
            assert!(circuit.is_lawful());
            assert_eq!(circuit.wires() as u32, 5 * width - 1);
        }
    }
}
