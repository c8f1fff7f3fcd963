//! Random circuits.

use crate::circuit::{Circuit, Making};
use crate::rng::Rng;

/// What random circuits are like.
#[derive(Clone, Copy, Debug)]
pub struct Shape {
    pub wires: u32,
    pub inputs: u32,
    pub weave: Weave,
}

/// How wires take their operands.
#[derive(Clone, Copy, Debug)]
pub enum Weave {
    /// Of a hundred wires so many are products; operands lie at most `reach` below.
    Mixed { products: u32, reach: u32 },
    /// Layers of that size, the first of every `period` all products, the others all passing.
    /// Routes meet often, so that many can stand only after others have moved.
    Layered { size: u32, period: u32 },
}

impl Weave {
    fn any(rng: &mut Rng, wires: u32) -> Weave {
        if rng.flip() {
            let period = rng.within(2, 4);
            // Products must come twice, or no wire is a product's operand.
            let most = wires / (period + 1);
            return Weave::Layered { size: rng.within(1 + most / 2, 2 + most), period };
        }
        let products = *rng.pick(&[10, 30, 45, 60, 80]);
        Weave::Mixed { products, reach: *rng.pick(&[2, 3, 5, 12, 100, u32::MAX]) }
    }
}

impl Shape {
    /// A shape of at most so many wires, with at most `produced` of them not inputs.
    pub fn any(rng: &mut Rng, wires: u32, produced: u32) -> Shape {
        // The larger of two draws: the smallest circuits have little to plan.
        let wires = rng.within(1, wires).max(rng.within(1, wires));
        let fewest = wires.saturating_sub(produced);
        let inputs = rng.within(fewest, fewest.max(4.max(wires / 4).min(wires)));
        Shape { wires, inputs, weave: Weave::any(rng, wires - inputs) }
    }

    /// A circuit of this shape; names are shuffled half of the time.
    pub fn circuit(self, rng: &mut Rng) -> Circuit {
        let mut makings = vec![Making::Input; self.inputs as usize];
        for rank in self.inputs..self.wires {
            makings.push(self.making(rng, rank));
        }
        let mut names: Vec<u32> = (0..self.wires).collect();
        if rng.flip() {
            rng.shuffle(&mut names[self.inputs as usize..]);
        }
        Circuit { makings, names, inputs: self.inputs, outputs: rng.within(0, self.wires) }
    }

    fn making(self, rng: &mut Rng, rank: u32) -> Making {
        if rank == 0 || rng.once_in(20) {
            return Making::Constant(rng.flip());
        }
        match self.weave {
            Weave::Mixed { products, reach } => {
                let mut operand = || rank - 1 - rng.below(rank.min(reach));
                let (a, b) = (operand(), operand());
                made(rng, products, a, b)
            }
            Weave::Layered { size, period } => {
                let layer = (rank - self.inputs) / size;
                let start = (self.inputs + layer * size).max(1);
                let product = layer.is_multiple_of(period);
                let near = start - 1 - rng.below(start.min(size));
                // A product takes one wire of the layer before, so that not all of it are goals.
                let other =
                    if product { rng.below(self.inputs.max(1)) } else { start - 1 - rng.below(start.min(size)) };
                made(rng, if product { 100 } else { 0 }, near, other)
            }
        }
    }
}

/// A product so many times in a hundred, else a wire that passes.
fn made(rng: &mut Rng, products: u32, a: u32, b: u32) -> Making {
    if rng.below(100) < products {
        return Making::Product(a, b);
    }
    match rng.below(6) {
        0 => Making::Copy(a),
        1 => Making::Inversion(a),
        _ => Making::Sum(a, b),
    }
}

/// A circuit small enough to plan by trying all sets.
pub fn small(rng: &mut Rng) -> Circuit {
    Shape::any(rng, 15, 11).circuit(rng)
}

/// A circuit of at most so many wires.
pub fn up_to(rng: &mut Rng, wires: u32) -> Circuit {
    Shape::any(rng, wires, wires).circuit(rng)
}

/// A circuit of so many wires with long rows of products, for schemes with a high limit.
pub fn deep(rng: &mut Rng, wires: u32) -> Circuit {
    let products = rng.within(20, 90);
    Shape { wires, inputs: rng.within(1, 4), weave: Weave::Mixed { products, reach: 3 } }.circuit(rng)
}

/// Random bars on produced wires, from none to most.
pub fn bars(rng: &mut Rng, circuit: &Circuit) -> Vec<bool> {
    let of_ten = *rng.pick(&[0, 0, 1, 3, 6]);
    circuit.makings.iter().map(|making| making.is_produced() && rng.below(10) < of_ten).collect()
}

#[cfg(test)]
mod tests {
    use super::*;

    #[test]
    fn random_circuits_are_lawful() {
        let mut rng = Rng::new(2);
        for _ in 0..2000 {
            let circuit = small(&mut rng);
            assert!(circuit.is_lawful(), "{circuit:?}");
            assert!(circuit.makings.iter().filter(|making| making.is_produced()).count() <= 11);
            assert!(up_to(&mut rng, 200).is_lawful());
        }
    }
}
