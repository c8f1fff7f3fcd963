//! Builds circuits gate by gate; what is known is worked out and makes no wire.

use crate::circuit::{Circuit, Making};

/// A bit of a circuit under construction.
#[derive(Clone, Copy, Debug, PartialEq, Eq)]
pub enum Bit {
    Known(bool),
    Wire(u32),
}

/// A circuit under construction.
pub struct Builder {
    makings: Vec<Making>,
    inputs: u32,
}

impl Builder {
    pub fn new(inputs: u32) -> Builder {
        Builder { makings: vec![Making::Input; inputs as usize], inputs }
    }

    /// The inputs, from the first.
    pub fn inputs(&self) -> Vec<Bit> {
        (0..self.inputs).map(Bit::Wire).collect()
    }

    fn make(&mut self, making: Making) -> Bit {
        self.makings.push(making);
        Bit::Wire(self.makings.len() as u32 - 1)
    }

    pub fn not(&mut self, a: Bit) -> Bit {
        match a {
            Bit::Known(value) => Bit::Known(!value),
            Bit::Wire(rank) => self.make(Making::Inversion(rank)),
        }
    }

    pub fn xor(&mut self, a: Bit, b: Bit) -> Bit {
        match (a, b) {
            (Bit::Known(false), other) | (other, Bit::Known(false)) => other,
            (Bit::Known(true), other) | (other, Bit::Known(true)) => self.not(other),
            (Bit::Wire(one), Bit::Wire(two)) => self.make(Making::Sum(one, two)),
        }
    }

    pub fn and(&mut self, a: Bit, b: Bit) -> Bit {
        match (a, b) {
            (Bit::Known(false), _) | (_, Bit::Known(false)) => Bit::Known(false),
            (Bit::Known(true), other) | (other, Bit::Known(true)) => other,
            (Bit::Wire(one), Bit::Wire(two)) => self.make(Making::Product(one, two)),
        }
    }

    /// The sum bit and the carry, with one product.
    pub fn full_add(&mut self, a: Bit, b: Bit, carry: Bit) -> (Bit, Bit) {
        let ac = self.xor(a, carry);
        let bc = self.xor(b, carry);
        let sum = self.xor(ac, b);
        let both = self.and(ac, bc);
        (sum, self.xor(both, carry))
    }

    /// The sum of two numbers of the same width, lowest bit first, without the last carry.
    pub fn add_words(&mut self, a: &[Bit], b: &[Bit]) -> Vec<Bit> {
        let mut carry = Bit::Known(false);
        let mut sum = Vec::with_capacity(a.len());
        for (index, (&x, &y)) in a.iter().zip(b).enumerate() {
            if index + 1 == a.len() {
                let half = self.xor(x, y);
                sum.push(self.xor(half, carry));
            } else {
                let (bit, next) = self.full_add(x, y, carry);
                sum.push(bit);
                carry = next;
            }
        }
        sum
    }

    /// The finished circuit, in which the outputs have the last names in their order.
    pub fn finish(mut self, outputs: &[Bit]) -> Circuit {
        let ranks = self.output_ranks(outputs);
        let wires = self.makings.len() as u32;
        let mut names = vec![None; wires as usize];
        for (name, &rank) in (wires - ranks.len() as u32..).zip(&ranks) {
            names[rank as usize] = Some(name);
        }
        let mut free = 0..;
        let names = names.into_iter().map(|name| name.or_else(|| free.next()).unwrap_or_default()).collect();
        Circuit { makings: self.makings, names, inputs: self.inputs, outputs: ranks.len() as u32 }
    }

    /// A produced wire of its own for each output.
    fn output_ranks(&mut self, outputs: &[Bit]) -> Vec<u32> {
        let mut taken = vec![false; self.makings.len()];
        let mut ranks = Vec::with_capacity(outputs.len());
        for &output in outputs {
            let own = match output {
                Bit::Wire(rank) if rank >= self.inputs && !taken[rank as usize] => {
                    taken[rank as usize] = true;
                    output
                }
                Bit::Wire(rank) => self.make(Making::Copy(rank)),
                Bit::Known(value) => self.make(Making::Constant(value)),
            };
            if let Bit::Wire(rank) = own {
                ranks.push(rank);
            }
        }
        ranks
    }
}
