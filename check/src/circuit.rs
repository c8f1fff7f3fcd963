//! Circuits: makings and names by rank, with the numbers of inputs and outputs.

/// The most wires a circuit may have.
pub const MOST_WIRES: u32 = 1_048_576;

/// How a wire is made; operands are ranks.
#[derive(Clone, Copy, Debug, PartialEq, Eq)]
pub enum Making {
    Input,
    Constant(bool),
    Copy(u32),
    Inversion(u32),
    Sum(u32, u32),
    Product(u32, u32),
}

impl Making {
    /// The operands in their order; a wire used twice comes twice.
    pub fn operands(self) -> impl Iterator<Item = u32> {
        let (first, second) = match self {
            Making::Input | Making::Constant(_) => (None, None),
            Making::Copy(a) | Making::Inversion(a) => (Some(a), None),
            Making::Sum(a, b) | Making::Product(a, b) => (Some(a), Some(b)),
        };
        first.into_iter().chain(second)
    }

    /// The same making with every operand put through `turn`.
    pub fn map(self, mut turn: impl FnMut(u32) -> u32) -> Making {
        match self {
            Making::Input | Making::Constant(_) => self,
            Making::Copy(a) => Making::Copy(turn(a)),
            Making::Inversion(a) => Making::Inversion(turn(a)),
            Making::Sum(a, b) => Making::Sum(turn(a), turn(b)),
            Making::Product(a, b) => Making::Product(turn(a), turn(b)),
        }
    }

    /// Only produced wires can be refreshed or barred.
    pub fn is_produced(self) -> bool {
        !matches!(self, Making::Input | Making::Constant(_))
    }

    pub fn is_product(self) -> bool {
        matches!(self, Making::Product(..))
    }

    /// Whether a route may go on through this wire from an operand.
    pub fn passes(self) -> bool {
        self.is_produced() && !self.is_product()
    }
}

/// A circuit by its meaning; equal circuits answer every question alike.
#[derive(Clone, Debug, PartialEq, Eq)]
pub struct Circuit {
    pub makings: Vec<Making>,
    pub names: Vec<u32>,
    pub inputs: u32,
    pub outputs: u32,
}

impl Circuit {
    /// A circuit whose names are its ranks.
    pub fn by_rank(inputs: u32, produced: &[Making], outputs: u32) -> Circuit {
        let mut makings = vec![Making::Input; inputs as usize];
        makings.extend_from_slice(produced);
        let names = (0..makings.len() as u32).collect();
        Circuit { makings, names, inputs, outputs }
    }

    pub fn wires(&self) -> usize {
        self.makings.len()
    }

    pub fn making(&self, rank: u32) -> Option<Making> {
        self.makings.get(rank as usize).copied()
    }

    /// Whether the rank is that of a wire that can be refreshed.
    pub fn is_produced(&self, rank: u32) -> bool {
        self.making(rank).is_some_and(Making::is_produced)
    }

    /// The ranks by name.
    pub fn ranks(&self) -> Vec<u32> {
        let mut ranks = vec![0; self.wires()];
        for (rank, &name) in self.names.iter().enumerate() {
            ranks[name as usize] = rank as u32;
        }
        ranks
    }

    /// By rank, whether the wire is an operand of some product: where routes may end.
    pub fn goals(&self) -> Vec<bool> {
        let mut goals = vec![false; self.wires()];
        for making in self.makings.iter().filter(|making| making.is_product()) {
            for operand in making.operands() {
                goals[operand as usize] = true;
            }
        }
        goals
    }

    /// Whether all the laws of circuits hold.
    pub fn is_lawful(&self) -> bool {
        let wires = self.wires();
        let mut seen = vec![false; wires];
        (1..=MOST_WIRES as usize).contains(&wires)
            && self.names.len() == wires
            && self.outputs as usize <= wires
            && self.inputs as usize <= wires
            && (0u32..).zip(&self.makings).zip(&self.names).all(|((rank, making), &name)| {
                let input = rank < self.inputs;
                (name as usize) < wires
                    && !std::mem::replace(&mut seen[name as usize], true)
                    && (*making == Making::Input) == input
                    && (!input || name == rank)
                    && making.operands().all(|operand| operand < rank)
            })
    }
}

#[cfg(test)]
mod tests {
    use super::*;

    #[test]
    fn laws_hold_and_fail() {
        let good = Circuit::by_rank(2, &[Making::Product(0, 1), Making::Copy(2)], 1);
        assert!(good.is_lawful());
        assert_eq!(good.goals(), [true, true, false, false]);
        let broken = [
            Circuit::by_rank(2, &[Making::Product(0, 2)], 1),
            Circuit::by_rank(1, &[Making::Input], 1),
            Circuit::by_rank(0, &[], 0),
            Circuit { names: vec![0, 1, 3, 3], ..good.clone() },
            Circuit { names: vec![0, 1, 2, 4], ..good.clone() },
            Circuit { names: vec![1, 0, 2, 3], ..good.clone() },
            Circuit { outputs: 5, ..good.clone() },
            Circuit { inputs: 1, ..good.clone() },
        ];
        assert!(broken.iter().all(|circuit| !circuit.is_lawful()));
        let swapped = Circuit { names: vec![0, 1, 3, 2], ..good };
        assert!(swapped.is_lawful());
        assert_eq!(swapped.ranks(), [0, 1, 3, 2]);
    }
}
