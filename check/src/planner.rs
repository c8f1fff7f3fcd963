//! What a planning comes to, and the planner that finds it by a general maximum flow.

use crate::circuit::Circuit;
use crate::flow::{Network, UNBOUNDED};
use crate::routes::barred_route;

/// What a circuit with bars comes to.
#[derive(Clone, Debug, PartialEq, Eq)]
pub enum Outcome {
    /// Some route has only barred wires; here is one.
    Blocked { route: Vec<u32> },
    /// The earliest smallest plan, and as many routes that share no unbarred wire.
    Planned { plan: Vec<u32>, routes: Vec<Vec<u32>> },
}

impl Outcome {
    /// The plan, unless blocked.
    pub fn plan(&self) -> Option<&[u32]> {
        match self {
            Outcome::Planned { plan, .. } => Some(plan),
            Outcome::Blocked { .. } => None,
        }
    }
}

/// A way to find the outcome.
pub trait Method {
    fn outcome(&self, circuit: &Circuit, bars: &[bool]) -> Outcome;
}

/// Every wire split in entry and exit, and a maximum flow from products to operands of products.
#[derive(Clone, Copy, Debug, Default)]
pub struct MaximumFlow;

impl Method for MaximumFlow {
    fn outcome(&self, circuit: &Circuit, bars: &[bool]) -> Outcome {
        if let Some(route) = barred_route(circuit, bars) {
            return Outcome::Blocked { route };
        }
        let mut split = Split::new(circuit, bars);
        let count = split.maximise();
        Outcome::Planned { plan: split.earliest_cut(), routes: split.into_routes(count) }
    }
}

/// The flow network of a circuit.
pub struct Split {
    network: Network,
    wires: usize,
}

fn entry(rank: u32) -> u32 {
    2 * rank
}

fn exit(rank: u32) -> u32 {
    2 * rank + 1
}

impl Split {
    pub fn new(circuit: &Circuit, bars: &[bool]) -> Split {
        let wires = circuit.wires();
        let mut split = Split { network: Network::new(2 * wires + 2, 4 * wires), wires };
        let (source, sink) = (split.source(), split.sink());
        let goals = circuit.goals();
        for (rank, making) in (0u32..).zip(&circuit.makings).filter(|(_, making)| making.is_produced()) {
            let capacity = if bars[rank as usize] { UNBOUNDED } else { 1 };
            split.network.add(entry(rank), exit(rank), capacity);
            if goals[rank as usize] {
                split.network.add(exit(rank), sink, UNBOUNDED);
            }
            if making.is_product() {
                split.network.add(source, entry(rank), UNBOUNDED);
            } else {
                for operand in making.operands() {
                    split.network.add(exit(operand), entry(rank), UNBOUNDED);
                }
            }
        }
        split
    }

    fn source(&self) -> u32 {
        entry(self.wires as u32)
    }

    fn sink(&self) -> u32 {
        exit(self.wires as u32)
    }

    /// Raises the flow to its maximum and answers how many routes that adds.
    pub fn maximise(&mut self) -> u64 {
        self.network.maximise(self.source(), self.sink())
    }

    /// Once the flow is a maximum: the wires whose entry is reached and whose exit is not.
    pub fn earliest_cut(&self) -> Vec<u32> {
        let reached = self.network.reached(self.source());
        let cut = |&rank: &u32| reached[entry(rank) as usize] && !reached[exit(rank) as usize];
        (0..self.wires as u32).filter(cut).collect()
    }

    /// Takes the flow apart into its routes.
    fn into_routes(self, count: u64) -> Vec<Vec<u32>> {
        let (source, sink) = (self.source(), self.sink());
        let mut units = self.network.into_units();
        let mut route = || {
            let nodes = std::iter::successors(units.take(source), |&node| units.take(node));
            let entries = nodes.take_while(|&node| node != sink).filter(|node| node % 2 == 0);
            entries.map(|node| node / 2).collect()
        };
        (0..count).map(|_| route()).collect()
    }
}
