//! A general maximum flow by shortest level graphs, with capacities on the edges.

/// Stands for no node and no edge.
const NONE: u32 = u32::MAX;

/// A capacity that no cut of interest reaches.
pub const UNBOUNDED: u64 = 1 << 40;

#[derive(Clone, Copy)]
struct Edge {
    to: u32,
    next: u32,
    residual: u64,
}

/// A directed graph with capacities; edge `e ^ 1` is the reverse of edge `e`.
pub struct Network {
    first: Vec<u32>,
    edges: Vec<Edge>,
    levels: Vec<u32>,
    current: Vec<u32>,
}

impl Network {
    pub fn new(nodes: usize, edges: usize) -> Network {
        Network {
            first: vec![NONE; nodes],
            edges: Vec::with_capacity(2 * edges),
            levels: vec![NONE; nodes],
            current: vec![NONE; nodes],
        }
    }

    pub fn add(&mut self, from: u32, to: u32, capacity: u64) {
        for (here, there, residual) in [(from, to, capacity), (to, from, 0)] {
            let next = std::mem::replace(&mut self.first[here as usize], self.edges.len() as u32);
            self.edges.push(Edge { to: there, next, residual });
        }
    }

    /// Raises the flow from source to sink to its maximum and answers how much was added.
    pub fn maximise(&mut self, source: u32, sink: u32) -> u64 {
        let mut total = 0;
        while self.set_levels(source, sink) {
            self.current.copy_from_slice(&self.first);
            total += self.block(source, sink);
        }
        total
    }

    /// Distances from the source in the residual graph; whether the sink has one.
    fn set_levels(&mut self, source: u32, sink: u32) -> bool {
        self.levels.fill(NONE);
        self.levels[source as usize] = 0;
        let mut queue = vec![source];
        let mut head = 0;
        while let Some(&node) = queue.get(head) {
            head += 1;
            let mut edge = self.first[node as usize];
            while edge != NONE {
                let Edge { to, next, residual } = self.edges[edge as usize];
                if residual > 0 && self.levels[to as usize] == NONE {
                    self.levels[to as usize] = self.levels[node as usize] + 1;
                    queue.push(to);
                }
                edge = next;
            }
        }
        self.levels[sink as usize] != NONE
    }

    /// Fills the level graph until every path in it has a full edge.
    fn block(&mut self, source: u32, sink: u32) -> u64 {
        let mut total = 0;
        let mut path: Vec<u32> = Vec::new();
        loop {
            let node = path.last().map_or(source, |&edge| self.edges[edge as usize].to);
            if node == sink {
                total += self.push(&mut path);
            } else if let Some(edge) = self.forward(node) {
                path.push(edge);
            } else {
                // A dead end leaves the level graph.
                self.levels[node as usize] = NONE;
                if path.pop().is_none() {
                    return total;
                }
            }
        }
    }

    /// The first edge from here that goes one level on.
    fn forward(&mut self, node: u32) -> Option<u32> {
        let onward = self.levels[node as usize].wrapping_add(1);
        let mut edge = self.current[node as usize];
        while edge != NONE {
            let Edge { to, next, residual } = self.edges[edge as usize];
            if residual > 0 && self.levels[to as usize] == onward {
                break;
            }
            edge = next;
        }
        self.current[node as usize] = edge;
        (edge != NONE).then_some(edge)
    }

    /// Pushes what the path can carry and cuts it back to its first full edge.
    fn push(&mut self, path: &mut Vec<u32>) -> u64 {
        let amount = path.iter().map(|&edge| self.edges[edge as usize].residual).min().unwrap_or(0);
        let mut kept = path.len();
        for (index, &edge) in path.iter().enumerate().rev() {
            self.edges[edge as usize].residual -= amount;
            self.edges[edge as usize ^ 1].residual += amount;
            if self.edges[edge as usize].residual == 0 {
                kept = index;
            }
        }
        path.truncate(kept);
        amount
    }

    /// By node, whether the residual graph reaches it from the source.
    pub fn reached(&self, source: u32) -> Vec<bool> {
        let mut reached = vec![false; self.first.len()];
        reached[source as usize] = true;
        let mut stack = vec![source];
        while let Some(node) = stack.pop() {
            for edge in self.edges_from(node).filter(|edge| edge.residual > 0) {
                if !std::mem::replace(&mut reached[edge.to as usize], true) {
                    stack.push(edge.to);
                }
            }
        }
        reached
    }

    /// The flow, to be taken apart unit by unit.
    pub fn into_units(mut self) -> Units {
        self.current.copy_from_slice(&self.first);
        Units(self)
    }

    fn edges_from(&self, node: u32) -> impl Iterator<Item = Edge> + '_ {
        let edge = |index: u32| self.edges.get(index as usize).copied();
        std::iter::successors(edge(self.first[node as usize]), move |at| edge(at.next))
    }
}

/// A flow that is being taken apart.
pub struct Units(Network);

impl Units {
    /// Takes one unit of flow off an edge that leaves the node, and answers where it leads.
    pub fn take(&mut self, node: u32) -> Option<u32> {
        let Units(network) = self;
        // Flow only falls from here on, so an edge passed over need not be looked at again.
        let current = &mut network.current[node as usize];
        while *current != NONE {
            let edge = *current as usize;
            // Edges come in pairs, the even one in its own direction.
            if edge & 1 == 0 && network.edges[edge ^ 1].residual > 0 {
                network.edges[edge ^ 1].residual -= 1;
                return Some(network.edges[edge].to);
            }
            *current = network.edges[edge].next;
        }
        None
    }
}

#[cfg(test)]
mod tests {
    use super::*;
    use crate::rng::Rng;

    #[test]
    fn a_known_network() {
        let mut network = Network::new(6, 9);
        for (from, to, capacity) in
            [(0, 1, 16), (0, 2, 13), (2, 1, 4), (1, 3, 12), (3, 2, 9), (2, 4, 14), (4, 3, 7), (3, 5, 20), (4, 5, 4)]
        {
            network.add(from, to, capacity);
        }
        assert_eq!(network.maximise(0, 5), 23);
        assert!(!network.reached(0)[5]);
    }

    /// The least cut, over all sets of nodes that have the source and not the sink.
    fn least_cut(nodes: u32, edges: &[(u32, u32, u64)]) -> u64 {
        let has = |set: u32, node: u32| set >> node & 1 == 1;
        (0..1 << nodes)
            .filter(|&set| has(set, 0) && !has(set, nodes - 1))
            .map(|set| edges.iter().filter(|&&(a, b, _)| has(set, a) && !has(set, b)).map(|edge| edge.2).sum())
            .min()
            .unwrap()
    }

    #[test]
    fn flow_equals_the_least_cut() {
        let mut rng = Rng::new(5);
        for _ in 0..2000 {
            let nodes = 2 + rng.below(6);
            let edges: Vec<_> = (0..rng.below(16))
                .map(|_| (rng.below(nodes), rng.below(nodes), u64::from(rng.below(5))))
                .filter(|&(a, b, _)| a != b)
                .collect();
            let mut network = Network::new(nodes as usize, edges.len());
            edges.iter().for_each(|&(a, b, capacity)| network.add(a, b, capacity));
            assert_eq!(network.maximise(0, nodes - 1), least_cut(nodes, &edges), "{nodes} {edges:?}");
        }
    }
}
