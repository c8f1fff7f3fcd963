//! The fast planner: one depth-first search for augmenting paths whose marks outlive each route.
//!
//! A place is a wire's entry or exit. Each pass over the products keeps its marks from route to
//! route, so it costs about one walk over the circuit; the marks are cleared only when a pass ends
//! without a route to add, and a pass that starts clear and adds none has the marks of the cut.

use crate::circuit::Circuit;
use crate::planner::{Method, Outcome};
use crate::routes::barred_route;

/// Stands for no operand.
const NONE: u32 = u32::MAX;

/// What one step does.
#[derive(Clone, Copy, Debug, PartialEq, Eq)]
pub enum Growth {
    Grown,
    Closed,
}

#[derive(Clone, Copy, Default)]
struct Wire {
    /// Operands of a wire that passes; a product's are of no use to routes.
    first: u32,
    second: u32,
    /// Routes through the wire, and how many of them come from each operand.
    through: u32,
    from_first: u32,
    from_second: u32,
    product: bool,
    goal: bool,
    barred: bool,
}

impl Wire {
    fn may_grow(&self) -> bool {
        self.barred || self.through == 0
    }

    /// How many routes come from that operand.
    fn from(&mut self, operand: u32) -> &mut u32 {
        if self.first == operand {
            &mut self.from_first
        } else {
            &mut self.from_second
        }
    }
}

/// A circuit with the routes found so far.
pub struct Augmenting {
    wires: Vec<Wire>,
    /// The wires that a wire feeds: `fed[starts[w]..starts[w + 1]]`.
    starts: Vec<u32>,
    fed: Vec<u32>,
    /// By place, the next step to look at in this pass.
    next: Vec<u32>,
    marked: Vec<bool>,
    stack: Vec<u32>,
    /// All products below this rank have been starts since the marks were cleared.
    tried: usize,
    grown_since_clear: bool,
}

fn entry(rank: u32) -> u32 {
    2 * rank
}

fn exit(rank: u32) -> u32 {
    2 * rank + 1
}

impl Augmenting {
    /// A circuit without routes. No route may have only barred wires.
    pub fn new(circuit: &Circuit, bars: &[bool]) -> Augmenting {
        let wires = wires(circuit, bars);
        let (starts, fed) = fed_lists(&wires);
        Augmenting {
            starts,
            fed,
            next: vec![0; 2 * wires.len()],
            marked: vec![false; 2 * wires.len()],
            stack: Vec::new(),
            tried: 0,
            grown_since_clear: false,
            wires,
        }
    }

    /// Adds one route if one more can stand.
    pub fn step(&mut self) -> Growth {
        loop {
            while self.tried < self.wires.len() {
                let rank = self.tried as u32;
                self.tried += 1;
                if self.wires[rank as usize].product && self.search(entry(rank)) {
                    self.grow();
                    // A start that was opened again is tried again.
                    self.tried -= usize::from(!self.marked[entry(rank) as usize]);
                    return Growth::Grown;
                }
            }
            if !self.grown_since_clear {
                return Growth::Closed;
            }
            self.clear();
        }
    }

    fn clear(&mut self) {
        self.marked.fill(false);
        self.next.fill(0);
        self.tried = 0;
        self.grown_since_clear = false;
    }

    /// Steps to the end and answers the number of routes.
    pub fn close(&mut self) -> u32 {
        let mut count = 0;
        while self.step() == Growth::Grown {
            count += 1;
        }
        count
    }

    /// Searches from an unmarked place; true leaves a path to a goal on the stack.
    fn search(&mut self, start: u32) -> bool {
        if self.marked[start as usize] {
            return false;
        }
        self.stack.clear();
        self.visit(start);
        while let Some(&place) = self.stack.last() {
            if place % 2 == 1 && self.wires[(place / 2) as usize].goal {
                return true;
            }
            match self.unmarked_step(place) {
                Some(to) => self.visit(to),
                None => {
                    self.stack.pop();
                }
            }
        }
        false
    }

    fn visit(&mut self, place: u32) {
        self.marked[place as usize] = true;
        self.stack.push(place);
    }

    /// The next residual step from here to an unmarked place.
    fn unmarked_step(&mut self, place: u32) -> Option<u32> {
        let steps = if place % 2 == 1 { 1 + self.fed_by(place / 2).len() as u32 } else { 3 };
        let from = self.next[place as usize];
        let found = (from..steps).find_map(|index| {
            let to = self.residual_step(place, index)?;
            (!self.marked[to as usize]).then_some((index, to))
        });
        self.next[place as usize] = found.map_or(steps, |(index, _)| index + 1);
        found.map(|(_, to)| to)
    }

    /// The step of that index, if the routes now leave it open.
    fn residual_step(&self, place: u32, index: u32) -> Option<u32> {
        let rank = place / 2;
        let wire = &self.wires[rank as usize];
        match (place % 2, index) {
            (0, 0) => wire.may_grow().then(|| exit(rank)),
            (0, 1) => (wire.from_first > 0).then(|| exit(wire.first)),
            (0, _) => (wire.from_second > 0).then(|| exit(wire.second)),
            (_, index) => match self.fed_by(rank).get(index as usize) {
                Some(&later) => Some(entry(later)),
                None => (wire.through > 0).then(|| entry(rank)),
            },
        }
    }

    fn fed_by(&self, rank: u32) -> &[u32] {
        let rank = rank as usize;
        &self.fed[self.starts[rank] as usize..self.starts[rank + 1] as usize]
    }

    /// Adds the route that the path on the stack stands for.
    fn grow(&mut self) {
        self.grown_since_clear = true;
        for index in 1..self.stack.len() {
            let (place, to) = (self.stack[index - 1], self.stack[index]);
            let (rank, other) = (place / 2, to / 2);
            match (place % 2 == 0, rank == other) {
                (true, true) => self.wires[rank as usize].through += 1,
                (false, true) => self.wires[rank as usize].through -= 1,
                (false, false) => *self.wires[other as usize].from(rank) += 1,
                (true, false) => *self.wires[rank as usize].from(other) -= 1,
            }
        }
        self.reopen_barred();
    }

    /// A barred wire can carry more than one route, so the same pass may go through it again.
    fn reopen_barred(&mut self) {
        for &place in &self.stack {
            if self.wires[(place / 2) as usize].barred {
                self.marked[place as usize] = false;
                // The step that led to the goal may lead there once more.
                self.next[place as usize] = self.next[place as usize].saturating_sub(1);
            }
        }
    }

    /// Once closed: the wires whose entry is marked and whose exit is not.
    pub fn earliest_plan(&self) -> Vec<u32> {
        let cut = |&rank: &u32| self.marked[entry(rank) as usize] && !self.marked[exit(rank) as usize];
        (0..self.wires.len() as u32).filter(cut).collect()
    }

    /// The routes found so far.
    pub fn routes(&self) -> Vec<Vec<u32>> {
        let mut units = Units { left: self.wires.clone(), at: self.starts.clone() };
        let mut routes = Vec::new();
        for (rank, wire) in (0u32..).zip(&self.wires).filter(|(_, wire)| wire.product) {
            routes.extend((0..wire.through).map(|_| self.take_route(&mut units, rank)));
        }
        routes
    }

    /// Follows one unit from a product until no wire takes it on.
    fn take_route(&self, units: &mut Units, product: u32) -> Vec<u32> {
        let mut route = vec![product];
        let mut rank = product;
        while let Some(later) = self.take_unit(units, rank) {
            route.push(later);
            rank = later;
        }
        route
    }

    /// Hands one unit on from a wire to one that takes it.
    fn take_unit(&self, units: &mut Units, rank: u32) -> Option<u32> {
        let end = self.starts[rank as usize + 1];
        // What was passed over takes nothing more, so each list is walked once.
        let at = &mut units.at[rank as usize];
        while *at < end {
            let later = self.fed[*at as usize];
            let from = units.left[later as usize].from(rank);
            if *from > 0 {
                *from -= 1;
                return Some(later);
            }
            *at += 1;
        }
        None
    }
}

/// Routes that are being taken apart: what is left of them, and how far each wire's list is done.
struct Units {
    left: Vec<Wire>,
    at: Vec<u32>,
}

fn wires(circuit: &Circuit, bars: &[bool]) -> Vec<Wire> {
    let goals = circuit.goals();
    let wire = |(rank, making): (usize, &crate::circuit::Making)| {
        let mut operands = making.operands().filter(|_| making.passes());
        let first = operands.next().unwrap_or(NONE);
        // A sum of a wire with itself takes from it as its first operand only.
        let second = operands.next().filter(|&operand| operand != first).unwrap_or(NONE);
        let product = making.is_product();
        Wire { first, second, product, goal: goals[rank], barred: bars[rank], ..Wire::default() }
    };
    circuit.makings.iter().enumerate().map(wire).collect()
}

/// The wires that each wire feeds, as starts in one list.
fn fed_lists(wires: &[Wire]) -> (Vec<u32>, Vec<u32>) {
    let operands = |wire: &Wire| [wire.first, wire.second].into_iter().filter(|&operand| operand != NONE);
    let mut starts = vec![0u32; wires.len() + 1];
    for operand in wires.iter().flat_map(operands) {
        starts[operand as usize + 1] += 1;
    }
    for rank in 0..wires.len() {
        starts[rank + 1] += starts[rank];
    }
    let mut ends = starts.clone();
    let mut fed = vec![0; starts[wires.len()] as usize];
    for (rank, wire) in (0u32..).zip(wires) {
        for operand in operands(wire) {
            let end = &mut ends[operand as usize];
            fed[*end as usize] = rank;
            *end += 1;
        }
    }
    (starts, fed)
}

/// The fast planner as a method.
#[derive(Clone, Copy, Debug, Default)]
pub struct Fast;

impl Method for Fast {
    fn outcome(&self, circuit: &Circuit, bars: &[bool]) -> Outcome {
        if let Some(route) = barred_route(circuit, bars) {
            return Outcome::Blocked { route };
        }
        let mut augmenting = Augmenting::new(circuit, bars);
        augmenting.close();
        Outcome::Planned { plan: augmenting.earliest_plan(), routes: augmenting.routes() }
    }
}
