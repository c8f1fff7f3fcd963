//! Planning small circuits by trying every set of wires, with the definitions as they stand.

use crate::circuit::Circuit;
use crate::levels::{is_clean, EXPONENTIAL};
use crate::planner::{Method, Outcome};
use crate::routes::ahead;

/// The most unbarred produced wires for which all sets are tried.
pub const MOST_FREE: usize = 16;

/// All subsets by increasing size, all rows of wires: for small circuits only.
#[derive(Clone, Copy, Debug, Default)]
pub struct Exhaustive;

impl Method for Exhaustive {
    fn outcome(&self, circuit: &Circuit, bars: &[bool]) -> Outcome {
        let smallest = smallest_plans(circuit, bars);
        let routes = all_routes(circuit);
        match earliest(circuit, &smallest) {
            Some(plan) => {
                let routes = disjoint_routes(&routes, bars, plan.len()).expect("as many routes as plan wires");
                Outcome::Planned { plan, routes }
            }
            None => {
                let barred = |route: &&Vec<u32>| route.iter().all(|&rank| bars[rank as usize]);
                let route = routes.iter().find(barred).expect("a route of barred wires").clone();
                Outcome::Blocked { route }
            }
        }
    }
}

/// All clean plans without barred wires that have fewest wires; none where even all wires fail.
pub fn smallest_plans(circuit: &Circuit, bars: &[bool]) -> Vec<Vec<u32>> {
    let free: Vec<u32> =
        (0..circuit.wires() as u32).filter(|&rank| circuit.is_produced(rank) && !bars[rank as usize]).collect();
    assert!(free.len() <= MOST_FREE, "too many wires to try all sets");
    (0..=free.len() as u32)
        .map(|size| {
            (0u32..1 << free.len())
                .filter(|set| set.count_ones() == size)
                .map(|set| members(&free, set))
                .filter(|plan| is_clean(circuit, plan, EXPONENTIAL))
                .collect::<Vec<_>>()
        })
        .find(|plans| !plans.is_empty())
        .unwrap_or_default()
}

fn members(free: &[u32], set: u32) -> Vec<u32> {
    (0..).zip(free).filter(|(bit, _)| set >> bit & 1 == 1).map(|(_, &rank)| rank).collect()
}

/// The one plan whose wires ahead are ahead of every smallest plan.
fn earliest(circuit: &Circuit, smallest: &[Vec<u32>]) -> Option<Vec<u32>> {
    let aheads: Vec<Vec<bool>> = smallest.iter().map(|plan| ahead(circuit, plan)).collect();
    let within = |one: &[bool], other: &[bool]| one.iter().zip(other).all(|(&a, &b)| !a || b);
    let mut found = smallest.iter().zip(&aheads).filter(|(_, one)| aheads.iter().all(|other| within(one, other)));
    let earliest = found.next().map(|(plan, _)| plan.clone());
    assert!(earliest.is_some() || smallest.is_empty(), "some smallest plan is the earliest");
    assert!(found.next().is_none(), "only one smallest plan is the earliest");
    earliest
}

/// Every route of the circuit.
pub fn all_routes(circuit: &Circuit) -> Vec<Vec<u32>> {
    let goals = circuit.goals();
    let mut rows: Vec<Vec<u32>> = Vec::new();
    for (rank, making) in (0u32..).zip(&circuit.makings) {
        if making.is_product() {
            rows.push(vec![rank]);
        } else if making.passes() {
            let fed =
                |row: &&Vec<u32>| row.last().is_some_and(|&last| making.operands().any(|operand| operand == last));
            let longer: Vec<Vec<u32>> = rows.iter().filter(fed).map(|row| [&row[..], &[rank]].concat()).collect();
            rows.extend(longer);
        }
    }
    rows.retain(|row| row.last().is_some_and(|&last| goals[last as usize]));
    rows
}

/// So many of the routes with no unbarred wire shared, if there are so many.
fn disjoint_routes(routes: &[Vec<u32>], bars: &[bool], count: usize) -> Option<Vec<Vec<u32>>> {
    if count == 0 {
        return Some(Vec::new());
    }
    routes.iter().enumerate().find_map(|(index, route)| {
        let apart = |other: &&Vec<u32>| other.iter().all(|rank| bars[*rank as usize] || !route.contains(rank));
        let rest: Vec<Vec<u32>> = routes[index + 1..].iter().filter(apart).cloned().collect();
        let mut chosen = disjoint_routes(&rest, bars, count - 1)?;
        chosen.insert(0, route.clone());
        Some(chosen)
    })
}
