//! Judging a printed plan: its names, what the two habits cost, and its routes.

use crate::circuit::Circuit;
use crate::planner::Split;
use crate::report::{habits, plan_lines};
use crate::routes::{are_disjoint, is_route};

/// Whether a printed plan is right in all that it has; says for people what is not.
///
/// After the plan may come the lines of the two habits, and then as many routes as the plan has
/// wires, one a line, as names joined by ` > `.
pub fn judge(circuit: &Circuit, printed: &str) -> Result<(), String> {
    let bars = vec![false; circuit.wires()];
    let mut split = Split::new(circuit, &bars);
    split.maximise();
    let plan = split.earliest_cut();
    let rest = printed.strip_prefix(&plan_lines(circuit, &plan)).ok_or("the plan differs")?;
    if rest.is_empty() {
        return Ok(());
    }
    let costs = habits(circuit).lines();
    let routes = rest.strip_prefix(&costs).ok_or_else(|| format!("after the plan should come\n{costs}"))?;
    if routes.is_empty() {
        return Ok(());
    }
    judge_routes(circuit, &bars, plan.len(), routes)
}

fn judge_routes(circuit: &Circuit, bars: &[bool], count: usize, lines: &str) -> Result<(), String> {
    let ranks = circuit.ranks();
    let goals = circuit.goals();
    let mut routes = Vec::with_capacity(count);
    for line in lines.lines() {
        let row = row(&ranks, line).filter(|row| is_route(circuit, &goals, row));
        routes.push(row.ok_or_else(|| format!("no route: {line}"))?);
    }
    if routes.len() != count {
        return Err(format!("{} routes for a plan of {count}", routes.len()));
    }
    if !are_disjoint(bars, routes.iter().map(Vec::as_slice)) {
        return Err("two routes share a wire".to_string());
    }
    Ok(())
}

/// The ranks of a line of names.
fn row(ranks: &[u32], line: &str) -> Option<Vec<u32>> {
    line.split(" > ").map(|name| ranks.get(name.parse::<usize>().ok()?).copied()).collect()
}

/// The lines of routes, as names joined by ` > `.
pub fn route_lines(circuit: &Circuit, routes: &[Vec<u32>]) -> String {
    let name = |&rank: &u32| circuit.names[rank as usize].to_string();
    routes.iter().map(|route| route.iter().map(name).collect::<Vec<_>>().join(" > ") + "\n").collect()
}

#[cfg(test)]
mod tests {
    use super::*;
    use crate::augmenting::Fast;
    use crate::planner::{Method, Outcome};
    use crate::random::circuits::up_to;
    use crate::rng::Rng;
    use std::slice::from_ref;

    #[test]
    fn own_prints_are_right_and_altered_ones_are_not() {
        let mut rng = Rng::new(31);
        for _ in 0..500 {
            let circuit = up_to(&mut rng, 80);
            let Outcome::Planned { plan, routes } = Fast.outcome(&circuit, &vec![false; circuit.wires()]) else {
                unreachable!("nothing is barred");
            };
            let short = plan_lines(&circuit, &plan) + &habits(&circuit).lines();
            let whole = short.clone() + &route_lines(&circuit, &routes);
            assert_eq!(judge(&circuit, &short), Ok(()));
            assert_eq!(judge(&circuit, &whole), Ok(()));
            assert!(judge(&circuit, &whole[1..]).is_err());
            if let [first, .., last] = &routes[..] {
                let twice = [&routes[1..], from_ref(last)].concat();
                assert!(judge(&circuit, &(short.clone() + &route_lines(&circuit, &twice))).is_err());
                assert!(judge(&circuit, &(short + &route_lines(&circuit, from_ref(first)))).is_err());
            }
        }
    }
}
