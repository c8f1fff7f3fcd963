//! Three planners by three methods give the same plans and lawful routes.

use check::augmenting::Fast;
use check::circuit::{
    Circuit,
    Making::{Inversion, Product, Sum},
};
use check::exhaustive::Exhaustive;
use check::generate;
use check::levels::{is_clean, is_plan, SCHEMES};
use check::planner::{MaximumFlow, Method, Outcome};
use check::random::circuits::{bars, small, up_to};
use check::rng::Rng;
use check::routes::{are_disjoint, is_route};

/// What must hold of an outcome by itself.
fn assert_lawful(circuit: &Circuit, bars: &[bool], outcome: &Outcome) {
    let goals = circuit.goals();
    match outcome {
        Outcome::Blocked { route } => {
            assert!(is_route(circuit, &goals, route), "{circuit:?} {route:?}");
            assert!(route.iter().all(|&rank| bars[rank as usize]));
        }
        Outcome::Planned { plan, routes } => {
            assert!(is_plan(circuit, plan) && plan.iter().all(|&rank| !bars[rank as usize]));
            assert!(SCHEMES.iter().filter(|scheme| scheme.limit == 2).all(|&scheme| is_clean(circuit, plan, scheme)));
            assert_eq!(routes.len(), plan.len());
            assert!(routes.iter().all(|route| is_route(circuit, &goals, route)), "{circuit:?} {routes:?}");
            assert!(are_disjoint(bars, routes.iter().map(Vec::as_slice)), "{circuit:?} {routes:?}");
        }
    }
}

fn assert_same(circuit: &Circuit, bars: &[bool], methods: &[&dyn Method]) -> Outcome {
    let outcomes: Vec<Outcome> = methods.iter().map(|method| method.outcome(circuit, bars)).collect();
    for outcome in &outcomes {
        assert_lawful(circuit, bars, outcome);
        assert_eq!(outcome.plan(), outcomes[0].plan(), "{circuit:?} {bars:?}");
    }
    outcomes[0].clone()
}

#[test]
fn small_circuits_by_all_methods() {
    let mut rng = Rng::new(11);
    let (mut blocked, mut planned, mut most) = (0, 0, 0);
    for _ in 0..6000 {
        let circuit = small(&mut rng);
        let bars = bars(&mut rng, &circuit);
        match assert_same(&circuit, &bars, &[&Exhaustive, &MaximumFlow, &Fast]) {
            Outcome::Blocked { .. } => blocked += 1,
            Outcome::Planned { plan, .. } => {
                planned += 1;
                most = most.max(plan.len());
            }
        }
    }
    assert!(blocked > 300 && planned > 3000 && most >= 5, "{blocked} {planned} {most}");
}

#[test]
fn larger_circuits_by_both_flows() {
    let mut rng = Rng::new(12);
    for _ in 0..3000 {
        let circuit = up_to(&mut rng, 300);
        let bars = bars(&mut rng, &circuit);
        assert_same(&circuit, &bars, &[&MaximumFlow, &Fast]);
    }
}

#[test]
fn real_circuits_by_both_flows() {
    let circuits =
        [("adder", 64), ("comparator", 64), ("multiplier", 16), ("keccak", 2), ("aes", 1), ("matching", 4096)];
    for (kind, number) in circuits {
        let circuit = generate::circuit(kind, Some(number)).unwrap();
        let bars = vec![false; circuit.wires()];
        assert_same(&circuit, &bars, &[&MaximumFlow, &Fast]);
    }
}

#[test]
fn barred_hubs_by_both_flows() {
    for size in [1, 2, 5, 64, 20_000] {
        let circuit = generate::hub::circuit(size);
        let mut bars = vec![false; circuit.wires()];
        generate::hub::sums(&circuit).for_each(|rank| bars[rank as usize] = true);
        let outcome = assert_same(&circuit, &bars, &[&MaximumFlow, &Fast]);
        assert_eq!(outcome.plan().map(<[u32]>::len), Some(size as usize));
    }
}

/// A circuit, its barred wires, and its plan unless blocked.
type Job = (Circuit, &'static [u32], Option<&'static [u32]>);

#[test]
fn known_small_plans() {
    let jobs: [Job; 8] = [
        (Circuit::by_rank(4, &[Product(0, 1), Product(2, 3), Product(4, 5)], 1), &[], Some(&[4, 5])),
        (
            Circuit::by_rank(4, &[Product(0, 1), Product(2, 3), Sum(4, 5), Product(6, 0), Product(6, 1)], 1),
            &[],
            Some(&[6]),
        ),
        (Circuit::by_rank(2, &[Product(0, 1), Sum(2, 0), Sum(2, 1), Product(3, 4)], 1), &[], Some(&[2])),
        (Circuit::by_rank(2, &[Product(0, 1), Inversion(2), Product(3, 0)], 1), &[], Some(&[2])),
        (Circuit::by_rank(2, &[Product(0, 1), Inversion(2), Product(3, 0)], 1), &[2], Some(&[3])),
        (Circuit::by_rank(2, &[Product(0, 1), Inversion(2), Product(3, 0)], 1), &[2, 3], None),
        (Circuit::by_rank(2, &[Product(0, 1), Product(2, 0), Product(3, 0)], 1), &[], Some(&[2, 3])),
        (generate::matching::circuit(4), &[], Some(&[16, 17])),
    ];
    for (circuit, barred, plan) in jobs {
        let bars: Vec<bool> = (0..circuit.wires() as u32).map(|rank| barred.contains(&rank)).collect();
        let outcome = assert_same(&circuit, &bars, &[&Exhaustive, &MaximumFlow, &Fast]);
        assert_eq!(outcome.plan(), plan);
    }
}
