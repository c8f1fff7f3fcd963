//! Routes: rows of wires along which a product's level comes to another product.

use crate::circuit::Circuit;

/// Whether `later` is a copy, inversion or sum with `earlier` as an operand.
pub fn feeds(circuit: &Circuit, earlier: u32, later: u32) -> bool {
    circuit.making(later).is_some_and(|making| making.passes() && making.operands().any(|operand| operand == earlier))
}

/// Whether the row begins with a product and each later wire is fed by the one before it.
pub fn is_row(circuit: &Circuit, row: &[u32]) -> bool {
    let starts = row.first().and_then(|&first| circuit.making(first)).is_some_and(|making| making.is_product());
    starts && row.windows(2).all(|pair| feeds(circuit, pair[0], pair[1]))
}

/// Whether the row is a route, given the operands of products.
pub fn is_route(circuit: &Circuit, goals: &[bool], row: &[u32]) -> bool {
    is_row(circuit, row) && row.last().is_some_and(|&last| goals[last as usize])
}

/// Whether no unbarred wire lies on two of the routes.
pub fn are_disjoint<'r>(bars: &[bool], routes: impl IntoIterator<Item = &'r [u32]>) -> bool {
    let mut used = vec![false; bars.len()];
    routes
        .into_iter()
        .flatten()
        .filter(|&&rank| !bars[rank as usize])
        .all(|&rank| !std::mem::replace(&mut used[rank as usize], true))
}

/// A route that has only barred wires, if there is one.
pub fn barred_route(circuit: &Circuit, bars: &[bool]) -> Option<Vec<u32>> {
    // The wire before, on some row of barred wires; a product is its own.
    let mut before: Vec<Option<u32>> = vec![None; circuit.wires()];
    for (rank, making) in (0u32..).zip(&circuit.makings).filter(|&(rank, _)| bars[rank as usize]) {
        before[rank as usize] = if making.is_product() {
            Some(rank)
        } else {
            making.operands().find(|&operand| before[operand as usize].is_some())
        };
    }
    let goals = circuit.goals();
    let last = (0..circuit.wires()).find(|&rank| goals[rank] && before[rank].is_some())?;
    let step = |&rank: &u32| before[rank as usize].filter(|&earlier| earlier != rank);
    let mut route: Vec<u32> = std::iter::successors(Some(last as u32), step).collect();
    route.reverse();
    Some(route)
}

/// By rank, whether the wire is ahead of the plan: some row to it has no wire of the plan.
pub fn ahead(circuit: &Circuit, plan: &[u32]) -> Vec<bool> {
    let mut ahead = vec![false; circuit.wires()];
    for (rank, making) in (0u32..).zip(&circuit.makings) {
        let comes = making.is_product() || making.passes() && making.operands().any(|operand| ahead[operand as usize]);
        ahead[rank as usize] = comes && plan.binary_search(&rank).is_err();
    }
    ahead
}

#[cfg(test)]
mod tests {
    use super::*;
    use crate::circuit::Making::{Copy, Inversion, Product, Sum};

    fn ladder() -> Circuit {
        Circuit::by_rank(2, &[Product(0, 1), Inversion(2), Sum(3, 0), Product(4, 0), Copy(5)], 1)
    }

    #[test]
    fn routes_start_at_products_and_end_at_operands() {
        let circuit = ladder();
        let goals = circuit.goals();
        assert!(is_route(&circuit, &goals, &[2, 3, 4]));
        for row in [&[][..], &[2], &[2, 3], &[3, 4], &[2, 4], &[5, 6], &[2, 3, 4, 5], &[9]] {
            assert!(!is_route(&circuit, &goals, row), "{row:?}");
        }
        assert!(is_row(&circuit, &[5, 6]));
    }

    #[test]
    fn barred_routes_have_only_barred_wires() {
        let circuit = ladder();
        let bars = |ranks: &[u32]| (0..7).map(|rank| ranks.contains(&rank)).collect::<Vec<_>>();
        assert_eq!(barred_route(&circuit, &bars(&[2, 3, 5, 6])), None);
        assert_eq!(barred_route(&circuit, &bars(&[2, 3, 4])), Some(vec![2, 3, 4]));
    }

    #[test]
    fn sharing_counts_on_unbarred_wires_only() {
        let (one, two) = ([2, 3], [4, 3]);
        let mut bars = [false; 6];
        assert!(!are_disjoint(&bars, [&one[..], &two]));
        bars[3] = true;
        assert!(are_disjoint(&bars, [&one[..], &two]));
    }

    #[test]
    fn ahead_stops_at_the_plan() {
        assert_eq!(ahead(&ladder(), &[3]), [false, false, true, false, false, true, true]);
    }
}
