//! Making a case smaller as long as it still differs.

use super::case::{Case, Mismatch};
use crate::circuit::{Circuit, Making};
use std::ops::Range;
use std::time::{Duration, Instant};

/// Shrinking a large case stops after this time with what it has.
const PATIENCE: Duration = Duration::from_secs(30);

/// The smallest case found that still differs, with how it does.
pub fn shrink<C: Case>(case: C, mismatch: Mismatch, mut differs: impl FnMut(&C) -> Option<Mismatch>) -> (C, Mismatch) {
    let start = Instant::now();
    let (mut case, mut mismatch) = (case, mismatch);
    while start.elapsed() < PATIENCE {
        let in_time = case.smaller().take_while(|_| start.elapsed() < PATIENCE);
        let found = in_time.filter_map(|smaller| differs(&smaller).map(|mismatch| (smaller, mismatch))).next();
        let Some(next) = found else { break };
        (case, mismatch) = next;
    }
    (case, mismatch)
}

/// Parts of a row to leave out: halves first, single items last.
pub fn parts(length: usize) -> impl Iterator<Item = Range<usize>> {
    let sizes = std::iter::successors(Some(length.div_ceil(2)), |&size| (size > 1).then(|| size.div_ceil(2)));
    // The later parts first: what comes last is seldom needed by the rest.
    sizes.filter(move |_| length > 0).flat_map(move |size| {
        (0..length.div_ceil(size)).rev().map(move |part| part * size..length.min((part + 1) * size))
    })
}

/// The row without a part of it.
pub fn without<T: Clone>(row: &[T], part: Range<usize>) -> Vec<T> {
    [&row[..part.start], &row[part.end..]].concat()
}

/// A smaller circuit, with the new rank of each wire that was kept.
pub struct Smaller {
    pub circuit: Circuit,
    pub ranks: Vec<Option<u32>>,
}

/// The circuits that leave some wires out.
pub fn smaller_circuits(circuit: &Circuit) -> impl Iterator<Item = Smaller> + '_ {
    parts(circuit.wires()).filter_map(|part| without_wires(circuit, part))
}

/// The circuit without a part of its wires; who used one of them takes its first operand instead.
fn without_wires(circuit: &Circuit, part: Range<usize>) -> Option<Smaller> {
    let mut stand_in: Vec<Option<u32>> = Vec::with_capacity(circuit.wires());
    let mut makings = Vec::new();
    for (rank, &making) in circuit.makings.iter().enumerate() {
        if part.contains(&rank) {
            let operand = making.operands().next();
            stand_in.push(operand.and_then(|operand| stand_in[operand as usize]));
        } else {
            if making.operands().any(|operand| stand_in[operand as usize].is_none()) {
                return None;
            }
            stand_in.push(Some(makings.len() as u32));
            makings.push(making.map(|operand| stand_in[operand as usize].unwrap_or_default()));
        }
    }
    let circuit = Circuit {
        names: closed_up(&without(&circuit.names, part.clone()), circuit.wires()),
        inputs: makings.iter().filter(|&&making| making == Making::Input).count() as u32,
        outputs: circuit.outputs.min(makings.len() as u32),
        makings,
    };
    let ranks = stand_in.into_iter().enumerate().map(|(rank, new)| new.filter(|_| !part.contains(&rank))).collect();
    circuit.is_lawful().then_some(Smaller { circuit, ranks })
}

/// The same names in the same order, without gaps.
fn closed_up(names: &[u32], bound: usize) -> Vec<u32> {
    let mut used = vec![0u32; bound + 1];
    names.iter().for_each(|&name| used[name as usize + 1] = 1);
    for name in 0..bound {
        used[name + 1] += used[name];
    }
    names.iter().map(|&name| used[name as usize]).collect()
}

#[cfg(test)]
mod tests {
    use super::*;
    use crate::random::circuits::up_to;
    use crate::rng::Rng;

    #[test]
    fn parts_cover_and_end_with_single_items() {
        let found: Vec<_> = parts(3).collect();
        assert_eq!(found, [2..3, 0..2, 2..3, 1..2, 0..1]);
        assert_eq!(parts(0).count(), 0);
        assert!(parts(1).eq(std::iter::once(0..1)));
    }

    #[test]
    fn smaller_circuits_are_lawful_and_smaller() {
        let mut rng = Rng::new(21);
        for _ in 0..300 {
            let circuit = up_to(&mut rng, 30);
            for smaller in smaller_circuits(&circuit) {
                assert!(smaller.circuit.is_lawful());
                assert!(smaller.circuit.wires() < circuit.wires());
                let kept = smaller.ranks.iter().flatten().count();
                assert_eq!(kept, smaller.circuit.wires());
            }
        }
    }
}
