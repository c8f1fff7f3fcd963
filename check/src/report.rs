//! What programs print of a planned circuit, and how they are timed.

use crate::augmenting::Fast;
use crate::circuit::Circuit;
use crate::format::{number, read, Fault, Place, Rooms};
use crate::planner::Method;
use std::fmt::Write;
use std::time::{Duration, Instant};

/// The lines of a plan: its size, then its names by rank.
pub fn plan_lines(circuit: &Circuit, plan: &[u32]) -> String {
    let mut lines = format!("PLAN {}\n", plan.len());
    for &rank in plan {
        // Writing to a string cannot fail.
        let _ = writeln!(lines, "{}", circuit.names[rank as usize]);
    }
    lines
}

/// The line of a refused text.
pub fn fault_line(fault: Fault) -> String {
    format!("REFUSED {} LINE {} BYTE {}\n", fault.number, fault.line, fault.byte)
}

/// What is printed for a text: its plan without bars, or its first fault.
pub fn printed(limit: usize, text: &[u8]) -> String {
    if text.len() > limit {
        return fault_line(Fault::at(number::LONG_TEXT, Place { line: 1, byte: 0 }));
    }
    match read(text, Rooms::AMPLE).outcome {
        Err(fault) => fault_line(fault),
        Ok(circuit) => {
            let outcome = Fast.outcome(&circuit, &vec![false; circuit.wires()]);
            plan_lines(&circuit, outcome.plan().unwrap_or_default())
        }
    }
}

/// How many refreshes the two simple habits cost.
#[derive(Clone, Copy, Debug, PartialEq, Eq)]
pub struct Habits {
    /// Refreshing every product.
    pub every_product: usize,
    /// By rank, refreshing each wire at level two that is an operand of a product.
    pub before_product: usize,
}

impl Habits {
    pub fn lines(self) -> String {
        format!("EVERY-PRODUCT {}\nBEFORE-PRODUCT {}\n", self.every_product, self.before_product)
    }
}

pub fn habits(circuit: &Circuit) -> Habits {
    let goals = circuit.goals();
    let mut high = vec![false; circuit.wires()];
    let mut before_product = 0;
    for (rank, making) in circuit.makings.iter().enumerate() {
        let own_high = making.is_product() || making.operands().any(|operand| high[operand as usize]);
        let refreshed = own_high && goals[rank];
        before_product += usize::from(refreshed);
        high[rank] = own_high && !refreshed;
    }
    let every_product = circuit.makings.iter().filter(|making| making.is_product()).count();
    Habits { every_product, before_product }
}

/// The value, and how long it took to have it.
pub fn timed<T>(work: impl FnOnce() -> T) -> (T, Duration) {
    let start = Instant::now();
    let value = work();
    (value, start.elapsed())
}

/// The line that tells both times.
pub fn time_line(reading: Duration, planning: Duration) -> String {
    let milliseconds = |time: Duration| time.as_secs_f64() * 1e3;
    format!("reading {:.3} ms, planning {:.3} ms\n", milliseconds(reading), milliseconds(planning))
}

/// Reads a circuit file, or says for people why not; answers the time of reading alone.
pub fn load(path: &str) -> Result<(Circuit, Duration), String> {
    let text = std::fs::read(path).map_err(|error| format!("{path}: {error}\n"))?;
    let (reading, time) = timed(|| read(&text, Rooms::AMPLE));
    reading.outcome.map(|circuit| (circuit, time)).map_err(fault_line)
}

#[cfg(test)]
mod tests {
    use super::*;
    use crate::circuit::Making::{Product, Sum};
    use crate::generate::matching;

    #[test]
    fn habits_cost_what_they_cost() {
        assert_eq!(habits(&matching::circuit(4)), Habits { every_product: 3, before_product: 2 });
        let spread = Circuit::by_rank(2, &[Product(0, 1), Sum(2, 0), Sum(2, 1), Product(3, 4)], 1);
        assert_eq!(habits(&spread), Habits { every_product: 2, before_product: 2 });
    }

    #[test]
    fn texts_are_printed() {
        let text = b"2 4\n1 2\n1 1\n\n2 1 0 1 2 AND\n2 1 2 0 3 AND\n";
        assert_eq!(printed(text.len(), text), "PLAN 1\n2\n");
        assert_eq!(printed(text.len() - 1, text), "REFUSED 1 LINE 1 BYTE 0\n");
        let text = b"2 4\n1 2\n1 1\n\n2 1 0 9 2 AND\n2 1 2 0 3 AND\n";
        assert_eq!(printed(32_768, text), "REFUSED 7 LINE 5 BYTE 19\n");
    }

    #[test]
    fn plans_are_printed_by_name() {
        let circuit = Circuit { names: vec![0, 1, 3, 2], ..Circuit::by_rank(2, &[Product(0, 1), Product(2, 0)], 1) };
        assert_eq!(plan_lines(&circuit, &[2]), "PLAN 1\n3\n");
    }
}
