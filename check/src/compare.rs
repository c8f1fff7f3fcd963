//! The comparison: generated cases put to the product and judged by this program.

pub mod case;
pub mod level_runs;
pub mod matching;
pub mod own;
pub mod product;
pub mod real;
pub mod runs;
pub mod shrink;
pub mod summary;
pub mod texts;

use crate::format::number;
use crate::rng::Rng;
use case::{put, Difference};
use product::Product;
use summary::Summary;

/// How many cases of each kind are put, and from which seed.
#[derive(Clone, Copy, Debug)]
pub struct Amount {
    pub seed: u64,
    pub texts: u32,
    pub level_runs: u32,
    pub small_runs: u32,
    pub middle_runs: u32,
    pub large_runs: u32,
}

/// Puts all kinds of cases; stops at the first difference, with its smallest case.
pub fn compare(product: &mut impl Product, amount: &Amount, summary: &mut Summary) -> Result<(), Difference> {
    let mut rng = Rng::new(amount.seed);
    for _ in 0..amount.texts {
        put(product, "good texts", texts::good(&mut rng), summary)?;
        for _ in 0..2 {
            put(product, "damaged texts", texts::damaged(&mut rng), summary)?;
        }
        put(product, "printed texts", texts::printed(&mut rng), summary)?;
        put(product, "written circuits", texts::written(&mut rng), summary)?;
    }
    for case in matching::cases() {
        put(product, "matching circuits", case, summary)?;
    }
    for _ in 0..amount.level_runs {
        put(product, "level runs", level_runs::case(&mut rng), summary)?;
    }
    for _ in 0..amount.small_runs {
        put(product, "runs of calls, small", runs::small(&mut rng), summary)?;
    }
    for _ in 0..amount.middle_runs {
        put(product, "runs of calls, middle", runs::up_to(&mut rng, runs::MIDDLE_WIRES), summary)?;
    }
    for _ in 0..amount.large_runs {
        put(product, "runs of calls, large", runs::up_to(&mut rng, runs::LARGE_WIRES), summary)?;
    }
    for case in texts::longest() {
        put(product, "longest texts", case, summary)?;
    }
    real::compare(product, summary)
}

/// The faults and refusals that a whole comparison must have met and did not.
pub fn missing(summary: &Summary) -> Vec<String> {
    let faults = number::ALL.iter().map(|number| format!("fault {number}"));
    let refusals = [11, 12, 13, 15, 16, 17, 18, 19].iter().map(|number| format!("refused {number}"));
    faults.chain(refusals).filter(|answer| summary.answers(answer) == 0).collect()
}
