//! `compare [--seed N] [--times N]` puts generated cases to the product and prints the counts.

use check::augmenting::Fast;
use check::compare::own::Own;
use check::compare::summary::Summary;
use check::compare::{compare, missing, Amount};
use std::process::ExitCode;

/// Cases of one round; `--times` takes so many times as many.
const ROUND: Amount =
    Amount { seed: 1, texts: 2000, level_runs: 3000, small_runs: 2000, middle_runs: 1000, large_runs: 300 };

fn main() -> ExitCode {
    let arguments: Vec<String> = std::env::args().skip(1).collect();
    let Some(amount) = amount(&arguments) else {
        eprintln!("usage: compare [--seed N] [--times N]");
        return ExitCode::FAILURE;
    };
    // The planner by marks stands in for the product until that is bound.
    let mut product = Own(Fast);
    let mut summary = Summary::default();
    let outcome = compare(&mut product, &amount, &mut summary);
    print!("{summary}");
    match outcome {
        Err(difference) => {
            println!("{difference}");
            println!("{} cases, 1 difference", summary.cases() + 1);
            ExitCode::FAILURE
        }
        Ok(()) if !missing(&summary).is_empty() => {
            println!("{} cases, but never {}", summary.cases(), missing(&summary).join(", "));
            ExitCode::FAILURE
        }
        Ok(()) => {
            println!("{} cases, 0 differences", summary.cases());
            ExitCode::SUCCESS
        }
    }
}

fn amount(arguments: &[String]) -> Option<Amount> {
    let mut amount = ROUND;
    for pair in arguments.chunks(2) {
        let [flag, value] = pair else { return None };
        match flag.as_str() {
            "--seed" => amount.seed = value.parse().ok()?,
            "--times" => {
                let times: u32 = value.parse().ok()?;
                amount.texts = ROUND.texts.checked_mul(times)?;
                amount.level_runs = ROUND.level_runs.checked_mul(times)?;
                amount.small_runs = ROUND.small_runs.checked_mul(times)?;
                amount.middle_runs = ROUND.middle_runs.checked_mul(times)?;
                amount.large_runs = ROUND.large_runs.checked_mul(times)?;
            }
            _ => return None,
        }
    }
    Some(amount)
}
