//! `verify FILE PRINTED` judges a printed plan of a circuit file, with its costs and routes if it has them.

use check::printed::judge;
use check::report::load;
use std::process::ExitCode;

fn main() -> ExitCode {
    let arguments: Vec<String> = std::env::args().skip(1).collect();
    let outcome = match &arguments[..] {
        [file, printed] => run(file, printed),
        _ => Err("usage: verify FILE PRINTED".to_string()),
    };
    match outcome {
        Ok(()) => {
            println!("right");
            ExitCode::SUCCESS
        }
        Err(problem) => {
            println!("{}", problem.trim_end());
            ExitCode::FAILURE
        }
    }
}

fn run(file: &str, printed: &str) -> Result<(), String> {
    let (circuit, _) = load(file)?;
    let printed = std::fs::read_to_string(printed).map_err(|error| format!("{printed}: {error}"))?;
    judge(&circuit, &printed)
}
