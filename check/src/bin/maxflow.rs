//! `maxflow FILE [--time]` finds the size of a smallest plan by a general maximum flow.

use check::planner::Split;
use check::report::{load, time_line, timed};
use std::process::ExitCode;

fn main() -> ExitCode {
    let arguments: Vec<String> = std::env::args().skip(1).collect();
    let outcome = match arguments.iter().map(String::as_str).collect::<Vec<_>>()[..] {
        [file] => run(file, false),
        [file, "--time"] | ["--time", file] => run(file, true),
        _ => Err("usage: maxflow FILE [--time]\n".to_string()),
    };
    match outcome {
        Ok(()) => ExitCode::SUCCESS,
        Err(problem) => {
            print!("{problem}");
            ExitCode::FAILURE
        }
    }
}

fn run(file: &str, time: bool) -> Result<(), String> {
    let (circuit, reading) = load(file)?;
    let (count, planning) = timed(|| Split::new(&circuit, &vec![false; circuit.wires()]).maximise());
    println!("PLAN {count}");
    if time {
        eprint!("{}", time_line(reading, planning));
    }
    Ok(())
}
