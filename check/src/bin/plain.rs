//! `plain FILE [--time] [--habits] [--routes]` plans a circuit file by the fast method.

use check::augmenting::Augmenting;
use check::printed::route_lines;
use check::report::{habits, load, plan_lines, time_line, timed};
use std::io::Write;
use std::process::ExitCode;

const USAGE: &str = "usage: plain FILE [--time] [--habits] [--routes]\n";

fn main() -> ExitCode {
    let arguments: Vec<String> = std::env::args().skip(1).collect();
    let (flags, files): (Vec<&str>, Vec<&str>) =
        arguments.iter().map(String::as_str).partition(|argument| argument.starts_with("--"));
    let known = flags.iter().all(|flag| ["--time", "--habits", "--routes"].contains(flag));
    let outcome = match files[..] {
        [file] if known => run(file, &flags),
        _ => Err(USAGE.to_string()),
    };
    let (lines, code) = match outcome {
        Ok(lines) => (lines, ExitCode::SUCCESS),
        Err(problem) => (problem, ExitCode::FAILURE),
    };
    match std::io::stdout().write_all(lines.as_bytes()) {
        Ok(()) => code,
        Err(_) => ExitCode::FAILURE,
    }
}

/// The lines to print.
fn run(file: &str, flags: &[&str]) -> Result<String, String> {
    let (circuit, reading) = load(file)?;
    let ((augmenting, plan), planning) = timed(|| {
        let mut augmenting = Augmenting::new(&circuit, &vec![false; circuit.wires()]);
        augmenting.close();
        let plan = augmenting.earliest_plan();
        (augmenting, plan)
    });
    let mut lines = plan_lines(&circuit, &plan);
    if flags.contains(&"--habits") {
        lines += &habits(&circuit).lines();
    }
    if flags.contains(&"--routes") {
        lines += &route_lines(&circuit, &augmenting.routes());
    }
    if flags.contains(&"--time") {
        eprint!("{}", time_line(reading, planning));
    }
    Ok(lines)
}
