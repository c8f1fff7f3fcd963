//! `generate KIND [N]` writes the Bristol Fashion text of a circuit, once it has passed its check.

use check::format::write;
use check::generate::{circuit, KINDS};
use std::io::Write;
use std::process::ExitCode;

fn main() -> ExitCode {
    let arguments: Vec<String> = std::env::args().skip(1).collect();
    let request = match &arguments[..] {
        [kind] => Ok((kind, None)),
        [kind, number] => number.parse().map(|number| (kind, Some(number))).map_err(|_| usage()),
        _ => Err(usage()),
    };
    let text = request.and_then(|(kind, number)| circuit(kind, number)).map(|circuit| write(&circuit));
    match text.and_then(|text| std::io::stdout().write_all(&text).map_err(|error| error.to_string())) {
        Ok(()) => ExitCode::SUCCESS,
        Err(problem) => {
            eprintln!("{problem}");
            ExitCode::FAILURE
        }
    }
}

fn usage() -> String {
    let kinds = KINDS.map(|(kind, number)| format!("\n  {kind:<11}{number}")).concat();
    format!("usage: generate KIND [N]; kinds and their numbers:{kinds}")
}
