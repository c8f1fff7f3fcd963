//! Writing: the one text that is given for a circuit.

use crate::circuit::{Circuit, Making};
use std::fmt::{self, Write};

/// The text of a circuit, one line for each wire that is not an input.
pub fn write(circuit: &Circuit) -> Vec<u8> {
    let mut text = String::with_capacity(32 * circuit.wires());
    write_to(circuit, &mut text).expect("writing to a string cannot fail");
    text.into_bytes()
}

fn write_to(circuit: &Circuit, text: &mut String) -> fmt::Result {
    let wires = circuit.wires();
    writeln!(text, "{} {wires}", wires - circuit.inputs as usize)?;
    write_value(circuit.inputs, text)?;
    write_value(circuit.outputs, text)?;
    text.push('\n');
    let name = |rank: u32| circuit.names[rank as usize];
    for (rank, &making) in (0u32..).zip(&circuit.makings).skip(circuit.inputs as usize) {
        let result = name(rank);
        match making {
            Making::Input => {}
            Making::Constant(value) => writeln!(text, "1 1 {} {result} EQ", u8::from(value))?,
            Making::Copy(a) => writeln!(text, "1 1 {} {result} EQW", name(a))?,
            Making::Inversion(a) => writeln!(text, "1 1 {} {result} INV", name(a))?,
            Making::Sum(a, b) => writeln!(text, "2 1 {} {} {result} XOR", name(a), name(b))?,
            Making::Product(a, b) => writeln!(text, "2 1 {} {} {result} AND", name(a), name(b))?,
        }
    }
    Ok(())
}

/// A header line with all wires as one value, or with none.
fn write_value(width: u32, text: &mut String) -> fmt::Result {
    match width {
        0 => writeln!(text, "0"),
        _ => writeln!(text, "1 {width}"),
    }
}
