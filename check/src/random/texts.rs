//! Random texts: first as lines of tokens, then in any spacing the format allows.

use crate::circuit::{Circuit, Making};
use crate::rng::Rng;

/// A text as lines of tokens; the first three are the header.
#[derive(Clone, Debug)]
pub struct Draft {
    pub lines: Vec<Vec<String>>,
}

pub const HEADER_LINES: usize = 3;

/// A draft, and the circuit it means.
pub fn draft(rng: &mut Rng) -> (Draft, Circuit) {
    let inputs = rng.below(6);
    let wires = inputs + rng.within(u32::from(inputs == 0), 14);
    let outputs = rng.within(0, wires);
    let mut names: Vec<u32> = (0..wires).collect();
    if !rng.once_in(3) {
        rng.shuffle(&mut names[inputs as usize..]);
    }
    let mut maker = Maker { names: &names, makings: vec![Making::Input; inputs as usize], lines: Vec::new() };
    while maker.makings.len() < names.len() {
        maker.gate(rng);
    }
    let (makings, gates) = (maker.makings, maker.lines);
    let count = vec![number(rng, gates.len() as u32), number(rng, wires)];
    let mut lines = vec![count, widths(rng, inputs), widths(rng, outputs)];
    lines.extend(gates);
    (Draft { lines }, Circuit { makings, names, inputs, outputs })
}

/// A number, now and then with zeros before it.
pub fn number(rng: &mut Rng, value: u32) -> String {
    match rng.below(12) {
        0 => format!("{value:010}"),
        1 => format!("0{value}"),
        _ => value.to_string(),
    }
}

/// A header line that splits the width into random values.
fn widths(rng: &mut Rng, width: u32) -> Vec<String> {
    let mut values = Vec::new();
    let mut left = width;
    while left > 0 {
        let value = if rng.flip() { left } else { rng.within(1, left) };
        values.push(number(rng, value));
        left -= value;
    }
    values.insert(0, number(rng, values.len() as u32));
    values
}

/// Makes gate lines and the wires they mean, side by side.
struct Maker<'n> {
    names: &'n [u32],
    makings: Vec<Making>,
    lines: Vec<Vec<String>>,
}

impl Maker<'_> {
    fn gate(&mut self, rng: &mut Rng) {
        let made = self.makings.len() as u32;
        let room = self.names.len() as u32 - made;
        if made == 0 || rng.once_in(10) {
            let value = rng.flip();
            return self.line(rng, "EQ", &[u32::from(value)], &[Making::Constant(value)]);
        }
        let (a, b) = (rng.below(made), rng.below(made));
        let names = [self.names[a as usize], self.names[b as usize]];
        match rng.below(6) {
            0 => self.line(rng, "EQW", &names[..1], &[Making::Copy(a)]),
            1 => self.line(rng, "INV", &names[..1], &[Making::Inversion(a)]),
            2 => self.line(rng, "XOR", &names, &[Making::Sum(a, b)]),
            3 => self.many(rng, made, room.min(4)),
            _ => self.line(rng, "AND", &names, &[Making::Product(a, b)]),
        }
    }

    /// A line of several products.
    fn many(&mut self, rng: &mut Rng, made: u32, most: u32) {
        let count = rng.within(1, most) as usize;
        let ranks: Vec<u32> = (0..2 * count).map(|_| rng.below(made)).collect();
        let inputs: Vec<u32> = ranks.iter().map(|&rank| self.names[rank as usize]).collect();
        let products: Vec<Making> = (0..count).map(|j| Making::Product(ranks[j], ranks[count + j])).collect();
        self.line(rng, "MAND", &inputs, &products);
    }

    fn line(&mut self, rng: &mut Rng, word: &str, inputs: &[u32], makings: &[Making]) {
        let made = self.makings.len();
        let results = &self.names[made..made + makings.len()];
        let counts = [inputs.len() as u32, results.len() as u32];
        let numbers = counts.iter().chain(inputs).chain(results);
        let mut tokens: Vec<String> = numbers.map(|&value| number(rng, value)).collect();
        tokens.push(word.to_string());
        self.lines.push(tokens);
        self.makings.extend_from_slice(makings);
    }
}

impl Draft {
    /// The text, in odd spacing: separators of any kind, blank lines, a last line left open.
    pub fn spell(&self, rng: &mut Rng) -> Vec<u8> {
        let plain = rng.once_in(3);
        let mut text = Vec::new();
        for line in &self.lines {
            while !plain && rng.once_in(6) {
                blank(rng, &mut text, 0);
                text.push(b'\n');
            }
            spell_line(rng, line, plain, &mut text);
            text.push(b'\n');
        }
        if rng.once_in(3) {
            text.pop();
        } else if !plain && rng.flip() {
            blank(rng, &mut text, 0);
        }
        text
    }
}

fn spell_line(rng: &mut Rng, line: &[String], plain: bool, text: &mut Vec<u8>) {
    for (index, token) in line.iter().enumerate() {
        if plain && index > 0 {
            text.push(b' ');
        } else if !plain {
            blank(rng, text, u32::from(index > 0));
        }
        text.extend_from_slice(token.as_bytes());
    }
    if !plain {
        blank(rng, text, 0);
    }
}

/// Some separators, at least so many.
fn blank(rng: &mut Rng, text: &mut Vec<u8>, least: u32) {
    let most = if rng.once_in(4) { 3 } else { least };
    for _ in 0..rng.within(least, most) {
        text.push(*rng.pick(b"   \t\r"));
    }
}

#[cfg(test)]
mod tests {
    use super::*;
    use crate::format::{read, write, Memory, Rooms};

    #[test]
    fn drafts_mean_their_circuits() {
        let mut rng = Rng::new(3);
        for _ in 0..5000 {
            let (draft, circuit) = draft(&mut rng);
            assert!(circuit.is_lawful());
            let text = draft.spell(&mut rng);
            let reading = read(&text, Rooms::AMPLE);
            assert_eq!(reading.memory, Memory::Filled(circuit.wires()));
            assert_eq!(reading.outcome.as_ref(), Ok(&circuit), "{}", String::from_utf8_lossy(&text));
            assert_eq!(read(&write(&circuit), Rooms::AMPLE).outcome, Ok(circuit));
        }
    }
}
