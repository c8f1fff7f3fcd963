//! Cases of texts: reading, printing, and writing with reading back.

use super::case::{not_offered, same, Case, Kinds, Mismatch};
use super::product::Product;
use super::shrink::{parts, smaller_circuits, without};
use crate::circuit::{Circuit, MOST_WIRES};
use crate::format::{read, write, Memory, Reading, Rooms, LONGEST_TEXT};
use crate::random::{circuits, damage, texts};
use crate::report;
use crate::rng::Rng;
use std::fmt::{self, Display};

/// A text to be read into memories of those sizes.
#[derive(Clone)]
pub struct TextCase {
    text: Vec<u8>,
    rooms: Rooms,
}

/// A text as the format allows it.
pub fn good(rng: &mut Rng) -> TextCase {
    let (draft, circuit) = texts::draft(rng);
    let rooms = if rng.flip() { Rooms::AMPLE } else { rooms(rng, circuit.wires()) };
    TextCase { text: draft.spell(rng), rooms }
}

/// A text with damage; half of the time into memories of about its size.
pub fn damaged(rng: &mut Rng) -> TextCase {
    let (draft, circuit) = texts::draft(rng);
    let rooms = if rng.flip() { Rooms::AMPLE } else { rooms(rng, circuit.wires()) };
    TextCase { text: damage::damaged(rng, draft), rooms }
}

/// Memories of that size or more, and now and then less.
fn rooms(rng: &mut Rng, wires: usize) -> Rooms {
    let mut room = || if rng.once_in(6) { rng.index(wires) } else { wires + rng.index(3) };
    Rooms { table: room(), ranks: room() }
}

/// The longest text there may be, one byte more, and the most wires.
pub fn longest() -> impl Iterator<Item = TextCase> {
    let padded = |length: usize| {
        let mut text = b"1 2\n1 1\n1 1\n1 1 0 1 INV\n".to_vec();
        text.resize(length, b' ');
        text
    };
    let wires = |wires: u32| format!("0 {wires}\n1 {wires}\n0\n").into_bytes();
    let texts = [padded(LONGEST_TEXT), padded(LONGEST_TEXT + 1), wires(MOST_WIRES), wires(MOST_WIRES + 1)];
    texts.into_iter().map(|text| TextCase { text, rooms: Rooms::AMPLE })
}

impl Case for TextCase {
    fn judge<P: Product>(&self, product: &mut P) -> Result<Kinds, Mismatch> {
        let expected = read(&self.text, self.rooms);
        same(&expected, &product.read(&self.text, self.rooms))?;
        let kind = match expected.outcome {
            Ok(_) => "circuit".to_string(),
            Err(fault) => format!("fault {}", fault.number),
        };
        Ok(vec![kind])
    }

    fn smaller(&self) -> Box<dyn Iterator<Item = Self> + '_> {
        let shorter = |part| TextCase { text: without(&self.text, part), rooms: self.rooms };
        Box::new(parts(self.text.len()).map(shorter))
    }
}

impl Display for TextCase {
    fn fmt(&self, out: &mut fmt::Formatter) -> fmt::Result {
        let Rooms { table, ranks } = self.rooms;
        writeln!(out, "text \"{}\", room for {table} entries and {ranks} ranks", shown(&self.text))
    }
}

/// The bytes as people can read them; of a long text the beginning.
fn shown(text: &[u8]) -> String {
    const MOST_SHOWN: usize = 2000;
    let start = text[..text.len().min(MOST_SHOWN)].escape_ascii().to_string();
    if text.len() <= MOST_SHOWN {
        start
    } else {
        format!("{start}\" and so on, {} bytes in all, \"", text.len())
    }
}

/// A text to be printed, with the limit on its length.
#[derive(Clone)]
pub struct PrintCase {
    text: Vec<u8>,
    limit: usize,
}

/// A text, good or damaged, at a limit that most of them keep.
pub fn printed(rng: &mut Rng) -> PrintCase {
    let (draft, _) = texts::draft(rng);
    let text = if rng.flip() { draft.spell(rng) } else { damage::damaged(rng, draft) };
    let limit = *rng.pick(&[32_768, 32_768, text.len(), text.len() + 1, text.len().saturating_sub(1)]);
    PrintCase { text, limit }
}

impl Case for PrintCase {
    fn judge<P: Product>(&self, product: &mut P) -> Result<Kinds, Mismatch> {
        let expected = report::printed(self.limit, &self.text);
        let Some(found) = product.print(self.limit, &self.text) else {
            return Ok(not_offered());
        };
        same(&expected.as_str(), &&*String::from_utf8_lossy(&found))?;
        let first = expected.split(['\n', ' ']).next().unwrap_or_default();
        Ok(vec![first.to_lowercase()])
    }

    fn smaller(&self) -> Box<dyn Iterator<Item = Self> + '_> {
        let shorter = |part| PrintCase { text: without(&self.text, part), limit: self.limit };
        Box::new(parts(self.text.len()).map(shorter))
    }
}

impl Display for PrintCase {
    fn fmt(&self, out: &mut fmt::Formatter) -> fmt::Result {
        writeln!(out, "text \"{}\", limit {}", shown(&self.text), self.limit)
    }
}

/// A circuit to be written and read back.
#[derive(Clone)]
pub struct WriteCase {
    pub circuit: Circuit,
}

/// Any circuit, as a table would hold it.
pub fn written(rng: &mut Rng) -> WriteCase {
    WriteCase { circuit: circuits::up_to(rng, 60) }
}

impl Case for WriteCase {
    fn judge<P: Product>(&self, product: &mut P) -> Result<Kinds, Mismatch> {
        let text = product.write(&self.circuit);
        if text != write(&self.circuit) {
            return Err(Mismatch::new(shown(&write(&self.circuit)), shown(&text)));
        }
        let wires = self.circuit.wires();
        let expected = Reading { outcome: Ok(self.circuit.clone()), memory: Memory::Filled(wires) };
        same(&expected, &product.read(&text, Rooms { table: wires, ranks: wires }))?;
        Ok(vec!["read back".to_string()])
    }

    fn smaller(&self) -> Box<dyn Iterator<Item = Self> + '_> {
        Box::new(smaller_circuits(&self.circuit).map(|smaller| WriteCase { circuit: smaller.circuit }))
    }
}

impl Display for WriteCase {
    fn fmt(&self, out: &mut fmt::Formatter) -> fmt::Result {
        writeln!(out, "{}", shown_circuit(&self.circuit))
    }
}

/// The circuit as text, or by its size where that is long.
pub fn shown_circuit(circuit: &Circuit) -> String {
    const MOST_SHOWN: usize = 200;
    if circuit.wires() <= MOST_SHOWN {
        format!("circuit\n{}", String::from_utf8_lossy(&write(circuit)))
    } else {
        format!("circuit of {} wires", circuit.wires())
    }
}
