//! Reading: a text's circuit, or its first fault.

use super::scan::Scanner;
use super::{number, Fault, Place, LONGEST_TEXT};
use crate::circuit::{Circuit, Making, MOST_WIRES};

/// The most values a header line may count.
const MOST_VALUES: u32 = 64;

/// Marks a name that no wire has yet.
const UNMADE: u32 = u32::MAX;

/// How many entries the two lent memories have.
#[derive(Clone, Copy, Debug, PartialEq, Eq)]
pub struct Rooms {
    pub table: usize,
    pub ranks: usize,
}

impl Rooms {
    /// Rooms that suit every circuit.
    pub const AMPLE: Rooms = Rooms { table: MOST_WIRES as usize, ranks: MOST_WIRES as usize };
}

/// What a reading does to the lent memories.
#[derive(Clone, Copy, Debug, PartialEq, Eq)]
pub enum Memory {
    Untouched,
    /// The first so many entries are constant 0, name 0 and rank 0.
    Zeroed(usize),
    /// The first so many entries are the circuit's.
    Filled(usize),
}

/// What a reading answers, and what it leaves in memory.
#[derive(Clone, Debug, PartialEq, Eq)]
pub struct Reading {
    pub outcome: Result<Circuit, Fault>,
    pub memory: Memory,
}

/// Reads a whole text.
pub fn read(text: &[u8], rooms: Rooms) -> Reading {
    let mut scanner = Scanner::new(text);
    let header = match header(&mut scanner, text, rooms) {
        Ok(header) => header,
        Err(fault) => return Reading { outcome: Err(fault), memory: Memory::Untouched },
    };
    let wires = header.wires as usize;
    let outcome = gates(&mut scanner, &header);
    let memory = if outcome.is_ok() { Memory::Filled(wires) } else { Memory::Zeroed(wires) };
    Reading { outcome, memory }
}

struct Header {
    gates: u32,
    wires: u32,
    inputs: u32,
    outputs: u32,
}

/// All that is settled before the first gate line.
fn header(scanner: &mut Scanner, text: &[u8], rooms: Rooms) -> Result<Header, Fault> {
    if text.len() > LONGEST_TEXT {
        return Err(Fault::at(number::LONG_TEXT, Place { line: 1, byte: 0 }));
    }
    // A missing line shows as a missing number, at the text's end.
    scanner.seek_line()?;
    let (gates, _) = scanner.number()?;
    let (wires, place) = scanner.number()?;
    if !(1..=MOST_WIRES).contains(&wires) {
        return Err(Fault::at(number::HEADER_COUNT, place));
    }
    scanner.end_line()?;
    let inputs = widths(scanner, wires)?;
    let outputs = widths(scanner, wires)?;
    if rooms.table.min(rooms.ranks) < wires as usize {
        return Err(Fault::at(number::SHORT_MEMORY, place));
    }
    Ok(Header { gates, wires, inputs, outputs })
}

/// A header line of values: their count and widths. Answers the widths' sum.
fn widths(scanner: &mut Scanner, wires: u32) -> Result<u32, Fault> {
    scanner.seek_line()?;
    let (values, place) = scanner.number()?;
    if values > MOST_VALUES {
        return Err(Fault::at(number::HEADER_COUNT, place));
    }
    let mut sum = 0;
    for _ in 0..values {
        let (width, place) = scanner.number()?;
        if width == 0 || width > wires - sum {
            return Err(Fault::at(number::WIDTH, place));
        }
        sum += width;
    }
    scanner.end_line()?;
    Ok(sum)
}

/// All gate lines, up to the text's end.
fn gates(scanner: &mut Scanner, header: &Header) -> Result<Circuit, Fault> {
    let mut table = Table::new(header);
    let mut gate = Gate::default();
    let mut lines = 0;
    while scanner.seek_line()? {
        let first = scanner.place();
        if lines == header.gates {
            return Err(Fault::at(number::LINES, first));
        }
        lines += 1;
        let word = gate.read(scanner)?;
        if !word.suits(gate.inputs.len(), gate.results.len()) {
            return Err(Fault::at(number::GATE_COUNTS, first));
        }
        table.make(word, &gate)?;
    }
    if lines < header.gates || table.makings.len() < header.wires as usize {
        return Err(Fault::at(number::LINES, scanner.place()));
    }
    Ok(Circuit { makings: table.makings, names: table.names, inputs: header.inputs, outputs: header.outputs })
}

#[derive(Clone, Copy)]
enum Word {
    And,
    Xor,
    Inv,
    Eq,
    Eqw,
    Mand,
}

impl Word {
    fn of(bytes: &[u8]) -> Option<Word> {
        match bytes {
            b"AND" => Some(Word::And),
            b"XOR" => Some(Word::Xor),
            b"INV" => Some(Word::Inv),
            b"EQ" => Some(Word::Eq),
            b"EQW" => Some(Word::Eqw),
            b"MAND" => Some(Word::Mand),
            _ => None,
        }
    }

    fn suits(self, inputs: usize, results: usize) -> bool {
        match self {
            Word::And | Word::Xor => (inputs, results) == (2, 1),
            Word::Inv | Word::Eq | Word::Eqw => (inputs, results) == (1, 1),
            Word::Mand => results >= 1 && inputs == 2 * results,
        }
    }
}

/// The numbers of a gate line with their places; kept from line to line for its memory.
#[derive(Default)]
struct Gate {
    inputs: Vec<(u32, Place)>,
    results: Vec<(u32, Place)>,
}

impl Gate {
    /// Reads a gate line whole and answers its word.
    fn read(&mut self, scanner: &mut Scanner) -> Result<Word, Fault> {
        self.inputs.clear();
        self.results.clear();
        let (inputs, _) = scanner.number()?;
        let (results, _) = scanner.number()?;
        for _ in 0..inputs {
            self.inputs.push(scanner.number()?);
        }
        for _ in 0..results {
            self.results.push(scanner.number()?);
        }
        let (word, place) = match scanner.token()? {
            Some(token) => (Word::of(token.bytes), token.place),
            None => (None, scanner.place()),
        };
        let word = word.ok_or(Fault::at(number::NO_WORD, place))?;
        scanner.end_line()?;
        Ok(word)
    }
}

/// The wires made so far.
struct Table {
    makings: Vec<Making>,
    names: Vec<u32>,
    ranks: Vec<u32>,
}

impl Table {
    fn new(header: &Header) -> Table {
        let names: Vec<u32> = (0..header.inputs).collect();
        let mut ranks = names.clone();
        ranks.resize(header.wires as usize, UNMADE);
        Table { makings: vec![Making::Input; names.len()], names, ranks }
    }

    /// Makes a gate line's results, once all its inputs are known to be made.
    fn make(&mut self, word: Word, gate: &Gate) -> Result<(), Fault> {
        for &input in &gate.inputs {
            self.test_input(word, input)?;
        }
        for (j, &(name, place)) in gate.results.iter().enumerate() {
            if self.ranks.get(name as usize) != Some(&UNMADE) {
                return Err(Fault::at(number::RESULT, place));
            }
            let making = self.making(word, gate, j);
            self.ranks[name as usize] = self.makings.len() as u32;
            self.makings.push(making);
            self.names.push(name);
        }
        Ok(())
    }

    fn test_input(&self, word: Word, (value, place): (u32, Place)) -> Result<(), Fault> {
        let good = match word {
            Word::Eq => value <= 1,
            _ => self.ranks.get(value as usize).is_some_and(|&rank| rank != UNMADE),
        };
        if good {
            Ok(())
        } else {
            Err(Fault::at(number::INPUT, place))
        }
    }

    /// How result `j` of a tested gate line is made.
    fn making(&self, word: Word, gate: &Gate, j: usize) -> Making {
        let rank = |input: usize| self.ranks[gate.inputs[input].0 as usize];
        match word {
            Word::And => Making::Product(rank(0), rank(1)),
            Word::Xor => Making::Sum(rank(0), rank(1)),
            Word::Inv => Making::Inversion(rank(0)),
            Word::Eq => Making::Constant(gate.inputs[0].0 == 1),
            Word::Eqw => Making::Copy(rank(0)),
            Word::Mand => Making::Product(rank(j), rank(gate.results.len() + j)),
        }
    }
}
