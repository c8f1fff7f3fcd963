// How fast a circuit text is read, next to a plain Rust reader that makes the same tests; and whether the two answer alike, on
// that text and on many small ones with bytes changed.
mod plain;

use plain::{Entry, Making};
use std::hint::black_box;
use std::time::Instant;

#[repr(C)]
#[derive(Clone, Copy, Default, PartialEq, Debug)]
struct Report {
    refusal: u32,
    wires: u32,
    inputs: u32,
    outputs: u32,
    line: usize,
    byte: usize,
}

unsafe extern "C" {
    fn bristol_read(text: *const u8, text_len: usize, ranks: *mut u32, ranks_len: usize, report: *mut Report) -> bool;
}

fn proved(text: &[u8], ranks: &mut [u32]) -> Report {
    let mut report = Report::default();
    let done = unsafe { bristol_read(text.as_ptr(), text.len(), ranks.as_mut_ptr(), ranks.len(), &mut report) };
    assert!(done, "no memory");
    report
}

fn plainly(text: &[u8], ranks: &mut [u32]) -> Report {
    let mut table = vec![Entry { making: Making::Constant(false), name: 0 }; ranks.len()];
    let report = match plain::read(text, 67_108_864, &mut table, ranks) {
        Ok(c) => Report { refusal: 0, wires: c.wires, inputs: c.inputs, outputs: c.outputs, line: 0, byte: 0 },
        Err(f) => Report { refusal: f.refusal, line: f.line, byte: f.byte, ..Report::default() },
    };
    black_box(&table);
    report
}

struct Chance(u64);

impl Chance {
    fn below(&mut self, n: u32) -> u32 {
        self.0 ^= self.0 << 13;
        self.0 ^= self.0 >> 7;
        self.0 ^= self.0 << 17;
        ((self.0 >> 11) % u64::from(n)) as u32
    }
}

// A text of so many wires, with every gate word.
fn circuit(wires: u32, inputs: u32, chance: &mut Chance) -> Vec<u8> {
    let mut lines = String::new();
    let mut made = inputs;
    let mut gates = 0;
    while made < wires {
        let a = chance.below(made);
        let b = chance.below(made);
        match chance.below(16) {
            0 => lines += &format!("1 1 {a} {made} INV\n"),
            1 => lines += &format!("1 1 {a} {made} EQW\n"),
            2 => lines += &format!("1 1 {} {made} EQ\n", a % 2),
            3 if made + 4 <= wires => {
                let ins: Vec<String> = (0..8).map(|_| chance.below(made).to_string()).collect();
                lines += &format!("8 4 {} {made} {} {} {} MAND\n", ins.join(" "), made + 1, made + 2, made + 3);
                made += 3;
            }
            4..=8 => lines += &format!("2 1 {a} {b} {made} AND\n"),
            _ => lines += &format!("2 1 {a} {b} {made} XOR\n"),
        }
        made += 1;
        gates += 1;
    }
    format!("{gates} {wires}\n1 {inputs}\n1 {}\n\n{lines}", wires.min(64)).into_bytes()
}

// The best of some runs, in bytes a second.
fn speed(text: &[u8], wires: usize, read: fn(&[u8], &mut [u32]) -> Report) -> f64 {
    let mut ranks = vec![0; wires];
    let mut best = f64::MAX;
    for _ in 0..15 {
        let start = Instant::now();
        black_box(read(black_box(text), &mut ranks));
        best = best.min(start.elapsed().as_secs_f64());
    }
    text.len() as f64 / best
}

fn same(text: &[u8], wires: usize) -> Report {
    let mut ours = vec![77; wires];
    let mut theirs = vec![77; wires];
    let a = proved(text, &mut ours);
    let b = plainly(text, &mut theirs);
    assert!(a == b && ours == theirs, "{a:?} {b:?} on {:?}", String::from_utf8_lossy(text));
    a
}

fn main() {
    let mut chance = Chance(0x9e3779b97f4a7c15);
    let mut seen = [0usize; 15];
    for round in 0..200_000u32 {
        let inputs = 1 + chance.below(4);
        let wires = inputs + chance.below(8);
        let mut text = circuit(wires, inputs, &mut chance);
        for _ in 0..round % 4 {
            let at = chance.below(text.len() as u32) as usize;
            let byte = b"0123456789 \n\r\tADENOVXMQWI\x80"[chance.below(26) as usize];
            match chance.below(3) {
                0 => text[at] = byte,
                1 => text.insert(at, byte),
                _ => {
                    text.remove(at);
                }
            }
        }
        seen[same(&text, 12).refusal as usize] += 1;
    }
    println!("200000 small texts answered alike; by refusal, 0 for none: {seen:?}");
    let wires = 400_000;
    let text = circuit(wires, 1000, &mut chance);
    assert_eq!(same(&text, wires as usize).refusal, 0);
    let ours = speed(&text, wires as usize, proved);
    let theirs = speed(&text, wires as usize, plainly);
    println!("{} bytes, {wires} wires", text.len());
    println!("proved reader  {:7.1} MB/s", ours / 1e6);
    println!("plain Rust     {:7.1} MB/s", theirs / 1e6);
    println!("ratio          {:7.2}", theirs / ours);
}
