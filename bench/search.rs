// Times the proved search against the same depth-first loop in plain Rust, in one run: on a random graph whose steps lead anywhere,
// and on one whose steps lead to places nearby.
use std::time::Instant;

const PLACES: usize = 1_000_000;
const STEPS_EACH: u64 = 4;
const ROUNDS: usize = 9;
const CHOSEN: u32 = 1;

unsafe extern "C" {
    // Marks what steps reach: 0, or the number of a refusal.
    fn mark_listed(memory: *mut u32, length: usize, places: u32, targets: u32) -> u32;
}

struct Random(u64);

impl Random {
    fn below(&mut self, bound: u64) -> u64 {
        self.0 ^= self.0 << 13;
        self.0 ^= self.0 >> 7;
        self.0 ^= self.0 << 17;
        self.0 % bound
    }
}

// Flags, offsets and targets, then room for marks, stack and steps tried. Each place has from 0 to twice STEPS_EACH steps,
// to places at most `span` after it, past the last one from the first on again.
fn graph(random: &mut Random, span: usize) -> (Vec<u32>, usize) {
    let mut memory = vec![0; PLACES];
    memory[0] = CHOSEN;
    let mut targets = Vec::new();
    for place in 0..PLACES {
        memory.push(targets.len() as u32);
        for _ in 0..random.below(2 * STEPS_EACH + 1) {
            targets.push(((place + 1 + random.below(span as u64) as usize) % PLACES) as u32);
        }
    }
    memory.push(targets.len() as u32);
    memory.extend(&targets);
    memory.resize(memory.len() + 3 * PLACES, 7);
    (memory, targets.len())
}

struct Rows {
    base: usize,
    count: usize,
}

fn degree(memory: &[u32], n: usize, t: usize, place: usize) -> u32 {
    memory[n + place + 1].min(t as u32).saturating_sub(memory[n + place])
}

fn step(memory: &[u32], n: usize, place: usize, i: u32) -> usize {
    let target = memory[2 * n + 1 + (memory[n + place] + i) as usize] as usize;
    if target < n { target } else { place }
}

fn push(memory: &mut [u32], rows: &Rows, height: usize, place: usize) {
    memory[rows.base + place] = 1;
    memory[rows.base + rows.count + height] = place as u32;
    memory[rows.base + 2 * rows.count + place] = 0;
}

fn open_step(memory: &[u32], rows: &Rows, t: usize, place: usize, from: u32) -> Option<(u32, usize)> {
    for i in from..degree(memory, rows.count, t, place) {
        let next = step(memory, rows.count, place, i);
        if memory[rows.base + next] == 0 {
            return Some((i, next));
        }
    }
    None
}

fn dive(memory: &mut [u32], rows: &Rows, t: usize, place: usize) {
    push(memory, rows, 0, place);
    let mut height = 1;
    while height > 0 {
        let top = memory[rows.base + rows.count + height - 1] as usize;
        let from = memory[rows.base + 2 * rows.count + top];
        match open_step(memory, rows, t, top, from) {
            Some((i, next)) => {
                push(memory, rows, height, next);
                memory[rows.base + 2 * rows.count + top] = i + 1;
                height += 1;
            }
            None => height -= 1,
        }
    }
}

// The same search with the checks of plain Rust.
#[inline(never)]
fn mark_plain(memory: &mut [u32], n: usize, t: usize) {
    let rows = Rows { base: 2 * n + 1 + t, count: n };
    memory[rows.base..rows.base + n].fill(0);
    for place in 0..n {
        if memory[rows.base + place] == 0 && memory[place] == CHOSEN {
            dive(memory, &rows, t, place);
        }
    }
}

fn compare(name: &str, random: &mut Random, span: usize) {
    let (mut proved, targets) = graph(random, span);
    let mut plain = proved.clone();
    let base = 2 * PLACES + 1 + targets;
    let (mut best_proved, mut best_plain) = (f64::MAX, f64::MAX);
    for _ in 0..ROUNDS {
        let begin = Instant::now();
        let answer = unsafe { mark_listed(proved.as_mut_ptr(), proved.len(), PLACES as u32, targets as u32) };
        best_proved = best_proved.min(begin.elapsed().as_secs_f64());
        assert_eq!(answer, 0, "refused");
        let begin = Instant::now();
        mark_plain(&mut plain, PLACES, targets);
        best_plain = best_plain.min(begin.elapsed().as_secs_f64());
    }
    assert!(proved[base..base + PLACES] == plain[base..base + PLACES], "the marks differ");
    let reached: Vec<usize> = (0..PLACES).filter(|p| proved[base + p] != 0).collect();
    let steps: usize = reached.iter().map(|p| degree(&proved, PLACES, targets, *p) as usize).sum();
    println!("{name}: {PLACES} places, {targets} steps; {} places reached, by {steps} steps", reached.len());
    for (side, time) in [("proved", best_proved), ("plain Rust", best_plain)] {
        println!(
            "  {side}: {:.1} ms, {:.1} million places/s, {:.1} million steps/s",
            1e3 * time,
            reached.len() as f64 / time / 1e6,
            steps as f64 / time / 1e6
        );
    }
    println!("  proved / plain time: {:.2}; the marks agree", best_proved / best_plain);
}

fn main() {
    let mut random = Random(0x9E37_79B9_7F4A_7C15);
    compare("steps anywhere", &mut random, PLACES);
    compare("steps nearby", &mut random, 1_000);
}
