//! Damage to texts, aimed so that every fault occurs, and now and then at random.

use super::texts::{Draft, HEADER_LINES};
use crate::circuit::MOST_WIRES;
use crate::format::number;
use crate::rng::Rng;

/// The faults that damage to a text can be aimed at.
pub const AIMS: [u8; 10] = [
    number::BYTE,
    number::NO_NUMBER,
    number::NO_WORD,
    number::HEADER_COUNT,
    number::GATE_COUNTS,
    number::INPUT,
    number::RESULT,
    number::LEFT_OVER,
    number::LINES,
    number::WIDTH,
];

/// A text with one to three pieces of damage, by token or by byte.
pub fn damaged(rng: &mut Rng, mut draft: Draft) -> Vec<u8> {
    let times = *rng.pick(&[1, 1, 1, 2, 3]);
    for _ in 0..times {
        let aim = *rng.pick(&AIMS);
        hurt_draft(rng, &mut draft, aim);
        if rng.once_in(8) {
            hurt_tokens(rng, &mut draft);
        }
    }
    let mut text = draft.spell(rng);
    if rng.once_in(5) {
        let times = rng.within(1, 3);
        (0..times).for_each(|_| hurt_bytes(rng, &mut text));
    }
    text
}

/// Damage meant to give the fault of that number; earlier damage may give another.
pub fn hurt_draft(rng: &mut Rng, draft: &mut Draft, aim: u8) {
    match aim {
        number::BYTE => bad_byte(rng, draft),
        number::NO_NUMBER => no_number(rng, draft),
        number::NO_WORD => no_word(rng, draft),
        number::HEADER_COUNT => header_count(rng, draft),
        number::GATE_COUNTS => gate_counts(rng, draft),
        number::INPUT => bad_input(rng, draft),
        number::RESULT => bad_result(rng, draft),
        number::LEFT_OVER => left_over(rng, draft),
        number::LINES => wrong_lines(rng, draft),
        _ => bad_width(rng, draft),
    }
}

/// Any line, as its tokens.
fn line<'d>(rng: &mut Rng, draft: &'d mut Draft) -> &'d mut Vec<String> {
    let index = rng.index(draft.lines.len());
    &mut draft.lines[index]
}

/// A gate line, if there is one, with what its first two tokens count.
fn gate<'d>(rng: &mut Rng, draft: &'d mut Draft) -> Option<(&'d mut Vec<String>, usize, usize)> {
    if draft.lines.len() <= HEADER_LINES {
        return None;
    }
    let index = HEADER_LINES + rng.index(draft.lines.len() - HEADER_LINES);
    let line = &mut draft.lines[index];
    let inputs: usize = line.first()?.parse().ok()?;
    let results: usize = line.get(1)?.parse().ok()?;
    (inputs.checked_add(results)?.checked_add(3)? == line.len()).then_some((line, inputs, results))
}

fn set(line: &mut [String], index: usize, value: impl ToString) {
    if let Some(token) = line.get_mut(index) {
        *token = value.to_string();
    }
}

/// A byte over 126 or a control byte; the token keeps the rest in place.
fn bad_byte(rng: &mut Rng, draft: &mut Draft) {
    let bytes = ['\u{0}', '\u{8}', '\u{b}', '\u{c}', '\u{e}', '\u{1f}', '\u{7f}', '\u{80}', '\u{e9}', '\u{ff}'];
    let byte = *rng.pick(&bytes);
    let line = line(rng, draft);
    let place = rng.index(line.len() + 1);
    if place == line.len() || rng.flip() {
        line.insert(place, byte.to_string());
    } else {
        let at = rng.index(line[place].len() + 1);
        if line[place].is_char_boundary(at) {
            line[place].insert(at, byte);
        }
    }
}

fn no_number(rng: &mut Rng, draft: &mut Draft) {
    let junk = ["x", "-1", "+1", "1a", "0x1", "1.0", "4294967296", "9999999999", "00000000001", "AND", "~"];
    match rng.below(5) {
        0 => {
            let kept = rng.index(draft.lines.len());
            draft.lines.truncate(kept);
            draft.lines.push(Vec::new());
        }
        1 => {
            line(rng, draft).pop();
        }
        2 => {
            let value = rng.pick(&["3", "4294967295", "70"]).to_string();
            let line = line(rng, draft);
            let place = rng.below(2) as usize;
            set(line, place, value);
        }
        _ => {
            let token = rng.pick(&junk).to_string();
            let line = line(rng, draft);
            let place = rng.index(line.len().max(1));
            set(line, place, token);
        }
    }
}

fn no_word(rng: &mut Rng, draft: &mut Draft) {
    let junk = ["and", "NAND", "AN", "ANDX", "EQWW", "E", "XNOR", "0", "MANDS", "inv"];
    let token = rng.pick(&junk).to_string();
    let drop = rng.once_in(4);
    if let Some((line, ..)) = gate(rng, draft) {
        line.pop();
        if !drop {
            line.push(token);
        }
    }
}

fn header_count(rng: &mut Rng, draft: &mut Draft) {
    let wires = *rng.pick(&[0, MOST_WIRES + 1, u32::MAX]);
    let values = *rng.pick(&[65, 66, 1000, u32::MAX]);
    match (rng.index(HEADER_LINES), &mut draft.lines[..]) {
        (1, [_, line, ..]) | (2, [_, _, line, ..]) => set(line, 0, values),
        (_, [line, ..]) => set(line, 1, wires),
        (_, []) => {}
    }
}

/// Counts that still fit the number of tokens, or a word that takes others.
fn gate_counts(rng: &mut Rng, draft: &mut Draft) {
    let word = rng.pick(&["AND", "XOR", "INV", "EQ", "EQW", "MAND"]).to_string();
    let recount = rng.flip();
    let share = rng.below(9) as usize;
    if let Some((line, inputs, results)) = gate(rng, draft) {
        if recount {
            let moved = share % (inputs + results + 1);
            set(line, 0, moved);
            set(line, 1, inputs + results - moved);
        } else {
            let last = line.len() - 1;
            set(line, last, word);
        }
    }
}

fn bad_input(rng: &mut Rng, draft: &mut Draft) {
    let value = some_name(rng, draft);
    let choice = rng.below(64) as usize;
    if let Some((line, inputs, _)) = gate(rng, draft) {
        if inputs > 0 {
            set(line, 2 + choice % inputs, value);
        }
    }
}

fn bad_result(rng: &mut Rng, draft: &mut Draft) {
    let value = some_name(rng, draft);
    let choice = rng.below(64) as usize;
    if let Some((line, inputs, results)) = gate(rng, draft) {
        if results > 0 {
            set(line, 2 + inputs + choice % results, value);
        }
    }
}

/// A name in use, or one at or past the number of wires.
fn some_name(rng: &mut Rng, draft: &Draft) -> u32 {
    let wires = draft.lines.first().and_then(|line| line.get(1)).and_then(|token| token.parse().ok());
    let wires: u32 = wires.filter(|&wires| wires > 0).unwrap_or(9);
    match rng.below(5) {
        0 => wires,
        1 => *rng.pick(&[wires.saturating_add(1), u32::MAX, 2]),
        _ => rng.below(wires),
    }
}

fn left_over(rng: &mut Rng, draft: &mut Draft) {
    let token = rng.pick(&["0", "1", "AND", "x", "99999999999"]).to_string();
    let line = line(rng, draft);
    let place = if rng.flip() { line.len() } else { rng.index(line.len() + 1) };
    line.insert(place, token);
}

fn wrong_lines(rng: &mut Rng, draft: &mut Draft) {
    let index = rng.index(draft.lines.len());
    match rng.below(6) {
        0 => {
            draft.lines.truncate(index.max(HEADER_LINES));
        }
        1 => {
            draft.lines.remove(index);
            draft.lines.push(Vec::new());
        }
        2 => draft.lines.push(draft.lines[index].clone()),
        3 => draft.lines.push(vec![rng.pick(&["0", "x", "AND", "1"]).to_string()]),
        4 => raise(rng, draft, 0),
        _ => raise(rng, draft, 1),
    }
}

/// Moves one of the first line's counts by one.
fn raise(rng: &mut Rng, draft: &mut Draft, place: usize) {
    let count = draft.lines[0].get(place).and_then(|token| token.parse::<u32>().ok());
    if let Some(count) = count {
        let moved = if rng.flip() { count.saturating_add(1) } else { count.saturating_sub(1) };
        set(&mut draft.lines[0], place, moved);
    }
}

fn bad_width(rng: &mut Rng, draft: &mut Draft) {
    let width = *rng.pick(&[0, 0, 7, 20, 1_048_576, u32::MAX]);
    let index = rng.within(1, 2) as usize;
    let Some(line) = draft.lines.get_mut(index) else { return };
    if line.len() > 1 {
        let place = 1 + rng.index(line.len() - 1);
        set(line, place, width);
    } else {
        *line = vec!["1".to_string(), width.to_string()];
    }
}

/// Swaps, drops or doubles any token.
fn hurt_tokens(rng: &mut Rng, draft: &mut Draft) {
    let line = line(rng, draft);
    if line.is_empty() {
        return;
    }
    let (one, two) = (rng.index(line.len()), rng.index(line.len()));
    match rng.below(3) {
        0 => line.swap(one, two),
        1 => {
            line.remove(one);
        }
        _ => line.insert(one, line[two].clone()),
    }
}

/// Changes, drops or inserts any byte, or cuts the text off.
pub fn hurt_bytes(rng: &mut Rng, text: &mut Vec<u8>) {
    let at = rng.index(text.len() + 1);
    let byte = if rng.flip() { rng.below(256) as u8 } else { *rng.pick(b" \n\t\r0123456789ANDXORINVEQW") };
    match rng.below(8) {
        0 => text.truncate(at),
        1 | 2 => text.insert(at, byte),
        3 | 4 if at < text.len() => {
            text.remove(at);
        }
        _ if at < text.len() => text[at] = byte,
        _ => text.push(byte),
    }
}

#[cfg(test)]
mod tests {
    use super::*;
    use crate::format::{read, Rooms};
    use crate::random::texts::draft;

    #[test]
    fn every_aim_is_hit() {
        let mut rng = Rng::new(4);
        for aim in AIMS {
            let mut hits = 0;
            for _ in 0..600 {
                let (mut draft, _) = draft(&mut rng);
                hurt_draft(&mut rng, &mut draft, aim);
                let outcome = read(&draft.spell(&mut rng), Rooms::AMPLE).outcome;
                hits += u32::from(outcome.is_err_and(|fault| fault.number == aim));
            }
            assert!(hits > 60, "fault {aim} occurs {hits} times");
        }
    }
}
