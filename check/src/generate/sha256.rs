//! The compression of SHA-256 for one block: 512 block bits and 256 chaining bits to 256 bits.

use super::builder::{Bit, Builder};
use super::evaluate::evaluate;
use super::Problem;
use crate::circuit::Circuit;

const BLOCK_WORDS: usize = 16;
const STATE_WORDS: usize = 8;
const ROUNDS: usize = 64;
const WORD: usize = 32;

type Word = Vec<Bit>;

/// The first 32 bits of the fraction of a root of the prime: of degree 2 or 3.
fn root_fraction(prime: u32, degree: u32) -> u32 {
    // The largest r with r^degree <= prime * 2^(32 * degree), by bits from the top.
    let scaled = u128::from(prime) << (32 * degree);
    let root = (0..36).rev().fold(0u128, |root, bit| {
        let raised = root | 1 << bit;
        if raised.pow(degree) <= scaled {
            raised
        } else {
            root
        }
    });
    root as u32
}

fn primes() -> impl Iterator<Item = u32> {
    (2..).filter(|number| (2..*number).all(|divisor| number % divisor != 0))
}

fn initial_state() -> Vec<u32> {
    primes().take(STATE_WORDS).map(|prime| root_fraction(prime, 2)).collect()
}

fn round_constants() -> Vec<u32> {
    primes().take(ROUNDS).map(|prime| root_fraction(prime, 3)).collect()
}

fn known(word: u32) -> Word {
    (0..WORD).map(|bit| Bit::Known(word >> bit & 1 == 1)).collect()
}

fn turned(word: &[Bit], by: usize) -> Word {
    (0..WORD).map(|bit| word[(bit + by) % WORD]).collect()
}

fn shifted(word: &[Bit], by: usize) -> Word {
    (0..WORD).map(|bit| word.get(bit + by).copied().unwrap_or(Bit::Known(false))).collect()
}

fn xor(builder: &mut Builder, a: &[Bit], b: &[Bit]) -> Word {
    a.iter().zip(b).map(|(&x, &y)| builder.xor(x, y)).collect()
}

fn xor_three(builder: &mut Builder, [a, b, c]: [Word; 3]) -> Word {
    let ab = xor(builder, &a, &b);
    xor(builder, &ab, &c)
}

fn sum(builder: &mut Builder, words: &[&Word]) -> Word {
    let (first, rest) = words.split_first().expect("a sum of words");
    rest.iter().fold(first.to_vec(), |total, word| builder.add_words(&total, word))
}

/// By bit, `f` where `e` is 1 and `g` elsewhere, with one product.
fn choose(builder: &mut Builder, e: &[Bit], f: &[Bit], g: &[Bit]) -> Word {
    let bit = |index: usize| {
        let differ = builder.xor(f[index], g[index]);
        let taken = builder.and(e[index], differ);
        builder.xor(taken, g[index])
    };
    (0..WORD).map(bit).collect()
}

/// By bit, the value of at least two, with one product.
fn majority(builder: &mut Builder, a: &[Bit], b: &[Bit], c: &[Bit]) -> Word {
    let bit = |index: usize| {
        let ac = builder.xor(a[index], c[index]);
        let bc = builder.xor(b[index], c[index]);
        let both = builder.and(ac, bc);
        builder.xor(both, c[index])
    };
    (0..WORD).map(bit).collect()
}

/// The words that the rounds take, from the block's.
fn schedule(builder: &mut Builder, block: Vec<Word>) -> Vec<Word> {
    let mut words = block;
    for t in BLOCK_WORDS..ROUNDS {
        let (early, late) = (words[t - 15].clone(), words[t - 2].clone());
        let low = xor_three(builder, [turned(&early, 7), turned(&early, 18), shifted(&early, 3)]);
        let high = xor_three(builder, [turned(&late, 17), turned(&late, 19), shifted(&late, 10)]);
        let word = sum(builder, &[&words[t - 16], &low, &words[t - 7], &high]);
        words.push(word);
    }
    words
}

/// One round on the eight words, named as the standard names them.
fn round(builder: &mut Builder, state: &mut [Word], word: &Word, constant: u32) {
    let [a, b, c, d, e, f, g, h] = &state[..] else { unreachable!("eight words") };
    let high = xor_three(builder, [turned(e, 6), turned(e, 11), turned(e, 25)]);
    let chosen = choose(builder, e, f, g);
    let mixed = sum(builder, &[word, &known(constant), h, &high, &chosen]);
    let low = xor_three(builder, [turned(a, 2), turned(a, 13), turned(a, 22)]);
    let most = majority(builder, a, b, c);
    let new_e = sum(builder, &[d, &mixed]);
    let new_a = sum(builder, &[&mixed, &low, &most]);
    state[3] = new_e;
    state[7] = new_a;
    state.rotate_right(1);
}

/// The compression; words in order, each from its lowest bit, the block before the chaining value.
pub fn circuit() -> Circuit {
    let mut builder = Builder::new(((BLOCK_WORDS + STATE_WORDS) * WORD) as u32);
    let mut words: Vec<Word> = builder.inputs().chunks(WORD).map(<[Bit]>::to_vec).collect();
    let chaining = words.split_off(BLOCK_WORDS);
    let scheduled = schedule(&mut builder, words);
    let mut state = chaining.clone();
    for (word, constant) in scheduled.iter().zip(round_constants()) {
        round(&mut builder, &mut state, word, constant);
    }
    let outputs: Vec<Bit> =
        chaining.iter().zip(&state).flat_map(|(before, after)| builder.add_words(before, after)).collect();
    builder.finish(&outputs)
}

/// A short message as one padded block.
fn padded(message: &[u8]) -> Vec<u32> {
    let mut bytes = message.to_vec();
    bytes.push(0x80);
    bytes.resize(56, 0);
    bytes.extend((8 * message.len() as u64).to_be_bytes());
    bytes.chunks(4).map(|chunk| chunk.iter().fold(0, |word, &byte| word << 8 | u32::from(byte))).collect()
}

const KNOWN: [(&[u8], [u32; STATE_WORDS]); 2] = [
    (b"abc", [0xba7816bf, 0x8f01cfea, 0x414140de, 0x5dae2223, 0xb00361a3, 0x96177a9c, 0xb410ff61, 0xf20015ad]),
    (b"", [0xe3b0c442, 0x98fc1c14, 0x9afbf4c8, 0x996fb924, 0x27ae41e4, 0x649b934c, 0xa495991b, 0x7852b855]),
];

/// The circuit, once it gives the known digests.
pub fn checked() -> Result<Circuit, Problem> {
    let circuit = circuit();
    let bits = |words: &[u32]| -> Vec<bool> {
        words.iter().flat_map(|word| (0..WORD).map(move |bit| word >> bit & 1 == 1)).collect()
    };
    for (message, digest) in KNOWN {
        let inputs = [padded(message), initial_state()].concat();
        if evaluate(&circuit, &bits(&inputs)) != bits(&digest) {
            return Err(format!("the digest of {:?} is wrong", String::from_utf8_lossy(message)));
        }
    }
    Ok(circuit)
}

#[cfg(test)]
mod tests {
    use super::*;

    #[test]
    fn constants_are_the_known_ones() {
        assert_eq!(initial_state()[..2], [0x6a09e667, 0xbb67ae85]);
        assert_eq!(round_constants()[0], 0x428a2f98);
        assert_eq!(round_constants()[63], 0xc67178f2);
    }

    #[test]
    fn the_circuit_digests() {
        assert!(checked().unwrap().is_lawful());
    }
}
