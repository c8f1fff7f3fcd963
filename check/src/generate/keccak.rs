//! The permutation Keccak-f[1600], as a circuit and as plain arithmetic on lanes.

use super::builder::{Bit, Builder};
use super::evaluate::evaluate;
use super::Problem;
use crate::circuit::Circuit;
use crate::rng::Rng;

pub const ROUNDS: u32 = 24;
const SIDE: usize = 5;
const LANES: usize = SIDE * SIDE;
const LANE: usize = 64;

/// The first lane of the permuted zero state.
const ZERO_STATE_FIRST_LANE: u64 = 0xF125_8F79_40E1_DDE7;

fn lane(x: usize, y: usize) -> usize {
    x % SIDE + SIDE * (y % SIDE)
}

/// How far each lane is turned: triangular numbers along the walk (x, y) -> (y, 2x + 3y).
fn turns() -> [u32; LANES] {
    let mut turns = [0; LANES];
    let (mut x, mut y) = (1, 0);
    for t in 0..24 {
        turns[lane(x, y)] = (t + 1) * (t + 2) / 2 % LANE as u32;
        (x, y) = (y, (2 * x + 3 * y) % SIDE);
    }
    turns
}

/// The constant of a round, from the shift register with x^8 + x^6 + x^5 + x^4 + 1.
fn round_constant(round: u32) -> u64 {
    let register_bit = |time: u32| {
        let stepped = (0..time % 255).fold(1u32, |register, _| {
            let doubled = register << 1;
            if doubled & 0x100 == 0 {
                doubled
            } else {
                doubled ^ 0x171
            }
        });
        u64::from(stepped & 1)
    };
    (0..7).fold(0, |constant, j| constant | register_bit(j + 7 * round) << ((1u32 << j) - 1))
}

/// The permutation on lanes, so many rounds of it.
pub fn permute(state: &mut [u64; LANES], rounds: u32) {
    for round in 0..rounds {
        let column = |x: usize| (0..SIDE).fold(0, |sum, y| sum ^ state[lane(x, y)]);
        let columns: [u64; SIDE] = std::array::from_fn(column);
        let mut moved = [0; LANES];
        for (x, y) in places() {
            let theta = columns[(x + 4) % SIDE] ^ columns[(x + 1) % SIDE].rotate_left(1);
            moved[lane(y, 2 * x + 3 * y)] = (state[lane(x, y)] ^ theta).rotate_left(turns()[lane(x, y)]);
        }
        for (x, y) in places() {
            state[lane(x, y)] = moved[lane(x, y)] ^ (!moved[lane(x + 1, y)] & moved[lane(x + 2, y)]);
        }
        state[0] ^= round_constant(round);
    }
}

fn places() -> impl Iterator<Item = (usize, usize)> {
    (0..LANES).map(|index| (index % SIDE, index / SIDE))
}

/// The permutation as a circuit, lanes in order and each from its lowest bit.
pub fn circuit(rounds: u32) -> Circuit {
    let mut builder = Builder::new((LANES * LANE) as u32);
    let mut state = builder.inputs();
    for round in 0..rounds {
        let moved = theta_rho_pi(&mut builder, &state);
        state = chi(&mut builder, &moved);
        iota(&mut builder, &mut state, round);
    }
    builder.finish(&state)
}

fn theta_rho_pi(builder: &mut Builder, state: &[Bit]) -> Vec<Bit> {
    let at = |x: usize, y: usize, z: usize| state[LANE * lane(x, y) + z % LANE];
    let columns: Vec<Bit> = (0..SIDE * LANE)
        .map(|index| {
            let (x, z) = (index / LANE, index % LANE);
            (1..SIDE).fold(at(x, 0, z), |sum, y| builder.xor(sum, at(x, y, z)))
        })
        .collect();
    let column = |x: usize, z: usize| columns[LANE * (x % SIDE) + z % LANE];
    let sums: Vec<Bit> = (0..SIDE * LANE)
        .map(|index| {
            let (x, z) = (index / LANE, index % LANE);
            builder.xor(column(x + 4, z), column(x + 1, z + LANE - 1))
        })
        .collect();
    let turns = turns();
    let mut moved = vec![Bit::Known(false); state.len()];
    for (x, y) in places() {
        for z in 0..LANE {
            let to = (z + turns[lane(x, y)] as usize) % LANE;
            moved[LANE * lane(y, 2 * x + 3 * y) + to] = builder.xor(at(x, y, z), sums[LANE * x + z]);
        }
    }
    moved
}

fn chi(builder: &mut Builder, moved: &[Bit]) -> Vec<Bit> {
    let at = |x: usize, y: usize, z: usize| moved[LANE * lane(x, y) + z];
    (0..moved.len())
        .map(|index| {
            let (x, y, z) = (index / LANE % SIDE, index / LANE / SIDE, index % LANE);
            let inverted = builder.not(at(x + 1, y, z));
            let both = builder.and(inverted, at(x + 2, y, z));
            builder.xor(at(x, y, z), both)
        })
        .collect()
}

fn iota(builder: &mut Builder, state: &mut [Bit], round: u32) {
    let constant = round_constant(round);
    for (z, bit) in state[..LANE].iter_mut().enumerate() {
        *bit = builder.xor(*bit, Bit::Known(constant >> z & 1 == 1));
    }
}

/// The circuit, once it agrees with the plain permutation, and that with its known answer.
pub fn checked(rounds: u32) -> Result<Circuit, Problem> {
    let mut zero = [0; LANES];
    permute(&mut zero, ROUNDS);
    if zero[0] != ZERO_STATE_FIRST_LANE {
        return Err(format!("the plain permutation of zero begins with {:016X}", zero[0]));
    }
    let circuit = circuit(rounds);
    let mut rng = Rng::new(1600);
    for state in [[0; LANES], std::array::from_fn(|_| rng.draw())] {
        let bits = |lanes: &[u64]| -> Vec<bool> {
            lanes.iter().flat_map(|lane| (0..LANE).map(move |z| lane >> z & 1 == 1)).collect()
        };
        let found = evaluate(&circuit, &bits(&state));
        let mut expected = state;
        permute(&mut expected, rounds);
        if found != bits(&expected) {
            return Err(format!("{rounds} rounds differ from the plain permutation"));
        }
    }
    Ok(circuit)
}

#[cfg(test)]
mod tests {
    use super::*;

    #[test]
    fn constants_and_turns_are_the_known_ones() {
        assert_eq!(round_constant(0), 1);
        assert_eq!(round_constant(1), 0x8082);
        assert_eq!(round_constant(23), 0x8000_0000_8000_8008);
        assert_eq!(&turns()[..5], [0, 1, 62, 28, 27]);
    }

    #[test]
    fn the_circuit_permutes() {
        for rounds in [1, 2, ROUNDS] {
            assert!(checked(rounds).unwrap().is_lawful());
        }
    }
}
