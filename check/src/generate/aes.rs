//! The AES S-box in the straight-line form that Boyar and Peralta published.

use super::builder::{Bit, Builder};
use super::evaluate::{bits_of, evaluate, number_of};
use super::Problem;
use crate::circuit::Circuit;
use std::collections::HashMap;

/// One assignment a line; `+` sums, `x` multiplies, `#` inverts the sum. U0 and S0 are the high bits.
const STRAIGHT_LINE: &str = "
    y14 = U3 + U5; y13 = U0 + U6; y9 = U0 + U3; y8 = U0 + U5; t0 = U1 + U2; y1 = t0 + U7;
    y4 = y1 + U3; y12 = y13 + y14; y2 = y1 + U0; y5 = y1 + U6; y3 = y5 + y8; t1 = U4 + y12;
    y15 = t1 + U5; y20 = t1 + U1; y6 = y15 + U7; y10 = y15 + t0; y11 = y20 + y9; y7 = U7 + y11;
    y17 = y10 + y11; y19 = y10 + y8; y16 = t0 + y11; y21 = y13 + y16; y18 = U0 + y16;

    t2 = y12 x y15; t3 = y3 x y6; t4 = t3 + t2; t5 = y4 x U7; t6 = t5 + t2; t7 = y13 x y16;
    t8 = y5 x y1; t9 = t8 + t7; t10 = y2 x y7; t11 = t10 + t7; t12 = y9 x y11; t13 = y14 x y17;
    t14 = t13 + t12; t15 = y8 x y10; t16 = t15 + t12; t17 = t4 + t14; t18 = t6 + t16;
    t19 = t9 + t14; t20 = t11 + t16; t21 = t17 + y20; t22 = t18 + y19; t23 = t19 + y21;
    t24 = t20 + y18;

    t25 = t21 + t22; t26 = t21 x t23; t27 = t24 + t26; t28 = t25 x t27; t29 = t28 + t22;
    t30 = t23 + t24; t31 = t22 + t26; t32 = t31 x t30; t33 = t32 + t24; t34 = t23 + t33;
    t35 = t27 + t33; t36 = t24 x t35; t37 = t36 + t34; t38 = t27 + t36; t39 = t29 x t38;
    t40 = t25 + t39; t41 = t40 + t37; t42 = t29 + t33; t43 = t29 + t40; t44 = t33 + t37;
    t45 = t42 + t41;

    z0 = t44 x y15; z1 = t37 x y6; z2 = t33 x U7; z3 = t43 x y16; z4 = t40 x y1; z5 = t29 x y7;
    z6 = t42 x y11; z7 = t45 x y17; z8 = t41 x y10; z9 = t44 x y12; z10 = t37 x y3;
    z11 = t33 x y4; z12 = t43 x y13; z13 = t40 x y5; z14 = t29 x y2; z15 = t42 x y9;
    z16 = t45 x y14; z17 = t41 x y8;

    t46 = z15 + z16; t47 = z10 + z11; t48 = z5 + z13; t49 = z9 + z10; t50 = z2 + z12;
    t51 = z2 + z5; t52 = z7 + z8; t53 = z0 + z3; t54 = z6 + z7; t55 = z16 + z17; t56 = z12 + t48;
    t57 = t50 + t53; t58 = z4 + t46; t59 = z3 + t54; t60 = t46 + t57; t61 = z14 + t57;
    t62 = t52 + t58; t63 = t49 + t58; t64 = z4 + t59; t65 = t61 + t62; t66 = z1 + t63;
    S0 = t59 + t63; S6 = t56 # t62; S7 = t48 # t60; t67 = t64 + t65; S3 = t53 + t66;
    S4 = t51 + t66; S5 = t47 + t65; S1 = t64 # S3; S2 = t55 # t67;
";

/// The S-box; eight bits in and out, from the high bit.
pub fn circuit() -> Circuit {
    let mut builder = Builder::new(8);
    let inputs = builder.inputs();
    let mut bits: HashMap<String, Bit> = (0..8).map(|i| (format!("U{i}"), inputs[i])).collect();
    for assignment in STRAIGHT_LINE.split(';').filter(|assignment| !assignment.trim().is_empty()) {
        let words: Vec<&str> = assignment.split_whitespace().collect();
        let [result, "=", first, gate, second] = words[..] else { unreachable!("{assignment}") };
        let (a, b) = (bits[first], bits[second]);
        let bit = match gate {
            "x" => builder.and(a, b),
            "+" => builder.xor(a, b),
            _ => {
                let sum = builder.xor(a, b);
                builder.not(sum)
            }
        };
        bits.insert(result.to_string(), bit);
    }
    let outputs: Vec<Bit> = (0..8).map(|i| bits[&format!("S{i}")]).collect();
    builder.finish(&outputs)
}

/// The product in the field of 256 elements with x^8 + x^4 + x^3 + x + 1.
fn multiply(a: u8, b: u8) -> u8 {
    let double = |a: u8| a << 1 ^ if a & 0x80 == 0 { 0 } else { 0x1b };
    let (product, _) = (0..8).fold((0, a), |(product, power), bit| {
        let term = if b >> bit & 1 == 1 { power } else { 0 };
        (product ^ term, double(power))
    });
    product
}

/// The S-box by its definition: inverse in the field, then the affine map.
fn substitute(value: u8) -> u8 {
    let inverse = (0..=255).find(|&other| multiply(value, other) == 1).unwrap_or(0);
    (0..5).fold(0x63, |sum, turn| sum ^ inverse.rotate_left(turn))
}

/// The circuit, once all 256 values agree with the definition.
pub fn checked() -> Result<Circuit, Problem> {
    let circuit = circuit();
    for value in 0..=255u8 {
        let mut inputs: Vec<bool> = bits_of(value.into(), 8).collect();
        inputs.reverse();
        let mut outputs = evaluate(&circuit, &inputs);
        outputs.reverse();
        if number_of(&outputs) != u128::from(substitute(value)) {
            return Err(format!("the S-box is wrong at {value}"));
        }
    }
    Ok(circuit)
}

#[cfg(test)]
mod tests {
    use super::*;

    #[test]
    fn the_definition_has_its_known_values() {
        assert_eq!([0, 1, 0x53, 0xff].map(substitute), [0x63, 0x7c, 0xed, 0x16]);
    }

    #[test]
    fn the_circuit_substitutes() {
        let circuit = checked().unwrap();
        assert!(circuit.is_lawful());
        assert_eq!(circuit.makings.iter().filter(|making| making.is_product()).count(), 32);
    }
}
