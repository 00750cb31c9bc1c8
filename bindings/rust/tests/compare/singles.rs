//! Single-precision products, compared by their patterns.

use highvane::{single_product, single_product_of_bits};

use crate::meaning::singles;
use crate::random::Random;
use crate::tally::Tally;

const FRACTIONS: [u32; 8] = [0, 1, 2, (1 << 22) - 1, 1 << 22, (1 << 22) + 1, (1 << 23) - 2, (1 << 23) - 1];

fn compare(a: u32, b: u32, tally: &mut Tally) {
    let given = single_product_of_bits(a, b).map(f32::to_bits);
    tally.outcome(given, singles::outcome(a, b), || format!("singles 0x{a:08X} and 0x{b:08X}"));
}

fn pattern(sign: u32, exponent: u32, fraction: u32) -> u32 {
    (sign << 31) | (exponent << 23) | fraction
}

/// A pattern of any class, at times with the fraction field at one of its edges.
pub fn any_pattern(random: &mut Random) -> u32 {
    let exponent = match random.below(8) {
        0 => random.pick(&[0, 0, 1, 254, 255]),
        1 => random.pick(&[126, 127, 128]),
        _ => random.below(256) as u32,
    };
    let fraction = match random.below(4) {
        0 => random.pick(&FRACTIONS),
        _ => random.below(1 << 23) as u32,
    };
    pattern(random.below(2) as u32, exponent, fraction)
}

/// All pairs of exponent fields and signs, with fractions at the edges: every class of operand meets every other.
pub fn exponents(_: &mut Random, tally: &mut Tally) {
    for a in 0..512 {
        for b in 0..512 {
            for e in FRACTIONS {
                for f in FRACTIONS {
                    compare((a << 23) | e, (b << 23) | f, tally);
                }
            }
        }
    }
}

/// Any patterns; pairs whose result is at the end of the range; and pairs whose fractions sum to 2^23 or just miss it.
pub fn seeded(random: &mut Random, tally: &mut Tally) {
    for _ in 0..1_000_000 {
        compare(random.any() as u32, random.any() as u32, tally);
        let (a, b) = (any_pattern(random), any_pattern(random));
        compare(a, b, tally);

        let (e, f) = (1 + random.below(254) as u32, a % (1 << 23));
        let edge = 127 + random.pick(&[0, 1, 2, 253, 254, 255, 256]);
        let other = (1 << 23) - f - random.below(2) as u32;
        let fraction = if random.once_in(2) { other % (1 << 23) } else { b % (1 << 23) };
        let at_edge = pattern(b >> 31, (edge - e.min(edge)).min(255), fraction);
        compare(pattern(a >> 31, e, f), at_edge, tally);
    }
}

/// The call on `f32` is the call on its pattern.
pub fn as_floats(random: &mut Random, tally: &mut Tally) {
    for _ in 0..100_000 {
        let (a, b) = (any_pattern(random), any_pattern(random));
        let given = single_product(f32::from_bits(a), f32::from_bits(b)).map(f32::to_bits);
        tally.outcome(given, singles::outcome(a, b), || format!("floats 0x{a:08X} and 0x{b:08X}"));
    }
}
