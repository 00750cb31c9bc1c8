//! The designs on magnitudes.

use std::ops::RangeInclusive;

/// The numbers of the designs.
pub const DESIGNS: RangeInclusive<u32> = 1..=5;

/// 2^k.
pub fn power(k: u32) -> i128 {
    1 << k
}

/// k and a of a nonzero magnitude 2^k + a with 0 ≤ a < 2^k.
pub fn parts(magnitude: i128) -> (u32, i128) {
    let k = magnitude.ilog2();
    (k, magnitude - power(k))
}

/// The product of two magnitudes by a known design with a setting that it takes.
pub fn product(design: u32, setting: u32, x: i128, y: i128) -> i128 {
    if x == 0 || y == 0 {
        return 0;
    }
    match design {
        1 => mitchell(x, y),
        2 => nearest_power(x, y),
        3 => staged(x, y, setting),
        4 => truncated(x, y, setting),
        5 => twice_truncated(x, y, setting),
        _ => panic!("design {design} has no product"),
    }
}

fn mitchell(x: i128, y: i128) -> i128 {
    let ((k, a), (m, b)) = (parts(x), parts(y));
    let s = a * power(m) + b * power(k);
    if s < power(k + m) { power(k + m) + s } else { 2 * s }
}

/// The exponent of the power that design 2 takes for an operand, and q.
fn nearest(magnitude: i128) -> (u32, i128) {
    let (k, a) = parts(magnitude);
    if 2 * a >= power(k) { (k + 1, a - power(k)) } else { (k, a) }
}

fn nearest_power(x: i128, y: i128) -> i128 {
    let ((k, q), (m, r)) = (nearest(x), nearest(y));
    power(k + m) + q * power(m) + r * power(k)
}

fn staged(mut x: i128, mut y: i128, stages: u32) -> i128 {
    let mut sum = 0;
    for _ in 0..stages {
        if x == 0 || y == 0 {
            break;
        }
        let ((k, a), (m, b)) = (parts(x), parts(y));
        sum += power(k + m) + a * power(m) + b * power(k);
        (x, y) = (a, b);
    }
    sum
}

/// S: both fractions, shifted and cut to the kept bits, added with a carry-in of 1.
fn kept_sum(x: i128, y: i128, kept_bits: u32) -> i128 {
    let cut = |(k, a): (u32, i128)| (a << kept_bits) >> k;
    cut(parts(x)) + cut(parts(y)) + 1
}

fn truncated(x: i128, y: i128, kept_bits: u32) -> i128 {
    let (k, m) = (parts(x).0, parts(y).0);
    let (whole, sum) = (power(kept_bits), kept_sum(x, y, kept_bits));
    if sum < whole { power(k + m) * (whole + sum) / whole } else { power(k + m + 1) * sum / whole }
}

/// Design 4, and design 4 with two bits on the error terms: the bits below each leading one, or their ones' complement where S carries
/// out of its kept bits.
fn twice_truncated(x: i128, y: i128, kept_bits: u32) -> i128 {
    let range = kept_sum(x, y, kept_bits) >> kept_bits;
    let error_term = |(k, a): (u32, i128)| a ^ (range * (power(k) - 1));
    truncated(x, y, kept_bits) + product(4, 2, error_term(parts(x)), error_term(parts(y)))
}

/// The residue of two nonzero magnitudes where the document states it by itself, which is in designs 1 and 2.
pub fn stated_residue(design: u32, x: i128, y: i128) -> Option<i128> {
    match design {
        1 => {
            let ((k, a), (m, b)) = (parts(x), parts(y));
            let first_case = a * power(m) + b * power(k) < power(k + m);
            Some(if first_case { a * b } else { (power(k) - a) * (power(m) - b) })
        }
        2 => Some(nearest(x).1 * nearest(y).1),
        _ => None,
    }
}
