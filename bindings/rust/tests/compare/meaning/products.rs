//! Products with their refusals, unsigned and signed.

use super::designs::{self, power};

/// The widths, in bits.
pub const WIDTHS: [u32; 4] = [8, 12, 16, 32];

/// Whether the design takes the setting at a width.
pub fn takes(design: u32, width: u32, setting: u32) -> bool {
    match design {
        1 | 2 => setting == 0,
        3 => 1 <= setting && setting <= width,
        4 | 5 => 1 <= setting && setting < width,
        _ => panic!("design {design} has no settings"),
    }
}

/// The numbers that an operand of the width can be.
pub fn range(signed: bool, width: u32) -> (i128, i128) {
    if signed { (-power(width - 1), power(width - 1) - 1) } else { (0, power(width) - 1) }
}

/// The product by size and sign.
pub fn signed_product(design: u32, setting: u32, a: i128, b: i128) -> i128 {
    let size = designs::product(design, setting, a.abs(), b.abs());
    if (a < 0) != (b < 0) { -size } else { size }
}

/// The outcome of a product. An unsigned operand is its own size, so one rule serves both.
pub fn outcome(signed: bool, (design, width, setting): (u32, u32, u32), (a, b): (i128, i128)) -> Result<i128, u32> {
    if !designs::DESIGNS.contains(&design) {
        return Err(1);
    }
    if !WIDTHS.contains(&width) {
        return Err(2);
    }
    if !takes(design, width, setting) {
        return Err(3);
    }
    let (low, high) = range(signed, width);
    if a < low || a > high {
        return Err(4);
    }
    if b < low || b > high {
        return Err(20);
    }
    Ok(signed_product(design, setting, a, b))
}
