//! Products of two whole numbers, and of two bytes by the table.

use crate::refusal::judged;
use crate::{Design, Refusal, Width, raw};

/// The design's product of two unsigned numbers of the width.
///
/// # Errors
///
/// The refusals 1, 2, 3, 4 and 20, in this order.
///
/// ```
/// use highvane::{Design, Refusal, Width, unsigned_product};
///
/// assert_eq!(unsigned_product(Design::Mitchell, Width::Bits8, 5, 6), Ok(28));
/// assert_eq!(unsigned_product(Design::NearestPower, Width::Bits8, 5, 6), Ok(32));
/// assert_eq!(
///     unsigned_product(Design::Mitchell, Width::Bits8, 256, 1),
///     Err(Refusal::FirstOperandOutsideWidth)
/// );
/// ```
pub fn unsigned_product(design: Design, width: Width, a: u64, b: u64) -> Result<u64, Refusal> {
    let answer = raw::highvane_product_unsigned(design.number(), width.bits(), design.setting(), a, b);
    judged(answer.refusal)?;
    Ok(answer.product)
}

/// The design's product of two signed numbers of the width: that of their sizes, with a minus sign where their signs differ.
///
/// # Errors
///
/// The refusals 1, 2, 3, 4 and 20, in this order.
///
/// ```
/// use highvane::{Design, Refusal, Width, signed_product};
///
/// assert_eq!(signed_product(Design::NearestPower, Width::Bits8, -5, 6), Ok(-32));
/// assert_eq!(signed_product(Design::Mitchell, Width::Bits8, -128, -128), Ok(16384));
/// assert_eq!(
///     signed_product(Design::Mitchell, Width::Bits8, 5, 128),
///     Err(Refusal::SecondOperandOutsideWidth)
/// );
/// ```
pub fn signed_product(design: Design, width: Width, a: i64, b: i64) -> Result<i64, Refusal> {
    let answer = raw::highvane_product_signed(design.number(), width.bits(), design.setting(), a, b);
    judged(answer.refusal)?;
    Ok(answer.product)
}

/// The product of two bytes by the table of 256 logarithm codes, which is design 1 at width 8. No two bytes are refused.
///
/// ```
/// use highvane::table_product;
///
/// assert_eq!(table_product(255, 255), 65024);
/// assert_eq!(table_product(0, 200), 0);
/// ```
#[must_use]
pub fn table_product(a: u8, b: u8) -> u16 {
    raw::highvane_table_product(a, b)
}
