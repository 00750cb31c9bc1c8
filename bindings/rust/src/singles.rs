//! The single-precision product.

use crate::refusal::judged;
use crate::{Refusal, raw};

/// Mitchell's product of two binary32 numbers.
///
/// # Errors
///
/// The refusals 8 and 9 and, unless an operand is zero, 10 and 11, in this order.
///
/// ```
/// use highvane::{Refusal, single_product};
///
/// assert_eq!(single_product(1.5, 1.5), Ok(2.0));
/// assert_eq!(single_product(-0.0, 7.0).map(f32::to_bits), Ok((-0.0f32).to_bits()));
/// assert_eq!(single_product(f32::NAN, 0.0), Err(Refusal::NotFinite));
/// assert_eq!(single_product(f32::MAX, 2.0), Err(Refusal::ExponentTooLarge));
/// ```
pub fn single_product(a: f32, b: f32) -> Result<f32, Refusal> {
    single_product_of_bits(a.to_bits(), b.to_bits())
}

/// [`single_product`] of two binary32 numbers that are given by their patterns.
///
/// # Errors
///
/// Those of [`single_product`].
///
/// ```
/// use highvane::{Refusal, single_product_of_bits};
///
/// assert_eq!(single_product_of_bits(0x3FA0_0000, 0x3FA0_0000).map(f32::to_bits), Ok(0x3FC0_0000));
/// assert_eq!(single_product_of_bits(0x0080_0000, 0x3F00_0000), Err(Refusal::ExponentTooSmall));
/// assert_eq!(single_product_of_bits(0x0000_0001, 0x3F80_0000), Err(Refusal::Subnormal));
/// ```
pub fn single_product_of_bits(a: u32, b: u32) -> Result<f32, Refusal> {
    let answer = raw::highvane_single_product(a, b);
    judged(answer.refusal)?;
    Ok(answer.value)
}
