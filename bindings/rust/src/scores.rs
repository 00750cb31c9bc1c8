//! Handing out a score and T as binary64.

use crate::refusal::judged;
use crate::{Refusal, raw};

/// The largest shift of a score that is handed out.
///
/// ```
/// use highvane::{Refusal, SHIFT_MAX, scale};
///
/// assert!(scale(1, 1, SHIFT_MAX).is_ok());
/// assert_eq!(scale(1, 1, SHIFT_MAX + 1), Err(Refusal::ShiftTooLarge));
/// ```
pub const SHIFT_MAX: u32 = 40;

/// A score and T, each divided by 2^shift.
///
/// ```
/// use highvane::{Scaled, scale};
///
/// assert_eq!(scale(3, 5, 1), Ok(Scaled { score: 1.5, magnitude_sum: 2.5 }));
/// ```
#[derive(Clone, Copy, Debug, PartialEq)]
pub struct Scaled {
    /// The score divided by 2^shift.
    pub score: f64,
    /// T divided by 2^shift.
    pub magnitude_sum: f64,
}

/// A score and T, each exactly the quotient by 2^shift; that of 0 is +0.
///
/// # Errors
///
/// The refusals 15 and 16, in this order.
///
/// ```
/// use highvane::{Refusal, scale};
///
/// let scaled = scale(-20, 39, 3)?;
/// assert_eq!((scaled.score, scaled.magnitude_sum), (-2.5, 4.875));
/// assert_eq!(scale(-20, 39, 41), Err(Refusal::ShiftTooLarge));
/// assert_eq!(scale(1 << 53, (1 << 53) + 1, 0), Err(Refusal::SizeTooLarge));
/// # Ok::<(), Refusal>(())
/// ```
pub fn scale(score: i64, magnitude_sum: u64, shift: u32) -> Result<Scaled, Refusal> {
    let answer = raw::highvane_scale(score, magnitude_sum, shift);
    judged(answer.refusal)?;
    Ok(Scaled { score: answer.score, magnitude_sum: answer.magnitude_sum })
}
