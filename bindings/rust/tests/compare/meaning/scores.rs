//! Handing out a score and T. A binary64 is its pattern, made from the fields of the format without any division.

use super::designs::{parts, power};

/// The patterns of the score and of T, each divided by 2^shift.
pub fn outcome(score: i64, magnitude_sum: u64, shift: u32) -> Result<(u64, u64), u32> {
    let (score, magnitude_sum) = (i128::from(score), i128::from(magnitude_sum));
    if shift > 40 {
        return Err(15);
    }
    if score.abs() > power(53) || magnitude_sum > power(53) {
        return Err(16);
    }
    Ok((quotient(score, shift), quotient(magnitude_sum, shift)))
}

/// The pattern of whole / 2^shift, for a size of at most 2^53. With 2^k + a for the size, the exponent field is 1023 + k − shift
/// and the fraction field is a × 2^52 / 2^k, which is whole, since a is 0 where k is 53.
fn quotient(whole: i128, shift: u32) -> u64 {
    if whole == 0 {
        return 0;
    }
    let (k, a) = parts(whole.abs());
    let sign = i128::from(whole < 0);
    let exponent = 1023 + i128::from(k) - i128::from(shift);
    let fraction = a * power(52) / power(k);
    assert_eq!(fraction * power(k), a * power(52), "a binary64 has no place for {whole}");
    u64::try_from(sign * power(63) + exponent * power(52) + fraction).expect("a pattern has 64 bits")
}
