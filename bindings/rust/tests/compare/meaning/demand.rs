//! The third demand: what holds of the report of every row that is scored. The error is the true sum less the score. Its bounds are
//! those that docs/SCOPE.md has. Nine times the error's size is at most T in designs 1 and 2; 4^s times it is at most T in design 3;
//! 9 × 2^t times it is at most (2^t + 18) × T + 9 × 2^t × n in design 4. Design 5 has no bound.

use super::designs::{parts, power};
use super::rows::Report;

/// Whether the error is exact and within the design's bound, which designs 1 and 2 meet exactly when `meets` says so, and no sum
/// reaches 2^43 in size.
pub fn holds((design, setting): (u32, u32), weights: &[i16], frame: &[i16], report: &Report) -> bool {
    let error = report.error.abs();
    let (magnitude_sum, pairs) = (report.magnitude_sum, report.nonzero_pairs);
    let bounded = match design {
        1 | 2 => 9 * error <= magnitude_sum && (9 * error == magnitude_sum) == meets(weights, frame),
        3 => power(2 * setting) * error <= magnitude_sum,
        4 => {
            let whole = power(setting);
            9 * whole * error <= (whole + 18) * magnitude_sum + 9 * whole * pairs
        }
        5 => true,
        _ => false,
    };
    let exact = report.error == report.true_sum - report.score;
    let sums = [report.score.abs(), report.true_sum.abs(), error, magnitude_sum];
    exact && bounded && sums.iter().all(|&sum| sum < power(43))
}

/// Whether the error of the row has to be a ninth of T: the size of each operand is three times a power of two, and no two true
/// products differ in sign, since residues of either sign would cancel while T grows.
fn meets(weights: &[i16], frame: &[i16]) -> bool {
    let pairs = || weights.iter().zip(frame).filter(|&(&weight, &number)| weight != 0 && number != 0);
    let minus = pairs().filter(|&(&weight, &number)| (weight < 0) != (number < 0)).count();
    let one_sign = minus == 0 || minus == pairs().count();
    one_sign && pairs().all(|(&weight, &number)| is_three_times_power(weight) && is_three_times_power(number))
}

fn is_three_times_power(number: i16) -> bool {
    let (k, a) = parts(i128::from(number).abs());
    2 * a == power(k)
}
