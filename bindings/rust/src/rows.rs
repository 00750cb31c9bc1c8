//! Scoring a row of weights.

use crate::refusal::judged;
use crate::{Design, Refusal, raw};

/// How many pairs a row may have, and columns a weight store.
///
/// ```
/// use highvane::{Design, PAIRS_MAX, Refusal, score_row};
///
/// let (numbers, mut residues) = ([1; PAIRS_MAX + 1], [0; PAIRS_MAX + 1]);
/// let refused = score_row(Design::Mitchell, &numbers, &numbers, &mut residues);
/// assert_eq!(refused, Err(Refusal::TooManyPairs));
/// ```
pub const PAIRS_MAX: usize = 4096;

/// What scoring a row gives.
///
/// ```
/// use highvane::{Design, Report, score_row};
///
/// assert_eq!(score_row(Design::Mitchell, &[], &[], &mut []), Ok(Report::default()));
/// ```
#[repr(C)]
#[derive(Clone, Copy, Debug, Default, PartialEq, Eq, Hash)]
#[non_exhaustive]
pub struct Report {
    /// The sum of the design's products.
    pub score: i64,
    /// The sum of the true products.
    pub true_sum: i64,
    /// The true sum less the score.
    pub error: i64,
    /// T, the sum of the sizes of the true products.
    pub magnitude_sum: u64,
    /// n, how many pairs are without a zero. The error's size is at most n times the largest residue.
    pub nonzero_pairs: u64,
    /// The largest size of a residue.
    pub largest_residue: u64,
    /// The first place whose residue has that size; 0 where the row is empty.
    pub largest_place: u64,
}

/// Scores a frame by a row of weights at width 16. Place i of `residues` gets the residue of pair i, its true product less the
/// design's; the places after the row's are left as they were, and so are all on a refusal.
///
/// # Errors
///
/// The refusals 1, 3, 5, 6 and 7, in this order.
///
/// ```
/// use highvane::{Design, Refusal, score_row};
///
/// let mut residues = [99; 4];
/// let report = score_row(Design::Mitchell, &[3, -5, 0], &[3, 6, 7], &mut residues)?;
/// assert_eq!((report.score, report.true_sum, report.error), (-20, -21, -1));
/// assert_eq!((report.magnitude_sum, report.nonzero_pairs), (39, 2));
/// assert_eq!(residues, [1, -2, 0, 99]);
/// assert_eq!((report.largest_residue, report.largest_place), (2, 1));
///
/// let refused = score_row(Design::Mitchell, &[3, -5, 0], &[3, 6], &mut residues);
/// assert_eq!(refused, Err(Refusal::LengthsDiffer));
/// # Ok::<(), Refusal>(())
/// ```
pub fn score_row(design: Design, weights: &[i16], frame: &[i16], residues: &mut [i64]) -> Result<Report, Refusal> {
    // SAFETY: each pointer goes with the length of its own slice. The two slices that are read are lent for the call, and the one
    // that is written is lent to it alone.
    let answer = unsafe {
        raw::highvane_score_row(
            design.number(),
            design.setting(),
            weights.as_ptr(),
            weights.len(),
            frame.as_ptr(),
            frame.len(),
            residues.as_mut_ptr(),
            residues.len(),
        )
    };
    judged(answer.refusal)?;
    Ok(answer.report)
}

fn by_itself(
    row: raw::RowByItself,
    setting: u32,
    weights: &[i16],
    frame: &[i16],
    residues: &mut [i64],
) -> Result<Report, Refusal> {
    // SAFETY: as for `score_row`.
    let answer = unsafe {
        row(setting, weights.as_ptr(), weights.len(), frame.as_ptr(), frame.len(), residues.as_mut_ptr(), residues.len())
    };
    judged(answer.refusal)?;
    Ok(answer.report)
}

/// [`score_row`] by design 1, Mitchell's; it takes the setting 0.
///
/// # Errors
///
/// The refusals 3, 5, 6 and 7, in this order.
///
/// ```
/// use highvane::{Refusal, score_row_mitchell};
///
/// let mut residues = [99; 4];
/// let report = score_row_mitchell(0, &[3, -5, 0], &[3, 6, 7], &mut residues)?;
/// assert_eq!((report.score, report.error, residues), (-20, -1, [1, -2, 0, 99]));
///
/// let refused = score_row_mitchell(1, &[3, -5, 0], &[3, 6], &mut residues);
/// assert_eq!(refused, Err(Refusal::SettingOutOfRange));
/// # Ok::<(), Refusal>(())
/// ```
pub fn score_row_mitchell(setting: u32, weights: &[i16], frame: &[i16], residues: &mut [i64]) -> Result<Report, Refusal> {
    by_itself(raw::highvane_score_row_mitchell, setting, weights, frame, residues)
}

/// [`score_row`] by design 2, the nearest power; it takes the setting 0.
///
/// # Errors
///
/// The refusals 3, 5, 6 and 7, in this order.
///
/// ```
/// use highvane::{Refusal, score_row_nearest};
///
/// let mut residues = [99; 4];
/// let report = score_row_nearest(0, &[3, -5, 0], &[3, 6, 7], &mut residues)?;
/// assert_eq!((report.score, report.error, residues), (-24, 3, [1, 2, 0, 99]));
///
/// let refused = score_row_nearest(1, &[3, -5, 0], &[3, 6], &mut residues);
/// assert_eq!(refused, Err(Refusal::SettingOutOfRange));
/// # Ok::<(), Refusal>(())
/// ```
pub fn score_row_nearest(setting: u32, weights: &[i16], frame: &[i16], residues: &mut [i64]) -> Result<Report, Refusal> {
    by_itself(raw::highvane_score_row_nearest, setting, weights, frame, residues)
}

/// [`score_row`] by design 3; the setting is the number of stages, 1 to 16.
///
/// # Errors
///
/// The refusals 3, 5, 6 and 7, in this order.
///
/// ```
/// use highvane::{Refusal, score_row_staged};
///
/// let mut residues = [99; 4];
/// let report = score_row_staged(2, &[3, -5, 0], &[3, 6, 7], &mut residues)?;
/// assert_eq!((report.score, report.error, residues), (-21, 0, [0, 0, 0, 99]));
///
/// let refused = score_row_staged(17, &[3, -5, 0], &[3, 6], &mut residues);
/// assert_eq!(refused, Err(Refusal::SettingOutOfRange));
/// # Ok::<(), Refusal>(())
/// ```
pub fn score_row_staged(setting: u32, weights: &[i16], frame: &[i16], residues: &mut [i64]) -> Result<Report, Refusal> {
    by_itself(raw::highvane_score_row_staged, setting, weights, frame, residues)
}

/// [`score_row`] by design 4; the setting is the number of kept bits, 1 to 15.
///
/// # Errors
///
/// The refusals 3, 5, 6 and 7, in this order.
///
/// ```
/// use highvane::{Refusal, score_row_truncated};
///
/// let mut residues = [99; 4];
/// let report = score_row_truncated(6, &[3, -5, 0], &[3, 6, 7], &mut residues)?;
/// assert_eq!((report.score, report.error, residues), (-20, -1, [1, -2, 0, 99]));
///
/// let refused = score_row_truncated(16, &[3, -5, 0], &[3, 6], &mut residues);
/// assert_eq!(refused, Err(Refusal::SettingOutOfRange));
/// # Ok::<(), Refusal>(())
/// ```
pub fn score_row_truncated(setting: u32, weights: &[i16], frame: &[i16], residues: &mut [i64]) -> Result<Report, Refusal> {
    by_itself(raw::highvane_score_row_truncated, setting, weights, frame, residues)
}

/// [`score_row`] by design 5; the setting is the number of bits that its first stage keeps, 1 to 15.
///
/// # Errors
///
/// The refusals 3, 5, 6 and 7, in this order.
///
/// ```
/// use highvane::{Refusal, score_row_twice_truncated};
///
/// let mut residues = [99; 4];
/// let report = score_row_twice_truncated(6, &[3, -5, 0], &[3, 6, 7], &mut residues)?;
/// assert_eq!((report.score, report.error, residues), (-22, 1, [1, 0, 0, 99]));
///
/// let refused = score_row_twice_truncated(16, &[3, -5, 0], &[3, 6], &mut residues);
/// assert_eq!(refused, Err(Refusal::SettingOutOfRange));
/// # Ok::<(), Refusal>(())
/// ```
pub fn score_row_twice_truncated(setting: u32, weights: &[i16], frame: &[i16], residues: &mut [i64]) -> Result<Report, Refusal> {
    by_itself(raw::highvane_score_row_twice_truncated, setting, weights, frame, residues)
}
