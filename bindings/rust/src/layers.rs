//! Scoring a layer, which is all rows of a weight store against one frame.

use crate::refusal::judged;
use crate::{Design, Refusal, raw};

/// Scores a frame by every row of a store at width 16, and gives the number of rows. A store is its rows in order, `columns` weights
/// each. Place r of `scores` gets the score of row r, the one that [`score_row`] gives for that row alone; the places after the rows'
/// are left as they were, and so are all on a refusal. A store without rows is accepted.
///
/// # Errors
///
/// The refusals 1, 3, 12, 13, 5 and 21, in this order; 5 where the frame is not as long as there are columns.
///
/// ```
/// use highvane::{Design, Refusal, score_layer};
///
/// let (store, frame) = ([3, -5, 0, 7, 5, 6], [3, 6]);
/// let mut scores = [99; 4];
/// assert_eq!(score_layer(Design::Mitchell, &store, 2, &frame, &mut scores), Ok(3));
/// assert_eq!(scores, [-20, 40, 46, 99]);
///
/// let refused = score_layer(Design::Mitchell, &store, 3, &frame, &mut scores);
/// assert_eq!(refused, Err(Refusal::LengthsDiffer));
/// let refused = score_layer(Design::Mitchell, &store, 2, &frame, &mut scores[..2]);
/// assert_eq!(refused, Err(Refusal::ScoresTooShort));
/// ```
///
/// [`score_row`]: crate::score_row
pub fn score_layer(design: Design, store: &[i16], columns: usize, frame: &[i16], scores: &mut [i64]) -> Result<usize, Refusal> {
    // SAFETY: each pointer goes with the length of its own slice. The two slices that are read are lent for the call, and the one
    // that is written is lent to it alone.
    let answer = unsafe {
        raw::highvane_score_layer(
            design.number(),
            design.setting(),
            store.as_ptr(),
            store.len(),
            columns,
            frame.as_ptr(),
            frame.len(),
            scores.as_mut_ptr(),
            scores.len(),
        )
    };
    judged(answer.refusal)?;
    // A length has 64 bits too.
    Ok(answer.rows as usize)
}
