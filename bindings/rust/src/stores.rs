//! Finding a row in a weight store.

use crate::refusal::judged;
use crate::{Refusal, raw};

/// The row of that number, counted from 0, as the part of the store where it lies: a store is its rows in order, `columns` weights
/// each.
///
/// # Errors
///
/// The refusals 12, 13 and 14, in this order.
///
/// ```
/// use highvane::{Refusal, row_of};
///
/// let store = [1, 2, 3, 4, 5, 6];
/// assert_eq!(row_of(&store, 3, 1), Ok(&store[3..]));
/// assert_eq!(row_of(&store, 3, 2), Err(Refusal::NoSuchRow));
/// assert_eq!(row_of(&store, 4, 0), Err(Refusal::UnevenStore));
/// assert_eq!(row_of(&store, 0, 0), Err(Refusal::ColumnsOutOfRange));
/// ```
pub fn row_of(store: &[i16], columns: usize, row: usize) -> Result<&[i16], Refusal> {
    // SAFETY: the pointer goes with the length of its own slice, which is lent for the call and only read.
    judged(unsafe { raw::highvane_row_refusal(store.as_ptr(), store.len(), columns, row) })?;
    let start = row * columns;
    Ok(&store[start..start + columns])
}
