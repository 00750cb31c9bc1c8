//! Finding a row in a weight store.

use std::ops::Range;

/// Which places of a store of that length are the row.
pub fn outcome(length: usize, columns: usize, row: usize) -> Result<Range<usize>, u32> {
    if columns == 0 || columns > 4096 {
        return Err(12);
    }
    if length % columns != 0 {
        return Err(13);
    }
    if row >= length / columns {
        return Err(14);
    }
    Ok(row * columns..(row + 1) * columns)
}
