//! Scoring a layer.

use super::{designs, products};

/// The score of each row of the store.
pub fn outcome(
    (design, setting): (u32, u32),
    (store, columns): (&[i16], usize),
    frame: &[i16],
    places: usize,
) -> Result<Vec<i128>, u32> {
    if !designs::DESIGNS.contains(&design) {
        return Err(1);
    }
    if !products::takes(design, 16, setting) {
        return Err(3);
    }
    if columns == 0 || columns > 4096 {
        return Err(12);
    }
    if store.len() % columns != 0 {
        return Err(13);
    }
    if frame.len() != columns {
        return Err(5);
    }
    let rows = store.len() / columns;
    if places < rows {
        return Err(21);
    }
    let product = |row: usize, column: usize| {
        let (weight, number) = (store[row * columns + column], frame[column]);
        products::signed_product(design, setting, weight.into(), number.into())
    };
    Ok((0..rows).map(|row| (0..columns).map(|column| product(row, column)).sum()).collect())
}
