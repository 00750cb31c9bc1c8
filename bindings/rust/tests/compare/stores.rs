//! Rows found in weight stores.

use highvane::row_of;

use crate::meaning::stores;
use crate::random::Random;
use crate::tally::Tally;

/// One search. What comes back has to be that very part of the store, so it is compared by where it lies, in bytes from the start
/// of the store, and by its length.
fn compare(store: &[i16], columns: usize, row: usize, tally: &mut Tally) {
    let lies = |part: &[i16]| (part.as_ptr().addr().wrapping_sub(store.as_ptr().addr()), part.len());
    let given = row_of(store, columns, row).map(lies);
    let meant = stores::outcome(store.len(), columns, row).map(|places| (2 * places.start, places.len()));
    tally.outcome(given, meant, || format!("store of {} numbers, {columns} columns, row {row}", store.len()));
}

/// Every small store, with every number of columns and every row number near it.
pub fn small(random: &mut Random, tally: &mut Tally) {
    let store = random.samples(72);
    for length in 0..=store.len() {
        for columns in 0..=length + 2 {
            for row in 0..=length + 2 {
                compare(&store[..length], columns, row, tally);
            }
        }
    }
}

/// Stores of any length, rows beside the last, and columns and row numbers so large that a product of them would wrap.
pub fn seeded(random: &mut Random, tally: &mut Tally) {
    const EDGES: [usize; 12] =
        [0, 1, 4095, 4096, 4097, 65_536, 1 << 32, (1 << 32) + 1, 1 << 52, 1 << 63, usize::MAX - 1, usize::MAX];
    let store = random.samples(1 << 18);
    for _ in 0..500_000 {
        let columns = match random.below(8) {
            0 => random.pick(&EDGES),
            1 => random.any() as usize >> random.below(64),
            2 => 4096 - random.size(4),
            _ => 1 + random.size(4096) / (1 + random.size(64)),
        };
        let most = store.len() / columns.clamp(1, store.len());
        let rows = random.size(most + 1);
        let length = match random.below(8) {
            0 => random.size(store.len() + 1),
            1 => 0,
            _ => rows * columns.min(store.len()),
        };
        let row = match random.below(8) {
            0 => random.pick(&EDGES),
            1 => random.any() as usize >> random.below(64),
            // The first row number whose place wraps around to the start of the store, where the columns divide 2^64.
            2 => (usize::MAX / columns.max(1)).wrapping_add(1),
            3 => rows,
            4 => rows.wrapping_sub(1),
            _ => random.size(rows + 1),
        };
        let start = random.size(store.len() - length + 1);
        compare(&store[start..start + length], columns, row, tally);
    }
}
