//! Answers as they cross the C interface: where one is refused, every other field is 0. The safe calls hide those fields.

use std::fmt::Debug;

use highvane::raw;

use crate::random::Random;
use crate::singles::any_pattern;
use crate::tally::Tally;

const BY_ITSELF: [(&str, raw::RowByItself); 5] = [
    ("design 1", raw::highvane_score_row_mitchell),
    ("design 2", raw::highvane_score_row_nearest),
    ("design 3", raw::highvane_score_row_staged),
    ("design 4", raw::highvane_score_row_truncated),
    ("design 5", raw::highvane_score_row_twice_truncated),
];

/// Compares what an answer has beside its refusal with zeros if it was refused.
fn compare<T: Debug + Default + PartialEq>(refusal: u32, rest: T, tally: &mut Tally, input: impl FnOnce() -> String) {
    if refusal != 0 {
        tally.same(rest, T::default(), input);
    }
}

pub fn fields(random: &mut Random, tally: &mut Tally) {
    for _ in 0..500_000 {
        let (design, width) = (random.design(), random.width());
        let setting = random.setting(design, width);
        let numbers = (design, width, setting);

        let (a, b) = (random.operand(false, 16) as u64, random.operand(false, 16) as u64);
        let answer = raw::highvane_product_unsigned(design, width, setting, a, b);
        compare(answer.refusal, answer.product, tally, || format!("unsigned {numbers:?}, {a} and {b}"));

        let (a, b) = (random.operand(true, 16) as i64, random.operand(true, 16) as i64);
        let answer = raw::highvane_product_signed(design, width, setting, a, b);
        compare(answer.refusal, answer.product, tally, || format!("signed {numbers:?}, {a} and {b}"));

        let (sum, shift) = (random.operand(false, 53) as u64, random.below(64) as u32);
        let answer = raw::highvane_scale(a, sum, shift);
        let bits = (answer.score.to_bits(), answer.magnitude_sum.to_bits());
        compare(answer.refusal, bits, tally, || format!("scale {a}, {sum}, {shift}"));

        let (x, y) = (any_pattern(random), any_pattern(random));
        let answer = raw::highvane_single_product(x, y);
        compare(answer.refusal, answer.value.to_bits(), tally, || format!("singles 0x{x:08X} and 0x{y:08X}"));

        let (weights, frame) = ([a as i16; 3], [b as i16; 3]);
        let mut residues = [0; 3];
        let (taken, places) = (2 + random.size(2), 1 + random.size(3));
        // SAFETY: each length is at most that of the array whose pointer it goes with.
        let answer = unsafe {
            raw::highvane_score_row(
                design,
                setting,
                weights.as_ptr(),
                weights.len(),
                frame.as_ptr(),
                taken,
                residues.as_mut_ptr(),
                places,
            )
        };
        let input = |by| format!("row by {by}, {numbers:?}, {weights:?} and {frame:?}, {taken} frame numbers, {places} places");
        compare(answer.refusal, answer.report, tally, || input("any design"));
        for (by, row) in BY_ITSELF {
            // SAFETY: as above.
            let answer =
                unsafe { row(setting, weights.as_ptr(), weights.len(), frame.as_ptr(), taken, residues.as_mut_ptr(), places) };
            compare(answer.refusal, answer.report, tally, || input(by));
        }

        let (store, frame) = ([a as i16; 4], [b as i16; 3]);
        let mut scores = [0; 2];
        let (columns, taken, places) = (random.size(4), 1 + random.size(3), random.size(3));
        // SAFETY: as above.
        let answer = unsafe {
            raw::highvane_score_layer(
                design,
                setting,
                store.as_ptr(),
                store.len(),
                columns,
                frame.as_ptr(),
                taken,
                scores.as_mut_ptr(),
                places,
            )
        };
        compare(answer.refusal, answer.rows, tally, || {
            format!("layer, {numbers:?}, {store:?} and {frame:?}, {columns} columns, {taken} frame numbers, {places} places")
        });
    }
}
