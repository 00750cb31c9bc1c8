//! Scores and T as binary64, compared by their patterns.

use highvane::scale;

use crate::meaning::scores;
use crate::random::Random;
use crate::tally::Tally;

fn compare(score: i64, magnitude_sum: u64, shift: u32, tally: &mut Tally) {
    let given = scale(score, magnitude_sum, shift).map(|scaled| (scaled.score.to_bits(), scaled.magnitude_sum.to_bits()));
    let meant = scores::outcome(score, magnitude_sum, shift);
    tally.outcome(given, meant, || format!("scale, score {score}, T {magnitude_sum}, shift {shift}"));
}

/// Every shift from 0 to 64 with sizes beside every power of two, both signs.
pub fn edges(_: &mut Random, tally: &mut Tally) {
    let mut sizes = vec![0, u64::MAX];
    sizes.extend((0..64).flat_map(|k| [(1 << k) - 1, 1 << k, (1 << k) + 1, 3 << (k / 2)]));
    for shift in 0..=64 {
        for &size in &sizes {
            for &magnitude_sum in &sizes {
                let score = size as i64;
                compare(score, magnitude_sum, shift, tally);
                compare(score.wrapping_neg(), magnitude_sum, shift, tally);
            }
        }
    }
}

/// Any scores, sums and shifts, mostly accepted.
pub fn seeded(random: &mut Random, tally: &mut Tally) {
    for _ in 0..1_000_000 {
        let score = random.operand(true, 54) as i64;
        let magnitude_sum = random.operand(false, 53) as u64;
        let shift = match random.below(8) {
            0 => random.wild_number(),
            1 => 39 + random.below(4) as u32,
            _ => random.below(41) as u32,
        };
        compare(score, magnitude_sum, shift, tally);
    }
}
