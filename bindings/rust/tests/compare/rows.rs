//! Rows of weights: the report, every place of the residue slice, the third demand, and the error beside the largest residue.

use highvane::{
    Design, Refusal, score_row, score_row_mitchell, score_row_nearest, score_row_staged, score_row_truncated,
    score_row_twice_truncated,
};

use crate::meaning::rows::Report;
use crate::meaning::{demand, designs, products, rows};
use crate::random::Random;
use crate::tally::Tally;

pub fn widened(report: highvane::Report) -> Report {
    Report {
        score: report.score.into(),
        true_sum: report.true_sum.into(),
        error: report.error.into(),
        magnitude_sum: report.magnitude_sum.into(),
        nonzero_pairs: report.nonzero_pairs.into(),
        largest_residue: report.largest_residue.into(),
        largest_place: report.largest_place.into(),
    }
}

type ByItself = fn(u32, &[i16], &[i16], &mut [i64]) -> Result<highvane::Report, Refusal>;

/// The rows of the designs by themselves, design 1 first.
const BY_ITSELF: [ByItself; 5] =
    [score_row_mitchell, score_row_nearest, score_row_staged, score_row_truncated, score_row_twice_truncated];

/// A row, and what its places hold before it is scored.
struct Row<'a> {
    numbers: (u32, u32),
    weights: &'a [i16],
    frame: &'a [i16],
    before: Vec<i64>,
}

impl Row<'_> {
    /// Compares what scoring gave and left in the places with what it should.
    fn compare(
        &self,
        given: Result<highvane::Report, Refusal>,
        residues: &[i64],
        meant: Result<(Report, Vec<i128>), u32>,
        tally: &mut Tally,
    ) {
        let Row { numbers, weights, frame, ref before } = *self;
        let ((design, setting), places) = (numbers, before.len());
        let given = given.map(widened);
        let input = || {
            let lengths = (weights.len(), frame.len());
            let start = |slice: &[i16]| format!("{:?}", &slice[..slice.len().min(40)]);
            format!(
                "row, design {design}, setting {setting}, lengths {lengths:?}, {places} places, weights from {}, frame from {}",
                start(weights),
                start(frame)
            )
        };
        let mut expected: Vec<i128> = before.iter().map(|&place| place.into()).collect();
        if let Ok((_, written)) = &meant {
            expected[..written.len()].copy_from_slice(written);
        }
        let left: Vec<i128> = residues.iter().map(|&place| place.into()).collect();
        tally.outcome(given, meant.map(|(report, _)| report), input);
        let place = (0..places).find(|&place| left[place] != expected[place]);
        let shown = |slice: &[i128]| place.map(|place| (place, slice[place]));
        tally.same(shown(&left), shown(&expected), || input() + ", a place of the residue slice");
        if let Ok(report) = given {
            let holds = demand::holds(numbers, weights, frame, &report);
            tally.same(holds, true, || format!("{}, third demand of {report:?}", input()));
            let within = report.error.abs() <= report.nonzero_pairs * report.largest_residue;
            tally.same(within, true, || format!("{}, error and largest residue of {report:?}", input()));
        }
    }
}

/// Scores a row into a slice of so many places, which hold anything before, and again by the row of its design, if it has one.
fn compare(numbers: (u32, u32), weights: &[i16], frame: &[i16], places: usize, random: &mut Random, tally: &mut Tally) {
    let (design, setting) = numbers;
    let row = Row { numbers, weights, frame, before: (0..places).map(|_| random.any() as i64).collect() };
    let mut residues = row.before.clone();
    let given = score_row(Design::from_numbers(design, setting), weights, frame, &mut residues);
    row.compare(given, &residues, rows::outcome(numbers, weights, frame, places), tally);
    if let Some(by_itself) = BY_ITSELF.get((design as usize).wrapping_sub(1)) {
        residues.copy_from_slice(&row.before);
        let given = by_itself(setting, weights, frame, &mut residues);
        row.compare(given, &residues, rows::by_itself(numbers, weights, frame, places), tally);
    }
}

/// Every design with every setting that a row takes.
pub fn all_numbers() -> impl Iterator<Item = (u32, u32)> {
    designs::DESIGNS.flat_map(|design| {
        (0..=16).filter(move |&setting| products::takes(design, 16, setting)).map(move |setting| (design, setting))
    })
}

/// Rows of every length from 0 to 40 by every design and setting.
pub fn short(random: &mut Random, tally: &mut Tally) {
    for length in 0..=40 {
        for numbers in all_numbers() {
            for _ in 0..10 {
                let (weights, frame) = (random.samples(length), random.samples(length));
                let places = length + random.size(4);
                compare(numbers, &weights, &frame, places, random, tally);
            }
        }
    }
}

/// Rows where the bound of designs 1 and 2 is met, and rows that miss it by one pair, by a sign or by an operand.
pub fn at_the_bound(random: &mut Random, tally: &mut Tally) {
    for _ in 0..50_000 {
        let numbers = random.pick(&[(1, 0), (2, 0), (3, 1), (4, 1), (4, 15), (5, 1), (5, 15)]);
        let length = random.size(12);
        let mut weights: Vec<i16> = (0..length).map(|_| 3 << random.below(14)).collect();
        let mut frame: Vec<i16> = (0..length).map(|_| 3 << random.below(14)).collect();
        let minus = random.once_in(2);
        for (weight, number) in weights.iter_mut().zip(&mut frame) {
            let both = random.once_in(2);
            *weight *= if both != minus { -1 } else { 1 };
            *number *= if both { -1 } else { 1 };
            if random.once_in(8) {
                *weight = 0;
            }
        }
        if length > 0 && random.once_in(2) {
            let place = random.size(length);
            match random.below(3) {
                0 => frame[place] = -frame[place],
                1 => frame[place] = random.sample(),
                _ => weights[place] += 1,
            }
        }
        compare(numbers, &weights, &frame, length, random, tally);
    }
}

/// Rows of up to three times 64 pairs of few numbers, so that many residues have the same size; at times one of another size stands among
/// them. By every design and setting.
pub fn with_equal_residues(random: &mut Random, tally: &mut Tally) {
    for numbers in all_numbers() {
        for _ in 0..400 {
            let length = random.size(193);
            let sizes = [random.sample(), random.sample()];
            let mut signed = || random.pick(&sizes).saturating_mul(random.pick(&[-1, 1]));
            let mut weights: Vec<i16> = (0..length).map(|_| signed()).collect();
            let frame: Vec<i16> = (0..length).map(|_| signed()).collect();
            if length > 0 && random.once_in(2) {
                weights[random.size(length)] = random.sample();
            }
            compare(numbers, &weights, &frame, length + random.size(3), random, tally);
        }
    }
}

/// Rows at the limit of 4,096 pairs and past it, by every design and setting, among them the one with the largest sums.
pub fn long(random: &mut Random, tally: &mut Tally) {
    for numbers in all_numbers() {
        for length in [4095, 4096, 4097, 4098] {
            let (weights, frame) = (random.samples(length), random.samples(length));
            compare(numbers, &weights, &frame, length + random.size(3), random, tally);
        }
        for (weight, number) in [(i16::MIN, i16::MIN), (i16::MIN, i16::MAX), (i16::MAX, i16::MAX)] {
            compare(numbers, &[weight; 4096], &[number; 4096], 4096, random, tally);
        }
        let weights = random.samples(4096);
        compare(numbers, &weights, &weights, 4096, random, tally);
    }
}

/// Rows with anything wrong: numbers, lengths, places, and several of these together.
pub fn damaged(random: &mut Random, tally: &mut Tally) {
    for _ in 0..50_000 {
        let design = random.design();
        let setting = random.setting(design, 16);
        let length = match random.below(256) {
            0 => 4090 + random.size(12),
            _ => random.size(40),
        };
        let other = match random.below(3) {
            0 => random.size(length + 3),
            1 => length + random.size(2),
            _ => length,
        };
        let places = match random.below(3) {
            0 => random.size(length + 1),
            _ => length + random.size(3),
        };
        let (weights, frame) = (random.samples(length), random.samples(other));
        compare((design, setting), &weights, &frame, places, random, tally);
    }
}
