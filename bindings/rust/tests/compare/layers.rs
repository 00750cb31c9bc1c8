//! Layers: the number of rows, every place of the score slice, and each score beside the row alone.

use highvane::{Design, score_layer, score_row};

use crate::meaning::rows::Report;
use crate::meaning::{demand, designs, layers};
use crate::random::Random;
use crate::rows::{all_numbers, widened};
use crate::tally::Tally;

/// Numbers of rows at the borders of blocks of 16.
const ROWS: [usize; 7] = [0, 1, 15, 16, 17, 32, 33];

/// Numbers for a store and a frame: those where the designs change their ways, small ones, and any.
const KINDS: [fn(&mut Random) -> i16; 3] = [Random::sample, small, any];

fn small(random: &mut Random) -> i16 {
    random.below(17) as i16 - 8
}

fn any(random: &mut Random) -> i16 {
    random.any() as i16
}

/// A layer, and how many places there are for its scores.
struct Layer {
    numbers: (u32, u32),
    store: Vec<i16>,
    columns: usize,
    frame: Vec<i16>,
    places: usize,
}

impl Layer {
    /// One with so many rows and columns of numbers of a kind, and with a place for each row or a few more.
    fn of(numbers: (u32, u32), (rows, columns): (usize, usize), kind: fn(&mut Random) -> i16, random: &mut Random) -> Layer {
        let store = (0..rows * columns).map(|_| kind(random)).collect();
        let frame = (0..columns).map(|_| kind(random)).collect();
        Layer { numbers, store, columns, frame, places: rows + random.size(3) }
    }

    /// Scores the layer into places that hold anything before.
    fn compare(&self, random: &mut Random, tally: &mut Tally) {
        let Layer { numbers, ref store, columns, ref frame, places } = *self;
        let (design, setting) = numbers;
        let input = || {
            let start = |slice: &[i16]| format!("{:?}", &slice[..slice.len().min(40)]);
            format!(
                "layer, design {design}, setting {setting}, {columns} columns, lengths {:?}, {places} places, store from {}, frame from {}",
                (store.len(), frame.len()),
                start(store),
                start(frame)
            )
        };
        let before: Vec<i64> = (0..places).map(|_| random.any() as i64).collect();
        let mut scores = before.clone();
        let given = score_layer(Design::from_numbers(design, setting), store, columns, frame, &mut scores);
        let meant = layers::outcome(numbers, (store, columns), frame, places);
        tally.outcome(given, meant.as_ref().map(Vec::len).map_err(|&refusal| refusal), input);
        let written = meant.as_ref().map_or(0, Vec::len);
        let later = (written..places).find(|&place| scores[place] != before[place]);
        tally.same(later, None, || input() + ", a later place that is written");
        if let Ok(meant) = meant {
            for (row, (&score, meant)) in scores.iter().zip(meant).enumerate() {
                tally.same(score.into(), meant, || format!("{}, score of row {row}", input()));
            }
            self.compare_rows(&scores[..written], tally);
        }
    }

    /// Each score is that of its row alone, so that what holds of that row's error holds at its place.
    fn compare_rows(&self, scores: &[i64], tally: &mut Tally) {
        let Layer { numbers, ref store, columns, ref frame, .. } = *self;
        let design = Design::from_numbers(numbers.0, numbers.1);
        let mut residues = vec![0; columns];
        for (row, (&score, weights)) in scores.iter().zip(store.chunks(columns)).enumerate() {
            let input = || format!("layer, design and setting {numbers:?}, row {row} alone, {weights:?} and {frame:?}");
            let alone = score_row(design, weights, frame, &mut residues);
            tally.outcome(alone.map(|report| report.score), Ok(score), input);
            if let Ok(alone) = alone.map(widened) {
                let score = score.into();
                let report = Report { score, error: alone.true_sum - score, ..alone };
                tally.same(demand::holds(numbers, weights, frame, &report), true, || input() + ", third demand");
            }
        }
    }
}

/// Numbers of rows at the borders of blocks and any others, numbers of columns at the borders of 64 and any others, by every design and
/// setting.
pub fn short(random: &mut Random, tally: &mut Tally) {
    for numbers in all_numbers() {
        for rows in ROWS.into_iter().chain([random.size(70)]) {
            for columns in [1, 2, 63, 64, 65, 1 + random.size(200)] {
                for kind in KINDS {
                    Layer::of(numbers, (rows, columns), kind, random).compare(random, tally);
                }
            }
        }
    }
}

/// One column and more rows than a row may have pairs, by every design and setting.
pub fn one_column(random: &mut Random, tally: &mut Tally) {
    for numbers in all_numbers() {
        for kind in KINDS {
            let rows = 4090 + random.size(20);
            Layer::of(numbers, (rows, 1), kind, random).compare(random, tally);
        }
    }
}

/// Every number of rows at the borders of blocks with the fewest columns and with the most, by every design with any of its settings.
pub fn at_the_borders(random: &mut Random, tally: &mut Tally) {
    for design in designs::DESIGNS {
        let settings: Vec<_> = all_numbers().filter(|numbers| numbers.0 == design).collect();
        for shape in ROWS.into_iter().flat_map(|rows| [(rows, 1), (rows, 4096)]) {
            let (numbers, kind) = (random.pick(&settings), random.pick(&KINDS));
            Layer::of(numbers, shape, kind, random).compare(random, tally);
        }
    }
}

/// As many columns as there may be, and one less, by every design and setting, among them the layer with the largest sums.
pub fn long(random: &mut Random, tally: &mut Tally) {
    for numbers in all_numbers() {
        for (rows, columns) in [(1, 4096), (random.size(16), 4095), (random.pick(&ROWS), 4096)] {
            let kind = random.pick(&KINDS);
            Layer::of(numbers, (rows, columns), kind, random).compare(random, tally);
        }
        Layer::of(numbers, (2, 4096), |_| i16::MIN, random).compare(random, tally);
    }
}

/// Each fault alone and with every set of the others: the design, the setting, the columns, the length of the store, that of the frame,
/// and the places.
pub fn faults(random: &mut Random, tally: &mut Tally) {
    for (set, known) in (0..64).flat_map(|set| designs::DESIGNS.map(move |known| (set, known))) {
        let has = |fault: u32| set >> fault & 1 == 1;
        for columns in if has(2) { [0, 4097, 4098] } else { [3, 64, 4096] } {
            let design = if has(0) { random.pick(&[0, 6, 7, 257, u32::MAX]) } else { known };
            let setting = if has(1) { random.pick(&[17, 256, u32::MAX]) } else { u32::from(known > 2) };
            let rows = 1 + random.size(3);
            let mut layer = Layer::of((design, setting), (rows, columns), small, random);
            if has(3) {
                layer.store.push(1);
            }
            if has(4) && (layer.frame.is_empty() || random.once_in(2)) {
                layer.frame.push(1);
            } else if has(4) {
                layer.frame.pop();
            }
            if has(5) {
                layer.places = random.size(rows);
            }
            layer.compare(random, tally);
        }
    }
}

/// Layers with anything wrong: numbers, columns, lengths, places, and several of these together; and stores without rows.
pub fn damaged(random: &mut Random, tally: &mut Tally) {
    for _ in 0..40_000 {
        let design = random.design();
        let setting = random.setting(design, 16);
        let (rows, columns) = (random.size(35), 1 + random.size(8));
        let mut layer = Layer::of((design, setting), (rows, columns), Random::sample, random);
        if random.once_in(4) {
            layer.store.truncate(random.size(rows * columns + 1));
        }
        if random.once_in(4) {
            layer.frame.resize(random.size(12), 1);
        }
        if random.once_in(4) {
            layer.places = random.size(rows + 1);
        }
        if random.once_in(8) {
            layer.columns = random.pick(&[0, 1, 2, 4096, 4097, 1 << 16, 1 << 32, (1 << 32) + columns, 1 << 63, usize::MAX]);
        }
        layer.compare(random, tally);
    }
}
