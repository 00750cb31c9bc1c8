//! The figures of docs/SCOPE.md, number by number, against the archive and against the meaning that the other parts compare with.

use highvane::{Design, Report, row_of, scale, score_layer, score_row, single_product_of_bits, transcript};

use crate::meaning::{layers, products, records, rows, scores, singles, stores};
use crate::products::given;
use crate::random::Random;
use crate::tally::Tally;

/// Signed or not; design, width and setting; operands; product and residue.
type Product = (bool, (u32, u32, u32), (i128, i128), (i128, i128));

const PRODUCTS: [Product; 24] = [
    (false, (1, 8, 0), (3, 3), (8, 1)),
    (false, (1, 8, 0), (5, 6), (28, 2)),
    (false, (1, 8, 0), (192, 192), (32768, 4096)),
    (false, (1, 8, 0), (255, 255), (65024, 1)),
    (false, (1, 12, 0), (4095, 4095), (16769024, 1)),
    (true, (1, 12, 0), (-2048, -2048), (4194304, 0)),
    (false, (2, 8, 0), (5, 6), (32, -2)),
    (false, (2, 8, 0), (191, 192), (40704, -4032)),
    (true, (2, 8, 0), (-5, 6), (-32, 2)),
    (false, (2, 32, 0), (4294967295, 4294967295), (18446744065119617024, 1)),
    (false, (3, 8, 1), (7, 7), (40, 9)),
    (false, (3, 8, 2), (7, 7), (48, 1)),
    (false, (3, 8, 3), (7, 7), (49, 0)),
    (false, (3, 12, 12), (4095, 4095), (16769025, 0)),
    (false, (4, 8, 4), (3, 3), (8, 1)),
    (false, (4, 8, 4), (16, 16), (272, -16)),
    (false, (4, 8, 4), (255, 255), (63488, 1537)),
    (false, (4, 8, 1), (1, 1), (1, 0)),
    (false, (4, 12, 11), (3, 3), (8, 1)),
    (false, (5, 8, 4), (3, 3), (8, 1)),
    (false, (5, 8, 4), (5, 5), (26, -1)),
    (false, (5, 8, 4), (7, 7), (50, -1)),
    (false, (5, 8, 4), (4, 5), (21, -1)),
    (false, (5, 8, 4), (5, 27), (138, -3)),
];

/// Signed or not; design, width and setting; operands; outcome.
type Judged = (bool, (u32, u32, u32), (i128, i128), Result<i128, u32>);

/// Settings and operands at their limits.
const JUDGED: [Judged; 40] = [
    (false, (3, 8, 8), (7, 7), Ok(49)),
    (false, (3, 8, 0), (7, 7), Err(3)),
    (false, (3, 8, 9), (7, 7), Err(3)),
    (false, (5, 8, 7), (7, 7), Ok(48)),
    (false, (5, 8, 0), (7, 7), Err(3)),
    (false, (5, 8, 8), (7, 7), Err(3)),
    (false, (6, 8, 4), (7, 7), Err(1)),
    (true, (5, 8, 7), (7, 7), Ok(48)),
    (true, (5, 8, 0), (7, 7), Err(3)),
    (true, (5, 8, 8), (7, 7), Err(3)),
    (true, (6, 8, 4), (7, 7), Err(1)),
    (true, (1, 8, 0), (-128, 1), Ok(-128)),
    (true, (1, 8, 0), (128, 5), Err(4)),
    (true, (1, 8, 0), (5, 128), Err(20)),
    (true, (1, 8, 0), (128, 128), Err(4)),
    (false, (1, 8, 0), (256, 5), Err(4)),
    (false, (1, 8, 0), (5, 256), Err(20)),
    (false, (1, 8, 0), (256, 256), Err(4)),
    (true, (1, 8, 1), (128, 5), Err(3)),
    (true, (1, 8, 1), (5, 128), Err(3)),
    (true, (1, 8, 1), (128, 128), Err(3)),
    (false, (1, 8, 1), (256, 5), Err(3)),
    (false, (1, 8, 1), (5, 256), Err(3)),
    (false, (1, 8, 1), (256, 256), Err(3)),
    (false, (3, 12, 13), (7, 7), Err(3)),
    (true, (3, 12, 13), (7, 7), Err(3)),
    (false, (4, 12, 12), (7, 7), Err(3)),
    (true, (4, 12, 12), (7, 7), Err(3)),
    (false, (5, 12, 12), (7, 7), Err(3)),
    (true, (5, 12, 12), (7, 7), Err(3)),
    (false, (1, 12, 0), (4096, 5), Err(4)),
    (false, (1, 12, 0), (5, 4096), Err(20)),
    (true, (1, 12, 0), (2047, -2048), Ok(-4192256)),
    (true, (1, 12, 0), (2048, 5), Err(4)),
    (true, (1, 12, 0), (5, 2048), Err(20)),
    (true, (1, 12, 0), (-2049, 5), Err(4)),
    (true, (1, 12, 0), (5, -2049), Err(20)),
    (false, (1, 10, 0), (5, 6), Err(2)),
    (false, (1, 11, 0), (5, 6), Err(2)),
    (false, (1, 13, 0), (5, 6), Err(2)),
];

const SINGLES: [(u32, u32, Result<u32, u32>); 4] = [
    (0x3FA0_0000, 0x3FA0_0000, Ok(0x3FC0_0000)),
    (0x00C0_0000, 0x3F40_0000, Ok(0x0080_0000)),
    (0x0080_0000, 0x3F00_0000, Err(11)),
    (0x7F00_0000, 0x4000_0000, Err(10)),
];

/// The bench's sample and all that it prints.
const SAMPLE: &[u8] = &[
    0x01, 0x01, 0x00, 0x03, 0x00, 0x03, 0x00, 0x03, 0xFF, 0xFF, 0x02, 0x00, 0x00, 0xC0, 0x3F, 0x00, 0x00, 0xC0, 0x3F, 0x01, 0x09,
    0x00, 0x01, 0x00, 0x01, 0x00, 0x07,
];
const PRINTED: &str = "1 ok 8\n3 ok 65024\n2 ok 1073741824\n1 no 1\n7 no 17\ntotal 3 2\n";

pub fn all(_: &mut Random, tally: &mut Tally) {
    for (signed, numbers, operands, (product, residue)) in PRODUCTS {
        judged(signed, numbers, operands, Ok(product), tally);
        let given = given(signed, numbers, operands).map(|product| operands.0 * operands.1 - product);
        tally.outcome(given, Ok(residue), || format!("figure, residue, {numbers:?}, operands {operands:?}"));
    }
    for (signed, numbers, operands, figure) in JUDGED {
        judged(signed, numbers, operands, figure, tally);
    }
    for (a, b, figure) in SINGLES {
        let input = || format!("figure, singles 0x{a:08X} and 0x{b:08X}");
        tally.outcome(single_product_of_bits(a, b).map(f32::to_bits), figure, input);
        tally.same(singles::outcome(a, b), figure, || input() + ", by the meaning");
    }
    row(tally);
    layer(tally);
    tally.same(transcript(SAMPLE), PRINTED.into(), || "sample of records".into());
    tally.same(records::transcript(SAMPLE), PRINTED.into(), || "sample, by the meaning".into());
}

fn judged(signed: bool, numbers: (u32, u32, u32), (a, b): (i128, i128), figure: Result<i128, u32>, tally: &mut Tally) {
    let input = || format!("figure, design, width and setting {numbers:?}, operands {a} and {b}");
    tally.outcome(given(signed, numbers, (a, b)), figure, input);
    tally.same(products::outcome(signed, numbers, (a, b)), figure, || input() + ", by the meaning");
}

/// The largest residue and its place, and the residues, of a row by design 1.
fn worst((weights, frame): (&[i16], &[i16]), (largest, place): (u64, u64), figure: &[i64], tally: &mut Tally) {
    let mut residues = vec![0; weights.len()];
    let given = score_row(Design::Mitchell, weights, frame, &mut residues);
    let given = given.map(|report| (report.largest_residue, report.largest_place));
    tally.outcome(given, Ok((largest, place)), || format!("figure, largest residue of {weights:?} and {frame:?}"));
    tally.same(&residues[..], figure, || format!("figure, residues of {weights:?} and {frame:?}"));
    let meant =
        rows::outcome((1, 0), weights, frame, weights.len()).map(|(report, _)| (report.largest_residue, report.largest_place));
    tally.same(meant, Ok((largest.into(), place.into())), || format!("figure, largest residue of {weights:?}, by the meaning"));
}

/// The layer of the figures.
fn layer(tally: &mut Tally) {
    let (store, frame) = ([3, -5, 0, 7, 5, 6], [3, 6]);
    let mut scores = [0; 3];
    let given = score_layer(Design::Mitchell, &store, 2, &frame, &mut scores);
    tally.outcome(given, Ok(3), || "figure, layer".into());
    tally.same(scores, [-20, 40, 46], || "figure, scores of the layer".into());
    let meant = layers::outcome((1, 0), (&store, 2), &frame, 3);
    tally.same(meant, Ok(vec![-20, 40, 46]), || "figure, layer by the meaning".into());
}

/// The row of the figures, its score handed out, the limit of a row, and the empty store.
fn row(tally: &mut Tally) {
    let (weights, frame) = ([3, -5, 0], [3, 6, 7]);
    let mut residues = [0; 3];
    let fields = |report: Report| (report.score, report.true_sum, report.error, report.magnitude_sum, report.nonzero_pairs);
    let given = score_row(Design::Mitchell, &weights, &frame, &mut residues).map(fields);
    tally.outcome(given, Ok((-20, -21, -1, 39, 2)), || "figure, row".into());
    tally.same(residues, [1, -2, 0], || "figure, residues of the row".into());
    let meant = rows::outcome((1, 0), &weights, &frame, 3).map(|(report, written)| (report.score, written));
    tally.same(meant, Ok((-20, vec![1, -2, 0])), || "figure, row by the meaning".into());
    worst((&weights, &frame), (2, 1), &[1, -2, 0], tally);
    worst((&[3, -5, 5, 3], &[3, 6, 6, 3]), (2, 1), &[1, -2, 2, 1], tally);
    worst((&[0, 1], &[7, 4]), (0, 0), &[0, 0], tally);

    let score = scale(-20, 39, 3).map(|scaled| scaled.score);
    tally.outcome(score, Ok(-2.5), || "figure, score -20 with shift 3".into());
    let meant = scores::outcome(-20, 39, 3).map(|(score, _)| f64::from_bits(score));
    tally.same(meant, Ok(-2.5), || "figure, score -20 with shift 3, by the meaning".into());

    for (length, figure) in [(4096, Ok(())), (4097, Err(6))] {
        let (slice, mut residues) = (vec![1; length], vec![0; length]);
        let given = score_row(Design::Mitchell, &slice, &slice, &mut residues).map(|_| ());
        tally.outcome(given, figure, || format!("figure, row of {length} pairs"));
        let meant = rows::outcome((1, 0), &slice, &slice, length).map(|_| ());
        tally.same(meant, figure, || format!("figure, row of {length} pairs, by the meaning"));
    }
    tally.outcome(row_of(&[], 1, 0).map(|_| ()), Err(14), || "empty store".into());
    tally.same(stores::outcome(0, 1, 0), Err(14), || "empty store, by the meaning".into());
}
