//! Scoring a row.

use super::{designs, products};

/// The report of a row.
#[derive(Clone, Copy, Debug, Default, PartialEq)]
pub struct Report {
    pub score: i128,
    pub true_sum: i128,
    pub error: i128,
    pub magnitude_sum: i128,
    pub nonzero_pairs: i128,
    pub largest_residue: i128,
    pub largest_place: i128,
}

/// The report, and the residue of each pair.
pub fn outcome(numbers: (u32, u32), weights: &[i16], frame: &[i16], places: usize) -> Result<(Report, Vec<i128>), u32> {
    if !designs::DESIGNS.contains(&numbers.0) {
        return Err(1);
    }
    by_itself(numbers, weights, frame, places)
}

/// Those of the row of one design, which judges no design.
pub fn by_itself(
    (design, setting): (u32, u32),
    weights: &[i16],
    frame: &[i16],
    places: usize,
) -> Result<(Report, Vec<i128>), u32> {
    if !products::takes(design, 16, setting) {
        return Err(3);
    }
    if weights.len() != frame.len() {
        return Err(5);
    }
    if weights.len() > 4096 {
        return Err(6);
    }
    if places < weights.len() {
        return Err(7);
    }
    let mut report = Report::default();
    let mut residues = Vec::new();
    for (&weight, &number) in weights.iter().zip(frame) {
        let (weight, number) = (i128::from(weight), i128::from(number));
        let product = products::signed_product(design, setting, weight, number);
        report.score += product;
        report.true_sum += weight * number;
        report.magnitude_sum += (weight * number).abs();
        if weight != 0 && number != 0 {
            report.nonzero_pairs += 1;
        }
        residues.push(weight * number - product);
    }
    report.error = report.true_sum - report.score;
    for (place, residue) in (0..).zip(&residues) {
        if residue.abs() > report.largest_residue {
            (report.largest_residue, report.largest_place) = (residue.abs(), place);
        }
    }
    Ok((report, residues))
}
