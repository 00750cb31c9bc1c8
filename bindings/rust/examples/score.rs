//! Scores a frame of sound with one row of a weight store, hands the score out, and scores the frame with all rows at once.

use highvane::{Design, Refusal, row_of, scale, score_layer, score_row};

fn main() -> Result<(), Refusal> {
    // Two rows of three columns, one after the other.
    let store = [12, -7, 96, 3, -5, 0];
    let frame = [3, 6, 7];
    let (mut residues, mut scores) = ([0; 3], [0; 2]);

    // A row is a part of the store, not a copy.
    let weights = row_of(&store, 3, 1)?;
    let report = score_row(Design::Mitchell, weights, &frame, &mut residues)?;
    println!("score {}, error {}, T {}", report.score, report.error, report.magnitude_sum);
    for (i, residue) in residues.iter().enumerate() {
        println!("pair {i}: residue {residue}");
    }
    println!("largest residue: {}, of pair {}", report.largest_residue, report.largest_place);

    // Exact quotients: the score and T divided by 2^3.
    let scaled = scale(report.score, report.magnitude_sum, 3)?;
    println!("handed out: score {}, T {}", scaled.score, scaled.magnitude_sum);

    // Rows are numbered from 0, so this store has no row 2.
    if let Err(refusal) = row_of(&store, 3, 2) {
        println!("find row 2: refusal {}, {refusal}", refusal.number());
    }

    // The score of each row alone, in one call.
    let rows = score_layer(Design::Mitchell, &store, 3, &frame, &mut scores)?;
    println!("{rows} rows at once: scores {}, {}", scores[0], scores[1]);
    Ok(())
}
