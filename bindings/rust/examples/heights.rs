//! Columns of two heights, each opened in a run of its own, on one challenger.

use circle::{commit, prove_from, verify_from, Challenger, Claim, ClaimedBatch, ClaimedMatrix};
use circle::{Cubic, Digest, Matrix, Params, Statement};
use std::error::Error;

// The same on both sides.
const PARAMS: Params = Params::new(1, 89);

// What each side draws once the columns of both heights are committed to.
fn draw_point(commitments: &[Digest]) -> (Cubic, Challenger) {
    let mut challenger = Challenger::new();
    challenger.observe("two heights, version 1: columns of 8 and of 4 rows");
    for commitment in commitments {
        challenger.observe(*commitment);
    }
    (challenger.sample_point(), challenger)
}

fn main() -> Result<(), Box<dyn Error>> {
    // The prover has a batch for each height, and sends commitments, values and proofs.
    let column = |count| (1..=count).map(|row| vec![row * row]).collect();
    let batch = |count| {
        let (points, rows) = (Vec::new(), column(count));
        vec![Matrix { points, rows }]
    };
    let mut batches = [batch(8), batch(4)];
    let commitments = commit(&batches, &PARAMS)?;
    let (point, mut challenger) = draw_point(&commitments);
    let mut runs = Vec::new();
    for batch in &mut batches {
        batch[0].points.push(point);
        let batch = std::slice::from_ref(batch);
        runs.push(prove_from(batch, &PARAMS, &mut challenger)?);
    }

    // The verifier draws the point itself, and writes the claims anew.
    let (point, mut challenger) = draw_point(&commitments);
    for ((commitment, log_n), (claims, proof)) in commitments.into_iter().zip([3, 2]).zip(runs) {
        let values = claims.batches[0].matrices[0].points[0].values.clone();
        let points = vec![Claim { point, values }];
        let matrices = vec![ClaimedMatrix { log_n, points }];
        let batches = vec![ClaimedBatch {
            commitment,
            matrices,
        }];
        verify_from(&Statement { batches }, &proof, &PARAMS, &mut challenger)?;
    }
    println!("verified");
    Ok(())
}
