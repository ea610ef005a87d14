//! A protocol: the third of three committed columns is the sum of the others.

use circle::{commit, prove_from, verify_from, Challenger, Claim, ClaimedBatch, ClaimedMatrix};
use circle::{Cubic, Digest, Matrix, Params, Statement, ORDER};
use std::error::Error;

// The same on both sides.
const PARAMS: Params = Params::new(1, 89);

// What each side draws once the columns are committed to.
fn draw_point(commitment: Digest) -> (Cubic, Challenger) {
    let mut challenger = Challenger::new();
    challenger.observe("sums, version 1: 4 rows of 3 columns");
    challenger.observe(commitment);
    (challenger.sample_point(), challenger)
}

fn main() -> Result<(), Box<dyn Error>> {
    // The prover sends the commitment, the values and the proof.
    let rows = vec![vec![1, 5, 6], vec![2, 7, 9], vec![4, 4, 8], vec![8, 0, 8]];
    let points = Vec::new();
    let mut batches = [vec![Matrix { points, rows }]];
    let commitment = commit(&batches, &PARAMS)?[0];
    let (point, mut challenger) = draw_point(commitment);
    batches[0][0].points.push(point);
    let (claims, proof) = prove_from(&batches, &PARAMS, &mut challenger)?;
    let values = claims.batches[0].matrices[0].points[0].values.clone();

    // The verifier draws the point itself, and writes the claims anew.
    let (point, mut challenger) = draw_point(commitment);
    let [first, second, third] = values[..] else {
        return Err("expected three values".into());
    };
    let sum = |i: usize| (u64::from(first[i]) + u64::from(second[i])) % u64::from(ORDER);
    if [0, 1, 2].map(sum) != third.map(u64::from) {
        return Err("the columns don't add up".into());
    }
    let (log_n, points) = (2, vec![Claim { point, values }]);
    let matrices = vec![ClaimedMatrix { log_n, points }];
    let batches = vec![ClaimedBatch {
        commitment,
        matrices,
    }];
    verify_from(&Statement { batches }, &proof, &PARAMS, &mut challenger)?;
    println!("verified");
    Ok(())
}
