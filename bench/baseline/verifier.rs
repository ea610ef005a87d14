//! The verifier of a matrix's values at points.
use crate::cubic::{Cubic, batch_inverse};
use crate::domain::{Point, query_points};
use crate::field::{self, Mersenne31};
use crate::hashing::Challenger;
use crate::merkle::{self, Hash};
use crate::pcs::{Claim, Params, Proof, combined, combined_row, fold, powers};
use crate::transcript::Transcript;

/// Whether the columns of a matrix of `2^log_rows` rows, which was committed to, have the claimed
/// values.
pub fn verify(
    params: Params,
    log_rows: u32,
    commitment: &Hash,
    claims: &[Claim],
    proof: &Proof,
    challenger: Challenger,
) -> bool {
    let (log_height, width) = (log_rows + params.log_blowup, claims[0].values.len());
    if !has_shape(params, log_rows, width, claims, proof) {
        return false;
    }
    let mut transcript = Transcript::new(challenger, params, log_height, width, claims.len());
    let alpha = transcript.batch(claims);
    let commitments = [proof.first_commitment].into_iter().chain(proof.commitments.iter().copied());
    let betas: Vec<Cubic> =
        commitments.clone().map(|commitment| transcript.round(&commitment)).collect();
    let queries = transcript.queries(proof.constant);

    let row = |k: usize| proof.rows[k][0].as_slice();
    if !merkle::verify(commitment, 1 << log_height, &queries, row, &proof.rows_proof) {
        return false;
    }
    let points = query_points(log_height, &queries);
    let Some(mut values) = reduced_values(claims, &points, proof, &powers(alpha, width)) else {
        return false;
    };
    for (value, point) in values.iter_mut().zip(&points) {
        *value = *value - proof.lambda.times_base(point.vanishing(log_rows));
    }

    let siblings = [&proof.first_siblings].into_iter().chain(&proof.siblings);
    let mut coordinates: Vec<Mersenne31> = points.iter().map(|point| point.y).collect();
    let mut height = 1 << log_height;
    for (bits, ((commitment, siblings), beta)) in commitments.zip(siblings).zip(betas).enumerate() {
        let places: Vec<usize> = queries.iter().map(|query| query >> bits).collect();
        let pairs = pairs(&places, &values, &siblings.values);
        let rows: Vec<usize> = places.iter().map(|place| place / 2).collect();
        let row = |k: usize| pairs[k].as_slice();
        height /= 2;
        if !merkle::verify(&commitment, height, &rows, row, &siblings.proof) {
            return false;
        }
        values = folded(beta, &places, &pairs, &coordinates);
        coordinates = match bits {
            0 => points.iter().map(|point| point.x).collect(),
            _ => coordinates.iter().map(|x| x.square().double() - Mersenne31::ONE).collect(),
        };
    }
    values.iter().all(|value| *value == proof.constant)
}

/// Whether lists have the lengths that are due.
fn has_shape(params: Params, log_rows: u32, width: usize, claims: &[Claim], proof: &Proof) -> bool {
    let rounds = log_rows as usize - 1;
    let has_row = |rows: &Vec<Vec<Mersenne31>>| rows.len() == 1 && rows[0].len() == width;
    claims.iter().all(|claim| claim.values.len() == width)
        && proof.rows.len() == params.queries
        && proof.rows.iter().all(has_row)
        && proof.commitments.len() == rounds
        && proof.siblings.len() == rounds
        && proof.first_siblings.values.len() == params.queries
        && proof.siblings.iter().all(|siblings| siblings.values.len() == params.queries)
}

/// At each query the sum of the quotients of all claims, unless a claimed point is that of a query.
fn reduced_values(
    claims: &[Claim],
    points: &[Point],
    proof: &Proof,
    powers: &[Cubic],
) -> Option<Vec<Cubic>> {
    let width = powers.len() - 1;
    let rows: Vec<Cubic> = proof.rows.iter().map(|rows| combined_row(&rows[0], powers)).collect();
    let mut sums = vec![Cubic::ZERO; points.len()];
    let mut offset = Cubic::ONE;
    for claim in claims {
        let parts: Vec<(Cubic, Cubic)> =
            points.iter().map(|point| claim.at.vanishing_parts(*point)).collect();
        let doubled: Vec<Cubic> = parts.iter().map(|(real, _)| real.double()).collect();
        if doubled.contains(&Cubic::ZERO) {
            return None;
        }
        let (top, claimed) = (powers[width], combined(&claim.values, powers));
        let quotients = parts.iter().zip(batch_inverse(&doubled)).zip(&rows);
        for (sum, (((real, imaginary), inverse), row)) in sums.iter_mut().zip(quotients) {
            *sum = *sum + offset * (*real - top * *imaginary) * inverse * (*row - claimed);
        }
        offset = offset * top.square();
    }
    Some(sums)
}

/// The pair of each query's value and its sibling.
fn pairs(places: &[usize], values: &[Cubic], siblings: &[Cubic]) -> Vec<[Cubic; 2]> {
    let pair = |((place, value), sibling): ((&usize, &Cubic), &Cubic)| match place % 2 {
        0 => [*value, *sibling],
        _ => [*sibling, *value],
    };
    places.iter().zip(values).zip(siblings).map(pair).collect()
}

/// What the pairs fold into, where the coordinates are those of the queries' places.
fn folded(
    beta: Cubic,
    places: &[usize],
    pairs: &[[Cubic; 2]],
    coordinates: &[Mersenne31],
) -> Vec<Cubic> {
    let inverses = field::batch_inverse(coordinates);
    let fold_pair = |((place, [low, high]), inverse): ((&usize, &[Cubic; 2]), Mersenne31)| {
        let inverse = if place % 2 == 0 { inverse } else { Mersenne31::ZERO - inverse };
        fold(beta, *low, *high, inverse)
    };
    places.iter().zip(pairs).zip(inverses).map(fold_pair).collect()
}
