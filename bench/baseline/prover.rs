//! The prover: it commits to a matrix, and opens it at points.
use crate::cubic::Cubic;
use crate::domain::{Domain, Point};
use crate::evaluation::{CubicPoint, evaluate_by_shares, shares};
use crate::field::{Mersenne31, batch_inverse};
use crate::hashing::Challenger;
use crate::merkle::{self, Hash, Tree};
use crate::pcs::{Claim, Params, Proof, Siblings, combined, combined_row, fold, powers};
use crate::periodic::permuted;
use crate::transcript::Transcript;
use crate::transform::{self, Matrix};

/// Commits to the values, on the standard domain of more points, of the polynomials with the rows
/// of a matrix in natural order.
pub fn commit(params: Params, matrix: Matrix) -> (Hash, Tree<Mersenne31>) {
    let log_rows = matrix.height().ilog2();
    let domain = Domain { log_n: log_rows };
    let target = Domain { log_n: log_rows + params.log_blowup };
    let coeffs = transform::interpolate_owned(domain, reordered(matrix, log_rows));
    merkle::commit(transform::evaluate(target, coeffs))
}

/// The rows in the order of the transform.
fn reordered(matrix: Matrix, log_rows: u32) -> Matrix {
    let width = matrix.width;
    let mut values = Vec::with_capacity(matrix.values.len());
    for index in 0..matrix.height() {
        values.extend_from_slice(&matrix.values[permuted(index, log_rows) * width..][..width]);
    }
    Matrix { values, width }
}

/// The values at the points of the polynomials that were committed to, and the proof of them.
pub fn open(
    params: Params,
    tree: &Tree<Mersenne31>,
    points: &[CubicPoint],
    challenger: Challenger,
) -> (Vec<Claim>, Proof) {
    let (committed, width) = (&tree.matrix, tree.matrix.width);
    let log_height = committed.height().ilog2();
    let first_points = Domain { log_n: log_height }.first_points();
    let shares: Vec<Vec<Cubic>> = points.iter().map(|at| shares(&first_points, *at)).collect();
    let claims = claims(params, committed, points, &shares);
    let mut transcript = Transcript::new(challenger, params, log_height, width, points.len());

    let alpha = transcript.batch(&claims);
    let mut word = reduced_word(committed, &claims, &shares, &powers(alpha, width));
    drop(shares);
    let lambda = extract_lambda(params, &mut word);
    let (mut commitments, trees, constant) =
        fold_word(params, word, &first_points, &mut transcript);

    let queries = transcript.queries(constant);
    let (rows, rows_proof) = tree.open(&queries);
    let mut siblings = trees.iter().enumerate().map(|(bits, tree)| siblings(tree, bits, &queries));
    let proof = Proof {
        lambda,
        first_commitment: commitments.remove(0),
        commitments,
        constant,
        rows,
        rows_proof,
        first_siblings: siblings.next().expect("a first layer"),
        siblings: siblings.collect(),
    };
    (claims, proof)
}

/// Commits to a codeword and to what it is folded into, again and again, down to a constant.
fn fold_word(
    params: Params,
    mut word: Vec<Cubic>,
    first_points: &[Point],
    transcript: &mut Transcript,
) -> (Vec<Hash>, Vec<Tree<Cubic>>, Cubic) {
    let log_height = word.len().ilog2();
    let layers = (log_height - params.log_blowup) as usize;
    let twiddles = Domain { log_n: log_height }.twiddles_of(first_points);
    let mut commitments = Vec::with_capacity(layers);
    let mut trees = Vec::with_capacity(layers);
    for twiddles in &twiddles[..layers] {
        let (commitment, tree) = merkle::commit(Matrix { values: word, width: 2 });
        let beta = transcript.round(&commitment);
        word = folded(beta, &tree.matrix.values, twiddles);
        commitments.push(commitment);
        trees.push(tree);
    }
    assert!(word.iter().all(|entry| *entry == word[0]), "the last word is constant");
    (commitments, trees, word[0])
}

/// The values at the points, by the first rows, as many as were committed to.
fn claims(
    params: Params,
    committed: &Matrix,
    points: &[CubicPoint],
    shares: &[Vec<Cubic>],
) -> Vec<Claim> {
    let log_height = committed.height().ilog2();
    let (shift, log_rows) = (Point::generator(log_height + 1), log_height - params.log_blowup);
    let first_rows = &committed.values[..committed.width << log_rows];
    let claim = |(at, shares): (&CubicPoint, &Vec<Cubic>)| {
        let values = evaluate_by_shares(log_rows, shift, first_rows, committed.width, shares, *at);
        Claim { at: *at, values }
    };
    points.iter().zip(shares).map(claim).collect()
}

/// At each point of the domain the sum of the quotients of all claims. A quotient is half the
/// combined differences of the row from the claimed values, times 1 less a multiple of the point's
/// share.
fn reduced_word(
    committed: &Matrix,
    claims: &[Claim],
    shares: &[Vec<Cubic>],
    powers: &[Cubic],
) -> Vec<Cubic> {
    let width = committed.width;
    let rows = committed.values.chunks_exact(width);
    let rows: Vec<Cubic> = rows.map(|row| combined_row(row, powers)).collect();
    let mut word = vec![Cubic::ZERO; rows.len()];
    let mut half = Cubic::ONE.halve();
    for (claim, shares) in claims.iter().zip(shares) {
        let (top, claimed) = (half * powers[width], combined(&claim.values, powers));
        let sums = word.chunks_exact_mut(2).zip(rows.chunks_exact(2));
        for ((sums, rows), shares) in sums.zip(shares.chunks_exact(2)) {
            sums[0] = sums[0] + (half - top * shares[0]) * (rows[0] - claimed);
            sums[1] = sums[1] + (half + top * shares[1]) * (rows[1] - claimed);
        }
        half = top * powers[width];
    }
    word
}

/// The multiple of the vanishing polynomial in a codeword, which the codeword loses. The vanishing
/// polynomial is constant on blocks.
fn extract_lambda(params: Params, word: &mut [Cubic]) -> Cubic {
    let log_height = word.len().ilog2();
    let values = Domain { log_n: params.log_blowup + 1 }.first_points();
    let block = word.len() >> params.log_blowup;
    let mut lambda = Cubic::ZERO;
    for (entries, value) in word.chunks_exact(block).zip(&values) {
        let sum = entries.iter().fold(Cubic::ZERO, |sum, entry| sum + *entry);
        lambda = lambda + sum.times_base(value.x);
    }
    lambda = (1..log_height).fold(lambda, |lambda, _| lambda.halve());
    for (entries, value) in word.chunks_exact_mut(block).zip(&values) {
        let multiple = lambda.times_base(value.x);
        entries.iter_mut().for_each(|entry| *entry = *entry - multiple);
    }
    lambda
}

fn folded(beta: Cubic, word: &[Cubic], twiddles: &[Mersenne31]) -> Vec<Cubic> {
    let inverses = batch_inverse(twiddles);
    let pairs = word.chunks_exact(2).zip(inverses);
    pairs.map(|(pair, inverse)| fold(beta, pair[0], pair[1], inverse)).collect()
}

/// The entries of a codeword beside those at the queries without their lowest `bits` bits.
fn siblings(tree: &Tree<Cubic>, bits: usize, queries: &[usize]) -> Siblings {
    let rows: Vec<usize> = queries.iter().map(|query| query >> (bits + 1)).collect();
    let (rows, proof) = tree.open(&rows);
    let sibling = |(query, row): (&usize, &Vec<Vec<Cubic>>)| row[0][1 - (query >> bits) % 2];
    let values = queries.iter().zip(&rows).map(sibling).collect();
    Siblings { values, proof }
}
