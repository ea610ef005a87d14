//! The polynomial commitment scheme over the circle, of one matrix: what prover and verifier share.
use crate::cubic::Cubic;
use crate::evaluation::CubicPoint;
use crate::field::Mersenne31;
use crate::hashing::Challenger;
use crate::merkle::{Hash, OpenedRows};

/// Folding stops at a constant, a round folds two entries into one, and there is no proof of work.
#[derive(Clone, Copy)]
pub struct Params {
    /// The binary logarithm of how many times the committed rows are more than those of the matrix.
    pub log_blowup: u32,
    pub queries: usize,
}

/// A point, with the values that the columns have there.
pub struct Claim {
    pub at: CubicPoint,
    pub values: Vec<Cubic>,
}

/// The entries beside those at the queries, and the digests beside their rows.
pub struct Siblings {
    pub values: Vec<Cubic>,
    pub proof: Vec<Hash>,
}

pub struct Proof {
    /// The multiple of the vanishing polynomial in the first codeword.
    pub lambda: Cubic,
    pub first_commitment: Hash,
    pub commitments: Vec<Hash>,
    pub constant: Cubic,
    pub rows: OpenedRows<Mersenne31>,
    pub rows_proof: Vec<Hash>,
    pub first_siblings: Siblings,
    pub siblings: Vec<Siblings>,
}

/// The challenger that prover and verifier begin with.
pub fn after_commitment(commitment: &Hash) -> Challenger {
    let mut challenger = Challenger::new();
    challenger.observe_bytes(commitment);
    challenger
}

/// The powers of an element from that of 0 to that of `count`.
pub fn powers(base: Cubic, count: usize) -> Vec<Cubic> {
    let next = |power: &Cubic| Some(*power * base);
    std::iter::successors(Some(Cubic::ONE), next).take(count + 1).collect()
}

/// The sum of the values, each times its power.
pub fn combined(values: &[Cubic], powers: &[Cubic]) -> Cubic {
    let add = |sum, (value, power): (&Cubic, &Cubic)| sum + *power * *value;
    values.iter().zip(powers).fold(Cubic::ZERO, add)
}

/// The sum of the entries of a row, each times its power.
pub fn combined_row(row: &[Mersenne31], powers: &[Cubic]) -> Cubic {
    let add = |sum, (entry, power): (&Mersenne31, &Cubic)| sum + power.times_base(*entry);
    row.iter().zip(powers).fold(Cubic::ZERO, add)
}

/// What a pair of opposite points folds into, by the inverse of the coordinate in which they
/// differ.
pub fn fold(beta: Cubic, low: Cubic, high: Cubic, inverse: Mersenne31) -> Cubic {
    (low + high + beta * (low - high).times_base(inverse)).halve()
}
