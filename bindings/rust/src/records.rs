//! What is proved, as records: parameters, statements and proofs, from and to JSON.

use crate::form::{members, records, texts, Cubic, Digest, Form};
use crate::json::Value;
use crate::Error;

/// The parameters of proofs, which the verifier chooses (`docs/SECURITY.md`).
#[repr(C)]
#[derive(Clone, Copy, Debug, PartialEq, Eq, Hash)]
pub struct Params {
    /// The bits of the proof of work before the batching challenge.
    pub batch_pow_bits: usize,
    /// The bits of the proof of work before each round's challenge.
    pub commit_pow_bits: usize,
    /// The binary logarithm of the blowup.
    pub log_blowup: usize,
    /// The binary logarithm of the number of the final polynomial's coefficients.
    pub log_final_poly_len: usize,
    /// The binary logarithm of how many values a round folds into one, which must be 1.
    pub max_log_arity: usize,
    /// The number of queries.
    pub num_queries: usize,
    /// The bits of the proof of work before the queries.
    pub query_pow_bits: usize,
}

impl Params {
    /// Parameters without proofs of work, whose final polynomial is a constant.
    pub const fn new(log_blowup: usize, num_queries: usize) -> Params {
        Params {
            batch_pow_bits: 0,
            commit_pow_bits: 0,
            log_blowup,
            log_final_poly_len: 0,
            max_log_arity: 1,
            num_queries,
            query_pow_bits: 0,
        }
    }
}

// The members of parameters in JSON, and whether each may be missing, as 0 is then.
const PARAMS: [(&str, bool); 7] = [
    ("batch_pow_bits", false),
    ("commit_pow_bits", false),
    ("log_blowup", false),
    ("log_final_poly_len", true),
    ("max_log_arity", false),
    ("num_queries", false),
    ("query_pow_bits", false),
];

impl Form for Params {
    fn read(value: &Value) -> Result<Params, Error> {
        let members = members(value, &PARAMS)?;
        let number = |(key, _): (&str, bool)| match members.get(key) {
            Some(member) => usize::read(member).map_err(|error| error.under(key)),
            None => Ok(0),
        };
        Ok(Params {
            batch_pow_bits: number(PARAMS[0])?,
            commit_pow_bits: number(PARAMS[1])?,
            log_blowup: number(PARAMS[2])?,
            log_final_poly_len: number(PARAMS[3])?,
            max_log_arity: number(PARAMS[4])?,
            num_queries: number(PARAMS[5])?,
            query_pow_bits: number(PARAMS[6])?,
        })
    }

    fn write(&self) -> Value {
        let mut value = Value::object([
            ("batch_pow_bits", self.batch_pow_bits.write()),
            ("commit_pow_bits", self.commit_pow_bits.write()),
            ("log_blowup", self.log_blowup.write()),
            ("max_log_arity", self.max_log_arity.write()),
            ("num_queries", self.num_queries.write()),
            ("query_pow_bits", self.query_pow_bits.write()),
        ]);
        if let (Value::Object(members), 1..) = (&mut value, self.log_final_poly_len) {
            let key = "log_final_poly_len".to_owned();
            members.insert(key, self.log_final_poly_len.write());
        }
        value
    }
}

/// What a proof shows: the claims, batch by batch. In JSON it is a text's `batches`.
#[derive(Clone, Debug, PartialEq, Eq, Hash)]
pub struct Statement {
    /// The batches, in the order in which the challenger absorbs their commitments.
    pub batches: Vec<ClaimedBatch>,
}

impl Form for Statement {
    fn read(value: &Value) -> Result<Statement, Error> {
        let batches = Vec::read(value)?;
        Ok(Statement { batches })
    }

    fn write(&self) -> Value {
        self.batches.write()
    }
}

/// The coefficients of a final polynomial. In JSON one coefficient stands for the list of it.
#[derive(Clone, Debug, PartialEq, Eq, Hash)]
pub struct Coefficients(pub Vec<Cubic>);

impl Form for Coefficients {
    fn read(value: &Value) -> Result<Coefficients, Error> {
        let first = match value {
            Value::Array(items) => items.first(),
            _ => None,
        };
        match first {
            Some(Value::Number(_)) => Ok(Coefficients(vec![Cubic::read(value)?])),
            _ => Ok(Coefficients(Vec::read(value)?)),
        }
    }

    fn write(&self) -> Value {
        match &self.0[..] {
            [one] => one.write(),
            _ => self.0.write(),
        }
    }
}

records! {
    /// Rows to commit to, and the points to open them at.
    pub struct Matrix {
        /// The points, each by one coordinate of the projective line.
        pub points: Vec<Cubic>,
        /// The rows, one for each point of the domain.
        pub rows: Vec<Vec<u32>>,
    }

    /// The values that a matrix's columns are said to have at a point.
    pub struct Claim {
        /// The point, by one coordinate of the projective line.
        pub point: Cubic,
        /// The values, one for each column.
        pub values: Vec<Cubic>,
    }

    /// The claims on a matrix.
    pub struct ClaimedMatrix {
        /// The binary logarithm of the number of its rows.
        pub log_n: usize,
        /// The claims, one for each point that it is opened at.
        pub points: Vec<Claim>,
    }

    /// The claims on the matrices that were committed to at once.
    pub struct ClaimedBatch {
        /// The commitment.
        pub commitment: Digest,
        /// The matrices.
        pub matrices: Vec<ClaimedMatrix>,
    }

    /// The rows of a batch at the queries.
    pub struct BatchOpening {
        /// The rows, by query, matrix and column.
        pub opened_values: Vec<Vec<Vec<u32>>>,
        /// The digests that authenticate them.
        pub opening_proof: Vec<Digest>,
    }

    /// What is opened of the batches and of the first layer.
    pub struct InputOpenings {
        /// The batches.
        pub input_openings: Vec<BatchOpening>,
        /// The siblings in the first layer, by query.
        pub first_layer_siblings: Vec<Vec<Cubic>>,
        /// The digests that authenticate them.
        pub first_layer_proof: Vec<Digest>,
    }

    /// What is opened of a round.
    pub struct RoundOpening {
        /// The digests that authenticate the siblings.
        pub opening_proof: Vec<Digest>,
        /// The siblings, by query.
        pub sibling_values: Vec<Vec<Cubic>>,
    }

    /// The rounds, what is opened at the queries, and the final polynomial.
    pub struct FriProof {
        /// The commitments to the rounds' codewords.
        pub commit_phase_commits: Vec<Digest>,
        /// The witnesses of the rounds' proofs of work.
        pub commit_pow_witnesses: Vec<u32>,
        /// What is opened of the batches and of the first layer.
        pub input_openings: InputOpenings,
        /// What is opened of each round.
        pub commit_phase_openings: Vec<RoundOpening>,
        /// The final polynomial.
        pub final_poly: Coefficients,
        /// The witness of the queries' proof of work.
        pub pow_witness: u32,
    }

    /// A proof of claims. In JSON it is a text's `proof`.
    pub struct Proof {
        /// The witness of the batching challenge's proof of work.
        pub batch_pow_witness: u32,
        /// The commitment to the first layer.
        pub first_layer_commitment: Digest,
        /// The multiples of the vanishing polynomial that were taken out, one for each height.
        pub lambdas: Vec<Cubic>,
        /// The rounds, what is opened at the queries, and the final polynomial.
        pub fri_proof: FriProof,
    }
}

texts!(
    Params,
    Statement,
    Proof,
    Matrix,
    Claim,
    ClaimedMatrix,
    ClaimedBatch
);
