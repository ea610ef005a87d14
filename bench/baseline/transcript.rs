//! What both sides of an opening observe and draw.
use crate::cubic::Cubic;
use crate::field::Mersenne31;
use crate::hashing::Challenger;
use crate::merkle::Hash;
use crate::pcs::{Claim, Params};

const NAME: &str = "p3-circle-pcs";

const VERSION: u8 = 1;

/// The number of coefficients of a challenge.
const DEGREE: u64 = 3;

#[derive(Clone, Copy)]
enum Kind {
    Message,
    Challenge,
}

#[derive(Clone, Copy)]
enum Type {
    Algebra,
    Opaque,
    Bits(u32),
}

#[derive(Clone, Copy)]
enum Length {
    Scalar,
    Fixed(usize),
}

type Step = (Kind, Type, &'static str, Length);

/// A challenger that was seeded with the shape of a run.
pub struct Transcript {
    challenger: Challenger,
    params: Params,
    log_height: u32,
}

impl Transcript {
    /// The transcript of claims on these numbers of columns and points, where `2^log_height` rows
    /// are committed to.
    pub fn new(
        mut challenger: Challenger,
        params: Params,
        log_height: u32,
        width: usize,
        points: usize,
    ) -> Self {
        for byte in seed(params, log_height, width, points) {
            challenger.observe(u32::from(byte));
        }
        Transcript { challenger, params, log_height }
    }

    fn observe(&mut self, element: Cubic) {
        for coefficient in [element.c0, element.c1, element.c2] {
            self.challenger.observe(coefficient.value());
        }
    }

    fn challenge(&mut self) -> Cubic {
        let [c0, c1, c2] = [(); 3].map(|()| Mersenne31::new(self.challenger.sample()));
        Cubic { c0, c1, c2 }
    }

    /// Absorbs the claims, and draws what they are batched by.
    pub fn batch(&mut self, claims: &[Claim]) -> Cubic {
        for claim in claims {
            self.observe(claim.at.x);
            self.observe(claim.at.y);
            claim.values.iter().for_each(|value| self.observe(*value));
        }
        self.challenge()
    }

    /// Absorbs the commitment to a codeword, and draws what it is folded by.
    pub fn round(&mut self, commitment: &Hash) -> Cubic {
        self.challenger.observe_bytes(commitment);
        self.challenge()
    }

    /// Absorbs the constant that folding ends in, and draws the queries.
    pub fn queries(mut self, constant: Cubic) -> Vec<usize> {
        self.observe(constant);
        (0..self.params.queries).map(|_| self.challenger.sample_bits(self.log_height)).collect()
    }
}

fn steps(params: Params, log_height: u32, width: usize, points: usize) -> Vec<Step> {
    use {Kind::*, Length::*, Type::*};
    let mut steps = Vec::new();
    for _ in 0..points {
        steps.push((Message, Algebra, "opening_point", Fixed(2)));
        steps.push((Message, Algebra, "opened_values", Fixed(width)));
    }
    steps.push((Challenge, Algebra, "batch_challenge", Scalar));
    steps.push((Message, Opaque, "first_layer_commitment", Scalar));
    steps.push((Challenge, Algebra, "bivariate_challenge", Scalar));
    for _ in params.log_blowup + 1..log_height {
        steps.push((Message, Opaque, "commit_phase_commitment", Scalar));
        steps.push((Challenge, Algebra, "fold_challenge", Scalar));
    }
    steps.push((Message, Algebra, "final_poly", Scalar));
    steps.push((Challenge, Bits(log_height), "query_indices", Fixed(params.queries)));
    steps
}

/// The text of the protocol, its steps and two labels: the blowup, and how many batches, matrices
/// and points there are.
fn seed(params: Params, log_height: u32, width: usize, points: usize) -> Vec<u8> {
    let steps = steps(params, log_height, width, points);
    let mut text = vec![VERSION];
    put(&mut text, NAME.len() as u64);
    text.extend_from_slice(NAME.as_bytes());
    put(&mut text, steps.len() as u64);
    for step in steps {
        put_step(&mut text, step);
    }
    put(&mut text, 2);
    put(&mut text, 8);
    put(&mut text, u64::from(params.log_blowup));
    put(&mut text, 24);
    for count in [1, 1, points] {
        put(&mut text, count as u64);
    }
    text
}

fn put(text: &mut Vec<u8>, number: u64) {
    text.extend_from_slice(&number.to_be_bytes());
}

fn put_step(text: &mut Vec<u8>, (kind, of, label, length): Step) {
    let (code, parameter) = match of {
        Type::Algebra => (0, DEGREE),
        Type::Opaque => (1, 0),
        Type::Bits(width) => (2, u64::from(width)),
    };
    text.extend_from_slice(&[0, kind as u8, code]);
    put(text, parameter);
    put(text, label.len() as u64);
    text.extend_from_slice(label.as_bytes());
    let (form, count) = match length {
        Length::Scalar => (0, 1),
        Length::Fixed(count) => (1, count as u64),
    };
    text.push(form);
    put(text, count);
}
