//! Proofs that the rows of a trace satisfy an AIR.
//!
//! ```no_run
//! use circle::{stark, Air, Params};
//!
//! let air = Air::new(1, 1);
//! let [a] = air.columns();
//! air.first_row().assert_eq(a, air.public_value(0));
//! air.transition().assert_eq(air.next_column(0), a * 2).named("doubles");
//! let statement = stark::Statement::new(&air, 2, &[3], Params::new(1, 89));
//! let proof = stark::prove(&statement, &[[3], [6], [12], [24]])?;
//! stark::verify(&statement, &proof)?;
//! # Ok::<(), stark::Error>(())
//! ```
//!
//! A prover and a verifier each write the statement themselves; only the proof is passed on.

use crate::air::listed;
use crate::form::{member, records, texts, Cubic, Digest};
use crate::library::Call;
use crate::{Air, Challenger, Params, Refusal};
use std::fmt;

// More bytes than a verdict and each refusal have.
const VERDICT_LEN: usize = 256;

// More than most proofs have. Bytes that aren't written take no memory.
const PROOF_LEN: usize = 1 << 24;

/// What a proof shows: that `2^log_n` rows satisfy an AIR of these public values.
#[derive(Clone, Copy, Debug)]
pub struct Statement<'a> {
    /// The constraints.
    pub air: &'a Air,
    /// The binary logarithm of the number of rows.
    pub log_n: usize,
    /// The public values, each below [`crate::ORDER`].
    pub public_values: &'a [u32],
    /// The parameters, which are the verifier's (`docs/SECURITY.md`).
    pub params: Params,
}

impl<'a> Statement<'a> {
    /// The statement of these members.
    #[must_use]
    pub fn new(air: &'a Air, log_n: usize, public_values: &'a [u32], params: Params) -> Self {
        Statement {
            air,
            log_n,
            public_values,
            params,
        }
    }

    /// The JSON text of the statement: an input of `stark_tool verify` without its proof.
    #[must_use]
    pub fn to_json(&self) -> String {
        format!(
            "{{\"air\":{},\"log_n\":{},\"params\":{},\"public_values\":{}}}",
            self.air.to_json(),
            self.log_n,
            self.params.to_json(),
            listed(self.public_values.iter())
        )
    }
}

records! {
    /// The values of the trace's columns and of the quotient's chunks at the opened points.
    pub struct OpenedValues {
        /// The three values of each chunk of the quotient.
        pub quotient_chunks: Vec<Vec<Cubic>>,
        /// The values of the columns at the drawn point.
        pub trace_local: Vec<Cubic>,
        /// The values of the columns at the point after it.
        pub trace_next: Vec<Cubic>,
    }

    /// A proof of a statement. In JSON it is a text's `proof`.
    pub struct Proof {
        /// The values at the opened points.
        pub opened_values: OpenedValues,
        /// The proof of these values.
        pub opening_proof: crate::Proof,
        /// The commitment to the quotient's chunks.
        pub quotient_commitment: Digest,
        /// The commitment to the rows.
        pub trace_commitment: Digest,
    }
}

texts!(Proof);

/// Why there is no result.
#[derive(Clone, Debug, PartialEq, Eq, Hash)]
#[non_exhaustive]
pub enum Error {
    /// A constraint doesn't hold at a row: the first such row, and its first such constraint.
    Unsatisfied {
        /// The row, counted from 0.
        row: usize,
        /// The constraint, counted from 0.
        constraint: usize,
        /// The name that the constraint was given.
        name: Option<String>,
    },
    /// The number of rows isn't the statement's, `2^log_n`.
    HeightMismatch {
        /// The binary logarithm of the statement's number of rows.
        log_n: usize,
        /// How many rows were given.
        height: usize,
    },
    /// The input is refused or can't be read.
    Other(crate::Error),
}

impl fmt::Display for Error {
    fn fmt(&self, formatter: &mut fmt::Formatter<'_>) -> fmt::Result {
        match self {
            Error::Unsatisfied {
                row,
                constraint,
                name,
            } => {
                let name = name.as_ref().map(|name| format!(" ({name})"));
                let name = name.unwrap_or_default();
                write!(
                    formatter,
                    "unsatisfied: row {row} fails constraint {constraint}{name}"
                )
            }
            Error::HeightMismatch { log_n, height } => write!(
                formatter,
                "the statement has 2^{log_n} rows, but {height} were given"
            ),
            Error::Other(error) => error.fmt(formatter),
        }
    }
}

impl std::error::Error for Error {}

impl<T: Into<crate::Error>> From<T> for Error {
    fn from(error: T) -> Self {
        Error::Other(error.into())
    }
}

/// Checks that rows satisfy an AIR of these public values.
///
/// # Errors
///
/// [`Error::Unsatisfied`] if a constraint doesn't hold at a row, and otherwise the first reason why
/// the rows are refused.
pub fn check(air: &Air, rows: &[impl AsRef<[u32]>], public_values: &[u32]) -> Result<(), Error> {
    let text = format!(
        "{{\"air\":{},\"public_values\":{},\"rows\":{}}}",
        air.to_json(),
        listed(public_values.iter()),
        lists(rows)
    );
    match line(air, Call::StarkCheck, &text, VERDICT_LEN)?.as_str() {
        "{\"satisfied\":true}" => Ok(()),
        _ => Err(Refusal::Unknown.into()),
    }
}

/// Proves a statement, of rows that satisfy its AIR.
///
/// The proof starts from a challenger that has absorbed nothing.
///
/// # Errors
///
/// As for [`check`], and [`Error::HeightMismatch`] if the number of rows isn't the statement's.
pub fn prove(statement: &Statement<'_>, rows: &[impl AsRef<[u32]>]) -> Result<Proof, Error> {
    proof(Call::StarkProve, statement, rows)
}

/// Proves as [`prove`] does, from the caller's challenger, for [`verify_from`].
///
/// The challenger must have absorbed what the application requires, such as its name, and ends in
/// the state that the proof leaves.
///
/// # Errors
///
/// As for [`prove`]. The challenger is then unchanged.
pub fn prove_from(
    statement: &Statement<'_>,
    rows: &[impl AsRef<[u32]>],
    challenger: &mut Challenger,
) -> Result<Proof, Error> {
    challenger.advance(|state| proof(Call::StarkProveFrom(state), statement, rows))
}

/// Verifies a proof of a statement. The statement is the caller's own; only the proof may be a
/// stranger's. The proof starts from a challenger that has absorbed nothing.
///
/// # Errors
///
/// The first reason why the proof is refused.
pub fn verify(statement: &Statement<'_>, proof: &Proof) -> Result<(), Error> {
    verdict(Call::StarkVerify(&proof.to_json()), statement)
}

/// Verifies a proof of a statement as [`verify`] does, from the caller's challenger.
///
/// The challenger must have absorbed what the prover's had, and ends in the prover's state.
///
/// # Errors
///
/// As for [`verify`]. The challenger is then unchanged.
pub fn verify_from(
    statement: &Statement<'_>,
    proof: &Proof,
    challenger: &mut Challenger,
) -> Result<(), Error> {
    let proof = proof.to_json();
    challenger.advance(|state| verdict(Call::StarkVerifyFrom(&proof, state), statement))
}

// The proof that a call of a prover makes.
fn proof(
    call: Call<'_>,
    statement: &Statement<'_>,
    rows: &[impl AsRef<[u32]>],
) -> Result<Proof, Error> {
    let (log_n, height) = (statement.log_n, rows.len());
    if !height.is_power_of_two() || height.trailing_zeros() as usize != log_n {
        return Err(Error::HeightMismatch { log_n, height });
    }
    let text = format!(
        "{{\"air\":{},\"params\":{},\"public_values\":{},\"rows\":{}}}",
        statement.air.to_json(),
        statement.params.to_json(),
        listed(statement.public_values.iter()),
        lists(rows)
    );
    let line = line(statement.air, call, &text, PROOF_LEN)?;
    Ok(member(&line, "proof")?)
}

// What a call of a verifier says of its proof of the statement.
fn verdict(call: Call<'_>, statement: &Statement<'_>) -> Result<(), Error> {
    let line = line(statement.air, call, &statement.to_json(), VERDICT_LEN)?;
    let (digest, log_n) = (statement.air.digest(), statement.log_n);
    if line == format!("{{\"air_digest\":\"{digest}\",\"log_n\":{log_n},\"verified\":true}}") {
        Ok(())
    } else {
        Err(Refusal::Unknown.into())
    }
}

// The line of a call, or why there is none.
fn line(air: &Air, call: Call<'_>, text: &str, room: usize) -> Result<String, Error> {
    match call.answer(text, room)? {
        (0, line) => Ok(line),
        (_, line) => Err(unsatisfied(air, &line).unwrap_or_else(|| unread(&line).into())),
    }
}

// The constraint that a line says doesn't hold.
fn unsatisfied(air: &Air, line: &str) -> Option<Error> {
    let numbers = line.strip_prefix("{\"constraint\":")?.strip_suffix('}')?;
    let (constraint, row) = numbers.split_once(",\"refused\":\"Unsatisfied\",\"row\":")?;
    let (constraint, row) = (constraint.parse().ok()?, row.parse().ok()?);
    let name = air.constraint_name(constraint);
    Some(Error::Unsatisfied {
        row,
        constraint,
        name,
    })
}

// The refusal that a line names, with the text that can't be read where it names one.
fn unread(line: &str) -> crate::Error {
    let named = |text| line.strip_prefix(&format!("{{\"text\":\"{text}\","));
    let found = ["statement", "proof"].map(|text| Some((text, named(text)?)));
    match found.into_iter().flatten().next() {
        Some((text, rest)) => {
            crate::Error::of_form(Refusal::of_line(&format!("{{{rest}"))).under(text)
        }
        None => Refusal::of_line(line).into(),
    }
}

// The rows as a list of JSON.
fn lists(rows: &[impl AsRef<[u32]>]) -> String {
    listed(rows.iter().map(|row| listed(row.as_ref().iter())))
}
