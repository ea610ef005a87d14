//! What the calls by texts read, as records: they find where a text can't be read.

use crate::form::{records, Form};
use crate::records::{ClaimedBatch, Matrix, Params, Proof};
use crate::{Error, Refusal};

records! {
    /// An input of the program's `values`.
    pub struct ValuesInput {
        pub coefficients: Vec<Vec<u32>>,
        pub log_n: usize,
        pub shift: Vec<u32>,
    }

    /// An input of the program's `prove`.
    pub struct ProveInput {
        pub batches: Vec<Vec<Matrix>>,
        pub params: Params,
    }

    /// An input of the program's `verify`.
    pub struct VerifyInput {
        pub batches: Vec<ClaimedBatch>,
        pub params: Params,
        pub proof: Proof,
    }

    /// An input of the program's `shape`.
    pub struct ShapeInput {
        pub log_max_height: usize,
        pub opened_widths: Vec<Vec<Vec<usize>>>,
        pub params: Params,
    }
}

/// The library's refusal of a text, with the path that leads to what can't be read where that is
/// found.
pub(crate) fn located<T: Form>(refusal: Refusal, text: &str) -> Error {
    match refusal {
        Refusal::Json => Error::of_form(refusal),
        _ if refusal.is_unreadable() => match T::read_text(text) {
            Err(found) if found.refusal() == refusal => found,
            _ => Error::from(refusal),
        },
        _ => Error::from(refusal),
    }
}
