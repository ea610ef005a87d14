//! Why there is no result, and where.

use crate::Refusal;
use std::fmt;

/// Why a call has no result: the refusal, and of what can't be read the path that leads to it.
#[derive(Clone, Debug, PartialEq, Eq, Hash)]
pub struct Error {
    refusal: Refusal,
    path: Option<String>,
}

impl Error {
    /// The refusal, whose name is the program's.
    pub fn refusal(&self) -> Refusal {
        self.refusal
    }

    /// The name that the program writes.
    pub fn name(&self) -> &'static str {
        self.refusal.name()
    }

    /// Whether a text can't be read as what it is given for. Otherwise it is refused.
    pub fn is_unreadable(&self) -> bool {
        self.refusal.is_unreadable()
    }

    /// The path of what can't be read, as `proof.fri_proof.final_poly[0]`, or of the key that is
    /// missing or unknown; empty for the whole.
    ///
    /// It is `None` of a refusal. The library names no key, so this crate reads a text once more to
    /// find it; if it finds another fault first, the path is `None` too.
    pub fn path(&self) -> Option<&str> {
        self.path.as_deref()
    }

    // The fault of a whole value.
    pub(crate) fn of_form(refusal: Refusal) -> Error {
        let path = Some(String::new());
        Error { refusal, path }
    }

    // This fault, of a value's part: a key, or an index in brackets.
    pub(crate) fn under(mut self, part: &str) -> Error {
        let path = self.path.unwrap_or_default();
        let dot = match path.chars().next() {
            None | Some('[') => "",
            Some(_) => ".",
        };
        self.path = Some(format!("{part}{dot}{path}"));
        self
    }
}

impl From<Refusal> for Error {
    fn from(refusal: Refusal) -> Error {
        Error {
            refusal,
            path: None,
        }
    }
}

impl fmt::Display for Error {
    fn fmt(&self, formatter: &mut fmt::Formatter<'_>) -> fmt::Result {
        write!(formatter, "{}", self.refusal)?;
        match self.path() {
            None | Some("") => Ok(()),
            Some(path) => write!(formatter, " at {path}"),
        }
    }
}

impl std::error::Error for Error {}
