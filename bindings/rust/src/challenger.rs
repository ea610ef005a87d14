//! Challengers: what both sides of a protocol absorb, and the points that they draw after it.

use crate::form::{Cubic, Digest};
use crate::library::{absorb, absorb_element, draw, State};
use crate::{Error, Refusal};
use std::fmt;

/// Absorbs what both sides of a protocol know, and draws points after it.
///
/// Prover and verifier have one each. If both absorb the same in the same order, both draw the
/// same, and [`prove_from`](crate::prove_from) and [`verify_from`](crate::verify_from) leave them
/// equal. A challenger is its state of 32 bytes, which are 0 at first.
///
/// ```no_run
/// use circle::{commit, Challenger, Matrix, Params};
///
/// let (points, rows) = (Vec::new(), vec![vec![7]; 4]);
/// let commitments = commit(&[vec![Matrix { points, rows }]], &Params::new(1, 89))?;
/// let mut challenger = Challenger::new();
/// challenger.observe("the name of a protocol");
/// challenger.observe(commitments[0]);
/// let point = challenger.sample_point();
/// # Ok::<(), circle::Error>(())
/// ```
#[derive(Clone, Default, PartialEq, Eq, Hash)]
pub struct Challenger {
    state: State,
}

impl Challenger {
    /// A challenger that has absorbed nothing.
    #[must_use]
    pub fn new() -> Self {
        Self::default()
    }

    /// The challenger with this state.
    #[must_use]
    pub fn from_bytes(state: [u8; 32]) -> Self {
        Challenger { state }
    }

    /// The state.
    #[must_use]
    pub fn to_bytes(&self) -> [u8; 32] {
        self.state
    }

    /// Absorbs bytes, or the 32 bytes of a commitment, as one piece: `observe("ab")` isn't
    /// `observe("a")` then `observe("b")`.
    pub fn observe(&mut self, bytes: impl AsRef<[u8]>) {
        absorb(&mut self.state, bytes.as_ref());
    }

    /// Absorbs elements of the base field, each as its four bytes, the greatest first:
    /// `observe_elements(&[7])` is `observe([0, 0, 0, 7])`. The number of elements isn't absorbed:
    /// `observe_elements(&[1, 2])` is `observe_elements(&[1])` then `observe_elements(&[2])`.
    ///
    /// # Errors
    ///
    /// [`Refusal::OutOfRange`] if one isn't below [`ORDER`](crate::ORDER). The challenger is then
    /// unchanged.
    pub fn observe_elements(&mut self, elements: &[u32]) -> Result<(), Error> {
        self.advance(|state| {
            let is_rejected = |element: &u32| !absorb_element(state, *element);
            match elements.iter().position(is_rejected) {
                Some(place) => {
                    Err(Error::of_form(Refusal::OutOfRange).under(&format!("[{place}]")))
                }
                None => Ok(()),
            }
        })
    }

    /// Draws an element of the challenge field: a point for claims, by one coordinate of the
    /// projective line. It also serves as a challenge, such as one that combines columns.
    pub fn sample_point(&mut self) -> Cubic {
        draw(&mut self.state)
    }

    // The result of a call that advances the state. The challenger is unchanged if there is none.
    pub(crate) fn advance<T, E>(
        &mut self,
        call: impl FnOnce(&mut State) -> Result<T, E>,
    ) -> Result<T, E> {
        let mut state = self.state;
        let result = call(&mut state)?;
        self.state = state;
        Ok(result)
    }
}

impl fmt::Debug for Challenger {
    fn fmt(&self, formatter: &mut fmt::Formatter<'_>) -> fmt::Result {
        write!(formatter, "Challenger({})", Digest(self.state))
    }
}
