//! The calls of the static library `circle_c`, as `bindings/c/circle.h` declares them.

use crate::form::Cubic;
use crate::{Params, Refusal};

/// The state of a challenger: the header's `circle_challenger`.
pub(crate) type State = [u8; 32];

extern "C" {
    fn circle_challenger_observe(challenger: *mut State, bytes: *const u8, len: usize);
    fn circle_challenger_observe_element(challenger: *mut State, element: u32) -> u8;
    fn circle_challenger_sample(challenger: *mut State, element: *mut u32);
    fn circle_values(
        text: *const u8,
        text_len: usize,
        line: *mut u8,
        line_len: usize,
        needed: *mut usize,
    ) -> u8;
    fn circle_commit(
        text: *const u8,
        text_len: usize,
        line: *mut u8,
        line_len: usize,
        needed: *mut usize,
    ) -> u8;
    fn circle_prove(
        text: *const u8,
        text_len: usize,
        line: *mut u8,
        line_len: usize,
        needed: *mut usize,
    ) -> u8;
    fn circle_prove_from(
        text: *const u8,
        text_len: usize,
        challenger: *mut State,
        line: *mut u8,
        line_len: usize,
        needed: *mut usize,
    ) -> u8;
    fn circle_verify(
        text: *const u8,
        text_len: usize,
        line: *mut u8,
        line_len: usize,
        needed: *mut usize,
    ) -> u8;
    fn circle_shape(
        text: *const u8,
        text_len: usize,
        line: *mut u8,
        line_len: usize,
        needed: *mut usize,
    ) -> u8;
    fn circle_verify_with(
        text: *const u8,
        text_len: usize,
        params: *const Params,
        line: *mut u8,
        line_len: usize,
        needed: *mut usize,
    ) -> u8;
    fn circle_verify_from(
        text: *const u8,
        text_len: usize,
        params: *const Params,
        challenger: *mut State,
        line: *mut u8,
        line_len: usize,
        needed: *mut usize,
    ) -> u8;
    fn circle_stark_check(
        text: *const u8,
        text_len: usize,
        line: *mut u8,
        line_len: usize,
        needed: *mut usize,
    ) -> u8;
    fn circle_stark_prove(
        text: *const u8,
        text_len: usize,
        line: *mut u8,
        line_len: usize,
        needed: *mut usize,
    ) -> u8;
    fn circle_stark_prove_from(
        text: *const u8,
        text_len: usize,
        challenger: *mut State,
        line: *mut u8,
        line_len: usize,
        needed: *mut usize,
    ) -> u8;
    fn circle_stark_verify(
        statement: *const u8,
        statement_len: usize,
        proof: *const u8,
        proof_len: usize,
        line: *mut u8,
        line_len: usize,
        needed: *mut usize,
    ) -> u8;
    fn circle_stark_verify_from(
        statement: *const u8,
        statement_len: usize,
        proof: *const u8,
        proof_len: usize,
        challenger: *mut State,
        line: *mut u8,
        line_len: usize,
        needed: *mut usize,
    ) -> u8;
}

/// Absorbs bytes into a challenger's state.
pub(crate) fn absorb(challenger: &mut State, bytes: &[u8]) {
    // SAFETY: the declaration is that of the header. No pointer is null. The state is borrowed for
    // the call to write to, and the bytes for it to read.
    unsafe { circle_challenger_observe(challenger, bytes.as_ptr(), bytes.len()) }
}

/// Absorbs an element of the base field into a challenger's state. Returns false if it isn't an
/// element; the state is then unchanged.
pub(crate) fn absorb_element(challenger: &mut State, element: u32) -> bool {
    // SAFETY: the declaration is that of the header, and the state is borrowed for the call.
    unsafe { circle_challenger_observe_element(challenger, element) == 0 }
}

/// Draws an element of the challenge field from a challenger's state.
pub(crate) fn draw(challenger: &mut State) -> Cubic {
    let mut element = [0; 3];
    // SAFETY: the declaration is that of the header. The state and the place for three numbers are
    // borrowed for the call to write to.
    unsafe { circle_challenger_sample(challenger, element.as_mut_ptr()) };
    element
}

/// A call of the library by texts. Those from a challenger advance its state if there is a result.
pub(crate) enum Call<'a> {
    Values,
    Commit,
    Prove,
    ProveFrom(&'a mut State),
    Verify,
    VerifyWith(&'a Params),
    VerifyFrom(&'a Params, &'a mut State),
    Shape,
    StarkCheck,
    StarkProve,
    StarkProveFrom(&'a mut State),
    // The text is a statement, and this is its proof.
    StarkVerify(&'a str),
    StarkVerifyFrom(&'a str, &'a mut State),
}

impl Call<'_> {
    // The state of the challenger that the call starts from.
    fn state(&mut self) -> Option<&mut State> {
        match self {
            Call::ProveFrom(state)
            | Call::VerifyFrom(_, state)
            | Call::StarkProveFrom(state)
            | Call::StarkVerifyFrom(_, state) => Some(state),
            _ => None,
        }
    }

    // Makes the call and returns the status. Writes the line's length to `needed`, and the line to
    // the room of `line` if that suffices.
    fn make(&mut self, text: &str, line: &mut Vec<u8>, needed: &mut usize) -> u8 {
        let (start, len) = (text.as_ptr(), text.len());
        let (room, room_len) = (line.as_mut_ptr(), line.capacity());
        // SAFETY: the declarations above are those of the header. No pointer is null. The text, the
        // parameters and the proof are borrowed for the call. The vector, the number and the state
        // are borrowed for it to write to, and the vector's bytes need no value before. The
        // library's memory comes from the C library's malloc, realloc and free.
        unsafe {
            match self {
                Call::Values => circle_values(start, len, room, room_len, needed),
                Call::Commit => circle_commit(start, len, room, room_len, needed),
                Call::Prove => circle_prove(start, len, room, room_len, needed),
                Call::ProveFrom(state) => {
                    circle_prove_from(start, len, *state, room, room_len, needed)
                }
                Call::Verify => circle_verify(start, len, room, room_len, needed),
                Call::VerifyWith(params) => {
                    circle_verify_with(start, len, *params, room, room_len, needed)
                }
                Call::VerifyFrom(params, state) => {
                    circle_verify_from(start, len, *params, *state, room, room_len, needed)
                }
                Call::Shape => circle_shape(start, len, room, room_len, needed),
                Call::StarkCheck => circle_stark_check(start, len, room, room_len, needed),
                Call::StarkProve => circle_stark_prove(start, len, room, room_len, needed),
                Call::StarkProveFrom(state) => {
                    circle_stark_prove_from(start, len, *state, room, room_len, needed)
                }
                Call::StarkVerify(proof) => {
                    let (proof, proof_len) = (proof.as_ptr(), proof.len());
                    circle_stark_verify(start, len, proof, proof_len, room, room_len, needed)
                }
                Call::StarkVerifyFrom(proof, state) => {
                    let (proof, proof_len) = (proof.as_ptr(), proof.len());
                    circle_stark_verify_from(
                        start, len, proof, proof_len, *state, room, room_len, needed,
                    )
                }
            }
        }
    }

    /// The line that the library returns for `text`, without its newline, or why there is none.
    ///
    /// There is room for `room` bytes at first. If the line is longer, the call is repeated.
    pub(crate) fn line(self, text: &str, room: usize) -> Result<String, Refusal> {
        match self.answer(text, room)? {
            (0, line) => Ok(line),
            (_, line) => Err(Refusal::of_line(&line)),
        }
    }

    /// The status that the library returns for `text` and its line, without its newline.
    ///
    /// There is room for `room` bytes at first. If the line is longer, the call is repeated from
    /// the same state: a verifier's call advances the state even if the line doesn't fit.
    pub(crate) fn answer(mut self, text: &str, room: usize) -> Result<(u8, String), Refusal> {
        let before = self.state().map(|state| *state);
        let mut line = Vec::new();
        let mut needed = room;
        let status = loop {
            line.try_reserve_exact(needed)
                .map_err(|_| Refusal::Memory)?;
            let status = self.make(text, &mut line, &mut needed);
            if needed <= line.capacity() {
                break status;
            }
            if let (Some(state), Some(before)) = (self.state(), before) {
                *state = before;
            }
        };
        // SAFETY: the last call wrote that many bytes, since they fit.
        unsafe { line.set_len(needed) };
        let mut line = String::from_utf8(line).map_err(|_| Refusal::Unknown)?;
        if line.pop() != Some('\n') {
            return Err(Refusal::Unknown);
        }
        Ok((status, line))
    }
}

#[cfg(test)]
mod tests {
    use super::{absorb, Call, State};
    use crate::{Digest, Params, Statement};
    use std::fs;

    const PROOFS: &str = concat!(env!("CARGO_MANIFEST_DIR"), "/../../examples/proofs");
    const SEVENS: Params = Params::new(1, 2);

    // A stored text, and the state of a challenger that has absorbed its commitment.
    fn stored(kind: &str) -> (String, State) {
        let read = |kind| fs::read_to_string(format!("{PROOFS}/sevens.{kind}.json"));
        let claims = read("verify").expect("a stored proof");
        let (batches, _) = claims.split_once(",\"params\":").expect("parameters");
        let batches = batches.strip_prefix("{\"batches\":").expect("batches");
        let statement = Statement::from_json(batches).expect("a statement");
        let Digest(commitment) = statement.batches[0].commitment;
        let mut state = [0; 32];
        absorb(&mut state, &commitment);
        (read(kind).expect("a stored text"), state)
    }

    // A repeated call starts from the state before it, not from the one that the first call left.
    #[test]
    fn a_call_without_room_is_repeated_from_the_same_state() {
        let (text, before) = stored("verify");
        let (mut state, mut other) = (before, before);
        let line = Call::VerifyFrom(&SEVENS, &mut state).line(&text, 64);
        assert_eq!(line.as_deref(), Ok("{\"verified\":true}"));
        assert_eq!(Call::VerifyFrom(&SEVENS, &mut other).line(&text, 1), line);
        assert_eq!(other, state);
        assert_ne!(other, before);
    }

    #[test]
    fn a_prover_without_room_is_repeated_from_the_same_state() {
        let (text, before) = stored("prove");
        let (mut state, mut other) = (before, before);
        let line = Call::ProveFrom(&mut state).line(&text, 1 << 20);
        assert_eq!(line.as_deref(), Ok(stored("verify").0.trim_end()));
        assert_eq!(Call::ProveFrom(&mut other).line(&text, 1), line);
        assert_eq!(other, state);
        assert_ne!(other, before);
    }
}
