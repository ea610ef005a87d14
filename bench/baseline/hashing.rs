//! A challenger over SHA-256: elements that are absorbed, and proofs of work.
use crate::field::ORDER;
use crate::merkle::Hash;
use crate::sha256;
use std::time::{Duration, Instant};

const OBSERVED: u32 = 1000;
const OBSERVED_TIMED: u32 = 1 << 16;
const BITS: u32 = 8;
const BITS_TIMED: u32 = 16;
const RUNS: u32 = 9;

#[derive(Clone, Copy)]
pub struct Challenger {
    state: Hash,
}

impl Challenger {
    pub fn new() -> Self {
        Challenger { state: [0; 32] }
    }

    /// The digest of a kind, the state and at most 32 bytes.
    fn digest(&self, kind: u8, bytes: &[u8]) -> Hash {
        let mut message = [kind; 65];
        message[1..33].copy_from_slice(&self.state);
        message[33..][..bytes.len()].copy_from_slice(bytes);
        sha256::digest(&message[..33 + bytes.len()])
    }

    pub fn observe_bytes(&mut self, bytes: &[u8]) {
        self.state = self.digest(0, bytes);
    }

    pub fn observe(&mut self, element: u32) {
        self.observe_bytes(&element.to_be_bytes());
    }

    /// The first eight bytes of the digest that a draw gives.
    fn peek(&self) -> u64 {
        let digest = self.digest(1, &[]);
        digest[..8].iter().fold(0, |number, byte| number << 8 | u64::from(*byte))
    }

    fn draw(&mut self) -> u64 {
        let drawn = self.peek();
        self.state = self.digest(2, &[]);
        drawn
    }

    pub fn sample(&mut self) -> u32 {
        (self.draw() % u64::from(ORDER)) as u32
    }

    pub fn sample_bits(&mut self, bits: u32) -> usize {
        (self.draw() & ((1 << bits) - 1)) as usize
    }

    /// The least element after which `bits` bits are zero. The state after a draw is made once, for
    /// it.
    fn grind(&mut self, bits: u32) -> u32 {
        for witness in 0..ORDER {
            let mut after = *self;
            after.observe(witness);
            if after.peek() & ((1 << bits) - 1) == 0 {
                after.draw();
                *self = after;
                return witness;
            }
        }
        0
    }
}

/// Prints a line for elements that are absorbed, and one for proofs of work.
pub fn report(timed: bool) {
    if timed {
        let (time, next) = observe(OBSERVED_TIMED, RUNS);
        println!("Sha256Challenger observe {OBSERVED_TIMED}: {time} ns, {next}");
        let (time, witness) = grind(BITS_TIMED, RUNS);
        println!("Sha256Challenger grind {BITS_TIMED}: {time} ns a trial, {witness}");
    } else {
        println!("Sha256Challenger observe {OBSERVED}: {}", observe(OBSERVED, 1).1);
        println!("Sha256Challenger grind {BITS}: {}", grind(BITS, 1).1);
    }
}

fn observe(count: u32, runs: u32) -> (u128, u32) {
    let mut challenger = Challenger::new();
    let mut best = Duration::MAX;
    for _ in 0..runs {
        let begin = Instant::now();
        for n in 0..count {
            challenger.observe(n);
        }
        best = best.min(begin.elapsed());
    }
    (best.as_nanos() / u128::from(count), challenger.sample())
}

fn grind(bits: u32, runs: u32) -> (u128, u32) {
    let mut challenger = Challenger::new();
    let mut best = u128::MAX;
    let mut last = 0;
    for _ in 0..runs {
        let begin = Instant::now();
        last = challenger.grind(bits);
        best = best.min(begin.elapsed().as_nanos() / u128::from(last + 1));
    }
    (best, last)
}
