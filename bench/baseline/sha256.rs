//! SHA-256 (FIPS 180-4), block after block, without instructions of its own.

const K: [u32; 64] = constants();

const START: [u32; 8] = [
    0x6a09e667, 0xbb67ae85, 0x3c6ef372, 0xa54ff53a, 0x510e527f, 0x9b05688c, 0x1f83d9ab, 0x5be0cd19,
];

/// The digest of a message.
pub fn digest(message: &[u8]) -> [u8; 32] {
    let mut state = START;
    let (blocks, rest) = message.as_chunks();
    for block in blocks {
        compress(&mut state, block);
    }
    let mut block = [0; 64];
    block[..rest.len()].copy_from_slice(rest);
    block[rest.len()] = 0x80;
    if rest.len() >= 56 {
        compress(&mut state, &block);
        block = [0; 64];
    }
    block[56..].copy_from_slice(&(8 * message.len() as u64).to_be_bytes());
    compress(&mut state, &block);
    let mut digest = [0; 32];
    for (bytes, word) in digest.chunks_exact_mut(4).zip(state) {
        bytes.copy_from_slice(&word.to_be_bytes());
    }
    digest
}

fn compress(state: &mut [u32; 8], block: &[u8; 64]) {
    let mut w = [0u32; 16];
    for (word, bytes) in w.iter_mut().zip(block.chunks_exact(4)) {
        *word = u32::from_be_bytes([bytes[0], bytes[1], bytes[2], bytes[3]]);
    }
    let (first, others) = K.split_at(16);
    let mut v = sixteen_rounds(*state, first, |t| w[t]);
    for constants in others.chunks_exact(16) {
        v = sixteen_rounds(v, constants, |t| next_word(&mut w, t));
    }
    for (word, add) in state.iter_mut().zip(v) {
        *word = word.wrapping_add(add);
    }
}

/// Written out, so that the place of each word among the last 16 is known when this is compiled.
#[inline(always)]
fn sixteen_rounds(
    mut v: [u32; 8],
    constants: &[u32],
    mut word: impl FnMut(usize) -> u32,
) -> [u32; 8] {
    macro_rules! rounds {
        ($($t:literal)*) => { $(v = round(v, constants[$t], word($t));)* };
    }
    rounds!(0 1 2 3 4 5 6 7 8 9 10 11 12 13 14 15);
    v
}

/// The next word of the schedule, in the place of the one 16 before it.
#[inline(always)]
fn next_word(w: &mut [u32; 16], t: usize) -> u32 {
    let (early, late) = (w[(t + 1) % 16], w[(t + 14) % 16]);
    let low = (early ^ early.rotate_right(11)).rotate_right(7) ^ (early >> 3);
    let high = (late ^ late.rotate_right(2)).rotate_right(17) ^ (late >> 10);
    w[t] = w[t].wrapping_add(low).wrapping_add(w[(t + 9) % 16]).wrapping_add(high);
    w[t]
}

/// The rotations are nested, which takes fewer copies, and what is chosen takes three operations.
#[inline(always)]
fn round([a, b, c, d, e, f, g, h]: [u32; 8], constant: u32, word: u32) -> [u32; 8] {
    let mixed = (e ^ (e ^ e.rotate_right(14)).rotate_right(5)).rotate_right(6);
    let chosen = g ^ (e & (f ^ g));
    let first = h.wrapping_add(mixed).wrapping_add(chosen);
    let first = first.wrapping_add(constant).wrapping_add(word);
    let mixed = (a ^ (a ^ a.rotate_right(9)).rotate_right(11)).rotate_right(2);
    let major = b ^ ((a ^ b) & (b ^ c));
    let second = mixed.wrapping_add(major);
    [first.wrapping_add(second), a, b, c, d.wrapping_add(first), e, f, g]
}

/// The first 32 bits of the fractional parts of the cube roots of the first 64 primes.
const fn constants() -> [u32; 64] {
    let mut all = [0; 64];
    let (mut count, mut n) = (0, 2u128);
    while count < 64 {
        if is_prime(n) {
            all[count] = cube_root(n << 96) as u32;
            count += 1;
        }
        n += 1;
    }
    all
}

const fn is_prime(n: u128) -> bool {
    let mut d = 2;
    while d * d <= n {
        if n % d == 0 {
            return false;
        }
        d += 1;
    }
    true
}

/// The greatest number whose cube is at most `n`, bit by bit.
const fn cube_root(n: u128) -> u128 {
    let mut root = 0u128;
    let mut bit = 1u128 << 36;
    while bit > 0 {
        let next = root | bit;
        if next * next * next <= n {
            root = next;
        }
        bit >>= 1;
    }
    root
}
