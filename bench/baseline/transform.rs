//! The circle transform of a matrix's columns, one layer over the whole matrix after another.
use crate::domain::Domain;
use crate::field::{Mersenne31, batch_inverse};

/// Entries stored row after row.
#[derive(Clone)]
pub struct Matrix<T = Mersenne31> {
    pub values: Vec<T>,
    pub width: usize,
}

impl<T> Matrix<T> {
    pub fn height(&self) -> usize {
        self.values.len() / self.width
    }
}

/// The coefficients of the polynomials with these values on the domain.
pub fn interpolate(domain: Domain, values: &Matrix) -> Matrix {
    interpolate_owned(domain, values.clone())
}

/// The same, in the memory of the values.
pub fn interpolate_owned(domain: Domain, mut coeffs: Matrix) -> Matrix {
    let mut half = coeffs.width;
    for factors in domain.twiddles() {
        let inverses = batch_inverse(&factors);
        backward_layer(&mut coeffs.values, half, &inverses);
        half *= 2;
    }
    let mut factor = Mersenne31::ONE;
    for _ in 0..domain.log_n {
        factor = factor.halve();
    }
    for value in &mut coeffs.values {
        *value = *value * factor;
    }
    coeffs
}

/// The values on the domain of the polynomials with these coefficients.
pub fn evaluate(domain: Domain, coeffs: Matrix) -> Matrix {
    let width = coeffs.width;
    let log_height = coeffs.height().ilog2();
    let twiddles = domain.twiddles();
    let mut half = coeffs.values.len();
    let mut values = match domain.log_n - log_height {
        0 => coeffs.values,
        log_count => coeffs.values.repeat(1 << log_count),
    };
    for factors in twiddles[..log_height as usize].iter().rev() {
        half /= 2;
        forward_layer(&mut values, half, factors);
    }
    Matrix { values, width }
}

/// The values on the target of the polynomials with these values on the domain.
pub fn extrapolate(domain: Domain, target: Domain, values: &Matrix) -> Matrix {
    evaluate(target, interpolate(domain, values))
}

fn forward_layer(values: &mut [Mersenne31], half: usize, factors: &[Mersenne31]) {
    for (block, factor) in values.chunks_exact_mut(2 * half).zip(factors) {
        let (lows, highs) = block.split_at_mut(half);
        forward_block(lows, highs, *factor);
    }
}

#[inline(never)]
fn forward_block(lows: &mut [Mersenne31], highs: &mut [Mersenne31], factor: Mersenne31) {
    for (low, high) in lows.iter_mut().zip(highs) {
        let product = *high * factor;
        (*low, *high) = (*low + product, *low - product);
    }
}

fn backward_layer(values: &mut [Mersenne31], half: usize, inverses: &[Mersenne31]) {
    for (block, inverse) in values.chunks_exact_mut(2 * half).zip(inverses) {
        let (lows, highs) = block.split_at_mut(half);
        backward_block(lows, highs, *inverse);
    }
}

#[inline(never)]
fn backward_block(lows: &mut [Mersenne31], highs: &mut [Mersenne31], inverse: Mersenne31) {
    for (low, high) in lows.iter_mut().zip(highs) {
        (*low, *high) = (*low + *high, (*low - *high) * inverse);
    }
}
