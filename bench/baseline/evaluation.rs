//! Values at a point off a domain of the polynomials with given values on it, by Lagrange's polynomials.
use crate::cubic::{Cubic, batch_inverse};
use crate::domain::{Domain, Point};
use crate::field::Mersenne31;
use crate::transform::Matrix;

/// A point over the extension.
#[derive(Clone, Copy)]
pub struct CubicPoint {
    pub x: Cubic,
    pub y: Cubic,
}

impl CubicPoint {
    /// The point of a coordinate of the projective line.
    pub fn from_projective_line(t: Cubic) -> Self {
        let square = t.square();
        let inverse = (Cubic::ONE + square).inverse();
        CubicPoint {
            x: (Cubic::ONE - square) * inverse,
            y: t.double() * inverse,
        }
    }

    /// The real and the imaginary part, at a point of the base field, of the function that vanishes
    /// at this point alone.
    pub fn vanishing_parts(self, point: Point) -> (Cubic, Cubic) {
        let cosine = self.x.times_base(point.x) + self.y.times_base(point.y);
        let sine = self.x.times_base(point.y) - self.y.times_base(point.x);
        (Cubic::ONE - cosine, Cubic::ZERO - sine)
    }

    /// The x coordinate of the point doubled one time less.
    fn vanishing(self, log_n: u32) -> Cubic {
        (1..log_n).fold(self.x, |x, _| x.square().double() - Cubic::ONE)
    }
}

/// The values at the point of the polynomials with these values in the order of the transform.
pub fn evaluate_at_point(domain: Domain, values: &Matrix, at: CubicPoint) -> Vec<Cubic> {
    let shares = shares(&domain.first_points(), at);
    let shift = Point::generator(domain.log_n + 1);
    evaluate_by_shares(domain.log_n, shift, &values.values, values.width, &shares, at)
}

/// The values at the point of the polynomials with these values, in the order of the transform, on
/// the domain of `2^log_n` points that begins at `shift`.
pub fn evaluate_by_shares(
    log_n: u32,
    shift: Point,
    values: &[Mersenne31],
    width: usize,
    shares: &[Cubic],
    at: CubicPoint,
) -> Vec<Cubic> {
    let mut sums = vec![Cubic::ZERO; width];
    for (row, share) in values.chunks_exact(width).zip(shares) {
        for (sum, entry) in sums.iter_mut().zip(row) {
            *sum = *sum + share.times_base(*entry);
        }
    }
    let scale = scale(log_n, shift, at);
    for sum in &mut sums {
        *sum = *sum * scale;
    }
    sums
}

/// For each of the points its share and that of its opposite, whose sign is turned. A share is the
/// imaginary over the real part of the function that vanishes at the point alone.
pub fn shares(points: &[Point], at: CubicPoint) -> Vec<Cubic> {
    let differences: Vec<Cubic> = points.iter().map(|point| Cubic::from_base(point.x) - at.x).collect();
    let inverses = batch_inverse(&differences);
    let mut shares = Vec::with_capacity(2 * points.len());
    for (point, inverse) in points.iter().zip(inverses) {
        let (y, at_y) = (inverse.times_base(point.y), at.y * inverse);
        shares.push(y + at_y);
        shares.push(y - at_y);
    }
    shares
}

/// What all shares are multiplied by: the vanishing polynomial at the point over what normalises it.
fn scale(log_n: u32, shift: Point, at: CubicPoint) -> Cubic {
    let doubled = (1..log_n).fold(shift, |point, _| point + point);
    let normalised = (0..log_n).fold(doubled.y, |y, _| y.double());
    let vanishing = at.vanishing(log_n) - Cubic::from_base(doubled.x);
    (Cubic::ZERO - vanishing).times_base(normalised.inverse())
}
