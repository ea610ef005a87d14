//! Points of the unit circle and domains of the circle transform.
use crate::field::Mersenne31;
use std::ops::Add;

/// A point of the unit circle.
#[derive(Clone, Copy)]
pub struct Point {
    pub x: Mersenne31,
    pub y: Mersenne31,
}

impl Point {
    /// A point of order `2^log_order`.
    pub fn generator(log_order: u32) -> Self {
        let mut point = Point {
            x: Mersenne31::new(311014874),
            y: Mersenne31::new(1584694829),
        };
        for _ in log_order..31 {
            point = point + point;
        }
        point
    }

    pub fn opposite(self) -> Self {
        Point { x: self.x, y: Mersenne31::ZERO - self.y }
    }

    /// The vanishing polynomial of the standard domain of `2^log_n` points.
    pub fn vanishing(self, log_n: u32) -> Mersenne31 {
        (1..log_n).fold(self.x, |x, _| x.square().double() - Mersenne31::ONE)
    }
}

impl Add for Point {
    type Output = Self;

    fn add(self, rhs: Self) -> Self {
        Point {
            x: self.x * rhs.x - self.y * rhs.y,
            y: self.x * rhs.y + self.y * rhs.x,
        }
    }
}

/// The points of order `2^(log_n + 1)`.
#[derive(Clone, Copy)]
pub struct Domain {
    pub log_n: u32,
}

impl Domain {
    /// The first points of the pairs of opposite points, in the order of the transform.
    pub fn first_points(self) -> Vec<Point> {
        let mut points = Vec::with_capacity(1 << (self.log_n - 1));
        points.push(Point::generator(self.log_n + 1));
        for log_order in 1..self.log_n {
            let step = Point::generator(log_order);
            for i in 0..points.len() {
                points.push(points[i] + step);
            }
        }
        points
    }

    /// The factors of the blocks of each layer, beginning with the smallest blocks.
    pub fn twiddles(self) -> Vec<Vec<Mersenne31>> {
        self.twiddles_of(&self.first_points())
    }

    /// The same, where the first points of the pairs are known.
    pub fn twiddles_of(self, points: &[Point]) -> Vec<Vec<Mersenne31>> {
        let mut twiddles = Vec::with_capacity(self.log_n as usize);
        twiddles.push(points.iter().map(|point| point.y).collect());
        if 1 < self.log_n {
            twiddles.push(points.iter().step_by(2).map(|point| point.x).collect());
        }
        for layer in 2..self.log_n as usize {
            let before: &Vec<Mersenne31> = &twiddles[layer - 1];
            let doubled = before.iter().step_by(2).map(|x| x.square().double() - Mersenne31::ONE);
            twiddles.push(doubled.collect());
        }
        twiddles
    }
}

/// The points of the standard domain of `2^log_n` points at these places in the order of the
/// transform.
pub fn query_points(log_n: u32, places: &[usize]) -> Vec<Point> {
    let steps: Vec<Point> = (1..log_n).map(Point::generator).collect();
    let first = Point::generator(log_n + 1);
    let point = |place: &usize| {
        let chosen = steps.iter().enumerate().filter(|(k, _)| place >> (k + 1) & 1 == 1);
        let point = chosen.fold(first, |point, (_, step)| point + *step);
        if place.is_multiple_of(2) { point } else { point.opposite() }
    };
    places.iter().map(point).collect()
}
