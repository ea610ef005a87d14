//! The table of periodic columns on a domain of twice the trace's rows.
use crate::domain::Domain;
use crate::field::Mersenne31;
use crate::transform::{Matrix, extrapolate};

/// The place in the transform's order of a natural place, and the other way about.
pub fn permuted(index: usize, log_n: u32) -> usize {
    let half = index >> 1;
    let place = if index & 1 == 0 { half } else { (1 << log_n) - 1 - half };
    place.reverse_bits() >> (usize::BITS - log_n)
}

fn reordered(values: &[Mersenne31], log_n: u32) -> Vec<Mersenne31> {
    (0..values.len()).map(|index| values[permuted(index, log_n)]).collect()
}

/// The rows of the values of columns of `2^log_rows` entries, on a domain of twice the trace's size.
pub fn table(log_rows: u32, columns: &[Vec<Mersenne31>]) -> Matrix {
    let (domain, target) = (Domain { log_n: log_rows }, Domain { log_n: log_rows + 1 });
    let extend = |column: &Vec<Mersenne31>| {
        let values = Matrix { values: reordered(column, log_rows), width: 1 };
        reordered(&extrapolate(domain, target, &values).values, log_rows + 1)
    };
    let extended: Vec<Vec<Mersenne31>> = columns.iter().map(extend).collect();
    let height = 1 << (log_rows + 1);
    let mut values = Vec::with_capacity(height * columns.len());
    for row in 0..height {
        values.extend(extended.iter().map(|column| column[row]));
    }
    Matrix { values, width: columns.len() }
}
