//! The passes that `circle_bench` measures, in Rust without contracts: digests of what they come to,
//! or with the argument `time` how long they take.
mod cubic;
mod domain;
mod evaluation;
mod field;
mod hashing;
mod merkle;
mod pcs;
mod periodic;
mod prover;
mod sha256;
mod transcript;
mod transform;
mod verifier;

use cubic::Cubic;
use domain::Domain;
use evaluation::CubicPoint;
use field::Mersenne31;
use merkle::{Hash, Tree};
use pcs::{Params, Proof};
use std::time::{Duration, Instant};
use transform::Matrix;

/// The binary logarithm of the rows of the matrices whose digests are printed.
const SMALL: u32 = 6;

/// The binary logarithms of the rows of the matrices that are timed.
const LARGE: [u32; 3] = [10, 14, 18];

/// The binary logarithms of the rows of the matrices to which commitments are timed.
const COMMITTED: [u32; 2] = [14, 18];

/// The binary logarithm of the rows of the matrix whose polynomials are evaluated at a point when that is
/// timed, and its columns.
const EVALUATED: (u32, usize) = (16, 8);

/// The binary logarithm of the entries of the columns of which a table is made when that is timed, and their
/// number.
const PERIODIC: (u32, usize) = (14, 8);

/// The binary logarithms of the rows of the matrices of which proofs are timed, and their columns.
const PROVED: [u32; 3] = [12, 16, 18];
const PROVED_WIDTH: usize = 8;

/// The binary logarithm of the rows, and the columns, of the matrices whose opening alone is timed.
const OPENED: (u32, [usize; 3]) = (12, [1023, 1024, 2048]);

/// The parameters of proofs.
const PARAMS: Params = Params { log_blowup: 1, queries: 40 };

/// How many indices are opened, and the factor of an index's place.
const INDICES: usize = 40;
const FACTOR: usize = 2654435761;

/// How many times a matrix is proved when that is timed.
const PROOFS: usize = 5;

/// How many times rows are opened and verified, and a proof is verified, when that is timed.
const RUNS: usize = 50;

/// The numbers of columns.
const WIDTHS: [usize; 3] = [1, 8, 64];

#[derive(Clone, Copy)]
enum Transform {
    Interpolate,
    Evaluate,
    Extrapolate,
}

impl Transform {
    const ALL: [Transform; 3] = [
        Transform::Interpolate,
        Transform::Evaluate,
        Transform::Extrapolate,
    ];

    fn name(self) -> &'static str {
        match self {
            Transform::Interpolate => "interpolate",
            Transform::Evaluate => "evaluate",
            Transform::Extrapolate => "extrapolate",
        }
    }

    fn run(self, log_rows: u32, matrix: Matrix) -> Matrix {
        let domain = Domain { log_n: log_rows };
        let target = Domain { log_n: log_rows + 1 };
        match self {
            Transform::Interpolate => transform::interpolate(domain, &matrix),
            Transform::Evaluate => transform::evaluate(domain, matrix),
            Transform::Extrapolate => transform::extrapolate(domain, target, &matrix),
        }
    }
}

fn main() {
    let args: Vec<String> = std::env::args().skip(1).collect();
    let args: Vec<&str> = args.iter().map(String::as_str).collect();
    match args.as_slice() {
        [] => {
            report(&[SMALL], digest_line);
            for width in WIDTHS {
                evaluation_line(SMALL, width, false);
            }
            for width in WIDTHS {
                table_line(SMALL, width, false);
            }
            report_commitments(&[SMALL], false);
            report_proofs(&[SMALL], false);
            report_openings(SMALL, &[PROVED_WIDTH], false);
            hashing::report(false);
        }
        ["time"] => {
            report(&LARGE, time_line);
            evaluation_line(EVALUATED.0, EVALUATED.1, true);
            table_line(PERIODIC.0, PERIODIC.1, true);
            report_commitments(&COMMITTED, true);
            report_proofs(&PROVED, true);
            report_openings(OPENED.0, &OPENED.1, true);
            hashing::report(true);
        }
        _ => {
            eprintln!("usage: baseline [time]");
            std::process::exit(2);
        }
    }
}

/// Prints a line for each case.
fn report(log_rows: &[u32], line: fn(Transform, u32, usize)) {
    for transform in Transform::ALL {
        for &log_rows in log_rows {
            for width in WIDTHS {
                line(transform, log_rows, width);
            }
        }
    }
}

/// Prints a line for the values at a point of the polynomials of a matrix.
fn evaluation_line(log_rows: u32, width: usize, timed: bool) {
    let (rows, domain) = (1 << log_rows, Domain { log_n: log_rows });
    let (start, step) = (Mersenne31::new(123456789), Mersenne31::new(987654321));
    let at = CubicPoint::from_projective_line(Cubic { c0: start, c1: step, c2: start.square() });
    let values = matrix(rows, width);
    let runs = if timed { runs(rows * width) } else { 1 };
    let (time, made) = fastest(runs, || (), |()| evaluation::evaluate_at_point(domain, &values, at));
    let time = if timed { format!("{} ns, ", time.as_nanos()) } else { String::new() };
    let coefficients = made.iter().flat_map(|value| [value.c0, value.c1, value.c2]).collect();
    let digest = digest(&Matrix { values: coefficients, width: 1 });
    println!("Cubic evaluate_at_point {rows} x {width}: {time}[{digest}]");
}

/// Prints a line for the table of a matrix's columns on an extension of twice the trace's rows.
fn table_line(log_rows: u32, width: usize, timed: bool) {
    let rows = 1 << log_rows;
    let values = matrix(rows, width);
    let column = |c: usize| values.values.iter().skip(c).step_by(width).copied().collect();
    let columns: Vec<Vec<Mersenne31>> = (0..width).map(column).collect();
    let runs = if timed { runs(rows * width) } else { 1 };
    let (time, made) = fastest(runs, || (), |()| periodic::table(log_rows, &columns));
    let time = if timed { format!("{} ns, ", time.as_nanos()) } else { String::new() };
    println!("PeriodicLdeTable build {rows} x {width}: {time}[{}]", digest(&made));
}

/// Prints a line for each pass over the tree of each matrix.
fn report_commitments(log_rows: &[u32], timed: bool) {
    for &log_rows in log_rows {
        for width in WIDTHS {
            commitment_lines(1 << log_rows, width, timed);
        }
    }
}

fn commitment_lines(rows: usize, width: usize, timed: bool) {
    let line = |name: &str, time: Duration, digest: u64| {
        let time = if timed { format!("{} ns, ", time.as_nanos()) } else { String::new() };
        println!("ShaMmcs {name} {rows} x {width}: {time}[{digest}]");
    };
    let count = |most: usize| if timed { most } else { 1 };
    let input = matrix(rows, width);
    let (time, (root, tree)) = fastest(count(runs(rows * width)), || input.clone(), merkle::commit);
    line("commit", time, number(&root));
    let indices: Vec<usize> = (0..INDICES).map(|k| k.wrapping_mul(FACTOR) % rows).collect();
    let (time, (opened, proof)) = fastest(count(RUNS), || (), |()| tree.open(&indices));
    line("open", time, proof.iter().map(number).sum());
    let row = |k: usize| opened[k][0].as_slice();
    let verify = |()| merkle::verify(&root, rows, &indices, row, &proof);
    let (time, accepted) = fastest(count(RUNS), || (), verify);
    line("verify", time, u64::from(accepted));
}

/// Two points off the base field.
fn points() -> [CubicPoint; 2] {
    let start = Mersenne31::new(123456789);
    let (step, square) = (Mersenne31::new(987654321), start.square());
    let coordinates = [
        Cubic { c0: start, c1: step, c2: square },
        Cubic { c0: step, c1: square, c2: step.square() },
    ];
    coordinates.map(CubicPoint::from_projective_line)
}

/// Prints the lines of the whole scheme over each matrix, opened at one point and at two.
fn report_proofs(log_rows: &[u32], timed: bool) {
    let points = points();
    for &log_rows in log_rows {
        proof_lines(log_rows, &points[..1], timed);
        proof_lines(log_rows, &points, timed);
    }
}

/// Prints a line for opening each matrix, committed to before, at one point and at two.
fn report_openings(log_rows: u32, widths: &[usize], timed: bool) {
    let points = points();
    for &width in widths {
        let committed = prover::commit(PARAMS, matrix(1 << log_rows, width));
        opening_line(log_rows, width, &committed, &points[..1], timed);
        opening_line(log_rows, width, &committed, &points, timed);
    }
}

fn opening_line(
    log_rows: u32,
    width: usize,
    (root, tree): &(Hash, Tree<Mersenne31>),
    points: &[CubicPoint],
    timed: bool,
) {
    let runs = if timed { PROOFS } else { 1 };
    let open = |()| prover::open(PARAMS, tree, points, pcs::after_commitment(root));
    let (time, (_, proof)) = fastest(runs, || (), open);
    let time = if timed { format!("{} ns, ", time.as_nanos()) } else { String::new() };
    let (rows, digest) = (1 << log_rows, proof_digest(root, &proof));
    println!("CirclePcs open {rows} x {width} at {}: {time}[{digest}]", points.len());
}

fn proof_lines(log_rows: u32, points: &[CubicPoint], timed: bool) {
    let (rows, width) = (1 << log_rows, PROVED_WIDTH);
    let line = |name: &str, time: Duration, digest: u64| {
        let time = if timed { format!("{} ns, ", time.as_nanos()) } else { String::new() };
        println!("CirclePcs {name} {rows} x {width} at {}: {time}[{digest}]", points.len());
    };
    let count = |most: usize| if timed { most } else { 1 };
    let input = matrix(rows, width);
    let prove = |matrix| {
        let (root, tree) = prover::commit(PARAMS, matrix);
        let (claims, proof) = prover::open(PARAMS, &tree, points, pcs::after_commitment(&root));
        (root, claims, proof, tree)
    };
    let (time, proved) = fastest(count(PROOFS), || input.clone(), prove);
    let (root, claims, proof, _) = proved;
    line("prove", time, proof_digest(&root, &proof));
    let verify = |()| {
        let challenger = pcs::after_commitment(&root);
        verifier::verify(PARAMS, log_rows, &root, &claims, &proof, challenger)
    };
    let (time, accepted) = fastest(count(RUNS), || (), verify);
    line("verify", time, u64::from(accepted));
}

/// The sum of the numbers of all commitments and of the digests beside the first layer's rows, and
/// of the residues of lambda and of the constant.
fn proof_digest(root: &Hash, proof: &Proof) -> u64 {
    let digests = proof.commitments.iter().chain(&proof.first_siblings.proof);
    let digests = digests.chain([root, &proof.first_commitment]);
    let residue = |x: &Cubic| [x.c0, x.c1, x.c2].map(|c| u64::from(c.value())).iter().sum::<u64>();
    digests.map(number).sum::<u64>() + residue(&proof.lambda) + residue(&proof.constant)
}

/// The shortest time of a pass, and what came of the last one.
fn fastest<I, O>(runs: usize, input: impl Fn() -> I, pass: impl Fn(I) -> O) -> (Duration, O) {
    let mut best = Duration::MAX;
    let mut last = None;
    for _ in 0..runs {
        drop(last.take());
        let input = input();
        let begin = Instant::now();
        let output = pass(input);
        best = best.min(begin.elapsed());
        last = Some(output);
    }
    (best, last.expect("a pass"))
}

/// The first four bytes of a digest as a number, greatest first.
fn number(digest: &Hash) -> u64 {
    u64::from(u32::from_be_bytes([digest[0], digest[1], digest[2], digest[3]]))
}

fn digest_line(transform: Transform, log_rows: u32, width: usize) {
    let (rows, name) = (1 << log_rows, transform.name());
    let result = transform.run(log_rows, matrix(rows, width));
    println!("Mersenne31 {name} {rows} x {width}: [{}]", digest(&result));
}

fn time_line(transform: Transform, log_rows: u32, width: usize) {
    let (rows, name) = (1 << log_rows, transform.name());
    let input = matrix(rows, width);
    let mut best = Duration::MAX;
    let mut last = 0;
    for _ in 0..runs(rows * width) {
        let copy = input.clone();
        let begin = Instant::now();
        let result = transform.run(log_rows, copy);
        best = best.min(begin.elapsed());
        last = digest(&result);
    }
    println!("Mersenne31 {name} {rows} x {width}: {} ns, [{last}]", best.as_nanos());
}

/// How many times a matrix with `entries` entries is transformed when that is timed.
fn runs(entries: usize) -> usize {
    ((1 << 23) / entries).clamp(5, 200)
}

/// The matrix whose entries are a chain, each the square of the one before it plus the step.
fn matrix(rows: usize, width: usize) -> Matrix {
    let step = Mersenne31::new(987654321);
    let mut x = Mersenne31::new(123456789);
    let mut values = Vec::with_capacity(rows * width);
    for _ in 0..rows * width {
        values.push(x);
        x = x.square() + step;
    }
    Matrix { values, width }
}

/// The value at the step of the polynomial whose coefficients are the entries, the last one constant.
fn digest(matrix: &Matrix) -> u32 {
    let step = Mersenne31::new(987654321);
    let sum = |sum, entry: &Mersenne31| sum * step + *entry;
    matrix.values.iter().fold(Mersenne31::ZERO, sum).value()
}
