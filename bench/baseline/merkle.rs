//! A Merkle tree over the rows of one matrix.
use crate::cubic::Cubic;
use crate::field::Mersenne31;
use crate::sha256;
use crate::transform::Matrix;

pub type Hash = [u8; 32];

/// For each index, for each matrix, the entries of its row.
pub type OpenedRows<T> = Vec<Vec<Vec<T>>>;

/// An entry of a row.
pub trait Entry: Copy + PartialEq {
    /// Appends the bytes that are hashed of it.
    fn append(self, message: &mut Vec<u8>);
}

impl Entry for Mersenne31 {
    fn append(self, message: &mut Vec<u8>) {
        message.extend_from_slice(&self.value().to_be_bytes());
    }
}

impl Entry for Cubic {
    fn append(self, message: &mut Vec<u8>) {
        self.c0.append(message);
        self.c1.append(message);
        self.c2.append(message);
    }
}

/// A committed matrix and the levels of its tree, the lowest first, without the digests of the
/// rows.
pub struct Tree<T> {
    pub matrix: Matrix<T>,
    levels: Vec<Vec<Hash>>,
}

/// The digest of a row, of which the message is made in memory that the caller lends.
fn row_digest<T: Entry>(message: &mut Vec<u8>, row: &[T]) -> Hash {
    message.clear();
    message.push(0);
    for entry in row {
        entry.append(message);
    }
    sha256::digest(message)
}

fn node_digest(left: &Hash, right: &Hash) -> Hash {
    let mut message = [1; 65];
    message[1..33].copy_from_slice(left);
    message[33..].copy_from_slice(right);
    sha256::digest(&message)
}

pub fn commit<T: Entry>(matrix: Matrix<T>) -> (Hash, Tree<T>) {
    let mut message = Vec::new();
    let rows = matrix.values.chunks_exact(matrix.width);
    let mut levels: Vec<Vec<Hash>> = vec![rows.map(|row| row_digest(&mut message, row)).collect()];
    while let Some(level) = levels.last()
        && level.len() > 1
    {
        let pairs = level.chunks_exact(2);
        levels.push(pairs.map(|pair| node_digest(&pair[0], &pair[1])).collect());
    }
    let root = levels[levels.len() - 1][0];
    levels.remove(0);
    (root, Tree { matrix, levels })
}

fn distinct(indices: &[usize]) -> Vec<usize> {
    let mut known = indices.to_vec();
    known.sort_unstable();
    known.dedup();
    known
}

impl<T: Entry> Tree<T> {
    fn row(&self, index: usize) -> &[T] {
        &self.matrix.values[index * self.matrix.width..][..self.matrix.width]
    }

    /// For each index the rows there, one for each matrix, and the digests that are missing beside
    /// them, level by level. Those of rows are made again.
    pub fn open(&self, indices: &[usize]) -> (OpenedRows<T>, Vec<Hash>) {
        let rows = indices.iter().map(|index| vec![self.row(*index).to_vec()]).collect();
        let mut message = Vec::new();
        let mut known = distinct(indices);
        let mut proof = Vec::new();
        for level in 0..self.levels.len() {
            let mut parents = Vec::with_capacity(known.len());
            let mut k = 0;
            while k < known.len() {
                let position = known[k];
                if known.get(k + 1) == Some(&(position ^ 1)) {
                    k += 2;
                } else {
                    proof.push(match level {
                        0 => row_digest(&mut message, self.row(position ^ 1)),
                        _ => self.levels[level - 1][position ^ 1],
                    });
                    k += 1;
                }
                parents.push(position / 2);
            }
            known = parents;
        }
        (rows, proof)
    }
}

/// Whether the rows at the indices, by their places, are those of the root.
pub fn verify<'a, T: Entry + 'a>(
    root: &Hash,
    rows: usize,
    indices: &[usize],
    row: impl Fn(usize) -> &'a [T],
    proof: &[Hash],
) -> bool {
    let mut message = Vec::new();
    let mut places: Vec<usize> = (0..indices.len()).collect();
    places.sort_unstable_by_key(|&k| indices[k]);
    let mut nodes: Vec<(usize, Hash)> = Vec::with_capacity(places.len());
    for (rank, &k) in places.iter().enumerate() {
        if rank > 0 && indices[places[rank - 1]] == indices[k] {
            if row(places[rank - 1]) != row(k) {
                return false;
            }
        } else {
            nodes.push((indices[k], row_digest(&mut message, row(k))));
        }
    }
    let mut given = proof.iter();
    for _ in 0..rows.ilog2() {
        let mut parents = Vec::with_capacity(nodes.len());
        let mut k = 0;
        while k < nodes.len() {
            let (position, digest) = nodes[k];
            let parent = match nodes.get(k + 1) {
                Some((next, right)) if *next == position ^ 1 => {
                    k += 2;
                    node_digest(&digest, right)
                }
                _ => {
                    k += 1;
                    match given.next() {
                        Some(sibling) if position % 2 == 0 => node_digest(&digest, sibling),
                        Some(sibling) => node_digest(sibling, &digest),
                        None => return false,
                    }
                }
            };
            parents.push((position / 2, parent));
        }
        nodes = parents;
    }
    given.next().is_none() && nodes[0].1 == *root
}
