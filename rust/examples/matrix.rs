//! Matrices of bits: which nodes of a graph can be reached, and how many equations are independent.

use worghulen::prelude::*;

/// Rows of as many bits.
#[derive(Clone, Debug, PartialEq)]
struct Matrix(Vec<BitVec>);

impl Matrix {
    fn new(rows: usize, columns: usize) -> Self {
        Self(vec![bitvec![0; columns]; rows])
    }

    fn transposed(&self) -> Self {
        let columns = self.0.first().map_or(0, BitVec::len);
        Self(
            (0..columns)
                .map(|j| self.0.iter().map(|row| row[j]).collect())
                .collect(),
        )
    }

    /// Of the edges of a graph, from which node which can be reached.
    fn reached(mut self) -> Self {
        for by in 0..self.0.len() {
            let from_there = self.0[by].clone();
            for row in self.0.iter_mut().filter(|row| row[by]) {
                *row |= &from_there;
            }
        }
        self
    }

    /// How many rows are no sum of others, where one and one is zero.
    fn rank(mut self) -> usize {
        let mut rank = 0;
        while let Some(row) = self.0.pop() {
            if let Some(first) = row.first_one() {
                rank += 1;
                for other in self.0.iter_mut().filter(|other| other[first]) {
                    *other ^= &row;
                }
            }
        }
        rank
    }
}

fn main() {
    // A ring of 100 nodes, and ten that lead into it.
    let mut edges = Matrix::new(110, 110);
    for node in 0..100 {
        edges.0[node].set((node + 1) % 100, true);
    }
    for node in 100..110 {
        edges.0[node].set(node - 100, true);
    }
    let reached = edges.clone().reached();
    assert!(
        reached
            .0
            .iter()
            .all(|row| row.count_ones() == 100 && row.last_one() == Some(99))
    );
    assert_eq!(reached.transposed().0[0].count_ones(), 110);
    assert_eq!(edges.transposed().transposed(), edges);

    // Each equation is the sum of those before and behind it, but for two.
    let mut rows = Matrix::new(64, 64);
    for (i, row) in rows.0.iter_mut().enumerate() {
        row.set(i, true);
        row.set((i + 1) % 64, true);
    }
    assert_eq!(rows.clone().rank(), 63);
    rows.0[0].set(0, false);
    assert_eq!(rows.rank(), 64);
    println!(
        "{} pairs of nodes",
        reached.0.iter().map(BitVec::count_ones).sum::<usize>()
    );
}
