//! A graph as calls are lent it since C-15, and what is read off it, in safe Rust.

use crate::blocks::is_symmetric;
use crate::graphs::Graph;
use isolated::{row_numbers, table_numbers, VERTICES};

/// A packed table and its degrees: n rows of ceil(n / 64) numbers of 64 bits, vertex v of a row at bit v mod 64 of number v div 64.
pub struct Packed {
    pub n: usize,
    pub table: Vec<u64>,
    pub degrees: Vec<u16>,
}

impl Packed {
    pub fn of(graph: &Graph) -> Packed {
        let n = graph.n;
        let mut table = vec![0; table_numbers(n)];
        for (u, v) in graph.edges() {
            table[u * row_numbers(n) + v / 64] |= 1 << (v % 64);
            table[v * row_numbers(n) + u / 64] |= 1 << (u % 64);
        }
        Packed { n, table, degrees: graph.degrees() }
    }
}

/// The row of u.
pub fn row(table: &[u64], n: usize, u: usize) -> &[u64] {
    let length = row_numbers(n);
    &table[u * length..(u + 1) * length]
}

/// Does a row say that its vertex is joined to v?
pub fn joined(row: &[u64], v: usize) -> bool {
    row[v / 64] >> (v % 64) & 1 == 1
}

/// The ones in a row.
pub fn degree(row: &[u64]) -> u16 {
    row.iter().map(|number| number.count_ones() as u16).sum()
}

/// Has a row a bit that is no vertex's? Only its last number can have one.
fn stray(row: &[u64], n: usize) -> bool {
    row[row.len() - 1] > u64::MAX >> (64 * row.len() - n)
}

/// Do the refusals 1, 2, 45, 4 and 5 let a table pass?
fn is_table(table: &[u64], n: usize) -> bool {
    n <= VERTICES
        && table.len() == table_numbers(n)
        && !(0..n).any(|u| stray(row(table, n, u), n))
        && !(0..n).any(|u| joined(row(table, n, u), u))
        && is_symmetric(table, n)
}

/// Do 42 and the refusals before it let a table with its degrees pass? This scan is all that an edit does besides its pair.
pub fn is_graph(table: &[u64], degrees: &[u16], n: usize) -> bool {
    is_table(table, n) && degrees.len() == n && (0..n).all(|u| degrees[u] == degree(row(table, n, u)))
}
