//! Document 01, "Graph and ranks".

use std::fmt;

/// Every two vertices of n, the smaller first.
pub fn pairs(n: usize) -> impl Iterator<Item = (usize, usize)> {
    (0..n).flat_map(move |u| (u + 1..n).map(move |v| (u, v)))
}

/// A graph by its byte table: n × n bytes, row by row, 1 where two vertices are joined.
#[derive(Clone, PartialEq, Eq)]
pub struct Graph {
    pub n: usize,
    pub table: Vec<u8>,
}

impl Graph {
    pub fn empty(n: usize) -> Graph {
        Graph { n, table: vec![0; n * n] }
    }

    pub fn of_edges(n: usize, edges: &[(usize, usize)]) -> Graph {
        let mut graph = Graph::empty(n);
        for &(u, v) in edges {
            graph.join(u, v);
        }
        graph
    }

    pub fn join(&mut self, u: usize, v: usize) {
        assert_ne!(u, v);
        self.table[u * self.n + v] = 1;
        self.table[v * self.n + u] = 1;
    }

    pub fn joined(&self, u: usize, v: usize) -> bool {
        self.table[u * self.n + v] == 1
    }

    pub fn degree(&self, u: usize) -> usize {
        (0..self.n).filter(|&v| self.joined(u, v)).count()
    }

    /// The degree of each vertex, as it is lent beside the table.
    pub fn degrees(&self) -> Vec<u16> {
        (0..self.n).map(|u| u16::try_from(self.degree(u)).unwrap()).collect()
    }

    /// The vertex of each rank: least degree first, equal degrees by smaller vertex number.
    pub fn order(&self) -> Vec<usize> {
        let mut order: Vec<usize> = (0..self.n).collect();
        order.sort_by_cached_key(|&v| (self.degree(v), v));
        order
    }

    /// The rank of each vertex.
    pub fn ranks(&self) -> Vec<usize> {
        let mut ranks = vec![0; self.n];
        for (rank, &v) in self.order().iter().enumerate() {
            ranks[v] = rank;
        }
        ranks
    }

    pub fn edges(&self) -> Vec<(usize, usize)> {
        pairs(self.n).filter(|&(u, v)| self.joined(u, v)).collect()
    }
}

/// As it can be typed in again: the number of vertices and the edges.
impl fmt::Debug for Graph {
    fn fmt(&self, out: &mut fmt::Formatter<'_>) -> fmt::Result {
        write!(out, "Graph::of_edges({}, &{:?})", self.n, self.edges())
    }
}
