//! The graphs that are timed. All are drawn from fixed seeds.

pub use outside::graph::Graph;

use outside::random::Random;

/// A family of graphs: its name, and its graph of n vertices.
pub type Family = (&'static str, fn(usize) -> Graph);

// The families that stand in several tables.
pub const NEAR_CLIQUES: Family = ("near-cliques of 8", near_cliques);
pub const RINGS: Family = ("ring, reach 4", |n| ring(n, 4));

/// The text of a graph in the DIMACS edge layout.
pub fn text(graph: &Graph) -> Vec<u8> {
    let edges = graph.edges();
    let mut text = format!("p edge {} {}\n", graph.n, edges.len());
    for (u, v) in edges {
        text.push_str(&format!("e {} {}\n", u + 1, v + 1));
    }
    text.into_bytes()
}

/// Blocks of eight vertices over shuffled numbers. In a block each vertex is joined to all but one; one edge leads from
/// each block to the next. Every vertex has the same surroundings whatever n is.
pub fn near_cliques(n: usize) -> Graph {
    let mut graph = Graph::empty(n);
    let mut place: Vec<usize> = (0..n).collect();
    Random { state: n as u64 }.shuffle(&mut place);
    for block in 0..n / 8 {
        for i in 0..8 {
            for j in 0..i {
                if i != j + 4 {
                    graph.join(place[8 * block + i], place[8 * block + j]);
                }
            }
        }
        graph.join(place[8 * block], place[(8 * block + 12) % n]);
    }
    graph
}

/// A ring in which each vertex is joined to the next `reach` on both sides.
fn ring(n: usize, reach: usize) -> Graph {
    let mut graph = Graph::empty(n);
    for u in 0..n {
        for distance in 1..=reach {
            graph.join(u, (u + distance) % n);
        }
    }
    graph
}

/// A random graph of this mean degree.
pub fn random(n: usize, degree: usize, seed: u64) -> Graph {
    let mut graph = Graph::empty(n);
    let mut random = Random { state: seed };
    let mut edges = 0;
    while edges < n * degree / 2 {
        let (u, v) = (random.below(n), random.below(n));
        if u != v && !graph.joined(u, v) {
            graph.join(u, v);
            edges += 1;
        }
    }
    graph
}
