//! Graphs to try: the named ones of document 01, and families of random ones.

use crate::graph::{pairs, Graph};
use crate::random::Random;

pub fn complete(n: usize) -> Graph {
    Graph::of_edges(n, &pairs(n).collect::<Vec<_>>())
}

pub fn path(n: usize) -> Graph {
    Graph::of_edges(n, &(1..n).map(|v| (v - 1, v)).collect::<Vec<_>>())
}

/// Centre 0, joined to so many leaves.
pub fn star(leaves: usize) -> Graph {
    Graph::of_edges(leaves + 1, &(1..=leaves).map(|v| (0, v)).collect::<Vec<_>>())
}

pub fn claw() -> Graph {
    star(3)
}

/// K11: triangle 0, 1, 2 with leaves 3, 4 on 1 and 5, 6 on 2.
pub fn k11() -> Graph {
    Graph::of_edges(7, &[(0, 1), (0, 2), (1, 2), (1, 3), (1, 4), (2, 5), (2, 6)])
}

/// Every graph of n vertices.
pub fn all(n: usize) -> impl Iterator<Item = Graph> {
    let pairs: Vec<(usize, usize)> = pairs(n).collect();
    (0..1usize << pairs.len()).map(move |chosen| {
        let edges: Vec<_> = (0..pairs.len()).filter(|i| chosen >> i & 1 == 1).map(|i| pairs[i]).collect();
        Graph::of_edges(n, &edges)
    })
}

/// Joins every two of these vertices with this chance in a hundred.
fn join_some(random: &mut Random, graph: &mut Graph, vertices: &[usize], chance: usize) {
    for (i, j) in pairs(vertices.len()) {
        if random.percent(chance) {
            graph.join(vertices[i], vertices[j]);
        }
    }
}

/// Every pair is joined with this chance in a hundred.
pub fn by_chance(random: &mut Random, n: usize, chance: usize) -> Graph {
    let mut graph = Graph::empty(n);
    join_some(random, &mut graph, &(0..n).collect::<Vec<_>>(), chance);
    graph
}

pub fn sparse(random: &mut Random, n: usize) -> Graph {
    let chance = random.between(2, 35);
    by_chance(random, n, chance)
}

pub fn dense(random: &mut Random, n: usize) -> Graph {
    let chance = random.between(40, 100);
    by_chance(random, n, chance)
}

/// All vertices in any order.
fn shuffled(random: &mut Random, n: usize) -> Vec<usize> {
    let mut vertices: Vec<usize> = (0..n).collect();
    random.shuffle(&mut vertices);
    vertices
}

/// Joins u and v of a shuffled ring whenever their distance is among a few chosen ones, so that all degrees are
/// equal; sometimes one pair is changed after that.
pub fn equal_degrees(random: &mut Random, n: usize) -> Graph {
    let mut graph = Graph::empty(n);
    let place = shuffled(random, n);
    let distances: Vec<usize> = (1..=n / 2).filter(|_| random.percent(40)).collect();
    for u in 0..n {
        for &distance in &distances {
            graph.join(place[u], place[(u + distance) % n]);
        }
    }
    if n > 1 && random.percent(30) {
        let (u, v) = (random.below(n - 1), n - 1);
        let byte = 1 - graph.table[u * n + v];
        graph.table[u * n + v] = byte;
        graph.table[v * n + u] = byte;
    }
    graph
}

/// A few cliques over shuffled vertices, which may share members, with some pairs taken out and a few put in.
pub fn planted(random: &mut Random, n: usize) -> Graph {
    let noise = random.between(0, 12);
    let mut graph = by_chance(random, n, noise);
    for _ in 0..random.between(1, 4) {
        let mut members = shuffled(random, n);
        members.truncate(random.between(1, 6));
        join_some(random, &mut graph, &members, 95);
    }
    graph
}

/// Small cliques over shuffled vertices, which share no members, with some pairs taken out and a few edges between them.
pub fn scattered(random: &mut Random, n: usize) -> Graph {
    let mut graph = Graph::empty(n);
    let vertices = shuffled(random, n);
    let mut rest = &vertices[..];
    while !rest.is_empty() {
        let (block, after) = rest.split_at(random.between(1, 6).min(rest.len()));
        rest = after;
        join_some(random, &mut graph, block, 92);
    }
    for _ in 0..n / 2 {
        let (u, v) = (random.below(n), random.below(n));
        if u != v {
            graph.join(u, v);
        }
    }
    graph
}

/// A graph of any of the families.
pub fn any(random: &mut Random, n: usize) -> Graph {
    match random.below(4) {
        0 => sparse(random, n),
        1 => dense(random, n),
        2 => equal_degrees(random, n),
        _ => planted(random, n),
    }
}
