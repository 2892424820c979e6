//! Graphs and the tests for a larger isolated clique that they pose. All are drawn from fixed seeds, and numbered by rank, so
//! that page and query list the common neighbours in one order.

use crate::graphs::Graph;
use crate::posed::Posed;
use isolated::Settings;
use outside::random::Random;

/// The members of a planted clique.
const MEMBERS: usize = 3;

/// A clique with c - 1 common neighbours, and the test that it poses. Of the pairs of these neighbours, so many in a hundred
/// are joined, and each has so many further neighbours.
pub fn clique(c: usize, percent: usize, further: usize) -> (Graph, Posed) {
    let mut graph = Graph::empty(128);
    let mut random = Random::new((100 * c + percent) as u64);
    let inside = MEMBERS + c - 1;
    for v in 0..inside {
        for u in 0..v {
            if u < MEMBERS || random.percent(percent) {
                graph.join(u, v);
            }
        }
    }
    let mut outside = (inside..graph.n).cycle();
    for v in MEMBERS..inside {
        for u in outside.by_ref().take(further) {
            graph.join(u, v);
        }
    }
    let mut members = graph.ranks()[..MEMBERS].to_vec();
    members.sort_unstable();
    let graph = by_rank(&graph);
    let posed = Posed::new(&graph, &members);
    (graph, posed)
}

/// The same graph with each vertex numbered by its rank.
fn by_rank(graph: &Graph) -> Graph {
    let ranks = graph.ranks();
    let edges: Vec<(usize, usize)> = graph.edges().iter().map(|&(u, v)| (ranks[u], ranks[v])).collect();
    Graph::of_edges(graph.n, &edges)
}

/// Blocks of so many vertices, the last one of what is left, in which nine pairs of ten are joined; each vertex is joined to up
/// to so many others drawn anywhere.
pub fn blocks(size: usize, further: usize) -> Graph {
    let mut graph = Graph::empty(128);
    let mut random = Random::new(size as u64);
    for v in 0..graph.n {
        for u in v - v % size..v {
            if random.percent(90) {
                graph.join(u, v);
            }
        }
        for _ in 0..further {
            let u = random.below(graph.n);
            if u != v {
                graph.join(u, v);
            }
        }
    }
    by_rank(&graph)
}

/// The tests that the walk meets, and no more than so many.
pub fn met(graph: &Graph, settings: Settings, most: usize) -> Vec<Posed> {
    let mut walk = Walk { graph, settings, members: Vec::new(), met: Vec::new(), most };
    walk.from(0, 0);
    walk.met
}

struct Walk<'a> {
    graph: &'a Graph,
    settings: Settings,
    members: Vec<usize>,
    met: Vec<Posed>,
    most: usize,
}

impl Walk<'_> {
    /// Walks on from a position whose ranks below v are decided, so many of them left and joined to the pivot.
    fn from(&mut self, v: usize, left: usize) {
        if left >= self.settings.c as usize || self.met.len() == self.most {
            return;
        }
        if v == self.graph.n {
            if !self.members.is_empty() {
                let posed = Posed::new(self.graph, &self.members);
                if posed.stands(self.settings) {
                    self.met.push(posed);
                }
            }
            return;
        }
        if self.members.iter().all(|&u| self.graph.joined(u, v)) {
            let earlier = || (0..v).filter(|&u| self.graph.joined(u, v)).count();
            let left = if self.members.is_empty() { earlier() } else { left };
            self.members.push(v);
            self.from(v + 1, left);
            self.members.pop();
        }
        let beside = self.members.first().is_some_and(|&pivot| self.graph.joined(pivot, v));
        self.from(v + 1, left + usize::from(beside));
    }
}
