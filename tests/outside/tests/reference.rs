//! The reference against the definitions taken at their word: every subset, and for maximality every larger set.

use outside::cases::cases;
use outside::graph::Graph;
use outside::groups::{Reference, Settings};
use outside::{program, samples};

fn members(set: usize, n: usize) -> impl Iterator<Item = usize> {
    (0..n).filter(move |v| set >> v & 1 == 1)
}

fn clique(graph: &Graph, set: usize) -> bool {
    let n = graph.n;
    set != 0 && members(set, n).all(|u| members(set, n).all(|v| u == v || graph.joined(u, v)))
}

fn isolated_clique(graph: &Graph, set: usize, settings: Settings) -> bool {
    let (n, c) = (graph.n, settings.c as usize);
    let outside = |u: usize| (0..n).filter(|&v| graph.joined(u, v) && set >> v & 1 == 0).count();
    let isolated = match settings.notion {
        0 => members(set, n).any(|u| outside(u) < c),
        1 => members(set, n).map(outside).sum::<usize>() < c * members(set, n).count(),
        _ => members(set, n).all(|u| outside(u) < c),
    };
    clique(graph, set) && isolated
}

fn qualifies(graph: &Graph, set: usize, settings: Settings) -> bool {
    let larger = (0..1usize << graph.n).filter(|&other| other != set && other & set == set);
    let blocks = |other: usize| match settings.kind {
        0 => isolated_clique(graph, other, settings),
        _ => clique(graph, other),
    };
    isolated_clique(graph, set, settings) && !larger.into_iter().any(blocks)
}

/// The record of a set, of which the outgoing edges are those with one end in it; here they fit into the lower half.
fn record(graph: &Graph, set: usize) -> Vec<u16> {
    let crosses = |&(u, v): &(usize, usize)| set >> u & 1 != set >> v & 1;
    let edges = graph.edges().into_iter().filter(crosses).count();
    let vertices = graph.order().into_iter().filter(|v| set >> v & 1 == 1);
    [members(set, graph.n).count(), 0, edges].into_iter().chain(vertices).map(|entry| entry as u16).collect()
}

/// Descending by the bits of the ranks, rank 0 the highest: then the first difference decides.
fn by_rank(graph: &Graph, set: usize) -> usize {
    graph.order().iter().fold(0, |key, &v| 2 * key + (set >> v & 1))
}

#[test]
fn the_reference_is_the_definitions() {
    cases("the_reference_is_the_definitions", 120, |random| {
        let n = random.between(0, 7);
        let graph = samples::any(random, n);
        let reference = Reference::of(graph.clone());
        for settings in (1..=6).flat_map(Settings::all) {
            let mut sets: Vec<usize> = (0..1usize << n).filter(|&set| qualifies(&graph, set, settings)).collect();
            sets.sort_by_key(|&set| std::cmp::Reverse(by_rank(&graph, set)));
            let order = graph.order();
            let expected: Vec<Vec<usize>> =
                sets.iter().map(|&set| order.iter().copied().filter(|v| set >> v & 1 == 1).collect()).collect();
            let list = reference.full_list(settings);
            assert_eq!(list.groups, expected, "{graph:?} at {settings:?}");
            assert_eq!(list.entries(), sets.iter().flat_map(|&set| record(&graph, set)).collect::<Vec<_>>());
        }
    });
}

#[test]
fn the_printed_claw() {
    let words = ["2", "0", "2"].map(|word| word.as_bytes().to_vec());
    let printed = program::output(&words, b"p edge 4 3\ne 1 2\ne 1 3\ne 1 4\n");
    assert_eq!(printed, "2\n3\n4\nend 3 20\n");
}
