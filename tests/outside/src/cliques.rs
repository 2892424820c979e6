//! All cliques of a graph: the maximal ones by the method of Bron and Kerbosch, the others as their subsets.

use crate::graph::Graph;
use std::collections::HashMap;

/// The maximal cliques, each with its vertices in increasing order.
pub fn maximal(graph: &Graph) -> Vec<Vec<usize>> {
    let mut found = Vec::new();
    extend(graph, &mut Vec::new(), (0..graph.n).collect(), Vec::new(), &mut found);
    found
}

/// Lists the maximal cliques that contain all of `members`, some of `candidates` and none of `excluded`; the
/// vertices of these two are those joined to every member.
fn extend(
    graph: &Graph,
    members: &mut Vec<usize>,
    mut candidates: Vec<usize>,
    mut excluded: Vec<usize>,
    found: &mut Vec<Vec<usize>>,
) {
    let joined = |u: usize, list: &[usize]| list.iter().filter(|&&v| graph.joined(u, v)).count();
    let Some(&pivot) = candidates.iter().chain(&excluded).max_by_key(|&&u| joined(u, &candidates)) else {
        if !members.is_empty() {
            let mut clique = members.clone();
            clique.sort();
            found.push(clique);
        }
        return;
    };
    for v in candidates.clone() {
        if graph.joined(pivot, v) {
            continue;
        }
        let near = |list: &[usize]| list.iter().copied().filter(|&u| graph.joined(u, v)).collect::<Vec<usize>>();
        members.push(v);
        extend(graph, members, near(&candidates), near(&excluded), found);
        members.pop();
        candidates.retain(|&u| u != v);
        excluded.push(v);
    }
}

/// Every clique of a graph, largest first, and for each the places of the cliques with one vertex more.
pub struct Cliques {
    pub sets: Vec<Vec<usize>>,
    pub larger: Vec<Vec<usize>>,
}

impl Cliques {
    pub fn of(graph: &Graph) -> Cliques {
        let mut known: HashMap<Vec<usize>, usize> = HashMap::new();
        for clique in maximal(graph) {
            assert!(clique.len() < 24, "too many subsets to list");
            for chosen in 1u32..1 << clique.len() {
                let subset: Vec<usize> =
                    clique.iter().enumerate().filter(|(i, _)| chosen >> i & 1 == 1).map(|(_, &v)| v).collect();
                known.insert(subset, 0);
            }
        }
        let mut sets: Vec<Vec<usize>> = known.keys().cloned().collect();
        sets.sort_by(|a, b| b.len().cmp(&a.len()).then(a.cmp(b)));
        for (place, set) in sets.iter().enumerate() {
            *known.get_mut(set).unwrap() = place;
        }
        let mut larger = vec![Vec::new(); sets.len()];
        for (place, set) in sets.iter().enumerate().filter(|(_, set)| set.len() > 1) {
            for out in set {
                let smaller: Vec<usize> = set.iter().copied().filter(|v| v != out).collect();
                larger[known[&smaller]].push(place);
            }
        }
        Cliques { sets, larger }
    }
}
