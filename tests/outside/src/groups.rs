//! Which cliques are groups: the definitions of document 002, section 2, and the order of document 01.

use crate::cliques::Cliques;
use crate::graph::Graph;
use crate::random::Random;
use std::cmp::Ordering;
use std::collections::HashSet;

/// A notion (0 min, 1 avg, 2 max), a kind (0 maximal isolated, 1 isolated maximal) and a factor, as plain numbers:
/// other numbers may be tried too.
#[derive(Clone, Copy, Debug, PartialEq, Eq)]
pub struct Settings {
    pub notion: u32,
    pub kind: u32,
    pub c: u32,
}

impl Settings {
    /// Every notion and kind with this factor.
    pub fn all(c: u32) -> impl Iterator<Item = Settings> {
        (0..3).flat_map(move |notion| (0..2).map(move |kind| Settings { notion, kind, c }))
    }

    /// Any notion and kind with this factor.
    pub fn any(random: &mut Random, c: u32) -> Settings {
        Settings { notion: random.below(3) as u32, kind: random.below(2) as u32, c }
    }
}

/// Is a clique isolated, given the outside counts of its members?
fn isolated(outside: &[usize], notion: u32, c: usize) -> bool {
    match notion {
        0 => outside.iter().any(|&count| count < c),
        1 => outside.iter().sum::<usize>() < c * outside.len(),
        2 => outside.iter().all(|&count| count < c),
        _ => unreachable!(),
    }
}

/// A graph with all its cliques and their outside counts: from it the full list at any settings.
pub struct Reference {
    pub graph: Graph,
    cliques: Cliques,
    outside: Vec<Vec<usize>>,
    ranks: Vec<usize>,
}

impl Reference {
    pub fn of(graph: Graph) -> Reference {
        let cliques = Cliques::of(&graph);
        let count =
            |set: &Vec<usize>, u: usize| (0..graph.n).filter(|v| graph.joined(u, *v) && !set.contains(v)).count();
        let outside = cliques.sets.iter().map(|set| set.iter().map(|&u| count(set, u)).collect()).collect();
        let ranks = graph.ranks();
        Reference { graph, cliques, outside, ranks }
    }

    /// The groups, in document 01's order, each with its vertices in rank order.
    pub fn full_list(&self, settings: Settings) -> FullList {
        let sets = &self.cliques.sets;
        let isolated: Vec<bool> =
            self.outside.iter().map(|counts| isolated(counts, settings.notion, settings.c as usize)).collect();
        // A larger clique is reached by adding one vertex at a time, and larger sets stand first.
        let mut below = vec![false; sets.len()];
        for place in 0..sets.len() {
            below[place] = match settings.kind {
                0 => self.cliques.larger[place].iter().any(|&more| isolated[more] || below[more]),
                1 => !self.cliques.larger[place].is_empty(),
                _ => unreachable!(),
            };
        }
        let places = (0..sets.len()).filter(|&place| isolated[place] && !below[place]);
        let mut groups: Vec<Vec<usize>> = places.map(|place| self.by_rank(&sets[place])).collect();
        groups.sort_by(|a, b| self.earlier(a, b));
        FullList::of(&self.graph, groups)
    }

    fn by_rank(&self, set: &[usize]) -> Vec<usize> {
        let mut set = set.to_vec();
        set.sort_by_key(|&v| self.ranks[v]);
        set
    }

    /// At the lowest rank where two sets differ, the one holding that rank comes first.
    fn earlier(&self, a: &[usize], b: &[usize]) -> Ordering {
        let only = |x: &[usize], y: &[usize]| x.iter().filter(|v| !y.contains(v)).map(|&v| self.ranks[v]).min();
        match (only(a, b), only(b, a)) {
            (None, None) => Ordering::Equal,
            (Some(_), None) => Ordering::Less,
            (None, Some(_)) => Ordering::Greater,
            (Some(r), Some(s)) => r.cmp(&s),
        }
    }
}

/// The full list of a graph at some settings.
#[derive(Debug)]
pub struct FullList {
    pub groups: Vec<Vec<usize>>,
    members: HashSet<Vec<usize>>,
    entries: Vec<u16>,
}

impl FullList {
    /// These groups of a graph, each with its vertices in rank order.
    pub fn of(graph: &Graph, groups: Vec<Vec<usize>>) -> FullList {
        let members = groups.iter().cloned().collect();
        let entries = groups.iter().flat_map(|group| record(graph, group)).collect();
        FullList { groups, members, entries }
    }

    /// Is this set, with its vertices in rank order, in the list?
    pub fn has(&self, set: &[usize]) -> bool {
        self.members.contains(set)
    }

    /// The records end to end.
    pub fn entries(&self) -> &[u16] {
        &self.entries
    }
}

/// The outgoing edges of a set: the bytes 1 of the table in the rows of members and the columns of others.
pub fn outgoing_edges(graph: &Graph, set: &[usize]) -> usize {
    let mut member = vec![false; graph.n];
    set.iter().for_each(|&v| member[v] = true);
    set.iter().map(|&u| (0..graph.n).filter(|&v| !member[v] && graph.joined(u, v)).count()).sum()
}

/// A group's size, its outgoing edges div 65,536, the rest, and then its vertices in rank order: document 02, C-14.
pub fn record(graph: &Graph, group: &[usize]) -> Vec<u16> {
    let edges = outgoing_edges(graph, group);
    let entries = [group.len(), edges / 65_536, edges % 65_536].into_iter().chain(group.iter().copied());
    entries.map(|entry| u16::try_from(entry).unwrap()).collect()
}
