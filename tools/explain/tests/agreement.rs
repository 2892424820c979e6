//! The explanation beside the library, and what it names beside the definitions: on all sets of small graphs, on cliques
//! of dense ones, and on sets of large ones.

use explain::{outside_counts, reason, Counts, Graph, Reason, Set};
use isolated::{set_query, work_entries, Groups, Kind, Notion, Room, Settings};
use outside::random::Random;
use outside::{packed, samples};

/// A graph to try, as the library is lent it and as the explanation has it, with a work slice for the library.
struct Tried {
    n: usize,
    sample: outside::graph::Graph,
    table: Vec<u64>,
    degrees: Vec<u16>,
    graph: Graph,
    work: Vec<u16>,
}

impl Tried {
    fn new(sample: outside::graph::Graph) -> Tried {
        let (n, table, degrees) = (sample.n, packed::pack(&sample), sample.degrees());
        let graph = Graph::of(n, |u, v| sample.joined(u, v));
        Tried { n, sample, table, degrees, graph, work: vec![0; work_entries(n)] }
    }

    fn joined(&self, u: usize, v: usize) -> bool {
        self.sample.joined(u, v)
    }

    fn clique(&self, set: &[usize]) -> bool {
        !set.is_empty() && set.iter().all(|&u| set.iter().all(|&v| u == v || self.joined(u, v)))
    }

    /// One byte a vertex, 1 for a member.
    fn bytes(&self, set: &[usize]) -> Vec<u8> {
        let mut bytes = vec![0; self.n];
        for &v in set {
            bytes[v] = 1;
        }
        bytes
    }

    fn counts(&self, set: &[usize]) -> Counts {
        let bytes = self.bytes(set);
        let outside = |u: usize| (0..self.n).filter(|&v| self.joined(u, v) && bytes[v] == 0).count();
        set.iter().map(|&u| (u, outside(u))).collect()
    }

    fn isolated(&self, set: &[usize], settings: Settings) -> bool {
        let counts: Vec<usize> = self.counts(set).into_iter().map(|(_, count)| count).collect();
        let c = settings.c as usize;
        match settings.notion {
            Notion::Min => counts.iter().any(|&count| count < c),
            Notion::Avg => counts.iter().sum::<usize>() < c * counts.len(),
            Notion::Max => counts.iter().all(|&count| count < c),
        }
    }

    /// The reason of a set, after its verdict and all that it names have been compared.
    fn check(&mut self, set: &[usize], settings: Settings) -> Reason {
        let reason = reason(&self.graph, &Set::of(set), settings);
        let verdict = set_query(&self.table, &self.degrees, &self.bytes(set), &mut self.work, self.n, settings);
        let shown = || format!("{set:?} with {settings} in {:?} is {reason:?}", self.sample);
        assert_eq!(verdict, Ok(reason.listed()), "{}", shown());
        let so = match &reason {
            Reason::Empty => set.is_empty(),
            Reason::NotJoined(u, v) => set.contains(u) && set.contains(v) && u != v && !self.joined(*u, *v),
            Reason::NotIsolated(counts) => {
                self.clique(set) && *counts == self.counts(set) && !self.isolated(set, settings)
            }
            Reason::Larger(counts, larger) => {
                let larger: Vec<usize> = larger.members().collect();
                let stands = self.clique(&larger)
                    && (settings.kind == Kind::IsolatedMaximal || self.isolated(&larger, settings));
                let contains = larger.len() > set.len() && set.iter().all(|v| larger.contains(v));
                *counts == self.counts(set) && contains && stands
            }
            Reason::Listed(counts) => self.clique(set) && *counts == self.counts(set) && self.isolated(set, settings),
        };
        assert!(so, "{}", shown());
        reason
    }

    /// The members of a set that is given by its bits.
    fn of_bits(&self, bits: usize) -> Vec<usize> {
        (0..self.n).filter(|v| bits >> v & 1 == 1).collect()
    }
}

fn all_settings(factors: impl IntoIterator<Item = u32>) -> Vec<Settings> {
    let mut all = Vec::new();
    for c in factors {
        for notion in Notion::ALL {
            all.extend(Kind::ALL.map(|kind| Settings::new(notion, kind, c)));
        }
    }
    all
}

#[test]
fn all_sets_of_all_small_graphs() {
    for n in 0..=5 {
        for sample in samples::all(n) {
            let mut tried = Tried::new(sample);
            for settings in all_settings(1..=5) {
                for bits in 0..1 << n {
                    tried.check(&tried.of_bits(bits), settings);
                }
            }
        }
    }
}

#[test]
fn all_sets_of_random_graphs() {
    let mut random = Random::new(11);
    let mut told = [0; 5];
    for _ in 0..60 {
        let n = random.between(6, 9);
        let mut tried = Tried::new(samples::any(&mut random, n));
        for settings in all_settings([1, 2, 3, 4, 6, 1024]) {
            for bits in 0..1 << n {
                let place = match tried.check(&tried.of_bits(bits), settings) {
                    Reason::Empty => 0,
                    Reason::NotJoined(..) => 1,
                    Reason::NotIsolated(_) => 2,
                    Reason::Larger(..) => 3,
                    Reason::Listed(_) => 4,
                };
                told[place] += 1;
            }
        }
    }
    assert!(told.iter().all(|&times| times >= 200), "some reason is hardly told: {told:?}");
}

/// As K11 of document 01: a clique, sometimes with a pair taken out, whose members but the first have leaves. The first
/// is isolated, and so are many members with it, but not few: the search has to add several at once.
fn crowned(random: &mut Random, members: usize) -> outside::graph::Graph {
    let leaves = random.between(1, members);
    let mut edges: Vec<(usize, usize)> = outside::graph::pairs(members).filter(|_| random.percent(98)).collect();
    let mut n = members;
    for member in 1..members {
        let its = if random.percent(80) { leaves } else { leaves - 1 };
        edges.extend((n..n + its).map(|leaf| (member, leaf)));
        n += its;
    }
    outside::graph::Graph::of_edges(n, &edges)
}

#[test]
fn cliques_that_lack_several_members() {
    let mut random = Random::new(12);
    let mut added = [0; 8];
    for _ in 0..200 {
        let members = random.between(3, 7);
        let mut tried = Tried::new(crowned(&mut random, members));
        for settings in all_settings(2..=8) {
            for bits in 1..1 << members {
                let set = tried.of_bits(bits);
                if let Reason::Larger(_, larger) = tried.check(&set, settings) {
                    if settings.kind == Kind::MaximalIsolated {
                        added[larger.size() - set.len()] += 1;
                    }
                }
            }
        }
    }
    assert!(added[1..6].iter().all(|&times| times >= 20), "too few lack several members: {added:?}");
}

/// Every clique of dense graphs.
#[test]
fn cliques_of_dense_graphs() {
    let mut random = Random::new(14);
    for _ in 0..20 {
        let n = random.between(10, 13);
        let mut tried = Tried::new(samples::dense(&mut random, n));
        for settings in all_settings([2, 5, 9]) {
            for bits in 1..1 << n {
                let set = tried.of_bits(bits);
                if tried.clique(&set) {
                    tried.check(&set, settings);
                }
            }
        }
    }
}

/// Groups of a graph of 1,024 vertices, and groups with a vertex more or less.
#[test]
fn sets_of_a_large_graph() {
    let mut random = Random::new(13);
    let mut tried = Tried::new(samples::scattered(&mut random, 1024));
    let (table, degrees) = (tried.table.clone(), tried.degrees.clone());
    let mut room = Room::new(1024);
    for settings in all_settings([1, 2, 4]) {
        let groups = Groups::new(&table, &degrees, 1024, settings, &mut room).unwrap();
        let groups: Vec<Vec<u16>> = groups.take(200).map(|group| group.vertices).collect();
        for _ in 0..20 {
            let mut set = Set::default();
            for &v in random.pick(&groups) {
                set = set.with(v.into());
            }
            let other = random.below(1024);
            let changed = if set.has(other) { set.without(other) } else { set.with(other) };
            let smaller = set.without(set.first().unwrap());
            for set in [set, changed, smaller] {
                tried.check(&set.members().collect::<Vec<usize>>(), settings);
            }
        }
    }
}

/// A complete graph of 1,024 vertices: the longest counts, and a search that adds all.
#[test]
fn sets_of_the_largest_complete_graph() {
    let mut tried = Tried::new(samples::complete(1024));
    for settings in all_settings([1, 500, 1024]) {
        for size in [1, 2, 1023, 1024] {
            tried.check(&(1024 - size..1024).collect::<Vec<usize>>(), settings);
        }
    }
    let all: Set = Set::of(&(0..1024).collect::<Vec<usize>>());
    assert_eq!(outside_counts(&tried.graph, &all), (0..1024).map(|v| (v, 0)).collect::<Counts>());
}
