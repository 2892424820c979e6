//! Why a set is listed or not: document 01, "Which sets qualify", in its order.

use crate::graph::{Graph, Set};
use crate::larger::{larger_clique, larger_isolated};
use isolated::{Kind, Notion, Settings};

/// Each member with its outside count: the number of its neighbours that are not in the set.
pub type Counts = Vec<(usize, usize)>;

/// Why a set is listed or not.
#[derive(Clone, Debug, PartialEq, Eq)]
pub enum Reason {
    /// It has no member.
    Empty,
    /// These two members are not joined.
    NotJoined(usize, usize),
    /// It is a clique with these outside counts, and not isolated.
    NotIsolated(Counts),
    /// It is an isolated clique with these outside counts, and this larger set stands against it: under kind 0 an
    /// isolated clique, under kind 1 a clique.
    Larger(Counts, Set),
    /// It is listed, with these outside counts.
    Listed(Counts),
}

impl Reason {
    #[must_use]
    pub fn listed(&self) -> bool {
        matches!(self, Reason::Listed(_))
    }
}

/// The outside count of each member.
#[must_use]
pub fn outside_counts(graph: &Graph, set: &Set) -> Counts {
    set.members().map(|v| (v, graph.neighbours(v).less(set).size())).collect()
}

/// Is a clique with these outside counts isolated?
pub fn isolated(counts: &Counts, notion: Notion, c: usize) -> bool {
    match notion {
        Notion::Min => counts.iter().any(|&(_, count)| count < c),
        Notion::Avg => counts.iter().map(|&(_, count)| count).sum::<usize>() < c * counts.len(),
        Notion::Max => counts.iter().all(|&(_, count)| count < c),
    }
}

/// Why this set is listed or not. What the search for a larger set finds counts only where it is such a set by the
/// definitions: a fault of the search is then no false reason, but one that the library's answer gives away.
#[must_use]
pub fn reason(graph: &Graph, set: &Set, settings: Settings) -> Reason {
    let c = settings.c as usize;
    if *set == Set::default() {
        return Reason::Empty;
    }
    if let Some((u, v)) = unjoined(graph, set) {
        return Reason::NotJoined(u, v);
    }
    let counts = outside_counts(graph, set);
    if !isolated(&counts, settings.notion, c) {
        return Reason::NotIsolated(counts);
    }
    let larger = match settings.kind {
        Kind::MaximalIsolated => larger_isolated(graph, set, settings.notion, c)
            .filter(|larger| isolated(&outside_counts(graph, larger), settings.notion, c)),
        Kind::IsolatedMaximal => larger_clique(graph, set),
    };
    let contains = |larger: &Set| *larger != *set && set.less(larger) == Set::default();
    match larger.filter(|larger| contains(larger) && unjoined(graph, larger).is_none()) {
        Some(larger) => Reason::Larger(counts, larger),
        None => Reason::Listed(counts),
    }
}

/// Two members that are not joined.
fn unjoined(graph: &Graph, set: &Set) -> Option<(usize, usize)> {
    set.members().find_map(|u| Some((u, set.less(graph.neighbours(u)).without(u).first()?)))
}
