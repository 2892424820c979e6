//! Larger cliques that contain a clique.

use crate::graph::{Graph, Set};
use isolated::Notion;

/// A larger clique that contains this clique, if there is one: it is taken as far as it goes, always by the smallest
/// vertex that can be added.
pub fn larger_clique(graph: &Graph, clique: &Set) -> Option<Set> {
    let mut larger = *clique;
    let mut common = graph.common_neighbours(clique);
    while let Some(v) = common.first() {
        larger = larger.with(v);
        common = common.and(graph.neighbours(v));
    }
    (larger != *clique).then_some(larger)
}

/// A larger isolated clique that contains this clique, if there is one.
///
/// What can be added are its common neighbours. The time is exponential in their number at worst: some of them, of any
/// number, may be isolated with it though no fewer are.
pub fn larger_isolated(graph: &Graph, clique: &Set, notion: Notion, c: usize) -> Option<Set> {
    let mut vertices: Vec<usize> = graph.common_neighbours(clique).members().collect();
    vertices.sort_by_key(|&v| graph.degree(v));
    let near = |&u: &usize| {
        Set::of(&(0..vertices.len()).filter(|&place| graph.joined(u, vertices[place])).collect::<Vec<usize>>())
    };
    let search = Search {
        near: vertices.iter().map(near).collect(),
        degrees: vertices.iter().map(|&v| graph.degree(v)).collect(),
        notion,
        c,
    };
    let all = Set::of(&(0..vertices.len()).collect::<Vec<usize>>());
    let added = search.add(Degrees::of(graph, clique), Set::default(), all)?;
    Some(added.members().fold(*clique, |larger, place| larger.with(vertices[place])))
}

/// What isolation asks of a clique: in one of k members the outside count of a member is its degree less k - 1.
#[derive(Clone, Copy)]
struct Degrees {
    members: usize,
    least: usize,
    sum: usize,
    most: usize,
}

impl Degrees {
    fn of(graph: &Graph, clique: &Set) -> Degrees {
        let none = Degrees { members: 0, least: usize::MAX, sum: 0, most: 0 };
        clique.members().fold(none, |degrees, v| degrees.and(graph.degree(v)))
    }

    /// With one member more, of this degree.
    fn and(self, degree: usize) -> Degrees {
        Degrees {
            members: self.members + 1,
            least: self.least.min(degree),
            sum: self.sum + degree,
            most: self.most.max(degree),
        }
    }

    fn isolated(self, notion: Notion, c: usize) -> bool {
        let inside = self.members - 1;
        match notion {
            Notion::Min => self.least < c + inside,
            Notion::Avg => self.sum < (c + inside) * self.members,
            Notion::Max => self.most < c + inside,
        }
    }
}

/// The search among the common neighbours, which are numbered here by their places in the order of degrees.
struct Search {
    near: Vec<Set>,
    degrees: Vec<usize>,
    notion: Notion,
    c: usize,
}

impl Search {
    /// Candidates to add to the clique with these degrees, so that it is isolated, as many as it takes; `added` are those
    /// of it that were added before, and every candidate is joined to every member.
    fn add(&self, degrees: Degrees, added: Set, mut candidates: Set) -> Option<Set> {
        while let Some(v) = self.promising(degrees, candidates) {
            let (degrees, added) = (degrees.and(self.degrees[v]), added.with(v));
            if degrees.isolated(self.notion, self.c) {
                return Some(added);
            }
            let found = self.add(degrees, added, candidates.and(&self.near[v]));
            if found.is_some() {
                return found;
            }
            candidates = candidates.without(v);
        }
        None
    }

    /// A candidate to go on with; none where no clique of candidates can make this one isolated.
    ///
    /// The candidates are parted into classes of pairwise unjoined ones. A clique has at most one of each class, so with
    /// j of them its degrees are at best the j least degrees of classes; for a fixed number of members, lower degrees
    /// only help. The classes are made in the order of their least degrees, which their first members have.
    fn promising(&self, mut degrees: Degrees, mut candidates: Set) -> Option<usize> {
        let mut hope = false;
        let mut last = None;
        while let Some(first) = candidates.first() {
            let mut class = candidates;
            while let Some(v) = class.first() {
                candidates = candidates.without(v);
                class = class.without(v).less(&self.near[v]);
            }
            degrees = degrees.and(self.degrees[first]);
            hope |= degrees.isolated(self.notion, self.c);
            last = Some(first);
        }
        last.filter(|_| hope)
    }
}
