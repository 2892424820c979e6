//! Planted sets with many common neighbours, and the definitions taken over all sets of these neighbours. A set is a number
//! here, with one bit a vertex.

use crate::graph::{pairs, Graph};
use crate::groups::Settings;
use crate::library::{SetAnswer, SetReply, SetRequest};
use crate::random::Random;

/// The vertices of a set, lowest first.
pub fn members(set: u128) -> impl Iterator<Item = usize> {
    let mut rest = set;
    std::iter::from_fn(move || {
        let lowest = (rest != 0).then(|| rest.trailing_zeros() as usize);
        rest &= rest.wrapping_sub(1);
        lowest
    })
}

/// A clique of k members with m common neighbours in a graph of n vertices. Of the pairs of these neighbours, 30 to 95 in a
/// hundred are joined, and further neighbours bring their degrees near one another. Every number is drawn.
pub fn planted(random: &mut Random, n: usize, k: usize, m: usize) -> (Graph, u128) {
    let density = random.between(30, 95);
    let (least, spread) = (random.between(m, k + m + 16), random.between(1, 6));
    let mut vertices: Vec<usize> = (0..n).collect();
    random.shuffle(&mut vertices);
    let (inside, others) = vertices.split_at_mut(k + m);
    let mut graph = Graph::empty(n);
    for (i, j) in pairs(k + m).filter(|&(i, _)| i < k || random.percent(density)) {
        graph.join(inside[i], inside[j]);
    }
    for &v in &inside[k..] {
        random.shuffle(others);
        let missing = (least + random.below(spread)).saturating_sub(graph.degree(v));
        others.iter().take(missing).for_each(|&u| graph.join(u, v));
    }
    // A few more neighbours of all members but one.
    for &u in others.iter().take(random.below(4)) {
        let one = random.below(k);
        (0..k).filter(|&i| i != one).for_each(|i| graph.join(u, inside[i]));
    }
    (graph, inside[..k].iter().map(|&v| 1 << v).sum())
}

/// A clique of a graph of up to 128 vertices, its common neighbours, and every larger clique that contains it: the clique
/// with some of these, the smallest first.
pub struct Posed {
    rows: Vec<u128>,
    pub set: u128,
    pub common: Vec<usize>,
    larger: Vec<u128>,
}

impl Posed {
    pub fn of(graph: &Graph, set: u128) -> Posed {
        let row = |u: usize| (0..graph.n).filter(|&v| graph.joined(u, v)).map(|v| 1 << v).sum();
        let rows: Vec<u128> = (0..graph.n).map(row).collect();
        let clique =
            |set: u128| set != 0 && members(set).all(|u| members(set).all(|v| u == v || rows[u] >> v & 1 == 1));
        assert!(clique(set), "{set:#b} is no clique of {graph:?}");
        let common: Vec<usize> = (0..graph.n).filter(|&v| members(set).all(|u| graph.joined(u, v))).collect();
        let with = |chosen: u128| set | members(chosen).map(|place| 1 << common[place]).sum::<u128>();
        let mut larger: Vec<u128> = (1..1 << common.len()).map(with).filter(|&larger| clique(larger)).collect();
        larger.sort_by_key(|larger| larger.count_ones());
        Posed { rows, set, common, larger }
    }

    /// The notions, by the neighbours of each member that are not in the clique.
    pub fn isolated(&self, clique: u128, settings: Settings) -> bool {
        let outside = |u: usize| (self.rows[u] & !clique).count_ones();
        match settings.notion {
            0 => members(clique).any(|u| outside(u) < settings.c),
            1 => members(clique).map(outside).sum::<u32>() < settings.c * clique.count_ones(),
            2 => members(clique).all(|u| outside(u) < settings.c),
            _ => unreachable!(),
        }
    }

    /// The smallest larger set that keeps the clique from qualifying: an isolated clique at kind 0, a clique at kind 1.
    pub fn beaten_by(&self, settings: Settings) -> Option<u128> {
        self.larger.iter().copied().find(|&larger| settings.kind == 1 || self.isolated(larger, settings))
    }
}

/// How often a set that is isolated was asked about at avg and max, kind 0: those of the answer no and of the answer yes, and
/// among them those with more than 8 common neighbours; and the answers no where every larger isolated clique has at least 4
/// members more.
#[derive(Default, Debug)]
pub struct Said {
    pub all: [u32; 2],
    pub deep: [u32; 2],
    pub far: u32,
}

impl Said {
    fn count(&mut self, posed: &Posed, settings: Settings, beaten_by: Option<u128>) {
        if settings.kind == 0 && settings.notion != 0 && posed.isolated(posed.set, settings) {
            let yes = usize::from(beaten_by.is_none());
            self.all[yes] += 1;
            self.deep[yes] += u32::from(posed.common.len() > 8);
            self.far += u32::from(beaten_by.is_some_and(|larger| larger.count_ones() >= posed.set.count_ones() + 4));
        }
    }
}

/// Asks about a set at avg and max, kind 0, with every factor to 32, and at one factor at every notion and kind. Is there a
/// request that is not answered as the definitions say?
pub fn differing(
    random: &mut Random,
    (graph, set): &(Graph, u128),
    said: &mut Said,
    query: impl Fn(&SetRequest) -> SetReply,
) -> Option<SetRequest> {
    let posed = Posed::of(graph, *set);
    let searched = (1..=32).flat_map(|c| [1, 2].map(|notion| Settings { notion, kind: 0, c }));
    let c = random.between(posed.common.len().max(1), 32) as u32;
    for settings in searched.chain(Settings::all(c)) {
        let beaten_by = posed.beaten_by(settings);
        said.count(&posed, settings, beaten_by);
        let yes = (posed.isolated(*set, settings) && beaten_by.is_none()).into();
        let expected = SetReply { answer: SetAnswer { refusal: 0, yes }, work: None };
        let bytes = (0..graph.n).map(|v| (set >> v & 1) as u8).collect();
        let mut request = SetRequest::of(random, graph, settings, bytes);
        for contents in 0..4 {
            match contents {
                0 => {}
                1 => request.work.fill(0),
                2 => request.work.fill(u16::MAX),
                // These could be depths.
                _ => request.work.iter_mut().for_each(|entry| *entry = random.below(20) as u16),
            }
            if query(&request) != expected {
                return Some(request);
            }
        }
    }
    None
}
