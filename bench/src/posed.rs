//! The test for a larger isolated clique as a page poses it: a clique, and the other neighbours of its pivot.

use crate::graphs::Graph;
use crate::packed::{joined, row, Packed};
use crate::tally::Tally;
use isolated::Settings;

/// A clique whose last rank is decided.
pub struct Posed {
    pub members: Vec<u16>,
    pub numbers: Tally,
    /// The pivot's neighbours that are not members.
    left: Vec<u16>,
}

impl Posed {
    /// The vertices of the graph are numbered by rank, so the first member is the pivot.
    pub fn new(graph: &Graph, members: &[usize]) -> Posed {
        let left = (0..graph.n).filter(|v| graph.joined(members[0], *v) && !members.contains(v));
        Posed {
            members: members.iter().map(|&v| v as u16).collect(),
            numbers: Tally::of(members.iter().map(|&v| graph.degree(v))),
            left: left.map(|v| v as u16).collect(),
        }
    }

    /// Is the clique isolated, and live where all ranks are decided?
    pub fn stands(&self, settings: Settings) -> bool {
        self.numbers.isolated(settings) && self.left.len() < settings.c as usize
    }
}

/// What a test is lent, the parts of its work slice among it, and the nodes that it visits: the larger cliques looked at.
pub struct Lent<'a> {
    table: &'a [u64],
    degrees: &'a [u16],
    n: usize,
    pub settings: Settings,
    pub members: Vec<u16>,
    pub candidates: Vec<u16>,
    pub marks: Vec<u16>,
    pub nodes: u64,
}

impl<'a> Lent<'a> {
    pub fn new(graph: &'a Packed, settings: Settings) -> Lent<'a> {
        let Packed { n, table, degrees } = graph;
        let part = || vec![0; *n];
        Lent { table, degrees, n: *n, settings, members: part(), candidates: part(), marks: part(), nodes: 0 }
    }

    /// Lists the common neighbours of the members; how many they are. Both sides list by this code.
    #[inline(never)]
    pub fn list(&mut self, posed: &Posed) -> usize {
        let k = posed.members.len();
        self.members[..k].copy_from_slice(&posed.members);
        let mut m = 0;
        for &v in &posed.left {
            if self.joined_to_all(v, &self.members[..k]) {
                self.candidates[m] = v;
                m += 1;
            }
        }
        m
    }

    pub fn row(&self, v: u16) -> &'a [u64] {
        row(self.table, self.n, v as usize)
    }

    pub fn degree(&self, v: u16) -> usize {
        self.degrees[v as usize] as usize
    }

    /// Is v joined to each of these?
    pub fn joined_to_all(&self, v: u16, others: &[u16]) -> bool {
        let row = self.row(v);
        others.iter().all(|&u| joined(row, u as usize))
    }

    /// The numbers with v among the members: one node more.
    pub fn with(&mut self, numbers: Tally, v: u16) -> Tally {
        self.nodes += 1;
        numbers.with_member(self.degree(v))
    }
}
