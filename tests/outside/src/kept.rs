//! A graph that is kept up to date by edits: a set of pairs, and beside it the memory that the library edits.

use crate::graph::Graph;
use crate::groups::{Reference, Settings};
use crate::library::{self, Edit, EditAnswer, EditRequest, PageRequest};
use crate::packed;
use crate::random::Random;
use std::collections::BTreeSet;

/// A graph as the set of its joined pairs, the smaller vertex first, and beside it the memory that edits are lent.
pub struct Kept {
    pub n: usize,
    pub pairs: BTreeSet<(usize, usize)>,
    pub table: Vec<u64>,
    pub degrees: Vec<u16>,
}

impl Kept {
    pub fn of(graph: &Graph) -> Kept {
        let pairs = graph.edges().into_iter().collect();
        Kept { n: graph.n, pairs, table: packed::pack(graph), degrees: graph.degrees() }
    }

    /// The graph of the set of pairs.
    pub fn graph(&self) -> Graph {
        Graph::of_edges(self.n, &self.pairs.iter().copied().collect::<Vec<_>>())
    }

    pub fn request(&self, u: usize, v: usize) -> EditRequest {
        EditRequest { table: self.table.clone(), degrees: self.degrees.clone(), n: self.n, u, v }
    }

    /// The lent memory is that of the set.
    fn check(&self) {
        let mut degrees = vec![0; self.n];
        for &(u, v) in &self.pairs {
            degrees[u] += 1;
            degrees[v] += 1;
        }
        assert_eq!(self.degrees, degrees, "the degrees of {:?}", self.graph());
        assert!(self.table == packed::pack(&self.graph()), "the table is not that of {:?}", self.graph());
    }

    /// An edit that is accepted, by the library and in the set; whether it changed anything.
    pub fn edit(&mut self, edit: Edit, u: usize, v: usize) -> bool {
        let reply = library::edit(edit, &self.request(u, v));
        let pair = (u.min(v), u.max(v));
        let changed = match edit {
            Edit::Join => self.pairs.insert(pair),
            Edit::Part => self.pairs.remove(&pair),
        };
        let answer = EditAnswer { refusal: 0, unchanged: (!changed).into() };
        assert_eq!(reply.answer, answer, "{edit:?} {u} {v} to {:?}", self.graph());
        (self.table, self.degrees) = (reply.table, reply.degrees);
        self.check();
        changed
    }

    /// The other state of a pair, whatever it is now.
    pub fn turn(&mut self, (u, v): (usize, usize)) {
        let joined = self.pairs.contains(&(u.min(v), u.max(v)));
        assert!(self.edit(if joined { Edit::Part } else { Edit::Join }, u, v), "{u} and {v} were so already");
    }

    /// A page call over the lent memory.
    pub fn page(&self, random: &mut Random, settings: Settings, position: &[u8]) -> PageRequest {
        let most = if self.n > 14 { 200 * self.n } else { 200 };
        let (entries, budget) = (self.n + 3 + random.below(20), random.between(1, most) as u32);
        let mut request = PageRequest::fresh(random, &Graph::empty(self.n), settings, entries, budget);
        (request.table, request.degrees) = (self.table.clone(), self.degrees.clone());
        request.position = position.to_vec();
        request
    }

    /// Goes on from a position to the end of the walk and returns the used entries. Between two pages `between` may do
    /// what it likes.
    pub fn rest(
        &mut self,
        random: &mut Random,
        settings: Settings,
        position: &[u8],
        mut between: impl FnMut(&mut Random, &mut Kept, &[u8]),
    ) -> Vec<u16> {
        let (mut position, mut joined) = (position.to_vec(), Vec::new());
        loop {
            let reply = library::page(&self.page(random, settings, &position));
            assert_eq!(reply.answer.refusal, 0, "{:?} at {settings:?}", self.graph());
            joined.extend_from_slice(&reply.output[..reply.answer.used]);
            position = reply.position;
            if reply.answer.stop == 1 {
                return joined;
            }
            between(random, self, &position);
        }
    }

    /// The whole list from the fresh position is that of the reference.
    pub fn check_list(&mut self, random: &mut Random, reference: &Reference, settings: Settings) {
        let joined = self.rest(random, settings, &vec![0; self.n], |_, _, _| {});
        assert_eq!(joined, reference.full_list(settings).entries(), "{:?} at {settings:?}", self.graph());
    }
}
