//! The library's answers to tests for a larger isolated clique, by the set query, and the time of its search alone.

use crate::clock::{rounds, Rounds};
use crate::packed::Packed;
use crate::posed::Posed;
use isolated::{set_query, work_entries, Kind, Settings};
use std::cell::RefCell;
use std::hint::black_box;

pub struct Queried<'a> {
    graph: &'a Packed,
    settings: Settings,
    sets: Vec<Vec<u8>>,
    work: Vec<u16>,
}

impl<'a> Queried<'a> {
    pub fn new(graph: &'a Packed, settings: Settings, tests: &[Posed]) -> Queried<'a> {
        let set = |posed: &Posed| (0..graph.n).map(|v| u8::from(posed.members.contains(&(v as u16)))).collect();
        Queried { graph, settings, sets: tests.iter().map(set).collect(), work: vec![0; work_entries(graph.n)] }
    }

    /// The tests that the answer is yes to: isolated cliques that are no groups.
    pub fn yes(&mut self, kind: Kind) -> usize {
        let Packed { n, table, degrees } = black_box(self.graph);
        let settings = Settings { kind, ..self.settings };
        let mut group = |set: &Vec<u8>| set_query(table, degrees, set, &mut self.work, *n, settings).unwrap();
        self.sets.iter().filter(|set| !group(set)).count()
    }

    /// Times so many queries a round beside a job: the job, the search alone, and the rest of the query. At kind 1 a query does
    /// the same but for the search, since there a common neighbour decides.
    pub fn beside(&mut self, job: &mut dyn FnMut(), times: usize) -> Rounds {
        let queried = RefCell::new(self);
        let queries = |kind: Kind| {
            for _ in 0..times {
                black_box(queried.borrow_mut().yes(kind));
            }
        };
        let rounds = rounds(&mut [job, &mut || queries(Kind::MaximalIsolated), &mut || queries(Kind::IsolatedMaximal)]);
        rounds.map(|round| vec![round[0], round[1] - round[2], round[2]])
    }
}
