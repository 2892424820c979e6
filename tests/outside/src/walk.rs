//! Document 01, "The walk", word by word: nothing is kept between two steps but the position.

use crate::graph::Graph;

pub const OPEN: u8 = 0;
pub const TAKEN: u8 = 1;
pub const LEFT: u8 = 2;

pub struct Walk<'a> {
    graph: &'a Graph,
    order: Vec<usize>,
    c: usize,
}

impl<'a> Walk<'a> {
    pub fn new(graph: &'a Graph, c: u32) -> Walk<'a> {
        Walk { graph, order: graph.order(), c: c as usize }
    }

    pub fn fresh(&self) -> Vec<u8> {
        vec![OPEN; self.graph.n]
    }

    pub fn finished(&self, position: &[u8]) -> bool {
        position.iter().all(|&byte| byte == LEFT)
    }

    fn adjacent(&self, r: usize, s: usize) -> bool {
        self.graph.joined(self.order[r], self.order[s])
    }

    /// Dead: two taken ranks are not adjacent, or something is taken and at least c neighbours of the pivot are left.
    pub fn dead(&self, position: &[u8]) -> bool {
        let is = |byte: u8| (0..position.len()).filter(move |&r| position[r] == byte);
        let Some(pivot) = is(TAKEN).next() else { return false };
        is(TAKEN).any(|r| is(TAKEN).any(|s| r < s && !self.adjacent(r, s)))
            || is(LEFT).filter(|&r| self.adjacent(pivot, r)).count() >= self.c
    }

    /// One step from an unfinished position.
    pub fn step(&self, position: &mut [u8]) {
        let open = position.iter().position(|&byte| byte == OPEN);
        match open {
            Some(lowest) if !self.dead(position) => position[lowest] = TAKEN,
            _ => {
                let highest = position.iter().rposition(|&byte| byte == TAKEN).expect("unfinished, so one is taken");
                position[highest] = LEFT;
                position[highest + 1..].fill(OPEN);
            }
        }
    }

    pub fn decided(&self, position: &[u8]) -> bool {
        position.iter().all(|&byte| byte != OPEN)
    }

    /// The vertices of the taken ranks, in rank order.
    pub fn taken(&self, position: &[u8]) -> Vec<usize> {
        (0..position.len()).filter(|&r| position[r] == TAKEN).map(|r| self.order[r]).collect()
    }

    /// The walk from fresh to finished: its length, and each taken set that it moves on from with all ranks decided.
    pub fn whole(&self) -> (u64, Vec<Vec<usize>>) {
        let (mut position, mut length, mut sets) = (self.fresh(), 0, Vec::new());
        while !self.finished(&position) {
            if self.decided(&position) {
                sets.push(self.taken(&position));
            }
            self.step(&mut position);
            length += 1;
        }
        (length, sets)
    }
}
