//! Faults of the graph that is lent and of the ends of an edit, and how the calls turn them back.

use crate::calls;
use crate::graph::Graph;
use crate::groups::Settings;
use crate::library::{self, Edit, EditAnswer, EditReply, EditRequest, PageAnswer, PageRequest, SetAnswer, SetRequest};
use crate::packed;
use crate::random::Random;
use std::fmt;

/// A graph as it is lent: a packed table, a list of degrees and n, which need not fit one another.
#[derive(Clone)]
pub struct LentGraph {
    pub table: Vec<u64>,
    pub degrees: Vec<u16>,
    pub n: usize,
}

impl LentGraph {
    pub fn of(graph: &Graph) -> LentGraph {
        LentGraph { table: packed::pack(graph), degrees: graph.degrees(), n: graph.n }
    }

    /// Puts the fault of a number, 2, 45, 4, 5 or 42, into a graph of 15 vertices or more: in row or column 14 or a later
    /// one, at degree 14 or a later one, or in a length. 45 is only for n that are no multiple of 64.
    pub fn spoil(&mut self, random: &mut Random, number: u32) {
        let n = self.n;
        let (u, step) = (random.between(14, n - 1), random.between(1, n - 1));
        let v = (u + step) % n;
        match number {
            2 if random.percent(50) => self.table.push(0),
            2 => self.table.truncate(n * packed::row_numbers(n) - 1),
            45 => packed::put(&mut self.table, n, u, packed::stray_place(random, n).unwrap(), true),
            4 => packed::put(&mut self.table, n, u, u, true),
            5 if random.percent(50) => packed::turn(&mut self.table, n, u, v),
            5 => packed::turn(&mut self.table, n, v, u),
            42 => self.degrees[u] = self.degrees[u].wrapping_add(*random.pick(&[1, u16::MAX, 255, 256, 1 << 15])),
            _ => unreachable!(),
        }
    }
}

/// The numbers of the table that are not 0, each with its place.
impl fmt::Debug for LentGraph {
    fn fmt(&self, out: &mut fmt::Formatter<'_>) -> fmt::Result {
        let numbers: Vec<_> = self.table.iter().enumerate().filter(|(_, &number)| number != 0).collect();
        write!(out, "n {}, table of {} numbers {numbers:x?}, degrees {:?}", self.n, self.table.len(), self.degrees)
    }
}

/// A number of vertices from 15 on, mostly a small one.
pub fn middle_or_large(random: &mut Random) -> usize {
    match random.below(20) {
        0 => 1024,
        1..=3 => *random.pick(&[255, 256, 257, 300]),
        4..=8 => random.between(63, 65),
        _ => random.between(15, 40),
    }
}

/// Page, set query and both edits turn back this graph by this number and leave all lent memory as it was; the count of
/// the degrees does as the reference says.
pub fn check_refused(random: &mut Random, lent: &LentGraph, refusal: u32) {
    let LentGraph { table, degrees, n } = lent.clone();
    let c = *random.pick(&[1, 2, 3, 1024]);
    let settings = Settings::any(random, c);
    let (output, budget) = (random.below(20), random.below(50) as u32);
    let (output, work) = (random.entries(output), random.entries(8 * n));
    let page = PageRequest { table, degrees, position: vec![0; n], output, work, n, settings, budget };
    assert_eq!(calls::page_refusal(&page), Some(refusal), "the reference's refusal of {lent:?}");
    let reply = library::page(&page);
    assert_eq!(reply.answer, PageAnswer { refusal, ..PageAnswer::default() }, "{lent:?}");
    assert!(reply.position == page.position && reply.output == page.output, "a refused page wrote: {lent:?}");
    assert!(reply.work.as_ref() == Some(&page.work), "a refused page wrote its work slice: {lent:?}");

    let set = (0..n).map(|_| random.below(2) as u8).collect();
    let PageRequest { table, degrees, work, .. } = page;
    let query = SetRequest { table, degrees, set, work, n, settings };
    let reply = library::set_query(&query);
    assert_eq!(reply.answer, SetAnswer { refusal, yes: 0 }, "{lent:?}");
    assert!(reply.work.as_ref() == Some(&query.work), "a refused set query wrote its work slice: {lent:?}");

    let (u, v) = if n > 1 { random.pair(n) } else { (0, 0) };
    let SetRequest { table, degrees, .. } = query;
    let request = EditRequest { table, degrees, n, u, v };
    for edit in Edit::BOTH {
        assert!(library::edit(edit, &request) == refused(&request, refusal), "{edit:?} {u} {v} to {lent:?}");
    }
    let EditRequest { table, degrees, .. } = request;
    let counted = library::degrees(&table, &degrees, n);
    assert!(counted == calls::degrees(&table, &degrees, n), "the count of the degrees: {lent:?}");
}

/// What a refused edit replies.
pub fn refused(request: &EditRequest, refusal: u32) -> EditReply {
    let EditRequest { table, degrees, .. } = request.clone();
    EditReply { answer: EditAnswer { refusal, unchanged: 0 }, table, degrees }
}

/// Ends of an edit of which one is no vertex, or which are the same vertex.
pub fn wrong_ends(random: &mut Random, n: usize) -> (usize, usize) {
    let over = *random.pick(&[n, n + 1, 1023.max(n), 1024, 1 << 32, usize::MAX - 1, usize::MAX]);
    match random.below(4) {
        0 if n > 0 => (over, random.below(n)),
        1 if n > 0 => (random.below(n), over),
        2 if n > 0 => {
            let u = random.below(n);
            (u, u)
        }
        _ => (over, *random.pick(&[over, n, usize::MAX])),
    }
}

/// Lists of degrees that are not those of the table: one entry more or less, one entry wrong, those of another graph.
pub fn wrong_list(random: &mut Random, degrees: &[u16]) -> Vec<u16> {
    let mut wrong = degrees.to_vec();
    let n = wrong.len();
    match random.below(5) {
        0 if n > 0 => wrong.truncate(random.below(n)),
        1 if n > 0 => wrong[random.below(n)] ^= 1 << random.below(16),
        2 if n > 1 => {
            let (u, v) = random.pair(n);
            wrong[u] = wrong[u].wrapping_add(1);
            wrong[v] = wrong[v].wrapping_sub(1);
        }
        3 if n > 1 => {
            let (u, v) = random.pair(n);
            wrong[u] = wrong[u].wrapping_add(1);
            wrong[v] = wrong[v].wrapping_add(1);
        }
        _ => {
            let more = random.between(1, 3);
            wrong.extend(random.entries(more));
        }
    }
    wrong
}
