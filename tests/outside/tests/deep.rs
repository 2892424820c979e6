//! The search for a larger isolated clique where it is deep: planted sets of 1 to 4 members with up to 14 common
//! neighbours, many of them joined to one another. The set query against the definitions, over work slices of all sorts;
//! the whole lists of small such graphs; and set queries whose search has a fault, which the comparison finds.

use outside::calls;
use outside::cases::{alone, cases};
use outside::graph::Graph;
use outside::groups::{Reference, Settings};
use outside::library::{self, PageRequest, SetAnswer, SetReply, SetRequest};
use outside::packed;
use outside::planted::{differing, members, planted, Said};
use outside::random::Random;
use std::iter::repeat_n;

/// A planted set, mostly with many common neighbours, in a graph with room for further ones, often in a second number of a
/// row.
fn sample(random: &mut Random) -> (Graph, u128) {
    let (k, m) = (random.between(1, 4), random.below(15).max(random.below(15)));
    let most = *random.pick(&[64, 128]);
    let n = random.between(k + m, most).max(random.between(40, most));
    planted(random, n, k, m)
}

#[test]
fn deep_sets() {
    let mut said = Said::default();
    cases("deep_sets", 500, |random| {
        let sample = sample(random);
        let wrong = differing(random, &sample, &mut said, library::set_query);
        assert!(wrong.is_none(), "{:?} of {:?}: {wrong:?}", members(sample.1).collect::<Vec<_>>(), sample.0);
    });
    let often = said.all.iter().chain(&said.deep).all(|&times| times > 1000) && said.far > 200;
    assert!(alone() || often, "{said:?}");
}

/// The whole list in one call, over a work slice of anything, of zeros and of the largest entries.
#[test]
fn lists_with_deep_sets() {
    cases("lists_with_deep_sets", 150, |random| {
        let (n, k) = (random.between(6, 14), random.between(1, 4));
        let m = random.between(2, n - k);
        let reference = Reference::of(planted(random, n, k, m).0);
        for settings in (1..=14).flat_map(Settings::all) {
            let list = reference.full_list(settings);
            let entries = list.entries();
            let mut request = PageRequest::fresh(random, &reference.graph, settings, entries.len() + 2, u32::MAX);
            let expected = calls::page(&request, &list);
            assert_eq!((expected.answer.stop, &expected.output[..entries.len()]), (1, entries), "the reference");
            for contents in [None, Some(0), Some(u16::MAX)] {
                contents.into_iter().for_each(|entry| request.work.fill(entry));
                assert_eq!(library::page(&request), expected, "{:?} at {settings:?}", reference.graph);
            }
        }
    });
}

#[derive(Clone, Copy, PartialEq, Debug)]
enum Fault {
    Sound,
    /// The candidates after the first are not searched without it.
    FirstAlone,
    /// A mark that stood there before the first candidate is added stays.
    NotCleared,
    NotBroughtBack,
    /// Those that dropped out one depth before are brought back too.
    TooManyBack,
    /// A candidate that dropped out before is marked with the new depth.
    MarkedAgain,
    DroppedTried,
    TooFewCounted,
}

const FAULTS: [Fault; 8] = {
    use Fault::*;
    [Sound, FirstAlone, NotCleared, NotBroughtBack, TooManyBack, MarkedAgain, DroppedTried, TooFewCounted]
};

/// A set query that answers as the library's does, by the same steps, but for its fault.
struct Faulty<'a> {
    request: &'a SetRequest,
    common: Vec<usize>,
    marks: Vec<u16>,
    low: i64,
    fault: Fault,
}

impl Faulty<'_> {
    fn query(request: &SetRequest, fault: Fault) -> SetReply {
        let (n, Settings { notion, kind, .. }) = (request.n, request.settings);
        let set: u128 = (0..n).filter(|&v| request.set[v] == 1).map(|v| 1 << v).sum();
        let joined = |u: usize, v: usize| packed::bit(&request.table, n, u, v);
        let common: Vec<usize> = (0..n).filter(|&v| members(set).all(|u| joined(u, v))).collect();
        let m = common.len();
        let marks = request.work[4 * n..4 * n + m].to_vec();
        let mut search = Faulty { request, common, marks, low: 0, fault };
        let beaten = if notion == 0 || kind == 1 { m > 0 } else { search.beaten(set) };
        let yes = (search.isolated(set, 0) && !beaten).into();
        SetReply { answer: SetAnswer { refusal: 0, yes }, work: None }
    }

    /// By the degrees, with so many more members of the least degree.
    fn isolated(&self, set: u128, more: usize) -> bool {
        let (notion, c) = (self.request.settings.notion, i64::from(self.request.settings.c));
        let others = i64::from(set.count_ones()) + more as i64 - 1;
        let degrees = members(set).map(|v| i64::from(self.request.degrees[v]));
        let mut outside = degrees.chain(repeat_n(self.low.max(others), more)).map(|degree| degree - others);
        match notion {
            0 => outside.any(|count| count < c),
            1 => outside.sum::<i64>() < c * (others + 1),
            _ => outside.all(|count| count < c),
        }
    }

    fn hopeless(&self, set: u128, left: usize) -> bool {
        left == 0 || !self.isolated(set, left) && !self.isolated(set, 1)
    }

    fn beaten(&mut self, set: u128) -> bool {
        let m = self.common.len();
        if self.hopeless(set, m) {
            return false;
        }
        let with = set | 1 << self.common[0];
        if self.isolated(with, 0) {
            return true;
        }
        self.low = self.common[1..].iter().map(|&v| i64::from(self.request.degrees[v])).min().unwrap_or(0);
        if self.fault != Fault::NotCleared {
            self.marks.fill(0);
        }
        if self.search_with(with, 0) {
            return true;
        }
        self.fault != Fault::FirstAlone && !self.hopeless(set, m - 1) && self.search(set, 1, m - 1)
    }

    fn search(&mut self, set: u128, from: usize, mut left: usize) -> bool {
        for place in from..self.common.len() {
            if self.marks[place] != 0 && self.fault != Fault::DroppedTried {
                continue;
            }
            left = left.saturating_sub(1);
            let with = set | 1 << self.common[place];
            if self.isolated(with, 0) || !self.hopeless(with, left) && self.search_with(with, place) {
                return true;
            }
            if self.hopeless(set, left) {
                return false;
            }
        }
        false
    }

    /// With the candidate at the place added, which is the last member of the set.
    fn search_with(&mut self, with: u128, place: usize) -> bool {
        let depth = with.count_ones() as u16;
        let kept = self.drop_out(place, depth);
        if !self.hopeless(with, kept) && self.search(with, place + 1, kept) {
            return true;
        }
        self.bring_back(place, depth);
        false
    }

    fn drop_out(&mut self, place: usize, depth: u16) -> usize {
        for later in place + 1..self.common.len() {
            let SetRequest { table, n, .. } = self.request;
            let joined = packed::bit(table, *n, self.common[place], self.common[later]);
            if !joined && (self.marks[later] == 0 || self.fault == Fault::MarkedAgain) {
                self.marks[later] = depth;
            }
        }
        let kept = self.marks[place + 1..].iter().filter(|&&mark| mark == 0).count();
        kept.saturating_sub((self.fault == Fault::TooFewCounted).into())
    }

    fn bring_back(&mut self, place: usize, depth: u16) {
        let also = if self.fault == Fault::TooManyBack { depth - 1 } else { depth };
        let back = |mark: u16| (mark == depth || mark == also) && self.fault != Fault::NotBroughtBack;
        self.marks[place + 1..].iter_mut().filter(|mark| back(**mark)).for_each(|mark| *mark = 0);
    }
}

/// A search without a fault is not found, and each of the others is.
#[test]
fn faulty_searches() {
    let mut found = [0; FAULTS.len()];
    cases("faulty_searches", 100, |random| {
        let sample = sample(random);
        for (times, fault) in found.iter_mut().zip(FAULTS) {
            let query = |request: &SetRequest| Faulty::query(request, fault);
            *times += u32::from(differing(random, &sample, &mut Said::default(), query).is_some());
        }
    });
    assert!(found[0] == 0 && (alone() || found[1..].iter().all(|&times| times > 5)), "{found:?} of {FAULTS:?}");
}
