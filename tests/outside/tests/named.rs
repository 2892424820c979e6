//! The runs that document 01 names: K1 to K11, the path, the stars, budget 0 and the largest factor, the records as document
//! 02, C-14, has them.

use outside::graph::Graph;
use outside::groups::{Reference, Settings};
use outside::library::{self, PageAnswer, PageReply, PageRequest};
use outside::random::Random;
use outside::samples;

const MIN: u32 = 0;
const AVG: u32 = 1;
const MAX: u32 = 2;

fn request(graph: &Graph, notion: u32, kind: u32, c: u32) -> PageRequest {
    PageRequest::fresh(&mut Random::new(0), graph, Settings { notion, kind, c }, 100, u32::MAX)
}

/// The whole list in one call, as entries and steps; the reference must give the same entries.
fn whole(graph: &Graph, notion: u32, kind: u32, c: u32) -> (Vec<u16>, u32) {
    let reply = library::page(&request(graph, notion, kind, c));
    assert_eq!((reply.answer.refusal, reply.answer.stop), (0, 1));
    let entries = reply.output[..reply.answer.used].to_vec();
    let list = Reference::of(graph.clone()).full_list(Settings { notion, kind, c });
    assert_eq!(entries, list.entries(), "{graph:?} {notion} {kind} {c}");
    (entries, reply.answer.steps)
}

/// The same entries and length for each of these notions and for both kinds.
fn both_kinds(graph: &Graph, notions: &[u32], c: u32, entries: &[u16], length: u32) {
    for &notion in notions {
        for kind in 0..2 {
            assert_eq!(whole(graph, notion, kind, c), (entries.to_vec(), length), "{graph:?} {notion} {kind} {c}");
        }
    }
}

#[test]
fn k1_no_vertices() {
    for c in [1, 2, 1024] {
        both_kinds(&Graph::empty(0), &[MIN, AVG, MAX], c, &[], 0);
    }
}

#[test]
fn k2_one_vertex() {
    both_kinds(&Graph::empty(1), &[MIN, AVG, MAX], 1, &[1, 0, 0, 0], 2);
}

#[test]
fn k3_two_unjoined_vertices() {
    both_kinds(&Graph::empty(2), &[MAX], 1, &[1, 0, 0, 0, 1, 0, 0, 1], 6);
}

#[test]
fn k4_triangle() {
    both_kinds(&samples::complete(3), &[MIN, AVG, MAX], 1, &[3, 0, 0, 0, 1, 2], 10);
}

#[test]
fn k5_to_k8_claw() {
    let claw = samples::claw();
    let pairs = vec![2, 0, 2, 1, 0, 2, 0, 2, 2, 0, 2, 0, 2, 3, 0];
    assert_eq!(whole(&claw, MAX, 0, 2), (vec![1, 0, 1, 1, 1, 0, 1, 2, 1, 0, 1, 3], 20));
    assert_eq!(whole(&claw, MAX, 1, 2), (vec![], 20));
    assert_eq!(whole(&claw, AVG, 0, 2), (pairs.clone(), 20));
    both_kinds(&claw, &[MIN], 1, &pairs, 20);
    both_kinds(&claw, &[AVG], 1, &[], 20);
}

#[test]
fn k9_a_short_output() {
    for length in 0..4 {
        let mut short = request(&samples::claw(), MAX, 0, 2);
        short.output = vec![7; length];
        let full = PageReply {
            answer: PageAnswer { refusal: 0, stop: 3, groups: 0, steps: 7, used: 0, wanted: 4 },
            position: vec![1, 2, 2, 2],
            output: vec![7; length],
            work: None,
        };
        for budget in [8, u32::MAX] {
            short.budget = budget;
            assert_eq!(library::page(&short), full, "{length} entries");
        }
        short.budget = 7;
        let spent = PageAnswer { stop: 2, wanted: 0, ..full.answer };
        assert_eq!(library::page(&short), PageReply { answer: spent, ..full }, "{length} entries");
    }
}

/// The first leaf fits, and the next page would begin with the second.
#[test]
fn k9_an_output_of_just_one_record() {
    let mut enough = request(&samples::claw(), MAX, 0, 2);
    enough.output = vec![7; 4];
    let full = PageReply {
        answer: PageAnswer { refusal: 0, stop: 3, groups: 1, steps: 13, used: 4, wanted: 4 },
        position: vec![2, 1, 2, 2],
        output: vec![1, 0, 1, 1],
        work: None,
    };
    assert_eq!(library::page(&enough), full);
    enough.budget = 8;
    let spent = PageAnswer { stop: 2, steps: 8, wanted: 0, ..full.answer };
    assert_eq!(library::page(&enough), PageReply { answer: spent, position: vec![2, 0, 0, 0], ..full });
}

#[test]
fn k10_positions_of_the_claw() {
    for settings in (1..=1024).flat_map(Settings::all) {
        let mut at = request(&samples::claw(), settings.notion, settings.kind, settings.c);
        at.budget = 0;
        for (position, refusal) in [([1, 1, 0, 0], 0), ([1, 1, 1, 0], 23), ([0, 1, 0, 0], 22)] {
            at.position = position.to_vec();
            assert_eq!(library::page(&at).answer.refusal, refusal, "{position:?} at {settings:?}");
        }
    }
}

#[test]
fn k11_more_than_one_vertex_is_needed() {
    let leaves = [1, 0, 1, 3, 1, 0, 1, 4, 1, 0, 1, 5, 1, 0, 1, 6];
    let triangle = [3, 0, 4, 0, 1, 2];
    assert_eq!(whole(&samples::k11(), MAX, 0, 3).0, [&leaves[..], &triangle].concat());
}

#[test]
fn path_of_three() {
    assert_eq!(whole(&samples::path(3), MAX, 0, 1).0, []);
    assert_eq!(whole(&samples::path(3), MAX, 0, 2).0, [2, 0, 1, 0, 1, 2, 0, 1, 2, 1]);
}

#[test]
fn stars_with_four_and_five_leaves() {
    let pairs = [1, 2, 3, 4].map(|leaf| [2, 0, 3, leaf, 0]);
    assert_eq!(whole(&samples::star(4), AVG, 0, 2).0, pairs.concat());
    let leaves = [1, 2, 3, 4, 5].map(|leaf| [1, 0, 1, leaf]);
    assert_eq!(whole(&samples::star(5), AVG, 0, 2).0, leaves.concat());
    assert_eq!(whole(&samples::star(5), AVG, 1, 2).0, []);
}

#[test]
fn budget_of_nothing() {
    let mut at = request(&samples::claw(), MAX, 0, 2);
    at.budget = 0;
    let reply = library::page(&at);
    assert_eq!(reply.answer, PageAnswer { stop: 2, ..PageAnswer::default() });
    assert_eq!((reply.position, reply.output), (at.position.clone(), at.output.clone()));
    at.position = vec![2; 4];
    let reply = library::page(&at);
    assert_eq!(reply.answer, PageAnswer { stop: 1, ..PageAnswer::default() });
    assert_eq!((reply.position, reply.output), (at.position.clone(), at.output.clone()));
    let mut none = request(&Graph::empty(0), MIN, 1, 1);
    none.budget = 0;
    assert_eq!(library::page(&none).answer, PageAnswer { stop: 1, ..PageAnswer::default() });
}

#[test]
fn the_largest_factor() {
    for notion in [MIN, AVG, MAX] {
        for kind in 0..2 {
            assert_eq!(whole(&samples::claw(), notion, kind, 1024).0, [2, 0, 2, 1, 0, 2, 0, 2, 2, 0, 2, 0, 2, 3, 0]);
            let reply = library::page(&request(&samples::claw(), notion, kind, 1025));
            assert_eq!(reply.answer, PageAnswer { refusal: 8, ..PageAnswer::default() });
        }
    }
}
