//! Joining and parting pairs: sequences of edits against a set of pairs, and walks with edits between their pages.

use outside::calls;
use outside::cases::{alone, cases};
use outside::faults::{check_refused, refused, wrong_ends, wrong_list, LentGraph};
use outside::graph::{pairs, Graph};
use outside::groups::{Reference, Settings};
use outside::kept::Kept;
use outside::library::{self, DegreesReply, Edit, EditAnswer, EditReply, EditRequest, PageAnswer, PageRequest};
use outside::packed::{pack, put, row_numbers, stray_place, turn};
use outside::random::Random;
use outside::samples;

fn some_settings(random: &mut Random) -> Settings {
    let c = *random.pick(&[1, 2, 2, 3, 4, 1024]);
    Settings::any(random, c)
}

fn some_edit(random: &mut Random) -> Edit {
    *random.pick(&Edit::BOTH)
}

/// A number of vertices, now and then a larger one, and how many edits are made there.
fn some_size(random: &mut Random) -> (usize, usize) {
    match random.below(100) {
        0 | 1 => (random.between(15, 40), 60),
        2 => (random.between(63, 65), 40),
        3 => (*random.pick(&[255, 256, 257, 300]), 20),
        _ => (random.between(0, 14), 60),
    }
}

/// An edit with a fault: of its ends, of the table or of the list.
fn faulty_edit(random: &mut Random, kept: &Kept) -> EditRequest {
    let n = kept.n;
    let (u, v) = wrong_ends(random, n);
    let mut request = kept.request(u, v);
    if n > 1 && random.percent(40) {
        (request.u, request.v) = random.pair(n);
        let (vertex, stray) = (random.below(n), stray_place(random, n));
        match (random.below(6), stray) {
            (0, _) => request.n = *random.pick(&[1025, usize::MAX, 1 << 32]),
            (1, _) => request.table.push(0),
            (2, Some(place)) => put(&mut request.table, n, vertex, place, true),
            (3, _) => put(&mut request.table, n, vertex, vertex, true),
            (4, _) => turn(&mut request.table, n, request.u, request.v),
            _ => request.degrees = wrong_list(random, &kept.degrees),
        }
    }
    request
}

/// Edits of graphs of up to 300 vertices. Of those of 15 and more only the ones of small cliques are listed at the end.
#[test]
fn sequences_of_edits() {
    let (mut changed, mut unchanged, mut turned_away) = ([0u32; 2], [0u32; 2], [[0u32; 2]; 46]);
    cases("sequences_of_edits", 4000, |random| {
        let (n, edits) = some_size(random);
        let large = n > 14;
        let listed = !large || random.percent(50);
        let mut kept = Kept::of(&match large && listed {
            true => samples::scattered(random, n),
            false if random.percent(30) => Graph::empty(n),
            false => samples::any(random, n),
        });
        for _ in 0..edits {
            let edit = some_edit(random);
            if n > 1 && random.percent(75) {
                let (u, v) = random.pair(n);
                match kept.edit(edit, u, v) {
                    true => changed[usize::from(large)] += 1,
                    false => unchanged[usize::from(large)] += 1,
                }
                continue;
            }
            let request = faulty_edit(random, &kept);
            let refusal = calls::edit_refusal(&request).expect("one fault at least");
            let EditRequest { u, v, .. } = request;
            assert!(
                library::edit(edit, &request) == refused(&request, refusal),
                "{edit:?} {u} {v} at {refusal} of {:?}",
                LentGraph { table: request.table, degrees: request.degrees, n: request.n }
            );
            turned_away[refusal as usize][usize::from(large)] += 1;
        }
        let any = random.entries(n);
        let counted = library::degrees(&kept.table, &any, n);
        assert_eq!(counted, DegreesReply { refusal: 0, degrees: kept.degrees.clone() }, "{:?}", kept.graph());
        if listed {
            let settings = if large { Settings::any(random, 1) } else { some_settings(random) };
            kept.check_list(random, &Reference::of(kept.graph()), settings);
        }
    });
    for (large, least) in [(0, 50_000), (1, 1000)] {
        let [changed, unchanged] = [changed[large], unchanged[large]];
        assert!(alone() || changed > least && unchanged > least, "{changed} changed, {unchanged} unchanged");
    }
    for refusal in [1, 2, 45, 4, 5, 42, 43, 44] {
        let [small, large] = turned_away[refusal];
        assert!(alone() || small > 2000 && large > 40, "{refusal} was told {small} and {large} times");
    }
}

/// Every graph of up to four vertices with every two numbers up to one past the last vertex, and then the edit undone.
#[test]
fn every_edit_of_small_graphs() {
    for n in 0..=4 {
        for graph in samples::all(n) {
            for (u, v) in (0..n + 2).flat_map(|u| (0..n + 2).map(move |v| (u, v))) {
                let request = EditRequest::of(&graph, u, v);
                for (edit, other) in [(Edit::Join, Edit::Part), (Edit::Part, Edit::Join)] {
                    let reply = library::edit(edit, &request);
                    assert_eq!(reply, calls::edit(edit, &request), "{edit:?} {request:?}");
                    if reply.answer != EditAnswer::default() {
                        assert_eq!((&reply.table, &reply.degrees), (&request.table, &request.degrees), "{request:?}");
                        continue;
                    }
                    let EditReply { table, degrees, .. } = reply;
                    let undone = library::edit(other, &EditRequest { table, degrees, n, u: v, v: u });
                    assert_eq!(undone.answer, EditAnswer::default(), "{edit:?} {request:?}");
                    assert_eq!((undone.table, undone.degrees), (pack(&graph), graph.degrees()), "{request:?}");
                }
            }
        }
    }
}

/// From no edge to all of them and back to none, in any order.
#[test]
fn all_pairs_joined_and_parted_again() {
    cases("all_pairs_joined_and_parted_again", 200, |random| {
        let n = random.between(0, 14);
        let mut order: Vec<(usize, usize)> = pairs(n).collect();
        let mut kept = Kept::of(&Graph::empty(n));
        for edit in Edit::BOTH {
            random.shuffle(&mut order);
            for &(u, v) in &order {
                let (u, v) = if random.percent(50) { (u, v) } else { (v, u) };
                assert!(kept.edit(edit, u, v));
                assert!(!kept.edit(edit, v, u));
            }
        }
        assert_eq!((kept.table, kept.degrees), (vec![0; n * row_numbers(n)], vec![0; n]));
    });
}

/// An edit in the middle of a walk: from the fresh position the list is that of the new graph. From the old position each
/// single page still answers as the reference does for these arguments.
#[test]
fn walks_that_start_again_after_an_edit() {
    let mut refused = 0u32;
    cases("walks_that_start_again_after_an_edit", 2000, |random| {
        let n = random.between(2, 9);
        let mut kept = Kept::of(&samples::any(random, n));
        let settings = some_settings(random);
        let mut position = vec![0; n];
        for _ in 0..random.between(1, 4) {
            position = library::page(&kept.page(random, settings, &position)).position;
        }
        for _ in 0..random.between(1, 3) {
            let pair = random.pair(n);
            kept.turn(pair);
        }
        let request = kept.page(random, settings, &position);
        let found = library::page(&request);
        let list = Reference::of(kept.graph()).full_list(settings);
        assert_eq!(found, calls::page(&request, &list), "{request:?}");
        refused += u32::from(found.answer.refusal == 23);
        kept.check_list(random, &Reference::of(kept.graph()), settings);
    });
    assert!(alone() || refused > 20, "{refused} refused");
}

/// Edits that are undone before the next accepted page keep the list, also with refused pages over the table in between.
#[test]
fn walks_with_edits_that_are_undone() {
    cases("walks_with_edits_that_are_undone", 2000, |random| {
        let n = random.between(2, 9);
        let mut kept = Kept::of(&samples::any(random, n));
        let settings = some_settings(random);
        let list = Reference::of(kept.graph()).full_list(settings);
        let joined = kept.rest(random, settings, &vec![0; n], |random, kept, position| {
            let mut turned: Vec<(usize, usize)> = pairs(n).filter(|_| random.percent(15)).collect();
            turned.iter().for_each(|&pair| kept.turn(pair));
            let faulty = Settings { notion: 3, ..settings };
            let reply = library::page(&kept.page(random, faulty, position));
            assert_eq!(reply.answer, PageAnswer { refusal: 6, ..PageAnswer::default() });
            assert_eq!(reply.position, position);
            random.shuffle(&mut turned);
            turned.iter().for_each(|&(u, v)| kept.turn((v, u)));
        });
        assert_eq!(joined, list.entries(), "{:?} at {settings:?}", kept.graph());
    });
}

/// Edits of 1,024 vertices, the first and the last among them, and the list of the graph that they leave.
#[test]
fn edits_of_1024_vertices() {
    cases("edits_of_1024_vertices", 1, |random| {
        let mut kept = Kept::of(&samples::scattered(random, 1024));
        let corners = [(0, 1023), (1023, 0), (1022, 1023), (0, 1), (511, 512)];
        for round in 0..40 {
            let (u, v) = if random.percent(50) { *random.pick(&corners) } else { random.pair(1024) };
            match round % 4 {
                0 => kept.turn((u, v)),
                _ => drop(kept.edit(some_edit(random), u, v)),
            }
        }
        for (u, v, refusal) in [(1024, 0, 43), (1023, 1024, 43), (usize::MAX, usize::MAX, 43), (1023, 1023, 44)] {
            let request = kept.request(u, v);
            for edit in Edit::BOTH {
                assert!(library::edit(edit, &request) == refused(&request, refusal), "{edit:?} {u} {v}");
            }
        }
        let counted = library::degrees(&kept.table, &random.entries(1024), 1024);
        assert_eq!(counted, DegreesReply { refusal: 0, degrees: kept.degrees.clone() });
        let graph = kept.graph();
        for length in [1023, 1025] {
            let mut lent = LentGraph::of(&graph);
            lent.degrees.resize(length, 0);
            check_refused(random, &lent, 42);
        }
        let settings = Settings::any(random, 1);
        let list = Reference::of(graph).full_list(settings);
        let mut request = PageRequest::fresh(random, &kept.graph(), settings, 8192, u32::MAX);
        (request.table, request.degrees) = (kept.table.clone(), kept.degrees.clone());
        let reply = library::page(&request);
        assert_eq!((reply.answer.refusal, reply.answer.stop), (0, 1), "{settings:?}");
        assert_eq!(&reply.output[..reply.answer.used], list.entries(), "{settings:?}");
    });
}

/// The largest degrees: of a complete graph of 1,024 vertices one pair is parted and joined again.
#[test]
fn edits_of_the_largest_complete_graph() {
    let graph = samples::complete(1024);
    let counted = library::degrees(&pack(&graph), &[7; 1024], 1024);
    assert_eq!(counted, DegreesReply { refusal: 0, degrees: vec![1023; 1024] });
    let mut kept = Kept::of(&graph);
    assert!(!kept.edit(Edit::Join, 1023, 0));
    assert!(kept.edit(Edit::Part, 1023, 0));
    assert_eq!((kept.degrees[0], kept.degrees[1], kept.degrees[1023]), (1022, 1023, 1022));
    assert!(!kept.edit(Edit::Part, 0, 1023));
    assert!(kept.edit(Edit::Join, 0, 1023));
    assert!(kept.table == pack(&graph) && kept.degrees == graph.degrees());
}
