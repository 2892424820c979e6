//! Graphs of up to 1,024 vertices, among them those where a row of the packed table is just full or just not: sparse ones
//! against the reference, refusals at large n, and huge values of n.

use outside::calls;
use outside::cases::cases;
use outside::faults::{check_refused, middle_or_large, LentGraph};
use outside::graph::Graph;
use outside::groups::{Reference, Settings};
use outside::library::{self, DegreesReply, Edit, EditAnswer, EditReply, EditRequest};
use outside::library::{PageAnswer, PageRequest, SetAnswer, SetRequest};
use outside::packed::{pack, put, row_numbers};
use outside::random::Random;
use outside::samples;
use outside::walk::Walk;

/// The list and the walk's length of a sparse graph, page by page.
fn whole_list(random: &mut Random, n: usize, c: u32) {
    let reference = Reference::of(samples::scattered(random, n));
    let (length, passed) = Walk::new(&reference.graph, c).whole();
    for settings in Settings::all(c) {
        let list = reference.full_list(settings);
        assert!(passed.iter().filter(|set| list.has(set)).eq(list.groups.iter()), "the reference's walk");
        let (mut joined, mut steps) = (Vec::new(), 0u64);
        let mut request = PageRequest::fresh(random, &reference.graph, settings, 500, 1_000_000);
        loop {
            let reply = library::page(&request);
            assert_eq!(reply.answer.refusal, 0, "{:?} at {settings:?}", reference.graph);
            joined.extend_from_slice(&reply.output[..reply.answer.used]);
            steps += u64::from(reply.answer.steps);
            request.position = reply.position;
            if reply.answer.stop == 1 {
                break;
            }
            assert!(reply.answer.steps > 0, "{:?} at {settings:?}", reference.graph);
        }
        assert_eq!(joined, list.entries(), "{:?} at {settings:?}", reference.graph);
        assert_eq!(steps, length, "{:?} at {settings:?}", reference.graph);
    }
}

#[test]
fn lists_of_60_vertices() {
    cases("lists_of_60_vertices", 8, |random| {
        let (n, c) = (random.between(40, 60), random.between(1, 4) as u32);
        whole_list(random, n, c);
    });
}

/// A last number of a row that is full, has one vertex, or lacks one.
#[test]
fn lists_where_a_number_of_a_row_ends() {
    cases("lists_where_a_number_of_a_row_ends", 4, |random| {
        for n in [63, 64, 65, 127, 128, 129] {
            let c = random.between(1, 2) as u32;
            whole_list(random, n, c);
        }
    });
}

#[test]
fn lists_of_200_vertices() {
    cases("lists_of_200_vertices", 3, |random| {
        let n = random.between(150, 200);
        whole_list(random, n, 2);
    });
}

#[test]
fn lists_of_1024_vertices() {
    cases("lists_of_1024_vertices", 1, |random| whole_list(random, 1024, 1));
}

/// Single pages at 1,024 vertices beside the reference's page, from where the walk stands after a while.
#[test]
fn pages_of_1024_vertices() {
    cases("pages_of_1024_vertices", 1, |random| {
        let reference = Reference::of(samples::scattered(random, 1024));
        for c in [1, 3, 1024] {
            let settings = Settings::any(random, c);
            let list = reference.full_list(settings);
            let mut at = PageRequest::fresh(random, &reference.graph, settings, 12, 4000);
            for _ in 0..4 {
                let found = library::page(&at);
                assert_eq!(found, calls::page(&at, &list), "{settings:?} of {:?}", reference.graph);
                at.position = found.position;
            }
        }
    });
}

/// Sets of a large graph: groups, and groups with a vertex changed.
#[test]
fn sets_of_1024_vertices() {
    cases("sets_of_1024_vertices", 1, |random| {
        let reference = Reference::of(samples::scattered(random, 1024));
        for settings in [1, 2, 4].into_iter().flat_map(Settings::all) {
            let list = reference.full_list(settings);
            for _ in 0..8 {
                let mut set = vec![0; 1024];
                if !list.groups.is_empty() {
                    random.pick(&list.groups).iter().for_each(|&v| set[v] = 1);
                }
                if random.percent(60) {
                    set[random.below(1024)] ^= 1;
                }
                let request = SetRequest::of(random, &reference.graph, settings, set);
                let expected = calls::set_query(&request, &list);
                assert_eq!(library::set_query(&request), expected, "{settings:?} of {:?}", reference.graph);
            }
        }
    });
}

/// A complete graph of 1,024 vertices: the whole set is the first group, and sums of outside counts are largest.
#[test]
fn the_largest_complete_graph() {
    let mut random = Random::new(7);
    let graph = samples::complete(1024);
    for settings in [1, 1023, 1024].into_iter().flat_map(Settings::all) {
        let reply = library::page(&PageRequest::fresh(&mut random, &graph, settings, 1030, 1025));
        let expected = PageAnswer { refusal: 0, stop: 2, groups: 1, steps: 1025, used: 1027, wanted: 0 };
        assert_eq!(reply.answer, expected, "{settings:?}");
        assert_eq!(reply.output[..3], [1024, 0, 0]);
        assert!(reply.output[3..1027].iter().enumerate().all(|(v, &entry)| usize::from(entry) == v));
        for (missing, yes) in [(0, 1), (1, 0)] {
            let mut set = vec![1; 1024];
            set[..missing].fill(0);
            let query = SetRequest::of(&mut random, &graph, settings, set);
            assert_eq!(library::set_query(&query).answer, SetAnswer { refusal: 0, yes }, "{settings:?}");
        }
    }
}

/// A full output at the widest record: one entry short, and just enough.
#[test]
fn the_widest_record() {
    let mut random = Random::new(8);
    let graph = samples::complete(1024);
    let settings = Settings { notion: 2, kind: 0, c: 1 };
    let short = library::page(&PageRequest::fresh(&mut random, &graph, settings, 1026, 5000));
    assert_eq!(short.answer, PageAnswer { stop: 3, steps: 1024, wanted: 1027, ..PageAnswer::default() });
    assert_eq!(short.position, vec![1; 1024]);
    let enough = library::page(&PageRequest::fresh(&mut random, &graph, settings, 1027, 1024));
    assert_eq!(enough.answer, PageAnswer { stop: 2, steps: 1024, ..PageAnswer::default() });
    let enough = library::page(&PageRequest::fresh(&mut random, &graph, settings, 1027, 1025));
    assert_eq!(enough.answer, PageAnswer { stop: 2, groups: 1, steps: 1025, used: 1027, ..PageAnswer::default() });
}

/// Refusals 1, 2, 4, 5 and 42 of every call that takes a graph, at the last bit and the last degree of 1,024 vertices.
#[test]
fn refused_graphs_of_1024_vertices() {
    let mut random = Random::new(9);
    check_refused(&mut random, &LentGraph::of(&Graph::empty(1025)), 1);
    let spoiled: [(u32, fn(&mut LentGraph)); 7] = [
        (2, |lent| lent.table.push(0)),
        (2, |lent| lent.table.truncate(1024 * 16 - 1)),
        (4, |lent| put(&mut lent.table, 1024, 1023, 1023, true)),
        (5, |lent| put(&mut lent.table, 1024, 1023, 1022, true)),
        (42, |lent| lent.degrees[1023] = 1),
        (42, |lent| lent.degrees.push(0)),
        (42, |lent| lent.degrees.truncate(1023)),
    ];
    for (refusal, spoil) in spoiled {
        let mut lent = LentGraph::of(&Graph::empty(1024));
        spoil(&mut lent);
        check_refused(&mut random, &lent, refusal);
    }
}

/// Refusal 45 of every call that takes a graph: of each row, each bit that is no vertex's; where the rows are many, of some
/// of them.
#[test]
fn refused_stray_bits() {
    cases("refused_stray_bits", 1, |random| {
        for n in [1, 2, 7, 33, 62, 63, 65, 66, 100, 127, 129, 191, 193, 961, 1022, 1023] {
            let graph = samples::any(random, n);
            let some = [0, 1, n / 2, n - 1, random.below(n)];
            for u in (0..n).filter(|u| n < 130 || some.contains(u)) {
                for place in n..64 * row_numbers(n) {
                    let mut lent = LentGraph::of(&graph);
                    put(&mut lent.table, n, u, place, true);
                    check_refused(random, &lent, 45);
                }
            }
        }
    });
}

/// Every two of the faults 2, 45, 4, 5 and 42 at once, the one that is tested later put in first.
#[test]
fn refused_graphs_with_two_faults() {
    const GRAPH: [u32; 5] = [2, 45, 4, 5, 42];
    cases("refused_graphs_with_two_faults", 30, |random| {
        let n = *random.pick(&[15, 63, 65, 127, 129, 300, 1023]);
        let graph = samples::any(random, n);
        for later in 0..GRAPH.len() {
            for told in 0..later {
                let mut lent = LentGraph::of(&graph);
                lent.spoil(random, GRAPH[later]);
                lent.spoil(random, GRAPH[told]);
                check_refused(random, &lent, GRAPH[told]);
            }
        }
    });
}

/// Refusals 2, 45, 4, 5 and 42 of every call that takes a graph, in row or column 14 or a later one of any graph.
#[test]
fn refused_graphs_of_15_vertices_and_more() {
    cases("refused_graphs_of_15_vertices_and_more", 60, |random| {
        let n = middle_or_large(random);
        let graph = samples::any(random, n);
        let stray = if n % 64 == 0 { &[][..] } else { &[45, 45] };
        for &refusal in [2, 4, 4, 5, 5, 42, 42].iter().chain(stray) {
            let mut lent = LentGraph::of(&graph);
            lent.spoil(random, refusal);
            check_refused(random, &lent, refusal);
        }
    });
}

/// Refusals of page and set query that are not of the graph, where it has 1,024 vertices.
#[test]
fn refused_slices_of_1024_vertices() {
    let mut random = Random::new(11);
    let settings = Settings { notion: 1, kind: 1, c: 3 };
    let spoiled: [(u32, fn(&mut PageRequest)); 3] = [
        (9, |request| request.position.push(0)),
        (10, |request| request.work.truncate(8 * 1024 - 1)),
        (21, |request| request.position[1023] = 3),
    ];
    for (refusal, spoil) in spoiled {
        let mut request = PageRequest::fresh(&mut random, &Graph::empty(1024), settings, 5, 5);
        spoil(&mut request);
        let reply = library::page(&request);
        assert_eq!(reply.answer, PageAnswer { refusal, ..PageAnswer::default() });
        assert_eq!((reply.position, reply.output), (request.position, request.output));
        assert!(reply.work == Some(request.work), "the work slice at {refusal}");
    }
    let spoiled: [(u32, fn(&mut SetRequest)); 3] = [
        (9, |request| request.set.truncate(1023)),
        (10, |request| request.work.truncate(8 * 1024 - 1)),
        (11, |request| request.set[1023] = 2),
    ];
    for (refusal, spoil) in spoiled {
        let mut request = SetRequest::of(&mut random, &Graph::empty(1024), settings, vec![0; 1024]);
        spoil(&mut request);
        let reply = library::set_query(&request);
        assert_eq!(reply.answer, SetAnswer { refusal, yes: 0 });
        assert!(reply.work == Some(request.work), "the work slice at {refusal}");
    }
}

/// Values of n whose square or eightfold would pass the largest number: refused by 1 alone, with short slices.
#[test]
fn huge_values_of_n() {
    let mut random = Random::new(10);
    let settings = Settings { notion: 0, kind: 0, c: 1 };
    let shifts = (11..64).map(|shift| 1usize << shift);
    let others = [1025, usize::MAX, usize::MAX - 1, usize::MAX / 2, usize::MAX / 8 + 1, (1 << 32) + 2, (1 << 63) + 2];
    for n in shifts.chain(others) {
        for graph in [Graph::empty(0), samples::path(2)] {
            let mut at = PageRequest::fresh(&mut random, &graph, settings, 4, 9);
            at.n = n;
            let reply = library::page(&at);
            assert_eq!(reply.answer, PageAnswer { refusal: 1, ..PageAnswer::default() }, "n {n}");
            assert_eq!((reply.position, reply.output), (at.position.clone(), at.output.clone()), "n {n}");
            let PageRequest { table, degrees, position: set, work, .. } = at;
            let query = SetRequest { table, degrees, set, work, n, settings };
            assert_eq!(library::set_query(&query).answer, SetAnswer { refusal: 1, yes: 0 }, "n {n}");
            for edit in Edit::BOTH {
                let request = EditRequest { n, ..EditRequest::of(&graph, 0, 1) };
                let unchanged = EditReply {
                    answer: EditAnswer { refusal: 1, unchanged: 0 },
                    table: pack(&graph),
                    degrees: graph.degrees(),
                };
                assert_eq!(library::edit(edit, &request), unchanged, "n {n}");
            }
            let counted = library::degrees(&pack(&graph), &[7, 7], n);
            assert_eq!(counted, DegreesReply { refusal: 1, degrees: vec![7, 7] }, "n {n}");
        }
    }
}
