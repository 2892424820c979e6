//! Document 02, C-15, from outside: what the packing leaves beside the second packer's tables, bit for bit; what an edit
//! leaves of a table; and the way from a text over its byte table and its packed table to the list.

use outside::calls;
use outside::cases::cases;
use outside::graph::Graph;
use outside::groups::{Reference, Settings};
use outside::library::{self, DegreesReply, Edit, EditAnswer, EditRequest, PackReply, PageRequest};
use outside::packed::{self, bit, pack, row_numbers, turn};
use outside::random::Random;
use outside::samples;

/// Where a row of the packed table has no number, and around every number of vertices with which its last one is full.
fn sizes() -> impl Iterator<Item = usize> {
    [0, 1].into_iter().chain((1..=16).flat_map(|full| [64 * full - 1, 64 * full, 64 * full + 1])).filter(|&n| n <= 1024)
}

/// The packing sets every bit of the slice, whatever it held.
fn check_packing(random: &mut Random, graph: &Graph) {
    let (n, table) = (graph.n, pack(graph));
    for before in [vec![0; table.len()], vec![u64::MAX; table.len()], random.numbers(table.len())] {
        let expected = PackReply { refusal: 0, packed: table.clone() };
        assert!(library::pack(&graph.table, &before, n) == expected, "{graph:?}");
        assert!(calls::pack(&graph.table, &before, n) == expected, "the reference: {graph:?}");
    }
}

#[test]
fn packed_tables() {
    cases("packed_tables", 3, |random| {
        for n in sizes() {
            let graphs = [samples::any(random, n), samples::by_chance(random, n, 50), samples::complete(n)];
            graphs.iter().chain(&[Graph::empty(n)]).for_each(|graph| check_packing(random, graph));
        }
    });
}

/// Every graph of up to four vertices.
#[test]
fn packed_tables_of_small_graphs() {
    let mut random = Random::new(31);
    for graph in (0..=4).flat_map(samples::all) {
        check_packing(&mut random, &graph);
    }
}

/// Written out once by hand: in a row of 65 vertices the first number has vertices 0 to 63 and the second one 64.
#[test]
fn the_second_packer() {
    assert_eq!(pack(&samples::claw()), [0b1110, 1, 1, 1]);
    let table = pack(&Graph::of_edges(65, &[(0, 1), (0, 63), (0, 64), (63, 64)]));
    let high = 1 << 63;
    assert_eq!(table[..4], [2 | high, 1, 1, 0]);
    assert_eq!(table[2 * 63..], [1, 1, 1 | high, 0]);
    assert!(table[4..2 * 63].iter().all(|&number| number == 0));
}

/// A packed table holds the graph, and its degrees are the ones of its rows.
#[test]
fn the_graph_and_the_degrees_of_a_packed_table() {
    cases("the_graph_and_the_degrees_of_a_packed_table", 2, |random| {
        for n in sizes() {
            let graph = samples::any(random, n);
            let table = library::pack(&graph.table, &random.numbers(n * row_numbers(n)), n).packed;
            assert!(packed::graph(&table, n) == graph, "{graph:?}");
            let rows = (0..n).map(|u| &table[u * row_numbers(n)..][..row_numbers(n)]);
            let ones: Vec<u16> = rows.map(|row| row.iter().map(|number| number.count_ones() as u16).sum()).collect();
            assert_eq!(ones, graph.degrees(), "{graph:?}");
            let counted = library::degrees(&table, &random.entries(n), n);
            assert_eq!(counted, DegreesReply { refusal: 0, degrees: ones }, "{graph:?}");
        }
    });
}

/// An edit that changes the graph turns the pair's two bits and no other, and the other edit turns them back.
fn check_edit(graph: &Graph, u: usize, v: usize) {
    let request = EditRequest::of(graph, u, v);
    let n = graph.n;
    let (edit, other) = match bit(&request.table, n, u, v) {
        true => (Edit::Part, Edit::Join),
        false => (Edit::Join, Edit::Part),
    };
    let mut turned = request.table.clone();
    turn(&mut turned, n, u, v);
    turn(&mut turned, n, v, u);
    let reply = library::edit(edit, &request);
    assert_eq!(reply.answer, EditAnswer::default(), "{edit:?} {u} {v} of {graph:?}");
    assert!(reply.table == turned, "{edit:?} {u} {v} of {graph:?}");
    let changed = reply.table.iter().zip(&request.table).map(|(after, before)| (after ^ before).count_ones());
    assert_eq!(changed.sum::<u32>(), 2, "{edit:?} {u} {v} of {graph:?}");

    let again = library::edit(edit, &EditRequest { table: reply.table, degrees: reply.degrees, ..request.clone() });
    assert_eq!(again.answer, EditAnswer { refusal: 0, unchanged: 1 }, "{edit:?} {u} {v} of {graph:?}");
    assert!(again.table == turned, "{edit:?} {u} {v} of {graph:?}, where it was so already");
    let undone = library::edit(other, &EditRequest { table: again.table, degrees: again.degrees, n, u: v, v: u });
    assert_eq!(undone.answer, EditAnswer::default(), "{other:?} {v} {u} of {graph:?}");
    assert!(undone.table == request.table && undone.degrees == request.degrees, "{other:?} {v} {u} of {graph:?}");
}

/// The first and the last vertices of each number of a row, and any others.
#[test]
fn an_edit_turns_two_bits() {
    cases("an_edit_turns_two_bits", 2, |random| {
        for n in sizes().filter(|&n| n > 1) {
            let graph = samples::any(random, n);
            let ends: Vec<usize> = (0..n).filter(|v| v % 64 == 0 || v % 64 == 63 || v + 1 == n).collect();
            for _ in 0..12 {
                let (u, step) = (*random.pick(&ends), random.between(1, n - 1));
                let other = *random.pick(&ends);
                let v = if u == other || random.percent(30) { (u + step) % n } else { other };
                check_edit(&graph, u, v);
            }
        }
    });
}

/// Every pair of a graph with two numbers in a row.
#[test]
fn every_edit_of_66_vertices() {
    let mut random = Random::new(32);
    let graph = samples::by_chance(&mut random, 66, 50);
    for (u, v) in (0..66).flat_map(|u| (0..66).map(move |v| (u, v))).filter(|(u, v)| u != v) {
        check_edit(&graph, u, v);
    }
}

/// A text is read, packed, counted and listed, each call over what the one before it left: the list is that of the graph.
#[test]
fn from_a_text_to_the_list() {
    cases("from_a_text_to_the_list", 40, |random| {
        let n = *random.pick(&[0, 1, 2, 9, 63, 64, 65, 127, 128, 129]);
        let graph = samples::scattered(random, n);
        let lines: String = graph.edges().iter().map(|(u, v)| format!("e {} {}\n", u + 1, v + 1)).collect();
        let text = format!("p edge {n} {}\n{lines}", graph.edges().len());
        let read = library::read_text(text.as_bytes(), &random.bytes(n * n + 3));
        assert_eq!(read.answer.refusal, 0, "{graph:?}");
        let packing = library::pack(&read.table[..n * n], &random.numbers(n * row_numbers(n)), n);
        assert_eq!(packing.refusal, 0, "{graph:?}");
        let counted = library::degrees(&packing.packed, &random.entries(n), n);
        assert_eq!(counted.refusal, 0, "{graph:?}");
        let settings = Settings::any(random, 1);
        let request = PageRequest {
            table: packing.packed,
            degrees: counted.degrees,
            ..PageRequest::fresh(random, &graph, settings, 4 * n + 3, u32::MAX)
        };
        let reply = library::page(&request);
        assert_eq!((reply.answer.refusal, reply.answer.stop), (0, 1), "{graph:?} at {settings:?}");
        let list = Reference::of(graph).full_list(settings);
        assert_eq!(&reply.output[..reply.answer.used], list.entries(), "{settings:?}");
    });
}
