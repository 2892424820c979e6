//! The graph that is kept: its edits, its lists and what it refuses.

use isolated::{fill_degrees, page, records, row_numbers, set_query, table_numbers, work_entries};
use isolated::{Graph, Group, Groups, Kind, Notion, Refusal, Room, Settings, Stop, TextRefusal, VERTICES};

const MAX: Settings = Settings::new(Notion::Max, Kind::MaximalIsolated, 2);

fn every_settings() -> impl Iterator<Item = Settings> {
    let kinds = |notion| Kind::ALL.into_iter().map(move |kind| (notion, kind));
    let both = Notion::ALL.into_iter().flat_map(kinds);
    both.flat_map(|(notion, kind)| (1..=3).map(move |c| Settings::new(notion, kind, c)))
}

fn of_edges(n: usize, edges: &[(usize, usize)]) -> Graph {
    let mut graph = Graph::new(n).unwrap();
    for &(u, v) in edges {
        assert_eq!(graph.join(u, v), Ok(true), "{u} and {v}");
    }
    graph
}

/// The vertices of each group. Its outgoing edges are those that the graph tells.
fn listed(graph: &Graph, settings: Settings) -> Vec<Vec<u16>> {
    let vertices = |group: Group| {
        let is_outside = |v: usize| group.vertices.iter().all(|&member| usize::from(member) != v);
        let outside = |&member: &u16| graph.neighbours(member.into()).filter(|&v| is_outside(v)).count();
        let counted: usize = group.vertices.iter().map(outside).sum();
        assert_eq!(u32::try_from(counted), Ok(group.outgoing_edges), "{group:?} with {settings}");
        group.vertices
    };
    graph.groups(settings).unwrap().map(vertices).collect()
}

/// What it tells of itself is what its table holds, and the table's bits that are no vertex's are 0.
fn check(graph: &Graph) {
    let n = graph.vertices();
    let bit = |u: usize, v: usize| graph.table()[u * row_numbers(n) + v / 64] >> (v % 64) & 1 == 1;
    assert_eq!(graph.table().len(), table_numbers(n));
    assert!((0..n).all(|u| (n..64 * row_numbers(n)).all(|v| !bit(u, v))));
    let mut degrees = vec![0; n];
    assert_eq!(fill_degrees(graph.table(), &mut degrees, n), Ok(()));
    assert_eq!(graph.degrees(), degrees);
    for (u, &degree) in degrees.iter().enumerate() {
        assert_eq!(graph.degree(u), Some(degree.into()));
        assert_eq!(graph.neighbours(u).collect::<Vec<_>>(), (0..n).filter(|&v| bit(u, v)).collect::<Vec<_>>());
        assert!((0..n).all(|v| graph.is_joined(u, v) == bit(u, v) && graph.is_joined(v, u) == bit(u, v)));
    }
    assert_eq!(2 * graph.edges(), graph.table().iter().map(|number| number.count_ones() as usize).sum());
}

/// Every pair of five vertices is joined in turn, and parted again in another order.
#[test]
fn edits_keep_table_and_degrees_together() {
    let pairs: Vec<(usize, usize)> = (0..5).flat_map(|u| (u + 1..5).map(move |v| (u, v))).collect();
    let mut graph = Graph::new(5).unwrap();
    for (count, &(u, v)) in pairs.iter().enumerate() {
        assert!(!graph.is_joined(u, v));
        assert_eq!((graph.part(u, v), graph.join(u, v), graph.join(v, u)), (Ok(false), Ok(true), Ok(false)));
        assert!(graph.is_joined(u, v));
        assert_eq!(graph.edges(), count + 1);
        check(&graph);
    }
    let complete = graph.clone();
    for &(u, v) in pairs.iter().rev().step_by(2) {
        assert_eq!((graph.join(u, v), graph.part(v, u), graph.part(u, v)), (Ok(false), Ok(true), Ok(false)));
        check(&graph);
        assert_ne!(graph, complete);
    }
    for &(u, v) in pairs.iter().rev().step_by(2) {
        assert_eq!(graph.join(v, u), Ok(true));
    }
    assert_eq!(graph, complete);
}

/// Around the ends of a row's numbers: pairs of the first and the last vertices, and of those on both sides of an end.
#[test]
fn edits_where_a_number_of_a_row_ends() {
    for n in [63, 64, 65, 127, 128, 129] {
        let mut graph = Graph::new(n).unwrap();
        let ends: Vec<usize> = [0, 1, 62, 63, 64, 65, 126, 127, 128].into_iter().filter(|&v| v < n).collect();
        let pairs = || ends.iter().flat_map(|&u| ends.iter().map(move |&v| (u, v))).filter(|(u, v)| u < v);
        for (u, v) in pairs() {
            assert_eq!((graph.join(v, u), graph.is_joined(u, v)), (Ok(true), true), "{u} and {v} of {n}");
        }
        check(&graph);
        for (u, v) in pairs() {
            assert_eq!((graph.part(u, v), graph.is_joined(v, u)), (Ok(true), false), "{u} and {v} of {n}");
        }
        assert_eq!(graph, Graph::new(n).unwrap());
    }
}

#[test]
fn edits_that_are_refused_change_nothing() {
    let mut graph = of_edges(3, &[(0, 1)]);
    let before = graph.clone();
    for (u, v, refusal) in [
        (0, 3, Refusal::NoVertex),
        (3, 0, Refusal::NoVertex),
        (3, 3, Refusal::NoVertex),
        (usize::MAX, 1, Refusal::NoVertex),
        (1, usize::MAX, Refusal::NoVertex),
        (2, 2, Refusal::EqualEnds),
    ] {
        assert_eq!(graph.join(u, v), Err(refusal), "{u} and {v}");
        assert_eq!(graph.part(u, v), Err(refusal), "{u} and {v}");
        assert_eq!(graph, before);
    }
    assert_eq!(Graph::new(0).unwrap().join(0, 0), Err(Refusal::NoVertex));
}

#[test]
fn what_is_no_vertex_has_nothing() {
    let graph = of_edges(3, &[(0, 1)]);
    assert_eq!((graph.degree(2), graph.degree(3), graph.degree(usize::MAX)), (Some(0), None, None));
    for (u, v) in [(0, 3), (3, 0), (3, 3), (usize::MAX, 0), (0, usize::MAX)] {
        assert!(!graph.is_joined(u, v), "{u} and {v}");
    }
    assert_eq!(graph.neighbours(3).count() + graph.neighbours(usize::MAX).count(), 0);
}

/// After every edit the list is that of a graph made anew, whatever was listed before.
#[test]
fn lists_follow_the_edits() {
    let edges = [(0, 1), (1, 2), (0, 2), (2, 3), (3, 4), (4, 5), (3, 5), (0, 5)];
    let mut graph = Graph::new(6).unwrap();
    for (count, &(u, v)) in edges.iter().enumerate() {
        graph.join(u, v).unwrap();
        let anew = of_edges(6, &edges[..=count]);
        for settings in every_settings() {
            assert_eq!(listed(&graph, settings), listed(&anew, settings), "{settings}");
        }
    }
    let closed = Settings { c: 1, ..MAX };
    assert_eq!(graph.groups(closed).unwrap().count(), 0);
    graph.part(5, 0).unwrap();
    graph.part(3, 2).unwrap();
    assert_eq!(listed(&graph, closed), [[0, 1, 2], [3, 4, 5]]);
}

/// A vertex that is parted from all its neighbours is listed by itself.
#[test]
fn a_vertex_that_leaves() {
    let mut graph = of_edges(4, &[(0, 1), (0, 2), (1, 2), (2, 3)]);
    for u in graph.neighbours(2).collect::<Vec<_>>() {
        assert_eq!(graph.part(2, u), Ok(true));
    }
    for settings in every_settings() {
        assert_eq!(listed(&graph, settings), [vec![2], vec![3], vec![0, 1]], "{settings}");
    }
}

/// The iterator with its own room, the one in a lent room and the pages give the same list.
#[test]
fn three_ways_to_one_list() {
    let graph = of_edges(7, &[(0, 1), (0, 2), (1, 2), (1, 3), (1, 4), (2, 5), (2, 6)]);
    let (table, degrees, n) = (graph.table(), graph.degrees(), graph.vertices());
    let mut room = Room::new(n);
    for settings in every_settings() {
        let mut groups = graph.groups(settings).unwrap();
        let list: Vec<Group> = groups.by_ref().collect();
        let mut lent = Groups::new(table, degrees, n, settings, &mut room).unwrap();
        assert_eq!(lent.by_ref().collect::<Vec<_>>(), list, "{settings}");
        assert_eq!(lent.steps(), groups.steps(), "{settings}");

        let (mut position, mut output, mut work) = (vec![0; n], vec![0; 100], vec![0; work_entries(n)]);
        let done = page(table, degrees, &mut position, &mut output, &mut work, n, settings, u32::MAX).unwrap();
        assert_eq!((done.stop, u64::from(done.steps)), (Stop::Finished, groups.steps()), "{settings}");
        assert!(records(&output[..done.used]).eq(list), "{settings}");
    }
}

/// Every set of a small graph is asked about: the listed ones are groups, and no others are.
#[test]
fn every_set_is_asked_about() {
    let graph = of_edges(5, &[(0, 1), (0, 2), (1, 2), (2, 3)]);
    let mut work = vec![0; work_entries(5)];
    for settings in every_settings() {
        let groups = listed(&graph, settings);
        for bits in 0..32u16 {
            let set: Vec<u16> = (0..5).filter(|v| bits >> v & 1 == 1).collect();
            let bytes: Vec<u8> = (0..5).map(|v| u8::from(set.contains(&v))).collect();
            let is_listed =
                groups.iter().any(|group| group.len() == set.len() && set.iter().all(|v| group.contains(v)));
            assert_eq!(graph.asks(&set, settings), Ok(is_listed), "{set:?} with {settings}");
            let reversed: Vec<u16> = set.iter().rev().chain(&set).copied().collect();
            assert_eq!(graph.asks(&reversed, settings), Ok(is_listed), "{reversed:?} with {settings}");
            let asked = set_query(graph.table(), graph.degrees(), &bytes, &mut work, 5, settings);
            assert_eq!(asked, Ok(is_listed), "{set:?} with {settings}");
        }
    }
}

#[test]
fn questions_that_are_refused() {
    let graph = of_edges(3, &[(0, 1)]);
    assert_eq!(graph.asks(&[0, 3], MAX), Err(Refusal::NoVertex));
    assert_eq!(graph.asks(&[u16::MAX], MAX), Err(Refusal::NoVertex));
    for c in [0, 1025] {
        assert_eq!(graph.asks(&[0], Settings { c, ..MAX }), Err(Refusal::Factor));
        assert_eq!(graph.groups(Settings { c, ..MAX }).err(), Some(Refusal::Factor));
    }
}

#[test]
fn the_smallest_and_the_largest() {
    let none = Graph::new(0).unwrap();
    assert_eq!((none.vertices(), none.edges(), listed(&none, MAX).len()), (0, 0, 0));
    assert_eq!((none.asks(&[], MAX), none.asks(&[0], MAX)), (Ok(false), Err(Refusal::NoVertex)));
    let one = Graph::new(1).unwrap();
    assert_eq!(listed(&one, MAX), [[0]]);

    let mut most = Graph::new(VERTICES).unwrap();
    assert_eq!(most.join(0, VERTICES - 1), Ok(true));
    assert_eq!(most.degree(VERTICES - 1), Some(1));
    assert_eq!(most.groups(MAX).unwrap().count(), VERTICES - 1);
    assert_eq!(most.asks(&[0, 1023], MAX), Ok(true));
    for n in [VERTICES + 1, usize::MAX] {
        assert_eq!(Graph::new(n).err(), Some(Refusal::Vertices));
    }
}

#[test]
fn graphs_from_texts() {
    let graph = Graph::from_text(b"c each pair in both directions\np edge 3 4\ne 1 2\ne 2 1\ne 2 3\ne 3 2\n").unwrap();
    assert_eq!(graph, of_edges(3, &[(1, 2), (0, 1)]));
    check(&graph);
    assert_eq!(Graph::from_text(b"p edge 0 0\n"), Ok(Graph::new(0).unwrap()));
    assert_eq!(Graph::from_text(b"p edge 1024 0\n"), Ok(Graph::new(VERTICES).unwrap()));
    let refused = |refusal, line| Err(TextRefusal { refusal, line });
    assert_eq!(Graph::from_text(b""), refused(Refusal::NoPLine, 1));
    assert_eq!(Graph::from_text(b"p edge 1025 0\n"), refused(Refusal::TextVertices, 1));
    assert_eq!(Graph::from_text(b"p edge 2 1\ne 1 1\n"), refused(Refusal::SameVertex, 2));
}

/// It may move to another thread, and several may list one that nobody edits.
#[test]
fn threads_share_a_graph() {
    fn may_be_shared<T: Send + Sync>() {}
    may_be_shared::<Graph>();
    let graph = of_edges(6, &[(0, 1), (1, 2), (0, 2), (3, 4)]);
    let expected = listed(&graph, MAX);
    std::thread::scope(|scope| {
        let threads: Vec<_> = (0..4).map(|_| scope.spawn(|| listed(&graph, MAX))).collect();
        for thread in threads {
            assert_eq!(thread.join().unwrap(), expected);
        }
    });
}

#[test]
fn what_debug_shows() {
    assert_eq!(format!("{:?}", of_edges(3, &[(0, 1)])), "Graph { vertices: 3, edges: 1, .. }");
}
