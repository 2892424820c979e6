//! Groups with so many outgoing edges that both halves of their number are used: document 02, C-14. Their cliques are too
//! large for all subsets to be listed, so the groups are told by what is special about the graphs.

use outside::calls;
use outside::cases::{alone, cases};
use outside::cliques::maximal;
use outside::graph::{pairs, Graph};
use outside::groups::{outgoing_edges, record, FullList, Reference, Settings};
use outside::library::{self, PageAnswer, PageRequest};
use outside::random::Random;
use outside::samples;

/// min with c 1, of both kinds.
const MIN_1: [Settings; 2] = [Settings { notion: 0, kind: 0, c: 1 }, Settings { notion: 0, kind: 1, c: 1 }];

/// The full list under min with c 1, whatever the kind. Some member of a group has no neighbour outside, so the group is that
/// vertex with all its neighbours, and no larger set is a clique. The first member by rank is such a vertex, since the others
/// have as many neighbours or more, and it stands in no other group.
fn list_at_min_1(graph: &Graph) -> FullList {
    let order = graph.order();
    let with_neighbours = |v: usize| order.iter().copied().filter(|&u| u == v || graph.joined(u, v)).collect();
    let clique = |set: &[usize]| pairs(set.len()).all(|(i, j)| graph.joined(set[i], set[j]));
    let mut groups: Vec<Vec<usize>> = order.iter().map(|&v| with_neighbours(v)).collect();
    let mut first = order.iter();
    groups.retain(|set| Some(&set[0]) == first.next() && clique(set));
    FullList::of(graph, groups)
}

#[test]
fn lists_at_min_with_c_1() {
    cases("lists_at_min_with_c_1", 2000, |random| {
        let n = random.between(0, 14);
        let reference = Reference::of(samples::any(random, n));
        let list = list_at_min_1(&reference.graph);
        for settings in MIN_1 {
            assert_eq!(list.groups, reference.full_list(settings).groups, "{:?}", reference.graph);
        }
    });
}

/// A clique of so many vertices, and for each number of a list a further vertex that is joined to so many of them, and to
/// nothing else. Under min with c 1 each of these is in a group of its own, with those that it is joined to. Where the first
/// number is that of the whole clique, its group has the sum of the other numbers as outgoing edges. Returns that group too.
fn crown(random: &mut Random, members: usize, joined: &[usize]) -> (Graph, Vec<usize>) {
    let mut vertices: Vec<usize> = (0..members + joined.len()).collect();
    random.shuffle(&mut vertices);
    let mut graph = Graph::empty(vertices.len());
    let (members, further) = vertices.split_at_mut(members);
    pairs(members.len()).for_each(|(i, j)| graph.join(members[i], members[j]));
    for (&vertex, &count) in further.iter().zip(joined) {
        random.shuffle(members);
        members[..count].iter().for_each(|&member| graph.join(vertex, member));
    }
    let group = graph.order().into_iter().filter(|v| members.contains(v) || *v == further[0]).collect();
    (graph, group)
}

/// A crown whose clique has so many members. Beside the first of the further vertices, whose group has so many outgoing edges,
/// there are others that are joined to the whole clique, and some that are joined to parts of it.
struct Crown {
    members: usize,
    whole: usize,
    parts: &'static [usize],
    outgoing_edges: usize,
    halves: [u16; 2],
}

/// No group of a graph of 1,024 vertices has more of them than the last, so that 512 * 512 = 262,144 is never reached. Where no
/// vertex is joined to all k members, each of the n - k vertices outside lacks one, and (k - 1) * (n - k) is at most 511 * 512.
/// Where one is, the larger clique with it must not be isolated, but under min it is. Under avg and max the vertex then has c
/// neighbours or more outside that clique, so that c is at most n - k - 1; and the group, being isolated, has less than c * k
/// outgoing edges, less than 511 * 512 again.
const CROWNS: [Crown; 5] = [
    Crown { members: 257, whole: 255, parts: &[], outgoing_edges: 65_535, halves: [0, 65_535] },
    Crown { members: 256, whole: 256, parts: &[], outgoing_edges: 65_536, halves: [1, 0] },
    Crown { members: 512, whole: 255, parts: &[511], outgoing_edges: 131_071, halves: [1, 65_535] },
    Crown { members: 512, whole: 257, parts: &[257], outgoing_edges: 131_841, halves: [2, 769] },
    Crown { members: 511, whole: 512, parts: &[], outgoing_edges: 261_632, halves: [3, 65_024] },
];

/// The same of all small graphs: some group has as many outgoing edges as the largest (k - 1) * (n - k), and none has more.
#[test]
fn the_most_outgoing_edges() {
    for n in 1..=5 {
        let mut most = 0;
        for reference in samples::all(n).map(Reference::of) {
            let groups =
                (1..=n as u32).flat_map(Settings::all).flat_map(|settings| reference.full_list(settings).groups);
            most = groups.map(|group| outgoing_edges(&reference.graph, &group)).fold(most, usize::max);
        }
        assert_eq!(Some(most), (1..=n).map(|k| (k - 1) * (n - k)).max(), "n {n}");
    }
}

/// The graph of one of these, and the group of its first further vertex.
fn drawn(random: &mut Random, it: &Crown) -> (Graph, Vec<usize>) {
    let joined = [&vec![it.members; it.whole + 1], it.parts].concat();
    let (graph, group) = crown(random, it.members, &joined);
    assert_eq!(outgoing_edges(&graph, &group), it.outgoing_edges);
    assert_eq!(record(&graph, &group)[..3], [it.members as u16 + 1, it.halves[0], it.halves[1]]);
    (graph, group)
}

/// The whole list under min with c 1, of both kinds, each in one page.
fn check_list(random: &mut Random, graph: &Graph, list: &FullList) {
    let (groups, used) = (list.groups.len() as u32, list.entries().len());
    for settings in MIN_1 {
        let spare = random.below(3);
        let request = PageRequest::fresh(random, graph, settings, used + spare, u32::MAX);
        let reply = library::page(&request);
        let steps = reply.answer.steps;
        let answer = PageAnswer { stop: 1, groups, steps, used, ..PageAnswer::default() };
        assert_eq!(reply.answer, answer, "{settings:?} of {graph:?}");
        assert!(&reply.output[..used] == list.entries(), "the list at {settings:?} of {graph:?}");
        assert!(reply.output[used..] == request.output[used..], "unused output at {settings:?} of {graph:?}");
    }
}

/// The listed groups are all maximal cliques, found by the method of Bron and Kerbosch, and the library lists them.
#[test]
fn lists_around_65536_outgoing_edges() {
    let mut random = Random::new(21);
    for it in &CROWNS {
        let (graph, group) = drawn(&mut random, it);
        let list = list_at_min_1(&graph);
        assert!(list.has(&group));
        let sorted = |mut sets: Vec<Vec<usize>>| {
            sets.iter_mut().for_each(|set| set.sort());
            sets.sort();
            sets
        };
        assert!(sorted(list.groups.clone()) == sorted(maximal(&graph)), "the reference");
        check_list(&mut random, &graph, &list);
    }
}

/// Crowns of any numbers.
#[test]
fn lists_of_crowns() {
    let mut large = 0u32;
    cases("lists_of_crowns", 20, |random| {
        let (members, further) = (random.between(1, 600), random.between(1, 400));
        let least = random.below(members + 1);
        let joined: Vec<usize> = (0..further).map(|_| random.between(least, members)).collect();
        let (graph, _) = crown(random, members, &joined);
        let list = list_at_min_1(&graph);
        check_list(random, &graph, &list);
        large += u32::from(list.groups.iter().any(|group| outgoing_edges(&graph, group) > 65_535));
    });
    assert!(alone() || (3..18).contains(&large), "{large} have groups of more than 65,535 outgoing edges");
}

/// Each group in turn: an output that is one entry too short for it, and one that is just long enough.
#[test]
fn outputs_of_one_record() {
    let mut random = Random::new(22);
    for it in [&CROWNS[1], &CROWNS[3]] {
        let (graph, _) = drawn(&mut random, it);
        let list = list_at_min_1(&graph);
        let records: Vec<Vec<u16>> = list.groups.iter().map(|group| record(&graph, group)).collect();
        let mut request = PageRequest::fresh(&mut random, &graph, MIN_1[0], 0, u32::MAX);
        for (place, record) in records.iter().enumerate() {
            let wanted = record.len();
            request.output = random.entries(wanted - 1);
            let short = library::page(&request);
            let steps = short.answer.steps;
            assert_eq!(short.answer, PageAnswer { stop: 3, steps, wanted, ..PageAnswer::default() });
            assert!(short.output == request.output, "an entry was written without its record");
            (request.position, request.output) = (short.position, random.entries(wanted));
            let enough = library::page(&request);
            let (steps, used) = (enough.answer.steps, wanted);
            let (stop, wanted) = records.get(place + 1).map_or((1, 0), |next| (3, next.len()));
            assert_eq!(enough.answer, PageAnswer { stop, groups: 1, steps, used, wanted, refusal: 0 });
            assert!(enough.output == *record, "group {place} of {graph:?}");
            request.position = enough.position;
        }
        assert_eq!(request.position, vec![2; graph.n]);
    }
}

/// The page that begins with a group, under each of these settings, with an output one entry too short and one just long
/// enough, is that of the reference.
fn check_record(random: &mut Random, graph: &Graph, group: &[usize], settings: impl Iterator<Item = Settings>) {
    let list = FullList::of(graph, vec![group.to_vec()]);
    let position: Vec<u8> = graph.order().iter().map(|v| if group.contains(v) { 1 } else { 2 }).collect();
    for settings in settings {
        for (entries, stop) in [(group.len() + 2, 3), (group.len() + 3, 2)] {
            let request = PageRequest::fresh(random, graph, settings, entries, 1);
            let request = PageRequest { position: position.clone(), ..request };
            let expected = calls::page(&request, &list);
            assert_eq!(expected.answer.stop, stop, "the reference");
            assert!(library::page(&request) == expected, "{group:?} at {settings:?} of {graph:?}");
        }
    }
}

/// With the largest factor every clique is isolated, so that each crown has its group under every notion and kind.
#[test]
fn every_notion_and_kind() {
    let mut random = Random::new(23);
    for it in &CROWNS {
        let (graph, group) = drawn(&mut random, it);
        check_record(&mut random, &graph, &group, Settings::all(1024).chain(MIN_1));
    }
}

/// The same of maximal cliques of random dense graphs, grown by the vertices in any order.
#[test]
fn cliques_of_large_dense_graphs() {
    let mut large = [0u32; 2];
    cases("cliques_of_large_dense_graphs", 10, |random| {
        let (n, chance) = (random.between(700, 1024), random.between(90, 99));
        let graph = samples::by_chance(random, n, chance);
        let mut vertices: Vec<usize> = (0..n).collect();
        for _ in 0..3 {
            random.shuffle(&mut vertices);
            let mut clique: Vec<usize> = Vec::new();
            for &v in &vertices {
                if clique.iter().all(|&member| graph.joined(v, member)) {
                    clique.push(v);
                }
            }
            let group: Vec<usize> = graph.order().into_iter().filter(|v| clique.contains(v)).collect();
            check_record(random, &graph, &group, Settings::all(1024));
            large[usize::from(outgoing_edges(&graph, &group) > 65_535)] += 1;
        }
    });
    assert!(alone() || large.iter().all(|&times| times > 3), "{large:?}: up to 65,535 outgoing edges, and more");
}
