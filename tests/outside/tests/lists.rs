//! Random graphs of up to 14 vertices: the full list at every notion, kind and small factor, the walk's length, and
//! set queries on listed sets, on sets next to them and on random ones.

use outside::calls;
use outside::cases::cases;
use outside::graph::Graph;
use outside::groups::{FullList, Reference, Settings};
use outside::library::{self, PageAnswer, PageRequest, SetRequest};
use outside::random::Random;
use outside::samples;
use outside::walk::Walk;

/// Graphs of each family.
const GRAPHS: u64 = 2000;
const FACTORS: std::ops::RangeInclusive<u32> = 1..=6;

/// One call that has room and steps for everything must give the whole list.
fn check_list(random: &mut Random, graph: &Graph, settings: Settings, list: &FullList, length: u64) {
    let entries = list.entries();
    let spare = random.below(3);
    let request = PageRequest::fresh(random, graph, settings, entries.len() + spare, u32::MAX);
    let reply = library::page(&request);
    let answer = PageAnswer {
        refusal: 0,
        stop: 1,
        groups: list.groups.len() as u32,
        steps: u32::try_from(length).unwrap(),
        used: entries.len(),
        wanted: 0,
    };
    assert_eq!(&reply.output[..entries.len()], entries, "the list of {graph:?} at {settings:?}");
    assert_eq!(reply.output[entries.len()..], request.output[entries.len()..], "unused output of {graph:?}");
    assert_eq!(reply.answer, answer, "the answer for {graph:?} at {settings:?}");
    assert_eq!(reply.position, vec![2; graph.n], "the position of {graph:?} at {settings:?}");
}

/// A set to ask about: a random one, or a listed one with a vertex added, removed, swapped or nothing changed.
fn set_to_ask(random: &mut Random, n: usize, list: &FullList) -> Vec<u8> {
    if list.groups.is_empty() || random.percent(25) {
        let chance = random.between(5, 60);
        return (0..n).map(|_| random.percent(chance).into()).collect();
    }
    let mut set = vec![0; n];
    for &v in random.pick(&list.groups) {
        set[v] = 1;
    }
    match random.below(4) {
        0 => {}
        1 => set[random.below(n)] ^= 1,
        2 => {
            let (u, v) = (random.below(n), random.below(n));
            set.swap(u, v);
        }
        _ => {
            set[random.below(n)] = 1;
            set[random.below(n)] = 1;
        }
    }
    set
}

fn check_sets(random: &mut Random, graph: &Graph, settings: Settings, list: &FullList, queries: usize) {
    for _ in 0..queries {
        let set = set_to_ask(random, graph.n, list);
        let request = SetRequest::of(random, graph, settings, set);
        let expected = calls::set_query(&request, list);
        let found = library::set_query(&request);
        assert_eq!(found, expected, "set {:?} of {graph:?} at {settings:?}", request.set);
    }
}

fn check_graph(random: &mut Random, graph: Graph) {
    let reference = Reference::of(graph);
    let graph = &reference.graph;
    for c in FACTORS {
        let (length, passed) = Walk::new(graph, c).whole();
        let mut min_lists = Vec::new();
        for settings in Settings::all(c) {
            let list = reference.full_list(settings);
            // The reference agrees with itself: the walk meets the groups in the order of the list.
            let met: Vec<&Vec<usize>> = passed.iter().filter(|set| list.has(set)).collect();
            assert_eq!(met, list.groups.iter().collect::<Vec<_>>(), "the walk of {graph:?} at {settings:?}");
            check_list(random, graph, settings, &list, length);
            check_sets(random, graph, settings, &list, 4);
            if settings.notion == 0 {
                min_lists.push(list.groups);
            }
        }
        assert_eq!(min_lists[0], min_lists[1], "min gives the same list for both kinds: {graph:?}, c {c}");
    }
}

fn check_one_of(random: &mut Random, family: fn(&mut Random, usize) -> Graph) {
    let n = random.between(0, 14);
    let graph = family(random, n);
    check_graph(random, graph);
}

#[test]
fn sparse_graphs() {
    cases("sparse_graphs", GRAPHS, |random| check_one_of(random, samples::sparse));
}

#[test]
fn dense_graphs() {
    cases("dense_graphs", GRAPHS, |random| check_one_of(random, samples::dense));
}

#[test]
fn graphs_of_equal_degrees() {
    cases("graphs_of_equal_degrees", GRAPHS, |random| check_one_of(random, samples::equal_degrees));
}

#[test]
fn graphs_with_planted_cliques() {
    cases("graphs_with_planted_cliques", GRAPHS, |random| check_one_of(random, samples::planted));
}

/// Every graph of up to four vertices, with every set asked about.
#[test]
fn all_small_graphs() {
    let mut random = Random::new(1);
    for n in 0..=4 {
        for graph in samples::all(n) {
            let reference = Reference::of(graph.clone());
            check_graph(&mut random, graph);
            for settings in (1..=4).flat_map(Settings::all) {
                let list = reference.full_list(settings);
                for members in 0..1usize << n {
                    let set = (0..n).map(|v| (members >> v & 1) as u8).collect();
                    let request = SetRequest::of(&mut random, &reference.graph, settings, set);
                    let found = library::set_query(&request);
                    assert_eq!(found, calls::set_query(&request, &list), "{request:?}");
                }
            }
        }
    }
}
