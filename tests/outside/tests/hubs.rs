//! Degrees on both sides of 255 and of 511, where the larger of an entry's two bytes changes: the ranks, the list, the
//! set query and the edits of 600 vertices, twenty of them hubs.

use outside::calls;
use outside::cases::cases;
use outside::graph::{pairs, Graph};
use outside::groups::{Reference, Settings};
use outside::kept::Kept;
use outside::library::{self, DegreesReply, SetRequest};
use outside::packed::pack;
use outside::random::Random;

const N: usize = 600;

/// The degrees of the hubs. Those of a row are pairwise joined.
const DEGREES: [[usize; 5]; 4] =
    [[256, 510, 255, 256, 255], [514, 254, 258, 511, 254], [512, 257, 511, 512, 257], [513, 258, 510, 514, 513]];

/// A graph with hubs of these degrees, and the hubs. Every number is drawn. Under each row stand three vertices that are
/// joined to all its hubs, to its first three and to its last two, and nothing else; four vertices have no neighbour; the
/// rest make up the degrees.
fn hubs(random: &mut Random) -> (Graph, [[usize; 5]; 4]) {
    let mut vertices: Vec<usize> = (0..N).collect();
    random.shuffle(&mut vertices);
    let mut next = vertices.into_iter();
    let hubs = DEGREES.map(|row| row.map(|_| next.next().unwrap()));
    let mut graph = Graph::empty(N);
    for row in &hubs {
        pairs(5).for_each(|(i, j)| graph.join(row[i], row[j]));
        for under in [&row[..], &row[..3], &row[3..]] {
            let vertex = next.next().unwrap();
            under.iter().for_each(|&hub| graph.join(vertex, hub));
        }
    }
    let mut others: Vec<usize> = next.skip(4).collect();
    for (&hub, &degree) in hubs.iter().flatten().zip(DEGREES.iter().flatten()) {
        random.shuffle(&mut others);
        let missing = degree - graph.degree(hub);
        others[..missing].iter().for_each(|&vertex| graph.join(hub, vertex));
        assert_eq!(graph.degree(hub), degree);
    }
    (graph, hubs)
}

/// The list at c = 1, and set queries of listed sets, of such sets with a vertex changed, and of hubs by themselves.
/// Returns how often these said no and yes.
fn check_calls(random: &mut Random, kept: &mut Kept, hubs: &[[usize; 5]; 4]) -> [u32; 2] {
    let reference = Reference::of(kept.graph());
    for settings in Settings::all(1) {
        kept.check_list(random, &reference, settings);
    }
    let with_hubs = reference.full_list(Settings { notion: 0, kind: 0, c: 1 }).groups;
    assert!(with_hubs.iter().filter(|group| group.len() > 3).count() >= 4, "{with_hubs:?}");
    let mut said = [0; 2];
    for c in [1, 2, 251, 252, 254, 255, 256, 257, 511, 512] {
        let settings = Settings::any(random, c);
        let list = reference.full_list(settings);
        for round in 0..8 {
            let mut set = vec![0; N];
            match round % 4 {
                0 => hubs[random.below(4)].iter().for_each(|&hub| set[hub] = 1),
                1 => set[hubs[random.below(4)][random.below(5)]] = 1,
                _ if list.groups.is_empty() => {}
                _ => random.pick(&list.groups).iter().for_each(|&v| set[v] = 1),
            }
            if round % 4 == 3 {
                set[random.below(N)] ^= 1;
            }
            let mut request = SetRequest::of(random, &Graph::empty(N), settings, set);
            (request.table, request.degrees) = (kept.table.clone(), kept.degrees.clone());
            let expected = calls::set_query(&request, &list);
            assert_eq!(library::set_query(&request), expected, "{settings:?} of {:?}", kept.graph());
            said[expected.answer.yes as usize] += 1;
        }
    }
    said
}

#[test]
fn degrees_of_255_and_256() {
    cases("degrees_of_255_and_256", 2, |random| {
        let (graph, hubs) = hubs(random);
        let counted = library::degrees(&pack(&graph), &random.entries(N), N);
        assert_eq!(counted, DegreesReply { refusal: 0, degrees: graph.degrees() });
        for (&hub, &degree) in hubs.iter().flatten().zip(DEGREES.iter().flatten()) {
            assert_eq!(usize::from(counted.degrees[hub]), degree);
        }
        let mut kept = Kept::of(&graph);
        let [no, yes] = check_calls(random, &mut kept, &hubs);
        assert!(no > 15 && yes > 15, "{no} times no, {yes} times yes");
        // Both ends pass the border, from 255 and from 511, and then come back.
        let pair = (hubs[0][2], hubs[2][2]);
        kept.turn(pair);
        assert_eq!([kept.degrees[pair.0], kept.degrees[pair.1]], [256, 512]);
        check_calls(random, &mut kept, &hubs);
        kept.turn((pair.1, pair.0));
        assert_eq!([kept.degrees[pair.0], kept.degrees[pair.1]], [255, 511]);
        assert!(kept.table == pack(&graph) && kept.degrees == graph.degrees());
        check_calls(random, &mut kept, &hubs);
    });
}
