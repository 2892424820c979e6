//! Demand 3 from outside: lists of page calls with budgets, outputs and work slices of all sorts and with refused
//! calls in between. Each single reply is the reference's, and joined they are the full list.

use outside::calls;
use outside::cases::{alone, cases};
use outside::groups::{FullList, Reference, Settings};
use outside::library::{self, PageReply, PageRequest};
use outside::packed::{pack, put, stray_place, turn};
use outside::random::Random;
use outside::samples;
use outside::walk::Walk;

fn some_settings(random: &mut Random) -> Settings {
    let c = *random.pick(&[1, 1, 2, 2, 3, 4, 5, 6, 1024]);
    Settings::any(random, c)
}

/// The next call of a listing: any budget, output and work slice.
fn next_call(random: &mut Random, reference: &Reference, settings: Settings, position: &[u8]) -> PageRequest {
    let n = reference.graph.n;
    let budget = match random.below(5) {
        0 => random.below(3),
        1 => random.below(20),
        2 => random.below(200),
        3 => random.below(5000),
        _ => u32::MAX as usize,
    };
    let output = match random.below(4) {
        0 => random.below(5),
        1 => n + 3,
        _ => random.below(8 * n + 12),
    };
    let more = random.below(5);
    let mut request = PageRequest::fresh(random, &reference.graph, settings, output, budget as u32);
    request.position = position.to_vec();
    request.work.extend(random.entries(more));
    request
}

/// Spoils a call in anything beside its position; the call is then refused, or accepted where it is still sound.
fn spoil(random: &mut Random, request: &mut PageRequest) {
    let n = request.n;
    match random.below(12) {
        0 => request.n = *random.pick(&[n + 1, 1025, usize::MAX, usize::MAX / 2 + 1, 1 << 32, 1 << 63]),
        1 => request.table.push(0),
        2 if n > 0 => put(&mut request.table, n, random.below(n), stray_place(random, n).unwrap(), true),
        3 if n > 0 => {
            let vertex = random.below(n);
            put(&mut request.table, n, vertex, vertex, true);
        }
        4 if n > 1 => turn(&mut request.table, n, 0, n - 1),
        5 => request.settings.notion = random.between(3, 300) as u32,
        6 => request.settings.c = *random.pick(&[0, 1025, u32::MAX]),
        7 if n > 0 => request.work.truncate(random.below(8 * n)),
        8 => {
            let graph = samples::any(random, n + 1);
            request.n = n + 1;
            (request.degrees, request.table) = (graph.degrees(), pack(&graph));
        }
        9 if n > 0 => request.degrees[random.below(n)] ^= 1,
        10 => request.degrees.push(0),
        _ => request.settings.kind = random.between(2, 300) as u32,
    }
    assert!(calls::page_refusal(request).is_some(), "a spoiled call is refused: {request:?}");
}

fn check(request: &PageRequest, list: &FullList) -> PageReply {
    let found = library::page(request);
    let expected = calls::page(request, list);
    assert_eq!(found, expected, "the page of {request:?}");
    found
}

#[test]
fn lists_of_page_calls() {
    cases("lists_of_page_calls", 2500, |random| {
        let n = random.between(0, 10);
        let reference = Reference::of(samples::any(random, n));
        let settings = some_settings(random);
        let list = reference.full_list(settings);
        let walk = Walk::new(&reference.graph, settings.c);
        let (length, _) = walk.whole();
        let mut position = walk.fresh();
        let (mut joined, mut groups, mut steps) = (Vec::new(), 0, 0u64);
        for _ in 0..60 {
            let mut request = next_call(random, &reference, settings, &position);
            if random.percent(20) {
                spoil(random, &mut request);
            }
            let reply = check(&request, &list);
            joined.extend_from_slice(&reply.output[..reply.answer.used]);
            groups += u64::from(reply.answer.groups);
            steps += u64::from(reply.answer.steps);
            position = reply.position;
            let whole = list.entries();
            assert!(whole.starts_with(&joined), "{joined:?} is no beginning of {whole:?}: {:?}", reference.graph);
            if reply.answer.refusal == 0 {
                assert_eq!(reply.answer.stop == 1, walk.finished(&position));
            }
            if reply.answer.stop == 1 {
                assert_eq!(joined, whole, "{:?} at {settings:?}", reference.graph);
                assert_eq!(groups, list.groups.len() as u64, "{:?} at {settings:?}", reference.graph);
                assert_eq!(steps, length, "{:?} at {settings:?}", reference.graph);
                if random.percent(70) {
                    break;
                }
            }
        }
    });
}

/// A position that no walk need have left: bytes 0 to 2 in their order, seldom another byte.
fn some_position(random: &mut Random, n: usize) -> Vec<u8> {
    let decided = random.between(0, n);
    let chance = random.between(5, 60);
    let mut position: Vec<u8> = (0..n)
        .map(|r| match r < decided {
            true if random.percent(chance) => 1,
            true => 2,
            false => 0,
        })
        .collect();
    if n > 0 && random.percent(15) {
        position[random.below(n)] = random.below(5) as u8;
    }
    position
}

#[test]
fn pages_from_any_position() {
    let (mut accepted, mut refused) = (0u32, 0u32);
    cases("pages_from_any_position", 800, |random| {
        let n = random.between(1, 12);
        let reference = Reference::of(samples::any(random, n));
        let settings = some_settings(random);
        let list = reference.full_list(settings);
        for _ in 0..30 {
            let position = some_position(random, n);
            let mut request = next_call(random, &reference, settings, &position);
            request.budget = request.budget.min(300);
            match check(&request, &list).answer.refusal {
                0 => accepted += 1,
                _ => refused += 1,
            }
        }
    });
    assert!(alone() || accepted > 3000 && refused > 3000, "{accepted} accepted, {refused} refused");
}

/// Every position of bytes 0 to 3 over every graph of three vertices, with small budgets and outputs.
#[test]
fn all_positions_of_three_ranks() {
    let mut random = Random::new(2);
    for graph in samples::all(3) {
        let reference = Reference::of(graph);
        for settings in (1..=3).flat_map(Settings::all) {
            let list = reference.full_list(settings);
            for bytes in 0..64u8 {
                let position = [bytes & 3, bytes >> 2 & 3, bytes >> 4];
                for (budget, output) in [(0, 0), (1, 0), (2, 4), (3, 6), (100, 3), (100, 5), (100, 20)] {
                    let mut request = next_call(&mut random, &reference, settings, &position);
                    request.budget = budget;
                    request.output = random.entries(output);
                    check(&request, &list);
                }
            }
        }
    }
}
