//! Every refusal of page, set query, edits, the count of the degrees and the packing, and every two faults at once: the one
//! that document 01 tests first is told, all other numbers are 0, and all lent memory is as it was.

use outside::calls;
use outside::cases::cases;
use outside::groups::{Reference, Settings};
use outside::library::{self, Edit, EditAnswer, EditReply, EditRequest};
use outside::library::{PackReply, PageAnswer, PageRequest, SetAnswer, SetRequest};
use outside::packed::{pack, put, row_numbers, turn};
use outside::random::Random;
use outside::samples;

// In the order in which they are tested.
const PAGE: [u32; 14] = [1, 2, 45, 4, 5, 42, 6, 7, 8, 9, 10, 21, 22, 23];
const SET: [u32; 12] = [1, 2, 45, 4, 5, 42, 6, 7, 8, 9, 10, 11];

/// The claw, at a position that the walk comes by, with random settings and memory.
fn sound_page(random: &mut Random) -> PageRequest {
    let (entries, budget) = (random.below(9), random.below(50) as u32);
    let settings = some_settings(random);
    let position = random.pick(&[[0, 0, 0, 0], [1, 1, 0, 0], [2, 2, 1, 0], [2, 1, 2, 2], [2, 2, 2, 2]]).to_vec();
    PageRequest { position, ..PageRequest::fresh(random, &samples::claw(), settings, entries, budget) }
}

fn some_settings(random: &mut Random) -> Settings {
    let c = random.between(1, 5) as u32;
    Settings::any(random, c)
}

/// Puts the fault of a number into a page call, in one of several ways, and leaves other faults in place.
fn put_page_fault(random: &mut Random, request: &mut PageRequest, number: u32) {
    match number {
        21 => {
            let place = random.below(request.position.len());
            request.position[place] = random.between(3, 255) as u8;
        }
        // The last rank is decided after an open one; a byte over 2 that stands there is kept.
        22 => {
            let last = request.position.len() - 1;
            request.position[last - 1] = 0;
            request.position[last] = request.position[last].max(1);
        }
        // Leaves 1 and 2 of the claw are taken and unjoined, and rank 2 is decided after them.
        23 => {
            for (byte, new) in request.position.iter_mut().zip([1, 1, 2]) {
                *byte = if *byte > 2 { *byte } else { new };
            }
        }
        _ => {
            let PageRequest { table, degrees, position, work, n, settings, .. } = request;
            put_common_fault(random, Common { table, degrees, marks: position, work, n, settings }, number)
        }
    }
}

/// What page and set query are both lent; the marks are the position or the set.
struct Common<'a> {
    table: &'a mut Vec<u64>,
    degrees: &'a mut Vec<u16>,
    marks: &'a mut Vec<u8>,
    work: &'a mut Vec<u16>,
    n: &'a mut usize,
    settings: &'a mut Settings,
}

/// The faults 1, 2, 45, 4, 5, 42 and 6 to 10, which page and set query share.
fn put_common_fault(random: &mut Random, common: Common, number: u32) {
    let Common { table, degrees, marks, work, n, settings } = common;
    match number {
        6 => settings.notion = *random.pick(&[3, 4, 256, 1 << 16, 1 << 31, u32::MAX]),
        7 => settings.kind = *random.pick(&[2, 3, 256, 1 << 16, 1 << 31, u32::MAX]),
        8 => settings.c = *random.pick(&[0, 1025, 1026, 65536, 65537, 1 << 31, u32::MAX]),
        9 => longer_or_shorter(random, marks),
        10 => work.truncate(random.below(32)),
        _ => put_graph_fault(random, table, degrees, n, number),
    }
}

/// The faults 1, 2, 45, 4, 5 and 42 of the claw, which all calls that take a graph share.
fn put_graph_fault(random: &mut Random, table: &mut Vec<u64>, degrees: &mut Vec<u16>, n: &mut usize, number: u32) {
    match number {
        1 => *n = too_many(random),
        2 => longer_or_shorter(random, table),
        45 => put(table, 4, random.below(4), random.between(4, 63), true),
        4 => put(table, 4, 2, 2, true),
        5 if random.percent(50) => put(table, 4, 2, 3, true),
        5 => put(table, 4, 3, 2, true),
        42 => spoil_degrees(random, degrees),
        _ => unreachable!(),
    }
}

/// More vertices than 1,024.
fn too_many(random: &mut Random) -> usize {
    *random.pick(&[1025, 1026, 65536, 1 << 32, (1 << 32) + 4, 1 << 63, usize::MAX])
}

/// One entry more or less.
fn longer_or_shorter<T: From<u8>>(random: &mut Random, entries: &mut Vec<T>) {
    if random.percent(50) {
        entries.push(T::from(random.below(3) as u8));
    } else {
        entries.pop();
    }
}

/// A list that is one entry too long or too short, one with a wrong entry, or one with two of the claw's degrees
/// exchanged.
fn spoil_degrees(random: &mut Random, degrees: &mut Vec<u16>) {
    let place = random.below(degrees.len());
    match random.below(5) {
        0 | 1 => longer_or_shorter(random, degrees),
        2 => degrees[place] = degrees[place].wrapping_add(*random.pick(&[1, u16::MAX, 256, 1 << 15])),
        3 => degrees[place] = degrees[place].wrapping_add(random.between(1, 65535) as u16),
        _ => degrees.swap(0, 1 + place % 3),
    }
}

/// Two faults of an order, or one where they are the same: which are put in, and which of them is told. The one that is
/// tested later is put in first, so that lengths change last. 22 and 23 at once need more ranks than the claw has: that
/// pair stands by itself below.
fn faults(order: &[u32], first: usize, second: usize) -> (Vec<u32>, u32) {
    let mut faults = vec![order[first.max(second)], order[first.min(second)]];
    faults.dedup();
    (faults, order[first.min(second)])
}

fn check_page(request: &PageRequest, refusal: u32) {
    assert_eq!(calls::page_refusal(request), Some(refusal), "the reference's refusal of {request:?}");
    let reply = library::page(request);
    assert_eq!(reply.answer, PageAnswer { refusal, ..PageAnswer::default() }, "{request:?}");
    assert_eq!(reply.position, request.position, "the position of {request:?}");
    assert_eq!(reply.output, request.output, "the output of {request:?}");
    assert_eq!(reply.work.as_ref(), Some(&request.work), "the work slice of {request:?}");
}

#[test]
fn pages_with_one_and_two_faults() {
    cases("pages_with_one_and_two_faults", 40, |random| {
        for first in 0..PAGE.len() {
            for second in 0..PAGE.len() {
                let (faults, told) = faults(&PAGE, first, second);
                if faults == [23, 22] {
                    continue;
                }
                let mut request = sound_page(random);
                assert_eq!(calls::page_refusal(&request), None);
                for number in faults {
                    put_page_fault(random, &mut request, number);
                }
                check_page(&request, told);
            }
        }
    });
}

#[test]
fn pages_with_many_faults() {
    cases("pages_with_many_faults", 3000, |random| {
        let mut request = sound_page(random);
        let mut faults: Vec<u32> = PAGE.into_iter().filter(|_| random.percent(25)).collect();
        faults.reverse();
        for &number in &faults {
            put_page_fault(random, &mut request, number);
        }
        if let Some(refusal) = calls::page_refusal(&request) {
            check_page(&request, refusal);
        }
    });
}

/// 22 is told before 23: two unjoined leaves are taken, a third rank is decided, and one is decided after an open one.
#[test]
fn a_gap_before_a_dead_position() {
    let mut random = Random::new(3);
    let mut request = sound_page(&mut random);
    let graph = samples::star(5);
    request.n = 6;
    (request.degrees, request.table) = (graph.degrees(), pack(&graph));
    request.work = random.entries(48);
    request.position = vec![1, 1, 2, 0, 0, 1];
    check_page(&request, 22);
    request.position = vec![1, 1, 2, 0, 0, 3];
    check_page(&request, 21);
    request.position = vec![1, 1, 2, 0, 0, 0];
    check_page(&request, 23);
}

/// 23 by left neighbours of the pivot alone: with c of them left, one more rank must not be decided.
#[test]
fn a_position_dead_by_left_neighbours() {
    let mut random = Random::new(4);
    let graph = samples::complete(6);
    for c in 1..=4 {
        let mut request = sound_page(&mut random);
        request.n = 6;
        (request.degrees, request.table) = (graph.degrees(), pack(&graph));
        request.work = random.entries(48);
        request.settings.c = c as u32;
        for left in 0..=4 {
            let mut position = vec![1];
            position.extend(vec![2; left]);
            position.resize(6, 0);
            position[left + 1] = 1;
            request.position = position.clone();
            let expected = if left >= c { Some(23) } else { None };
            assert_eq!(calls::page_refusal(&request), expected);
            match expected {
                Some(refusal) => check_page(&request, refusal),
                None => assert_eq!(library::page(&request).answer.refusal, 0, "{request:?}"),
            }
        }
    }
}

fn sound_set(random: &mut Random) -> SetRequest {
    let settings = some_settings(random);
    let set = (0..4).map(|_| random.below(2) as u8).collect();
    SetRequest::of(random, &samples::claw(), settings, set)
}

fn put_set_fault(random: &mut Random, request: &mut SetRequest, number: u32) {
    let SetRequest { table, degrees, set, work, n, settings } = request;
    match number {
        11 => {
            let place = random.below(set.len());
            set[place] = random.between(2, 255) as u8;
        }
        _ => put_common_fault(random, Common { table, degrees, marks: set, work, n, settings }, number),
    }
}

#[test]
fn set_queries_with_one_and_two_faults() {
    cases("set_queries_with_one_and_two_faults", 40, |random| {
        for first in 0..SET.len() {
            for second in 0..SET.len() {
                let mut request = sound_set(random);
                assert_eq!(calls::set_refusal(&request), None);
                let (faults, refusal) = faults(&SET, first, second);
                for number in faults {
                    put_set_fault(random, &mut request, number);
                }
                assert_eq!(calls::set_refusal(&request), Some(refusal), "the reference's refusal of {request:?}");
                let reply = library::set_query(&request);
                assert_eq!(reply.answer, SetAnswer { refusal, yes: 0 }, "{request:?}");
                assert_eq!(reply.work.as_ref(), Some(&request.work), "the work slice of {request:?}");
            }
        }
    });
}

fn sound_edit(random: &mut Random) -> EditRequest {
    let (u, v) = *random.pick(&[(0, 1), (1, 0), (2, 3), (3, 0), (3, 2), (1, 3)]);
    EditRequest::of(&samples::claw(), u, v)
}

/// Vertices that the claw does not have.
fn no_vertex(random: &mut Random) -> usize {
    *random.pick(&[4, 5, 15, 16, 1023, 1024, 1 << 16, 1 << 32, (1 << 62) + 1, 1 << 63, usize::MAX])
}

fn put_edit_fault(random: &mut Random, request: &mut EditRequest, number: u32) {
    let EditRequest { table, degrees, n, u, v } = request;
    match number {
        // Both ends stay equal where they are.
        43 if u == v => {
            *u = no_vertex(random);
            *v = *u;
        }
        43 => match random.below(3) {
            0 => *u = no_vertex(random),
            1 => *v = no_vertex(random),
            _ => (*u, *v) = (no_vertex(random), no_vertex(random)),
        },
        44 => *v = *u,
        _ => put_graph_fault(random, table, degrees, n, number),
    }
}

#[test]
fn edits_with_one_and_two_faults() {
    const EDIT: [u32; 8] = [1, 2, 45, 4, 5, 42, 43, 44];
    cases("edits_with_one_and_two_faults", 100, |random| {
        for first in 0..EDIT.len() {
            for second in 0..EDIT.len() {
                let mut request = sound_edit(random);
                assert_eq!(calls::edit_refusal(&request), None);
                let (faults, refusal) = faults(&EDIT, first, second);
                for number in faults {
                    put_edit_fault(random, &mut request, number);
                }
                assert_eq!(calls::edit_refusal(&request), Some(refusal), "the reference's refusal of {request:?}");
                let EditRequest { table, degrees, .. } = request.clone();
                let unchanged = EditReply { answer: EditAnswer { refusal, unchanged: 0 }, table, degrees };
                for edit in Edit::BOTH {
                    assert_eq!(library::edit(edit, &request), unchanged, "{edit:?} {request:?}");
                }
            }
        }
    });
}

/// Of the list its length alone can be wrong.
#[test]
fn counts_of_the_degrees_with_one_and_two_faults() {
    const COUNT: [u32; 6] = [1, 2, 45, 4, 5, 42];
    cases("counts_of_the_degrees_with_one_and_two_faults", 100, |random| {
        for first in 0..COUNT.len() {
            for second in 0..COUNT.len() {
                let mut table = pack(&samples::claw());
                let (mut degrees, mut n) = (random.entries(4), 4);
                let (faults, refusal) = faults(&COUNT, first, second);
                for number in faults {
                    match number {
                        42 => longer_or_shorter(random, &mut degrees),
                        _ => put_graph_fault(random, &mut table, &mut degrees, &mut n, number),
                    }
                }
                let found = library::degrees(&table, &degrees, n);
                assert_eq!(found, calls::degrees(&table, &degrees, n), "{n} {table:?} {degrees:?}");
                assert_eq!((found.refusal, found.degrees), (refusal, degrees), "{n} {table:?}");
            }
        }
    });
}

/// Of the packed slice its length alone can be wrong.
#[test]
fn packings_with_one_and_two_faults() {
    const PACK: [u32; 5] = [1, 2, 3, 4, 5];
    cases("packings_with_one_and_two_faults", 200, |random| {
        for first in 0..PACK.len() {
            for second in 0..PACK.len() {
                let mut bytes = samples::claw().table;
                let (mut packed, mut n) = (random.numbers(4), 4);
                let (faults, refusal) = faults(&PACK, first, second);
                for number in faults {
                    match number {
                        1 => n = too_many(random),
                        2 if random.percent(50) => longer_or_shorter(random, &mut bytes),
                        2 => longer_or_shorter(random, &mut packed),
                        3 => bytes[random.below(9)] = random.between(2, 255) as u8,
                        4 => bytes[10] = 1,
                        5 => bytes[if random.percent(50) { 11 } else { 14 }] = 1,
                        _ => unreachable!(),
                    }
                }
                let found = library::pack(&bytes, &packed, n);
                assert_eq!(found, calls::pack(&bytes, &packed, n), "{n} {bytes:?} into {} numbers", packed.len());
                assert_eq!(found, PackReply { refusal, packed }, "{n} {bytes:?}");
            }
        }
    });
}

/// Both lengths one short, right and one long; each byte of a small byte table made another in turn.
#[test]
fn limits_of_a_packing() {
    let mut random = Random::new(6);
    for n in 0..=5usize {
        let graph = samples::any(&mut random, n);
        for lengths in 0..9 {
            let [bytes, packed] =
                [(n * n, 1), (n * row_numbers(n), 3)].map(|(right, place)| right + lengths / place % 3);
            if bytes > 0 && packed > 0 {
                let mut table = graph.table.clone();
                table.resize(bytes - 1, 0);
                let before = random.numbers(packed - 1);
                assert_eq!(library::pack(&table, &before, n), calls::pack(&table, &before, n), "{graph:?}");
            }
        }
        for place in 0..n * n {
            for byte in 0..=255 {
                let mut table = graph.table.clone();
                table[place] = byte;
                let before = random.numbers(n * row_numbers(n));
                assert_eq!(library::pack(&table, &before, n), calls::pack(&table, &before, n), "{n} {table:?}");
            }
        }
    }
}

/// Exact limits: lengths one short, right and one long; each bit of a small table turned in turn.
#[test]
fn limits() {
    let mut random = Random::new(5);
    for n in 0..=5usize {
        let graph = samples::any(&mut random, n);
        let settings = Settings { notion: 2, kind: 0, c: 2 };
        let list = Reference::of(graph.clone()).full_list(settings);
        for lengths in 0..81 {
            let [table, degrees, position, work] = [(n * row_numbers(n), 1), (n, 3), (n, 9), (8 * n, 27)]
                .map(|(right, place)| right + lengths / place % 3);
            if [table, degrees, position, work].contains(&0) {
                continue;
            }
            let mut request = PageRequest::fresh(&mut random, &graph, settings, 30, 1000);
            request.table.resize(table - 1, 0);
            request.degrees.resize(degrees - 1, 0);
            request.position.resize(position - 1, 0);
            request.work.resize(work - 1, 0);
            assert_eq!(library::page(&request), calls::page(&request, &list), "{request:?}");
        }
        for (u, place) in (0..n).flat_map(|u| (0..64).map(move |place| (u, place))) {
            let mut request = PageRequest::fresh(&mut random, &graph, settings, 30, 1000);
            turn(&mut request.table, n, u, place);
            let refusal = calls::page_refusal(&request).expect("one bit alone is a fault");
            check_page(&request, refusal);
        }
    }
}
