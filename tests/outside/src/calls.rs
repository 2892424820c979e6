//! What page, set query, edits and the packing reply, as document 01 and requests C-12, C-14 and C-15 word it: refusals in
//! their order, then the page's five points, the pair and its degrees, or the packed table.

use crate::graph::Graph;
use crate::groups::{record, FullList, Settings};
use crate::library::{DegreesReply, Edit, EditAnswer, EditReply, EditRequest, PackReply};
use crate::library::{PageAnswer, PageReply, PageRequest, SetAnswer, SetReply, SetRequest};
use crate::packed;
use crate::walk::{Walk, LEFT, OPEN};

/// The number of the first test that finds its fault.
fn first(tests: &[(u32, &dyn Fn() -> bool)]) -> Option<u32> {
    tests.iter().find(|(_, fault)| fault()).map(|(number, _)| *number)
}

/// "Turned back by the input", numbers 1 to 5 of a byte table, and 2 of the slice that it is packed into too.
fn by_bytes(bytes: &[u8], packed: usize, n: usize) -> Option<u32> {
    let byte = |u: usize, v: usize| bytes[u * n + v];
    first(&[
        (1, &|| n > 1024),
        (2, &|| bytes.len() != n * n || packed != n * packed::row_numbers(n)),
        (3, &|| bytes.iter().any(|&byte| byte != 0 && byte != 1)),
        (4, &|| (0..n).any(|u| byte(u, u) == 1)),
        (5, &|| (0..n).any(|u| (0..n).any(|v| byte(u, v) != byte(v, u)))),
    ])
}

/// The same of a packed table, 45 in the place of 3.
fn by_table(table: &[u64], n: usize) -> Option<u32> {
    let row = packed::row_numbers(n);
    let bit = |u: usize, v: usize| packed::bit(table, n, u, v);
    first(&[
        (1, &|| n > 1024),
        (2, &|| table.len() != n * row),
        (45, &|| (0..n).any(|u| (n..64 * row).any(|place| bit(u, place)))),
        (4, &|| (0..n).any(|u| bit(u, u))),
        (5, &|| (0..n).any(|u| (0..n).any(|v| bit(u, v) != bit(v, u)))),
    ])
}

/// The same with the degrees beside the table, 42 right after 5.
fn by_graph(table: &[u64], degrees: &[u16], n: usize) -> Option<u32> {
    by_table(table, n).or_else(|| (degrees != packed::graph(table, n).degrees()).then_some(42))
}

/// "Turned back by the input", numbers 1, 2, 45, 4, 5, 42 and 6 to 10; `marks` is the length of the position or the set.
fn by_input(table: &[u64], degrees: &[u16], n: usize, settings: Settings, marks: usize, work: usize) -> Option<u32> {
    let Settings { notion, kind, c } = settings;
    by_graph(table, degrees, n).or_else(|| {
        first(&[
            (6, &|| notion > 2),
            (7, &|| kind > 1),
            (8, &|| c == 0 || c > 1024),
            (9, &|| marks != n),
            (10, &|| work < 8 * n),
        ])
    })
}

/// "Turned back by the state".
fn by_state(walk: &Walk, position: &[u8]) -> Option<u32> {
    if position.iter().any(|&byte| byte > LEFT) {
        return Some(21);
    }
    if position.windows(2).any(|pair| pair[0] == OPEN && pair[1] != OPEN) {
        return Some(22);
    }
    let last = position.iter().rposition(|&byte| byte != OPEN)?;
    let mut opened = position.to_vec();
    opened[last] = OPEN;
    walk.dead(&opened).then_some(23)
}

/// The number that refuses a page call, if any.
pub fn page_refusal(request: &PageRequest) -> Option<u32> {
    let PageRequest { table, degrees, position, work, n, settings, .. } = request;
    by_input(table, degrees, *n, *settings, position.len(), work.len()).or_else(|| {
        let graph = packed::graph(&request.table, request.n);
        by_state(&Walk::new(&graph, request.settings.c), &request.position)
    })
}

/// A page call's whole reply. An accepted call's full list is handed in.
pub fn page(request: &PageRequest, list: &FullList) -> PageReply {
    let (mut position, mut output) = (request.position.clone(), request.output.clone());
    if let Some(refusal) = page_refusal(request) {
        let answer = PageAnswer { refusal, ..PageAnswer::default() };
        return PageReply { answer, position, output, work: Some(request.work.clone()) };
    }
    let graph = packed::graph(&request.table, request.n);
    let walk = Walk::new(&graph, request.settings.c);
    let mut answer = PageAnswer::default();
    answer.stop = loop {
        if walk.finished(&position) {
            break 1;
        }
        if answer.steps == request.budget {
            break 2;
        }
        let set = walk.taken(&position);
        if walk.decided(&position) && list.has(&set) {
            let record = record(&graph, &set);
            if record.len() > output.len() - answer.used {
                answer.wanted = record.len();
                break 3;
            }
            output[answer.used..answer.used + record.len()].copy_from_slice(&record);
            answer.used += record.len();
            answer.groups += 1;
        }
        walk.step(&mut position);
        answer.steps += 1;
    };
    PageReply { answer, position, output, work: None }
}

/// The number that refuses a set query, if any.
pub fn set_refusal(request: &SetRequest) -> Option<u32> {
    let SetRequest { table, degrees, set, work, n, settings } = request;
    by_input(table, degrees, *n, *settings, set.len(), work.len())
        .or_else(|| request.set.iter().any(|&byte| byte > 1).then_some(11))
}

/// A set query's whole reply. An accepted query's full list is handed in.
pub fn set_query(request: &SetRequest, list: &FullList) -> SetReply {
    if let Some(refusal) = set_refusal(request) {
        return SetReply { answer: SetAnswer { refusal, yes: 0 }, work: Some(request.work.clone()) };
    }
    let graph = packed::graph(&request.table, request.n);
    let set: Vec<usize> = graph.order().into_iter().filter(|&v| request.set[v] == 1).collect();
    SetReply { answer: SetAnswer { refusal: 0, yes: list.has(&set).into() }, work: None }
}

/// The number that refuses an edit, if any.
pub fn edit_refusal(request: &EditRequest) -> Option<u32> {
    let EditRequest { table, degrees, n, u, v } = request;
    by_graph(table, degrees, *n).or_else(|| first(&[(43, &|| u >= n || v >= n), (44, &|| u == v)]))
}

/// An edit's whole reply.
pub fn edit(edit: Edit, request: &EditRequest) -> EditReply {
    let (mut table, degrees) = (request.table.clone(), request.degrees.clone());
    if let Some(refusal) = edit_refusal(request) {
        return EditReply { answer: EditAnswer { refusal, unchanged: 0 }, table, degrees };
    }
    let EditRequest { n, u, v, .. } = *request;
    packed::put(&mut table, n, u, v, edit == Edit::Join);
    packed::put(&mut table, n, v, u, edit == Edit::Join);
    let unchanged = (table == request.table).into();
    let degrees = packed::graph(&table, n).degrees();
    EditReply { answer: EditAnswer { refusal: 0, unchanged }, table, degrees }
}

/// The whole reply of a count of the degrees.
pub fn degrees(table: &[u64], degrees: &[u16], n: usize) -> DegreesReply {
    match by_table(table, n).or_else(|| (degrees.len() != n).then_some(42)) {
        Some(refusal) => DegreesReply { refusal, degrees: degrees.to_vec() },
        None => DegreesReply { refusal: 0, degrees: packed::graph(table, n).degrees() },
    }
}

/// The whole reply of a packing.
pub fn pack(bytes: &[u8], packed: &[u64], n: usize) -> PackReply {
    match by_bytes(bytes, packed.len(), n) {
        Some(refusal) => PackReply { refusal, packed: packed.to_vec() },
        None => PackReply { refusal: 0, packed: packed::pack(&Graph { n, table: bytes.to_vec() }) },
    }
}
