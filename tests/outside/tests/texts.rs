//! The text reader beside a second reader: sound texts, changed ones, cut ones, all short ones, and texts with any two
//! faults. Number, line, N, M and every byte of the lent table must agree.

use outside::cases::{alone, cases};
use outside::graph::Graph;
use outside::library::{self, TextAnswer};
use outside::random::Random;
use outside::samples;
use outside::text;

fn check(text: &[u8], table: &[u8]) -> TextAnswer {
    let found = library::read_text(text, table);
    let expected = text::read_text(text, table);
    let shown = String::from_utf8_lossy(text);
    assert_eq!(found.answer, expected.answer, "text {shown:?} with a table of {} bytes", table.len());
    assert_eq!(found.table, expected.table, "the table after text {shown:?}");
    found.answer
}

/// A pair in any direction.
fn turned(random: &mut Random, (u, v): (usize, usize)) -> (usize, usize) {
    if random.percent(50) {
        (u, v)
    } else {
        (v, u)
    }
}

/// The same pairs in the same order, and some of them again at any place, in any direction.
fn with_repeats(random: &mut Random, once: &[(usize, usize)]) -> Vec<(usize, usize)> {
    let mut pairs = once.to_vec();
    for _ in 0..random.below(2 * once.len() + 1) {
        let (pair, place) = (*random.pick(once), random.below(pairs.len() + 1));
        pairs.insert(place, turned(random, pair));
    }
    pairs
}

/// The pairs that a text may list for a graph: each once in any direction, each in both directions, or some of them
/// repeated in any direction; mostly in any order.
fn listed_pairs(random: &mut Random, graph: &Graph) -> Vec<(usize, usize)> {
    let edges = graph.edges();
    let once: Vec<(usize, usize)> = edges.iter().map(|&edge| turned(random, edge)).collect();
    let mut listed = match random.below(3) {
        0 => once,
        1 => edges.iter().flat_map(|&(u, v)| [(u, v), (v, u)]).collect(),
        _ => with_repeats(random, &once),
    };
    if random.percent(80) {
        random.shuffle(&mut listed);
    }
    listed
}

/// The p line, which may state any M, and an e line for each of these pairs.
fn edge_lines(n: usize, m: usize, pairs: &[(usize, usize)]) -> Vec<String> {
    let e_lines = pairs.iter().map(|(u, v)| format!("e {} {}", u + 1, v + 1));
    std::iter::once(format!("p edge {n} {m}")).chain(e_lines).collect()
}

/// A graph's text with comments at any place, its edges as `listed_pairs` lists them; and how many e lines that are.
fn sound_text(random: &mut Random, graph: &Graph) -> (Vec<u8>, usize) {
    let listed = listed_pairs(random, graph);
    let mut lines = edge_lines(graph.n, listed.len(), &listed);
    for _ in 0..random.below(4) {
        let place = random.below(lines.len() + 1);
        let comment = *random.pick(&["c", "c ", "c p edge 3 3", "c e 1 2", "c  two spaces", "c \u{7f}\r\t"]);
        lines.insert(place, comment.to_string());
    }
    let mut text = lines.join("\n").into_bytes();
    if random.percent(70) {
        text.push(b'\n');
    }
    (text, listed.len())
}

/// A table for N vertices: mostly long enough.
fn some_table(random: &mut Random, n: usize) -> Vec<u8> {
    let length = match random.below(6) {
        0 => n * n,
        1 => (n * n).saturating_sub(1),
        2 => random.below(n * n + 1),
        _ => n * n + random.below(80),
    };
    random.bytes(length)
}

/// One change: a byte put in, taken out or replaced, a line doubled, dropped or moved, or the end cut off.
fn change(random: &mut Random, text: &mut Vec<u8>) {
    const BYTES: &[u8] = b" \n0123456789cpedgx\r\t\0+-";
    let place = random.below(text.len() + 1);
    match random.below(8) {
        0 => text.insert(place, *random.pick(BYTES)),
        1 if place < text.len() => text[place] = *random.pick(BYTES),
        2 if place < text.len() => drop(text.remove(place)),
        3 => text.truncate(place),
        4 if place < text.len() => text[place] = random.number() as u8,
        _ => {
            let mut lines: Vec<Vec<u8>> = text.split(|&byte| byte == b'\n').map(|line| line.to_vec()).collect();
            let (from, to) = (random.below(lines.len()), random.below(lines.len()));
            match random.below(3) {
                0 => lines.insert(to, lines[from].clone()),
                1 => drop(lines.remove(from)),
                _ => lines.swap(from, to),
            }
            *text = lines.join(&b'\n');
        }
    }
}

/// M is the number of e lines, and the table that of the graph, however often and in whichever direction a pair stands.
#[test]
fn sound_texts() {
    let mut repeating = 0;
    cases("sound_texts", 3000, |random| {
        let n = random.between(0, 14);
        let graph = samples::any(random, n);
        let (text, m) = sound_text(random, &graph);
        let more = random.below(50);
        let table = random.bytes(n * n + more);
        let answer = check(&text, &table);
        assert_eq!(answer, TextAnswer { refusal: 0, vertices: n as u32, edges: m as u32, line: 0 });
        assert_eq!(library::read_text(&text, &table).table[..n * n], graph.table);
        repeating += u32::from(m > graph.edges().len());
    });
    assert!(alone() || repeating > 1000, "only {repeating} texts have a pair more than once");
}

/// Texts that differ in repeated e lines alone, each with its own M, give the same table; with the M of another, unless it
/// is the same number, each is refused, since M counts lines and not edges.
#[test]
fn repeated_lines() {
    cases("repeated_lines", 3000, |random| {
        let n = random.between(2, 14);
        let mut graph = samples::any(random, n);
        graph.join(0, 1);
        let once: Vec<(usize, usize)> = graph.edges().into_iter().map(|edge| turned(random, edge)).collect();
        let lists = [once.clone(), with_repeats(random, &once), with_repeats(random, &once)];
        let spare = random.below(50);
        let table = random.bytes(n * n + spare);
        let expected = [&graph.table, &table[n * n..]].concat();
        for pairs in &lists {
            for m in lists.each_ref().map(Vec::len) {
                let text = edge_lines(n, m, pairs).join("\n").into_bytes();
                let answer = check(&text, &table);
                if m == pairs.len() {
                    assert_eq!(answer, TextAnswer { refusal: 0, vertices: n as u32, edges: m as u32, line: 0 });
                    assert_eq!(library::read_text(&text, &table).table, expected, "{pairs:?}");
                } else {
                    let line = pairs.len() + 2;
                    assert_eq!(answer, TextAnswer { refusal: 39, vertices: 0, edges: 0, line }, "M is {m}: {pairs:?}");
                }
            }
        }
    });
}

/// Every list of up to four pairs over three vertices, also from a vertex to itself, with every M from 0 to 5: refused at
/// the first vertex that is joined to itself, else read where M is the number of lines, with the table of the graph.
#[test]
fn every_list_of_pairs() {
    let pairs: Vec<(usize, usize)> = (0..3).flat_map(|u| (0..3).map(move |v| (u, v))).collect();
    let mut lists: Vec<Vec<(usize, usize)>> = vec![Vec::new()];
    for _ in 0..=4 {
        for list in &lists {
            for m in 0..=5 {
                let text = edge_lines(3, m, list).join("\n").into_bytes();
                let reply = library::read_text(&text, &[9; 10]);
                let refused = |refusal: u32, line: usize| TextAnswer { refusal, vertices: 0, edges: 0, line };
                let (answer, graph) = match list.iter().position(|(u, v)| u == v) {
                    Some(place) => (refused(37, place + 2), Graph::empty(3)),
                    None if m != list.len() => (refused(39, list.len() + 2), Graph::empty(3)),
                    None => {
                        (TextAnswer { refusal: 0, vertices: 3, edges: m as u32, line: 0 }, Graph::of_edges(3, list))
                    }
                };
                assert_eq!(check(&text, &[9; 10]), answer, "M is {m}: {list:?}");
                assert_eq!((&reply.table[..9], reply.table[9]), (&graph.table[..], 9), "M is {m}: {list:?}");
            }
        }
        lists = lists.iter().flat_map(|list| pairs.iter().map(|&pair| [&list[..], &[pair]].concat())).collect();
    }
}

#[test]
fn changed_texts() {
    let mut told = std::collections::BTreeMap::new();
    cases("changed_texts", 60_000, |random| {
        let n = random.between(0, 9);
        let graph = samples::any(random, n);
        let (mut text, _) = sound_text(random, &graph);
        for _ in 0..random.between(1, 4) {
            change(random, &mut text);
        }
        let table = some_table(random, n);
        *told.entry(check(&text, &table).refusal).or_insert(0u32) += 1;
    });
    let common = [0, 31, 32, 33, 34, 36, 39, 40];
    assert!(alone() || common.iter().all(|number| told.get(number) > Some(&20)), "too few of some numbers: {told:?}");
    assert!(!told.contains_key(&38), "a number that is told no more: {told:?}");
}

#[test]
fn texts_cut_at_every_byte() {
    cases("texts_cut_at_every_byte", 150, |random| {
        let n = random.between(0, 9);
        let graph = samples::any(random, n);
        let (text, _) = sound_text(random, &graph);
        let table = some_table(random, n);
        for end in 0..=text.len() {
            check(&text[..end], &table);
        }
    });
}

#[test]
fn texts_of_any_bytes() {
    cases("texts_of_any_bytes", 20_000, |random| {
        let length = random.below(40);
        let text = random.bytes(length);
        check(&text, &[5; 20]);
        let text: Vec<u8> = (0..length).map(|_| *random.pick(b"pec 012\nedge")).collect();
        check(&text, &[5; 20]);
    });
}

/// Every text over these bytes of up to so many, after a fixed beginning.
fn all_texts(beginning: &[u8], bytes: &[u8], most: usize, table: &[u8]) {
    let mut tails: Vec<Vec<u8>> = vec![Vec::new()];
    for _ in 0..=most {
        let mut longer = Vec::new();
        for tail in &tails {
            check(&[beginning, tail].concat(), table);
            longer.extend(bytes.iter().map(|&byte| [&tail[..], &[byte]].concat()));
        }
        tails = longer;
    }
}

#[test]
fn all_short_texts() {
    all_texts(b"", b"cpe 1\n", 6, &[9; 5]);
    all_texts(b"p edge", b" 012\n", 6, &[9; 5]);
    all_texts(b"p edge 2 1", b"\ne 12", 7, &[9; 5]);
    all_texts(b"p edge 2 1\ne ", b"0123 \n", 5, &[9; 5]);
    all_texts(b"p edge 2 2\ne 1 2\ne ", b"0123 \n", 5, &[9; 5]);
}

/// Numbers at their limits, in each of the four places where one stands.
#[test]
fn numbers() {
    let numbers = [
        "",
        "0",
        "1",
        "2",
        "3",
        "00",
        "01",
        "10",
        "1023",
        "1024",
        "1025",
        "9999",
        "99999",
        "100000",
        "999999",
        "1000000",
        "0999999",
        "4294967296",
        "4294967297",
        "18446744073709551617",
        "1a",
        "a",
        "-1",
        "+1",
        "1.",
        "/",
        ":",
        "1\r",
        "1\0",
        "\u{661}",
    ];
    let table = vec![9; 1024 * 1024 + 3];
    for number in numbers {
        for text in [
            format!("p edge {number} 0"),
            format!("p edge {number} 0\n"),
            format!("p edge 3 {number}\ne 1 2\n"),
            format!("p edge 3 {number}"),
            format!("p edge 3 1\ne {number} 2\n"),
            format!("p edge 3 1\ne 2 {number}"),
            format!("p edge 1024 1\ne 1 {number}\n"),
            format!("p edge 1024 1\ne {number} 1024\n"),
        ] {
            check(text.as_bytes(), &table);
            check(text.as_bytes(), &[9; 10]);
        }
    }
}

/// A text with the fault of each number, and each two of them in one line or in two, in both orders.
#[test]
fn every_refusal_and_every_two() {
    let faulty = [
        "",
        " ",
        "x",
        "x ",
        "cc",
        "p",
        "e",
        "\u{e9} ",
        "p ",
        "e ",
        "p edge",
        "p edge ",
        "p edge 3",
        "p edge 3 ",
        "p edge 3 1 ",
        "p edge 3  1",
        "p  edge 3 1",
        "p edgy 3 1",
        "p col 3 1",
        "p edge 03 1",
        "p edge 3 1",
        "p edge 1025 1",
        "p edge 1025 01",
        "p edge 4 1",
        "p edge 1024 1",
        "p edge 999999 1",
        "e 1",
        "e 1 ",
        "e 1 2 ",
        "e  1 2",
        "e 1  2",
        "e 1 2 3",
        "e 1 02",
        "e 0 0",
        "e 0 1",
        "e 1 0",
        "e 4 4",
        "e 4 1",
        "e 1 4",
        "e 2 2",
        "e 1 2",
        "e 2 1",
        "e 1 3",
        "c",
        "c ",
        "c e 1 1",
    ];
    let mut told = std::collections::BTreeSet::new();
    for beginning in ["", "p edge 3 1\n", "p edge 3 2\ne 1 2\n", "c\nc p\n", "p edge 0 0\n", "p edge 1 0\n"] {
        for first in faulty {
            for second in faulty {
                for end in ["", "\n", "\n\n"] {
                    let text = format!("{beginning}{first}\n{second}{end}");
                    told.insert(check(text.as_bytes(), &[9; 12]).refusal);
                    told.insert(check(text.as_bytes(), &[9; 8]).refusal);
                }
            }
        }
    }
    assert_eq!(told.into_iter().collect::<Vec<_>>(), [0, 31, 32, 33, 34, 35, 36, 37, 39, 40]);
}

/// Document 01's order within one line, request C-11's repeated pairs, and the readings of docs/DECISIONS.md, as fixed
/// answers.
#[test]
fn fixed_answers() {
    let refused = |refusal: u32, line: usize| TextAnswer { refusal, vertices: 0, edges: 0, line };
    let read = |vertices: u32, edges: u32| TextAnswer { refusal: 0, vertices, edges, line: 0 };
    let cases: [(&[u8], TextAnswer); 32] = [
        (b"", refused(33, 1)),
        (b"\n", refused(31, 1)),
        (b"c", refused(33, 2)),
        (b"c\n", refused(33, 2)),
        (b"c\n\n", refused(31, 2)),
        (b"e x", refused(33, 1)),
        (b"p x", refused(32, 1)),
        (b"p edge 0 0", TextAnswer::default()),
        (b"p edge 0 0\np", refused(31, 2)),
        (b"p edge 0 0\np ", refused(34, 2)),
        (b"p edge 0 0\ne ", refused(32, 2)),
        (b"p edge 0 0\ne 0 0", refused(36, 2)),
        (b"p edge 1025 x", refused(32, 1)),
        (b"p edge 1025 0", refused(35, 1)),
        (b"p edge 4 0", refused(40, 1)),
        (b"p edge 3 0\ne 4 4", refused(36, 2)),
        (b"p edge 3 0\ne 3 3", refused(37, 2)),
        (b"p edge 3 1\ne 1 2\ne 2 1\n", refused(39, 4)),
        (b"p edge 3 2\ne 1 2\ne 2 1\n", read(3, 2)),
        (b"p edge 3 2\ne 3 1\ne 1 3", read(3, 2)),
        (b"p edge 3 2\ne 1 2\ne 1 2\n", read(3, 2)),
        (b"p edge 3 3\ne 1 2\ne 2 1\ne 1 2\n", read(3, 3)),
        (b"p edge 3 1\ne 1 2\ne 2 1\ne 1 2\n", refused(39, 5)),
        (b"p edge 3 2\ne 1 2\ne 2 1\ne 1 2\n", refused(39, 5)),
        (b"p edge 3 3\ne 1 2\ne 2 1\ne 2 2\n", refused(37, 4)),
        (b"p edge 3 3\ne 1 2\ne 2 1\ne 2 01\n", refused(32, 4)),
        (b"p edge 3 2\ne 3 1\n", refused(39, 3)),
        (b"p edge 3 0\ne 3 1\n", refused(39, 3)),
        (b"p edge 3 0000000", refused(32, 1)),
        (b"p edge 3 1000000", refused(32, 1)),
        (b"p edge 3 999999", refused(39, 2)),
        (b"c \xff\np edge 3 1\nc\ne 1 2", read(3, 1)),
    ];
    for (text, answer) in cases {
        assert_eq!(check(text, &[9; 12]), answer, "{:?}", String::from_utf8_lossy(text));
    }
}

/// A repeated pair counts once in the table: that of one edge, whether it stands once, twice or three times.
#[test]
fn one_edge_however_often() {
    let texts: [&[u8]; 5] = [
        b"p edge 3 1\ne 1 2\n",
        b"p edge 3 2\ne 1 2\ne 2 1\n",
        b"p edge 3 2\ne 2 1\ne 2 1\n",
        b"p edge 3 3\ne 1 2\ne 2 1\ne 1 2\n",
        b"p edge 3 3\ne 1 2\ne 1 2\ne 1 2\n",
    ];
    for text in texts {
        let reply = library::read_text(text, &[9; 12]);
        assert_eq!(reply.answer.refusal, 0, "{:?}", String::from_utf8_lossy(text));
        assert_eq!(reply.table, [0, 1, 0, 1, 0, 0, 0, 0, 0, 9, 9, 9], "{:?}", String::from_utf8_lossy(text));
    }
}

/// Many vertices and many lines.
#[test]
fn large_texts() {
    let mut random = Random::new(6);
    for n in [255, 256, 257, 1000, 1023, 1024] {
        let edges: Vec<(usize, usize)> =
            (0..700).map(|i| (i % n, (i * 7 + 1 + i / n) % n)).filter(|(u, v)| u != v).collect();
        let graph = Graph::of_edges(n, &edges);
        let (text, _) = sound_text(&mut random, &graph);
        let table = random.bytes(n * n + 5);
        assert_eq!(check(&text, &table).refusal, 0);
        check(&text, &table[..n * n - 1]);
        for _ in 0..10 {
            let mut changed = text.clone();
            change(&mut random, &mut changed);
            check(&changed, &table);
        }
    }
}
