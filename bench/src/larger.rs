//! The test for a larger isolated clique, with the search before and after.

use crate::clock::rounds;
use crate::graphs::Graph;
use crate::packed::Packed;
use crate::planted::{blocks, clique, met};
use crate::posed::{Lent, Posed};
use crate::queried::Queried;
use crate::shown;
use crate::tally::Tally;
use crate::{larger_after, larger_before};
use isolated::{Kind, Notion, Settings};
use std::hint::black_box;

/// The most tests of one walk.
const TESTS: usize = 1000;

/// A search with what it is lent.
struct Side<'a> {
    lent: Lent<'a>,
    beaten: fn(&mut Lent, Tally, usize) -> bool,
}

impl Side<'_> {
    /// Makes the tests; to how many the answer is yes.
    fn yes(&mut self, tests: &[Posed]) -> usize {
        let mut yes = 0;
        for posed in black_box(tests) {
            let m = self.lent.list(posed);
            yes += usize::from((self.beaten)(&mut self.lent, posed.numbers, m));
        }
        yes
    }

    /// Makes the tests so many times, for the clock.
    fn repeat(&mut self, tests: &[Posed], times: usize) {
        for _ in 0..times {
            black_box(self.yes(tests));
        }
    }
}

fn compare(name: &str, graph: &Graph, settings: Settings, tests: &[Posed]) {
    let graph = &Packed::of(graph);
    let side = |beaten| Side { lent: Lent::new(graph, settings), beaten };
    let [mut before, mut after] = [side(larger_before::beaten), side(larger_after::beaten)];
    let mut queried = Queried::new(graph, settings, tests);
    let mut yes = 0;
    for test in tests.chunks(1) {
        let answer = before.yes(test);
        assert_eq!(answer, after.yes(test), "the searches differ");
        let library = Queried::new(graph, settings, test).yes(Kind::MaximalIsolated);
        assert_eq!(answer, library, "the library answers otherwise");
        yes += answer;
    }
    let nodes = [before.lent.nodes, after.lent.nodes];
    // A round is long beside the grain of the clock.
    let times = (1 << 17) / (nodes[0] as usize + 4 * tests.len()) + 1;
    let rounds = rounds(&mut [&mut || before.repeat(tests, times), &mut || after.repeat(tests, times)]);
    let a_test = |side: usize| shown::time(rounds.time(side) / (times * tests.len()) as f64);
    print!("| {name} | {} | {} | {yes} | {} | {} ", shown::settings(settings), tests.len(), nodes[0], nodes[1]);
    print!("| {} | {} | {:.2} ", a_test(0), a_test(1), rounds.ratio(1, 0));
    let times = times / 64 + 1;
    let alone = (tests.len() == 1).then(|| queried.beside(&mut || after.repeat(tests, times), times));
    match alone.filter(|alone| alone.time(1) > alone.time(2)) {
        Some(alone) => println!("| {} | {:.2} |", shown::time(alone.time(1) / times as f64), alone.ratio(1, 0)),
        None => println!("| | |"),
    }
}

/// The planted clique with as few further neighbours as make it a group, and with one less.
fn compare_planted(settings: Settings, percent: usize) {
    let planted = |further: usize| clique(settings.c as usize, percent, further);
    let is_group = |further: &usize| {
        let (graph, posed) = planted(*further);
        Queried::new(&Packed::of(&graph), settings, &[posed]).yes(Kind::MaximalIsolated) == 0
    };
    let fewest = (1..).find(is_group).expect("with many further neighbours it is a group");
    for further in [fewest, fewest - 1] {
        let (graph, posed) = planted(further);
        compare(&format!("clique, {percent} %, {further} further"), &graph, settings, &[posed]);
    }
}

fn compare_walk(settings: Settings, size: usize, further: usize) {
    let graph = blocks(size, further);
    let tests = met(&graph, settings, TESTS);
    compare(&format!("blocks of {size}, {further} further"), &graph, settings, &tests);
}

pub fn print() {
    println!("## The test for a larger isolated clique\n");
    println!("Is there a larger isolated clique? Kind 0. Before C-13: a common neighbour is compared with each one added, and the search gives");
    println!("up where those not yet tried are too few. After: one that is not joined to one added is marked with the depth at which it drops");
    println!("out, and is in again when the search returns from there; so it is known how many are still in. The first is tried before any");
    println!("mark is written. It gives up where neither all that are still in nor, under avg, one of them would do, each with the least");
    println!("degree that it can have: the least among the common neighbours after the first, or what the clique itself takes. Both sides are");
    println!("plain safe Rust. A node is a larger clique that is looked at.");
    println!("Times are of one test: the common neighbours are listed as a page does, then searched. `clique`: three members with c - 1");
    println!("common neighbours; so many in a hundred of their pairs are joined, and each has so many further neighbours: the fewest where");
    println!("the answer is no, then one less. `blocks`: near-cliques in a graph of 128, and the tests that the walk meets, up to {TESTS}.");
    println!("The library has the search after. Its search alone is the set query less the same at kind 1, which searches nothing; it is");
    println!("blank where there is more than one test or where it takes less time than the rest of the query. The bar: nowhere slower by more");
    println!("than a tenth, and faster where the search is deep.\n");
    println!("| graph | settings | tests | yes | nodes before | nodes after | before | after | after to before | library alone | library to after |");
    println!("|---|---|---|---|---|---|---|---|---|---|---|");
    let settings = |notion, c| Settings { notion, kind: Kind::MaximalIsolated, c };
    for notion in [Notion::Avg, Notion::Max] {
        for c in [4, 8, 16, 24, 32] {
            for percent in [70, 90, 95] {
                compare_planted(settings(notion, c), percent);
            }
        }
        for (c, size, further) in [(4, 8, 0), (4, 8, 1), (8, 8, 1), (8, 12, 2)] {
            compare_walk(settings(notion, c), size, further);
        }
        for (c, size, further) in [(16, 8, 8), (16, 20, 4), (32, 12, 16), (32, 32, 8)] {
            compare_walk(settings(notion, c), size, further);
        }
    }
    println!();
}
