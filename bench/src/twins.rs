//! The page beside the same page in safe Rust.

use crate::clock::{rounds, Rounds};
use crate::graphs::{random, Family, NEAR_CLIQUES, RINGS};
use crate::packed::Packed;
use crate::shown;
use crate::twin;
use isolated::{page, work_entries, Kind, Notion, Settings};
use std::hint::black_box;

const BUDGET: u32 = 8_000_000;
const OUTPUT: usize = 1 << 22;

/// Both sides must do the same thing, else their times say nothing.
fn check(graph: &Packed, settings: Settings) -> u32 {
    let (table, degrees, n) = (&graph.table, &graph.degrees, graph.n);
    let (mut position, mut its_position) = (vec![0; n], vec![0; n]);
    let (mut output, mut its_output) = (vec![0; OUTPUT], vec![0; OUTPUT]);
    let mut work = vec![0; work_entries(n)];
    let ours = page(table, degrees, &mut position, &mut output, &mut work, n, settings, BUDGET).unwrap();
    let its = twin::page(table, degrees, &mut its_position, &mut its_output, &mut work, n, settings, BUDGET).unwrap();
    assert_eq!(its, ours, "the twin answers otherwise");
    assert!(position == its_position && output == its_output, "the twin leaves other memory");
    ours.steps
}

/// A side of the comparison: a page from fresh with a budget.
type Side<'a> = &'a mut dyn FnMut(u32);

/// Times both sides, each with the whole budget and with none: page, twin, page's walk, twin's walk.
fn times(page: Side, twin: Side) -> Rounds {
    let (page, twin) = (std::cell::RefCell::new(page), std::cell::RefCell::new(twin));
    let rounds = rounds(&mut [
        &mut || (page.borrow_mut())(BUDGET),
        &mut || (twin.borrow_mut())(BUDGET),
        &mut || (page.borrow_mut())(0),
        &mut || (twin.borrow_mut())(0),
    ]);
    rounds.map(|times| vec![times[0], times[1], times[0] - times[2], times[1] - times[3]])
}

fn compare(name: &str, graph: &Packed, settings: Settings) {
    let (degrees, n) = (&graph.degrees, graph.n);
    let steps = check(graph, settings);
    let (mut position, mut its_position) = (vec![0; n], vec![0; n]);
    let (mut output, mut its_output) = (vec![0; OUTPUT], vec![0; OUTPUT]);
    let (mut work, mut its_work) = (vec![0; work_entries(n)], vec![0; work_entries(n)]);
    let rounds = times(
        &mut |budget| {
            position.fill(0);
            let table = black_box(&graph.table);
            black_box(page(table, degrees, &mut position, &mut output, &mut work, n, settings, budget)).unwrap();
        },
        &mut |budget| {
            its_position.fill(0);
            let table = black_box(&graph.table);
            let (position, output, work) = (&mut its_position, &mut its_output, &mut its_work);
            black_box(twin::page(table, degrees, position, output, work, n, settings, budget)).unwrap();
        },
    );
    println!(
        "| {name} | {n} | {} | {steps} | {} | {} | {:.2} | {:.2} |",
        shown::settings(settings),
        shown::time(rounds.time(0)),
        shown::time(rounds.time(1)),
        rounds.ratio(0, 1),
        rounds.ratio(2, 3)
    );
}

pub fn print() {
    println!("## The page beside the same page in safe Rust\n");
    println!("Whole calls from the fresh position, at most {BUDGET} steps each; in the last column the walk alone, the opening of");
    println!("both sides taken off. The bar: at most 1.1 times the twin.\n");
    println!("| graph | n | settings | steps | page | twin | page to twin | walk to twin's walk |");
    println!("|---|---|---|---|---|---|---|---|");
    let randoms: Family = ("random, degree 12", |n| random(n, 12, 5));
    for ((name, make), c) in [(NEAR_CLIQUES, 4), (RINGS, 6), (randoms, 8)] {
        for n in [64, 256, 1024] {
            let graph = Packed::of(&make(n));
            for (notion, kind) in [(Notion::Max, Kind::MaximalIsolated), (Notion::Avg, Kind::IsolatedMaximal)] {
                compare(name, &graph, Settings { notion, kind, c });
            }
        }
    }
    println!();
}
