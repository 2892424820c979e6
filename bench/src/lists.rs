//! The whole list at kind 1 beside a Bron-Kerbosch listing with a filter.

use crate::clock::rounds;
use crate::graphs::{near_cliques, random, Graph};
use crate::kerbosch;
use crate::packed::Packed;
use crate::shown;
use isolated::{Groups, Kind, Notion, Room, Settings};
use std::hint::black_box;

fn compare(name: &str, graph: &Graph, c: u32) {
    let settings = Settings { notion: Notion::Avg, kind: Kind::IsolatedMaximal, c };
    let graph = &Packed::of(graph);
    let mut room = Room::with_output(graph.n, 1 << 16);
    let mut listing = Groups::new(&graph.table, &graph.degrees, graph.n, settings, &mut room).unwrap();
    let groups = listing.by_ref().count() as u64;
    let steps = listing.steps();
    assert_eq!(groups, kerbosch::count(graph, settings), "the listings differ");
    let rounds = rounds(&mut [
        &mut || {
            let table = black_box(&graph.table);
            let listing = Groups::new(table, &graph.degrees, graph.n, settings, &mut room).unwrap();
            black_box(listing.count());
        },
        &mut || {
            black_box(kerbosch::count(black_box(graph), settings));
        },
    ]);
    println!(
        "| {name} | {} | {c} | {groups} | {steps} | {} | {} | {:.2} |",
        graph.n,
        shown::time(rounds.time(0)),
        shown::time(rounds.time(1)),
        rounds.ratio(0, 1)
    );
}

pub fn print() {
    println!("## The whole list at kind 1 beside Bron-Kerbosch with a filter\n");
    println!("Notion 1 (avg). Bron-Kerbosch lists every maximal clique, with a pivot and rows of bits, and keeps the isolated ones. Both");
    println!("read the packed table.\n");
    println!("| graph | n | c | groups | steps | library | Bron-Kerbosch | library to it |");
    println!("|---|---|---|---|---|---|---|---|");
    for c in [1, 2, 4] {
        compare("near-cliques of 8", &near_cliques(256), c);
        for degree in [2, 4, 8, 16, 32] {
            compare(&format!("random, degree {degree}"), &random(256, degree, degree as u64), c);
        }
        compare("random, degree 64", &random(128, 64, 1), c);
    }
    println!();
}
