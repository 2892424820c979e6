//! How the walk grows with c.

use crate::clock::rounds;
use crate::graphs::{near_cliques, random, Graph};
use crate::packed::Packed;
use crate::shown;
use isolated::{Groups, Kind, Notion, Room, Settings};
use std::hint::black_box;

/// The list at each c up to the largest, all side by side.
fn grow(name: &str, graph: &Graph, most: u32) {
    let graph = Packed::of(graph);
    let list = |c: u32, room: &mut Room| {
        let settings = Settings { notion: Notion::Max, kind: Kind::MaximalIsolated, c };
        let table = black_box(&graph.table);
        let mut listing = Groups::new(table, &graph.degrees, graph.n, settings, room).unwrap();
        let groups = listing.by_ref().count();
        (groups, listing.steps())
    };
    let list = &list;
    let mut jobs: Vec<Box<dyn FnMut()>> = Vec::new();
    for c in 1..=most {
        let mut room = Room::with_output(graph.n, 1 << 16);
        jobs.push(Box::new(move || {
            black_box(list(c, &mut room));
        }));
    }
    let mut lent: Vec<&mut dyn FnMut()> = jobs.iter_mut().map(|job| &mut **job as &mut dyn FnMut()).collect();
    let rounds = rounds(&mut lent);
    for (job, c) in (1..=most).enumerate() {
        let (groups, steps) = list(c, &mut Room::new(graph.n));
        let grown = if job == 0 { String::new() } else { format!("{:.2}", rounds.ratio(job, job - 1)) };
        println!("| {name} | {c} | {groups} | {steps} | {} | {grown} |", shown::time(rounds.time(job)));
    }
}

pub fn print() {
    println!("## How time grows with c\n");
    println!("The whole list at notion 2 (max), kind 0.\n");
    println!("| graph | c | groups | steps | time | to the line above |");
    println!("|---|---|---|---|---|---|");
    grow("near-cliques of 8, n = 128", &near_cliques(128), 8);
    grow("random, n = 128, degree 8", &random(128, 8, 9), 6);
    println!();
}
