//! An edit beside the scan of table and degrees that its tests need.

use crate::clock::rounds;
use crate::graphs::near_cliques;
use crate::packed::{is_graph, Packed};
use crate::shown;
use isolated::{join, part};
use std::hint::black_box;

pub fn print() {
    println!("## An edit\n");
    println!("A pair joined and parted again, the time of one edit, beside a plain scan for the same refusals: bits of no vertex,");
    println!("diagonal, symmetry, and the degrees beside the rows.\n");
    println!("| n | edit | plain scan | edit to scan | nanoseconds a table number |");
    println!("|---|---|---|---|---|");
    for n in [64, 256, 1024] {
        let graph = near_cliques(n);
        let lent = Packed::of(&graph);
        let (mut table, mut degrees) = (lent.table.clone(), lent.degrees.clone());
        let v = (1..n).find(|&v| !graph.joined(0, v)).expect("some vertex is no neighbour of 0");
        let times = (1 << 22) / (n * n);
        let mut edits = || {
            for _ in 0..times {
                assert_eq!(join(black_box(&mut table), &mut degrees, n, 0, v), Ok(true));
                assert_eq!(part(black_box(&mut table), &mut degrees, n, 0, v), Ok(true));
            }
        };
        let rounds = rounds(&mut [&mut edits, &mut || {
            for _ in 0..times {
                assert!(is_graph(black_box(&lent.table), &lent.degrees, n));
            }
        }]);
        assert!(table == lent.table && degrees == lent.degrees, "the edits left another graph");
        let edit = rounds.time(0) / (2 * times) as f64;
        println!(
            "| {n} | {} | {} | {:.2} | {:.2} |",
            shown::time(edit),
            shown::time(rounds.time(1) / times as f64),
            rounds.ratio(0, 1) / 2.0,
            edit / lent.table.len() as f64
        );
    }
    println!();
}
