//! What a page costs before its first step, the tests of its arguments and the ranks: beside the same in safe Rust, over the
//! packed table and over the byte table.

use crate::bytes;
use crate::clock::rounds;
use crate::graphs::random;
use crate::packed::Packed;
use crate::shown;
use crate::twin;
use isolated::{page, work_entries, Kind, Notion, Settings};
use std::hint::black_box;

const SETTINGS: Settings = Settings { notion: Notion::Max, kind: Kind::MaximalIsolated, c: 3 };

fn compare(n: usize, degree: usize) {
    let graph = random(n, degree, 5);
    let packed = Packed::of(&graph);
    let (table, degrees) = (&packed.table, &packed.degrees);
    let (mut position, mut its_position) = (vec![0; n], vec![0; n]);
    let (mut work, mut its_work, mut order) = (vec![0; work_entries(n)], vec![0; work_entries(n)], vec![0; n]);
    let ours = page(table, degrees, &mut position, &mut [], &mut work, n, SETTINGS, 1).unwrap();
    let its = twin::page(table, degrees, &mut its_position, &mut [], &mut its_work, n, SETTINGS, 1);
    assert!(its == Some(ours) && position == its_position, "the openings differ");
    assert!(bytes::open(&graph.table, degrees, n, &mut order) && order == its_work[..n], "the orders differ");
    position.fill(0);
    its_position.fill(0);
    let times = (1 << 22) / (n * n);
    let rounds = rounds(&mut [
        &mut || {
            for _ in 0..times {
                let table = black_box(table);
                black_box(page(table, degrees, &mut position, &mut [], &mut work, n, SETTINGS, 0)).unwrap();
            }
        },
        &mut || {
            for _ in 0..times {
                let table = black_box(table);
                black_box(twin::page(table, degrees, &mut its_position, &mut [], &mut its_work, n, SETTINGS, 0))
                    .unwrap();
            }
        },
        &mut || {
            for _ in 0..times {
                assert!(black_box(bytes::open(black_box(&graph.table), degrees, n, black_box(&mut order))));
            }
        },
    ]);
    let [page, twin, bytes] = [0, 1, 2].map(|side| shown::time(rounds.time(side) / times as f64));
    println!(
        "| {n} | {degree} | {page} | {twin} | {bytes} | {:.2} | {:.2} | {:.2} |",
        rounds.ratio(0, 1),
        rounds.ratio(0, 2),
        rounds.ratio(1, 2)
    );
}

pub fn print() {
    println!("## The opening of a page\n");
    println!("A page with budget 0 beside the same in safe Rust over the same packed table, and beside the opening over the byte table as it");
    println!("was before C-15, in safe Rust too: refusals 1 to 5, the lent degrees beside the rows, ranks by counting. Random graphs. The bars:");
    println!("at n = 1,024, page to bytes is at most 0.1 at degree 12, and at most 0.33 at degree 256.");
    let bytes = 1024 * 1024;
    println!("A table of n = 1,024 takes {} KiB packed, where it took {} KiB.\n", bytes / 8 / 1024, bytes / 1024);
    println!("| n | degree | page, budget 0 | twin | bytes | page to twin | page to bytes | twin to bytes |");
    println!("|---|---|---|---|---|---|---|---|");
    for (n, degree) in [(64, 12), (256, 12), (1024, 4), (1024, 12), (1024, 256), (1024, 512), (1024, 1023)] {
        compare(n, degree);
    }
    println!();
}
