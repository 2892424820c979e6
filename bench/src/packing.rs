//! The call that packs a byte table, beside the same in safe Rust, and beside the opening of a page over the bytes.

use crate::bytes;
use crate::clock::rounds;
use crate::graphs::random;
use crate::packed::Packed;
use crate::shown;
use isolated::{pack, table_numbers};
use std::hint::black_box;

fn compare(n: usize, degree: usize) {
    let graph = random(n, degree, 5);
    let (table, degrees) = (&graph.table, graph.degrees());
    let (mut packed, mut its_packed) = (vec![u64::MAX; table_numbers(n)], vec![0; table_numbers(n)]);
    let mut order = vec![0; n];
    assert_eq!(pack(table, &mut packed, n), Ok(()));
    assert!(bytes::pack(table, &mut its_packed, n) && bytes::open(table, &degrees, n, &mut order));
    assert!(packed == its_packed && packed == Packed::of(&graph).table, "the packed tables differ");
    let times = (1 << 22) / (n * n);
    let rounds = rounds(&mut [
        &mut || {
            for _ in 0..times {
                black_box(pack(black_box(table), black_box(&mut packed), n)).unwrap();
            }
        },
        &mut || {
            for _ in 0..times {
                assert!(black_box(bytes::pack(black_box(table), black_box(&mut its_packed), n)));
            }
        },
        &mut || {
            for _ in 0..times {
                assert!(black_box(bytes::open(black_box(table), &degrees, n, black_box(&mut order))));
            }
        },
    ]);
    let [call, packer, opening] = [0, 1, 2].map(|side| shown::time(rounds.time(side) / times as f64));
    println!(
        "| {n} | {degree} | {call} | {packer} | {opening} | {:.2} | {:.2} |",
        rounds.ratio(0, 1),
        rounds.ratio(0, 2)
    );
}

pub fn print() {
    println!("## Packing a table\n");
    println!("The call that packs a byte table beside a plain packer with the same tests of the bytes, and beside the opening of a page over");
    println!("the bytes as it was before C-15. Random graphs.\n");
    println!("| n | degree | pack | plain packer | byte opening | pack to packer | pack to byte opening |");
    println!("|---|---|---|---|---|---|---|");
    for (n, degree) in [(64, 12), (256, 12), (1024, 12), (1024, 256)] {
        compare(n, degree);
    }
    println!();
}
