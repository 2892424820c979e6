//! The text reader in bytes a second, beside a plain scan for line ends.

use crate::clock::rounds;
use crate::graphs::{random, text};
use isolated::read_text;
use std::hint::black_box;

pub fn print() {
    println!("## The text reader\n");
    println!("Beside a plain count of the bytes 10 of the same text.\n");
    println!("| N | M | bytes | reader, MB a second | plain scan, MB a second | reader to scan, in time |");
    println!("|---|---|---|---|---|---|");
    for (n, degree) in [(64, 20), (256, 50), (1024, 40)] {
        let text = text(&random(n, degree, 3));
        let mut table = vec![0; n * n];
        let read = read_text(&text, &mut table).expect("the text is sound");
        let times = (1 << 23) / text.len();
        let rounds = rounds(&mut [
            &mut || {
                for _ in 0..times {
                    black_box(read_text(black_box(&text), &mut table)).unwrap();
                }
            },
            &mut || {
                for _ in 0..times {
                    black_box(black_box(&text).iter().filter(|&&byte| byte == 10).count());
                }
            },
        ]);
        let rate = |time: f64| (times * text.len()) as f64 / time * 1e3;
        println!(
            "| {n} | {} | {} | {:.0} | {:.0} | {:.1} |",
            read.edges,
            text.len(),
            rate(rounds.time(0)),
            rate(rounds.time(1)),
            rounds.ratio(0, 1)
        );
    }
    println!();
}
