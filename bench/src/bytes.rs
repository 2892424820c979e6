//! The byte table, n × n bytes: its tests and what a page did with it before its first step until C-15, and a packer, in safe Rust.

use crate::twin::fill_order;
use isolated::{row_numbers, table_numbers, VERTICES};

/// Do the refusals 1 to 5 let a table pass?
fn is_table(table: &[u8], n: usize) -> bool {
    n <= VERTICES
        && table.len() == n * n
        && table.iter().all(|&byte| byte <= 1)
        && (0..n).all(|u| table[u * n + u] == 0)
        && (0..n).all(|u| (0..u).all(|v| table[u * n + v] == table[v * n + u]))
}

/// The ones in a row.
fn ones(row: &[u8]) -> u16 {
    row.iter().map(|&byte| u16::from(byte)).sum()
}

/// The opening of a page: refusals 1 to 5, the lent degrees beside the rows, ranks by counting. False where it refuses.
pub fn open(table: &[u8], degrees: &[u16], n: usize, order: &mut [u16]) -> bool {
    let sound =
        is_table(table, n) && degrees.len() == n && (0..n).all(|u| degrees[u] == ones(&table[u * n..(u + 1) * n]));
    if sound {
        fill_order(degrees, order);
    }
    sound
}

/// Packs a table under the refusals 1 to 5. False where it refuses.
pub fn pack(table: &[u8], packed: &mut [u64], n: usize) -> bool {
    let sound = is_table(table, n) && packed.len() == table_numbers(n);
    if sound {
        for (row, numbers) in table.chunks_exact(n).zip(packed.chunks_exact_mut(row_numbers(n))) {
            for (number, bytes) in numbers.iter_mut().zip(row.chunks(64)) {
                *number = bytes.iter().rev().fold(0, |number, &byte| 2 * number + u64::from(byte));
            }
        }
    }
    sound
}
