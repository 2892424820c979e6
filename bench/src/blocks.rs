//! The symmetry of a packed table by blocks of 64 × 64 bits, in safe Rust: each is the transposed one of the block that mirrors it.

use isolated::row_numbers;

/// One number of each of 64 rows.
type Block = [u64; 64];

/// Is the table symmetric? What that takes does not depend on how dense the graph is.
pub fn is_symmetric(table: &[u64], n: usize) -> bool {
    let blocks = row_numbers(n);
    (0..blocks).all(|i| (0..=i).all(|j| transposed(block(table, n, i, j)) == block(table, n, j, i)))
}

/// Number j of the rows from 64 × i on, and 0 past the last row.
fn block(table: &[u64], n: usize, i: usize, j: usize) -> Block {
    let mut block = [0; 64];
    for (number, row) in block.iter_mut().zip(table.chunks_exact(row_numbers(n)).skip(64 * i)) {
        *number = row[j];
    }
    block
}

/// The block with rows and columns exchanged.
fn transposed(mut block: Block) -> Block {
    exchange(&mut block, 32, 0x0000_0000_ffff_ffff);
    exchange(&mut block, 16, 0x0000_ffff_0000_ffff);
    exchange(&mut block, 8, 0x00ff_00ff_00ff_00ff);
    exchange(&mut block, 4, 0x0f0f_0f0f_0f0f_0f0f);
    exchange(&mut block, 2, 0x3333_3333_3333_3333);
    exchange(&mut block, 1, 0x5555_5555_5555_5555);
    block
}

/// Of each square of 2 × side rows and columns, exchanges the two quarters that the diagonal does not cross. The mask has the
/// columns of the left ones.
fn exchange(block: &mut Block, side: usize, left: u64) {
    for square in block.chunks_exact_mut(2 * side) {
        let (upper, lower) = square.split_at_mut(side);
        for (x, y) in upper.iter_mut().zip(lower) {
            let differing = ((*x >> side) ^ *y) & left;
            *x ^= differing << side;
            *y ^= differing;
        }
    }
}
