//! The packed table of a graph, and how long it is.

use crate::raw::isolated_pack;
use crate::Refusal;

/// The numbers of a row of the packed table of `n` vertices: n / 64, rounded up.
#[must_use]
pub const fn row_numbers(n: usize) -> usize {
    n.div_ceil(64)
}

/// The numbers of the packed table of `n` vertices: n rows of [`row_numbers`], or as many as can be counted where that is
/// more.
#[must_use]
pub const fn table_numbers(n: usize) -> usize {
    n.saturating_mul(row_numbers(n))
}

/// Packs a byte table: one that [`crate::read_text`] filled, or that its caller wrote.
///
/// `bytes` has n × n bytes, row by row: byte u × n + v is 1 where u and v are joined, else 0. `packed` has
/// [`table_numbers`] of n numbers, whose contents do not matter; all of them are set, to the packed table of the same
/// graph, in the form that the page of the [crate] tells, which the calls on a graph take.
///
/// ```
/// use isolated::{pack, table_numbers, Refusal};
///
/// # fn main() -> Result<(), Refusal> {
/// let path = [0, 1, 0, 1, 0, 1, 0, 1, 0];
/// let mut table = [9; table_numbers(3)];
/// pack(&path, &mut table, 3)?;
/// assert_eq!(table, [0b010, 0b101, 0b010]);
///
/// assert_eq!(pack(&path, &mut [9; 4], 3), Err(Refusal::TableLength));
/// assert_eq!(pack(&[0, 1, 2, 0], &mut [9; 2], 2), Err(Refusal::TableByte));
/// # Ok(())
/// # }
/// ```
///
/// # Errors
///
/// The first of the refusals 1 to 5 that fits, [`Refusal::Vertices`] to [`Refusal::Symmetry`]; [`Refusal::TableLength`]
/// is told of both lengths. Both slices are then as they were.
///
/// # Panics
///
/// Never with the proved library; only one with other answers could make it panic.
pub fn pack(bytes: &[u8], packed: &mut [u64], n: usize) -> Result<(), Refusal> {
    // SAFETY: each pointer and length come from one slice, none is null, and the packed slice is borrowed exclusively.
    let number = unsafe { isolated_pack(bytes.as_ptr(), bytes.len(), packed.as_mut_ptr(), packed.len(), n) };
    Refusal::told(number)
}
