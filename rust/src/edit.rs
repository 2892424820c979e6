//! The edits of a graph that is kept in two slices: its packed table, and its degrees beside it.

use crate::raw::{isolated_degrees, isolated_join, isolated_part, EditAnswer};
use crate::Refusal;

/// Joins u and v, and says whether that changed the graph: not where they are joined already.
///
/// `table` is the packed table of n vertices, and `degrees` has the degree of each. The pair's bit in both rows becomes 1
/// and its two degrees are raised by 1; no other bit and no other entry is touched. Table and list are then those of the
/// new graph, so edits follow one another. [`crate::Graph`] keeps the two slices together.
///
/// ```
/// use isolated::{join, part, Refusal};
///
/// # fn main() -> Result<(), Refusal> {
/// let (mut table, mut degrees) = ([0; 3], [0; 3]);
/// assert!(join(&mut table, &mut degrees, 3, 0, 2)?);
/// assert!(!join(&mut table, &mut degrees, 3, 2, 0)?);
/// assert_eq!((table, degrees), ([0b100, 0, 0b001], [1, 0, 1]));
///
/// assert!(part(&mut table, &mut degrees, 3, 0, 2)?);
/// assert_eq!((table, degrees), ([0; 3], [0; 3]));
/// assert_eq!(join(&mut table, &mut degrees, 3, 1, 3), Err(Refusal::NoVertex));
/// assert_eq!(join(&mut table, &mut degrees, 3, 1, 1), Err(Refusal::EqualEnds));
/// # Ok(())
/// # }
/// ```
///
/// # Errors
///
/// The first of the refusals 1, 2, 45, 4, 5 and 42 to 44 that fits: [`Refusal::Vertices`], [`Refusal::TableLength`],
/// [`Refusal::StrayBit`], [`Refusal::Diagonal`], [`Refusal::Symmetry`], and [`Refusal::Degrees`] to
/// [`Refusal::EqualEnds`]. Both slices are then as they were.
///
/// # Panics
///
/// Never with the proved library; only one with other answers could make it panic.
pub fn join(table: &mut [u64], degrees: &mut [u16], n: usize, u: usize, v: usize) -> Result<bool, Refusal> {
    // SAFETY: each pointer and length come from one slice, none is null, and both slices are borrowed exclusively.
    changed(unsafe { isolated_join(table.as_mut_ptr(), table.len(), degrees.as_mut_ptr(), degrees.len(), n, u, v) })
}

/// Parts u and v, and says whether that changed the graph: not where they are parted already.
///
/// The pair's bit in both rows becomes 0 and its two degrees are lowered by 1; else as [`join`]. Of the same pair it
/// undoes, entry for entry, a [`join`] that changed the graph.
///
/// # Errors
///
/// As [`join`].
///
/// # Panics
///
/// Never with the proved library; only one with other answers could make it panic.
pub fn part(table: &mut [u64], degrees: &mut [u16], n: usize, u: usize, v: usize) -> Result<bool, Refusal> {
    // SAFETY: each pointer and length come from one slice, none is null, and both slices are borrowed exclusively.
    changed(unsafe { isolated_part(table.as_mut_ptr(), table.len(), degrees.as_mut_ptr(), degrees.len(), n, u, v) })
}

/// Whether an edit changed the graph, or why it was turned back.
fn changed(answer: EditAnswer) -> Result<bool, Refusal> {
    Refusal::told(answer.refusal)?;
    Ok(answer.unchanged == 0)
}

/// Counts the degrees of a graph: the first list for [`crate::page`], [`crate::set_query`], [`join`] and [`part`].
///
/// `table` is the packed table of n vertices, and `degrees` has n entries, whose contents do not matter. Entry v becomes
/// the degree of vertex v.
///
/// ```
/// use isolated::{fill_degrees, Refusal};
///
/// let path = [0b010, 0b101, 0b010];
/// let mut degrees = [9; 3];
/// assert_eq!(fill_degrees(&path, &mut degrees, 3), Ok(()));
/// assert_eq!(degrees, [1, 2, 1]);
/// assert_eq!(fill_degrees(&path, &mut [9; 4], 3), Err(Refusal::Degrees));
/// ```
///
/// # Errors
///
/// The first of the refusals 1, 2, 45, 4 and 5 that fits, as [`join`], then [`Refusal::Degrees`] where the list is not n
/// long. The list is then as it was.
///
/// # Panics
///
/// Never with the proved library; only one with other answers could make it panic.
pub fn fill_degrees(table: &[u64], degrees: &mut [u16], n: usize) -> Result<(), Refusal> {
    // SAFETY: each pointer and length come from one slice, none is null, and the list is borrowed exclusively.
    let number = unsafe { isolated_degrees(table.as_ptr(), table.len(), degrees.as_mut_ptr(), degrees.len(), n) };
    Refusal::told(number)
}
