//! The set query: is this set a group?

use crate::raw::isolated_set_query;
use crate::{Refusal, Settings};

/// Says whether a set is a group.
///
/// `table` is the packed table of n vertices, and `degrees` has the degree of each. `set` has n bytes, one a vertex: 1 for
/// a member, 0 for another. `work` has at least [`crate::work_entries`] entries; its contents do not matter and are open
/// afterwards. The empty set is no group.
///
/// ```
/// use isolated::{set_query, Kind, Notion, Refusal, Settings};
///
/// let (path, degrees) = ([0b010, 0b101, 0b010], [1, 2, 1]);
/// let settings = Settings::new(Notion::Max, Kind::MaximalIsolated, 2);
/// let mut work = [0; 24];
/// assert_eq!(set_query(&path, &degrees, &[1, 1, 0], &mut work, 3, settings), Ok(true));
/// assert_eq!(set_query(&path, &degrees, &[1, 0, 1], &mut work, 3, settings), Ok(false));
/// assert_eq!(set_query(&path, &degrees, &[1, 2, 0], &mut work, 3, settings), Err(Refusal::SetByte));
/// ```
///
/// # Errors
///
/// The first of the refusals 1, 2, 45, 4, 5, 42 and 6 to 11 that fits: [`Refusal::Vertices`], [`Refusal::TableLength`],
/// [`Refusal::StrayBit`], [`Refusal::Diagonal`], [`Refusal::Symmetry`], [`Refusal::Degrees`], and [`Refusal::Notion`] to
/// [`Refusal::SetByte`]. Every slice is then as it was.
///
/// # Panics
///
/// Never with the proved library; only one with other answers could make it panic.
pub fn set_query(
    table: &[u64],
    degrees: &[u16],
    set: &[u8],
    work: &mut [u16],
    n: usize,
    settings: Settings,
) -> Result<bool, Refusal> {
    // SAFETY: each pointer and length come from one slice, none is null, and the one slice that may be written is
    // borrowed exclusively.
    let answer = unsafe {
        isolated_set_query(
            table.as_ptr(),
            table.len(),
            degrees.as_ptr(),
            degrees.len(),
            set.as_ptr(),
            set.len(),
            work.as_mut_ptr(),
            work.len(),
            n,
            settings.notion.number(),
            settings.kind.number(),
            settings.c,
        )
    };
    Refusal::told(answer.refusal)?;
    Ok(answer.yes == 1)
}
