//! The page call: the walk goes on, and the groups it meets are written.

use crate::raw::isolated_page;
use crate::{Refusal, Settings};

/// The most vertices of a graph.
pub const VERTICES: usize = 1024;

/// Why a page stopped.
#[derive(Clone, Copy, Debug, PartialEq, Eq, Hash)]
pub enum Stop {
    /// The walk is over: the whole list is out.
    Finished,
    /// As many steps as the budget allows were made.
    Spent,
    /// The next group does not fit into the unused output. Read the used entries and call again with an output of
    /// `wanted` entries or more: the next page begins with an empty output. With fewer, a page with a budget of 1 or
    /// more makes no step and stops full again.
    Full {
        /// The entries of this group's record: its size and three more.
        wanted: usize,
    },
}

/// What one accepted page did.
#[derive(Clone, Copy, Debug, PartialEq, Eq, Hash)]
pub struct Page {
    /// Why it stopped.
    pub stop: Stop,
    /// Groups written.
    pub groups: u32,
    /// Steps of the walk made, at most the budget.
    pub steps: u32,
    /// Entries of the output used.
    pub used: usize,
}

/// The entries that a work slice needs for `n` vertices: 8 × n, or as many as can be counted where that is more.
#[must_use]
pub const fn work_entries(n: usize) -> usize {
    n.saturating_mul(8)
}

/// Goes on with the walk over a graph and writes the groups it meets.
///
/// `table` is the packed table of n vertices, as [`crate::pack`] makes it, and `degrees` has the degree of each, as
/// [`crate::fill_degrees`] counts them. `position` has n bytes, one a rank: all 0 at the start; hand on what the last
/// call left. `output`, of any length, gets the record of each group, right from entry 0, for [`crate::records`] to read:
/// its size, its outgoing edges divided by 65,536, the remainder, and then its vertices in rank order. Entries past `used`
/// keep their contents. [`crate::record_entries`] of n entries hold any group. `work` has at least [`work_entries`]
/// entries; its contents do not matter and are open afterwards. `budget` is the most steps to make. Each call tests the
/// whole table anew. Where an edit leaves another table for a later page, nothing is said of the list that was begun
/// before it: start again from a position of zeros.
///
/// ```
/// use isolated::{page, Kind, Notion, Settings, Stop};
///
/// # fn main() -> Result<(), isolated::Refusal> {
/// let (path, degrees) = ([0b010, 0b101, 0b010], [1, 2, 1]);
/// let settings = Settings::new(Notion::Max, Kind::MaximalIsolated, 2);
/// let (mut position, mut output, mut work) = ([0; 3], [0; 6], [0; 24]);
///
/// let first = page(&path, &degrees, &mut position, &mut output, &mut work, 3, settings, 1000)?;
/// assert_eq!(first.stop, Stop::Full { wanted: 5 });
/// assert_eq!(output[..first.used], [2, 0, 1, 0, 1]);
///
/// let second = page(&path, &degrees, &mut position, &mut output, &mut work, 3, settings, 1000)?;
/// assert_eq!(second.stop, Stop::Finished);
/// assert_eq!(output[..second.used], [2, 0, 1, 2, 1]);
/// # Ok(())
/// # }
/// ```
///
/// # Errors
///
/// The first of the refusals 1, 2, 45, 4, 5, 42, 6 to 10 and 21 to 23 that fits: [`Refusal::Vertices`],
/// [`Refusal::TableLength`], [`Refusal::StrayBit`], [`Refusal::Diagonal`], [`Refusal::Symmetry`], [`Refusal::Degrees`],
/// [`Refusal::Notion`] to [`Refusal::Work`] and [`Refusal::PositionByte`] to [`Refusal::PositionDead`]. Every slice is
/// then as it was.
///
/// # Panics
///
/// Never with the proved library; only one with other answers could make it panic.
#[expect(clippy::too_many_arguments, reason = "it has the arguments of the library's call, in their order")]
pub fn page(
    table: &[u64],
    degrees: &[u16],
    position: &mut [u8],
    output: &mut [u16],
    work: &mut [u16],
    n: usize,
    settings: Settings,
    budget: u32,
) -> Result<Page, Refusal> {
    // SAFETY: each pointer and length come from one slice, none is null, and the slices that may be written are
    // borrowed exclusively, so that they overlap nothing.
    let answer = unsafe {
        isolated_page(
            table.as_ptr(),
            table.len(),
            degrees.as_ptr(),
            degrees.len(),
            position.as_mut_ptr(),
            position.len(),
            output.as_mut_ptr(),
            output.len(),
            work.as_mut_ptr(),
            work.len(),
            n,
            settings.notion.number(),
            settings.kind.number(),
            settings.c,
            budget,
        )
    };
    Refusal::told(answer.refusal)?;
    let stop = match answer.stop {
        1 => Stop::Finished,
        2 => Stop::Spent,
        3 => Stop::Full { wanted: answer.wanted },
        other => unreachable!("the library told a stop that document 01 does not name: {other}"),
    };
    Ok(Page { stop, groups: answer.groups, steps: answer.steps, used: answer.used })
}
