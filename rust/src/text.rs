//! The text reader: a graph in the DIMACS edge layout.

use crate::raw::isolated_read_text;
use crate::Refusal;
use std::fmt;

/// What an accepted text holds.
#[derive(Clone, Copy, Debug, PartialEq, Eq, Hash)]
pub struct TextGraph {
    /// The N of the p line.
    pub vertices: usize,
    /// The M of the p line, which is the number of e lines.
    ///
    /// Where a pair is repeated that is more than the graph has edges. Their number is half the sum of the degrees, so
    /// half the ones among the first N × N bytes of the byte table; [`crate::Graph::edges`] tells it.
    ///
    /// ```
    /// use isolated::{read_text, Graph};
    ///
    /// # fn main() -> Result<(), isolated::TextRefusal> {
    /// let text = b"p edge 3 3\ne 1 2\ne 2 1\ne 2 3\n";
    /// let read = read_text(text, &mut [0; 9])?;
    /// assert_eq!((read.edges, Graph::from_text(text)?.edges()), (3, 2));
    /// # Ok(())
    /// # }
    /// ```
    pub edges: usize,
}

/// Why a text was turned back, and where. Its `Display` names the line and then the fault.
#[derive(Clone, Copy, Debug, PartialEq, Eq, Hash)]
pub struct TextRefusal {
    /// The fault.
    pub refusal: Refusal,
    /// The faulty line, counted from 1; a fault at the end of the text is told with the line count plus 1.
    pub line: usize,
}

impl fmt::Display for TextRefusal {
    fn fmt(&self, out: &mut fmt::Formatter<'_>) -> fmt::Result {
        write!(out, "line {}: {}", self.line, self.refusal)
    }
}

impl std::error::Error for TextRefusal {}

/// Reads a graph into the first N × N bytes of `table`, as the byte table that [`crate::pack`] takes; the rest is
/// untouched. A pair may be given more than once, in either direction: it is one edge.
///
/// ```
/// use isolated::{read_text, Refusal, TextRefusal};
///
/// # fn main() -> Result<(), TextRefusal> {
/// let mut table = [9; 10];
/// let graph = read_text(b"c a path\np edge 3 2\ne 1 2\ne 3 2\n", &mut table)?;
/// assert_eq!((graph.vertices, graph.edges), (3, 2));
/// assert_eq!(table, [0, 1, 0, 1, 0, 1, 0, 1, 0, 9]);
///
/// let refused = read_text(b"p edge 3 1\ne 1 4\n", &mut table).unwrap_err();
/// assert_eq!(refused, TextRefusal { refusal: Refusal::Range, line: 2 });
/// assert_eq!(refused.to_string(), "line 2: U or V is 0 or over N");
/// # Ok(())
/// # }
/// ```
///
/// # Errors
///
/// One of the refusals 31 to 40, [`Refusal::LineStart`] to [`Refusal::TableShort`], and its line; never 38,
/// [`Refusal::RepeatedPair`]. Of a text that is refused before a p line has passed, nothing is written; after it the
/// first N × N bytes, with that line's N, are 0.
///
/// # Panics
///
/// Never with the proved library; only one with other answers could make it panic.
pub fn read_text(text: &[u8], table: &mut [u8]) -> Result<TextGraph, TextRefusal> {
    // SAFETY: each pointer and length come from one slice, none is null, and the table is borrowed exclusively.
    let answer = unsafe { isolated_read_text(text.as_ptr(), text.len(), table.as_mut_ptr(), table.len()) };
    match Refusal::told(answer.refusal) {
        Ok(()) => Ok(TextGraph { vertices: answer.vertices as usize, edges: answer.edges as usize }),
        Err(refusal) => Err(TextRefusal { refusal, line: answer.line }),
    }
}
