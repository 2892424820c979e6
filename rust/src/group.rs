//! A group, and the reader of the records that pages write.

use std::iter::FusedIterator;

/// A group: its vertices, and how many edges lead from them to vertices outside.
///
/// Two groups compare by their vertices, as two `Vec`s do, and then by their outgoing edges. That is not the order of
/// the list, which goes by ranks.
#[derive(Clone, Debug, PartialEq, Eq, PartialOrd, Ord, Hash)]
pub struct Group {
    /// Its vertices in rank order.
    pub vertices: Vec<u16>,
    /// The sum of its members' outside counts: of each member the neighbours that are not in the group.
    pub outgoing_edges: u32,
}

/// The entries of the record of a group of `k` vertices: k + 3, or as many as can be counted where that is more. An
/// output of so many entries as `record_entries(n)` holds any group of a graph of n vertices.
#[must_use]
pub const fn record_entries(k: usize) -> usize {
    k.saturating_add(3)
}

/// Reads the records that a page wrote, one after another: `output` is the page's, up to its used entries. The vertices
/// of each group are a new `Vec`.
///
/// ```
/// use isolated::{page, record_entries, records, Group, Kind, Notion, Settings};
///
/// # fn main() -> Result<(), isolated::Refusal> {
/// let (path, degrees) = ([0b010, 0b101, 0b010], [1, 2, 1]);
/// let settings = Settings::new(Notion::Max, Kind::MaximalIsolated, 2);
/// let (mut output, mut work) = ([0; 2 * record_entries(3)], [0; 24]);
/// let done = page(&path, &degrees, &mut [0; 3], &mut output, &mut work, 3, settings, 1000)?;
/// let mut groups = records(&output[..done.used]);
/// assert_eq!(groups.next(), Some(Group { vertices: vec![0, 1], outgoing_edges: 1 }));
/// assert_eq!(groups.next(), Some(Group { vertices: vec![2, 1], outgoing_edges: 1 }));
/// assert_eq!(groups.next(), None);
/// # Ok(())
/// # }
/// ```
///
/// It ends where no whole record of a group begins: where the entries end, where they break off within a record, and at
/// a size of 0; [`Records::rest`] tells these apart. What stands past the used entries may look like a record, so the
/// page's used entries alone are handed in.
#[must_use]
pub fn records(output: &[u16]) -> Records<'_> {
    Records { rest: output }
}

/// The groups of the records in an output: see [`records`].
#[derive(Clone, Debug)]
pub struct Records<'a> {
    rest: &'a [u16],
}

impl<'a> Records<'a> {
    /// The entries that are not read yet: none once all were read. After the last group those of a record that breaks
    /// off, or those from a size of 0 on, are left, so that a list cut within a record can be told from a whole one.
    ///
    /// ```
    /// use isolated::{records, Group};
    ///
    /// let cut = [1, 0, 2, 7, 2, 0];
    /// let mut groups = records(&cut);
    /// assert_eq!(groups.rest(), cut);
    /// assert_eq!(groups.next(), Some(Group { vertices: vec![7], outgoing_edges: 2 }));
    /// assert_eq!(groups.next(), None);
    /// assert_eq!(groups.rest(), [2, 0]); // a record begins here and breaks off
    /// ```
    #[must_use]
    pub fn rest(&self) -> &'a [u16] {
        self.rest
    }
}

impl Iterator for Records<'_> {
    type Item = Group;

    fn next(&mut self) -> Option<Group> {
        let (group, rest) = first_record(self.rest)?;
        self.rest = rest;
        Some(group)
    }
}

/// Where no record begins, none begins later.
impl FusedIterator for Records<'_> {}

/// The group of the record that these entries begin with, and the entries after it; nothing where they begin with no
/// whole record of a group. Document 02, C-14: "size, outgoing edges div 65,536, the rest, then the vertices".
pub(crate) fn first_record(entries: &[u16]) -> Option<(Group, &[u16])> {
    let (&[size, upper, lower], rest) = entries.split_first_chunk()?;
    let (vertices, rest) = rest.split_at_checked(size.into()).filter(|_| size > 0)?;
    let outgoing_edges = u32::from(upper) * 65_536 + u32::from(lower);
    Some((Group { vertices: vertices.to_vec(), outgoing_edges }, rest))
}
