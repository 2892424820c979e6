//! A graph that is kept: its table and its degrees in one place.

use crate::groups::Place;
use crate::{fill_degrees, join, pack, part, read_text, row_numbers, set_query, table_numbers, work_entries};
use crate::{Groups, Refusal, Room, Settings, TextRefusal, VERTICES};
use std::fmt;

/// A graph that is kept up to date: it owns its table and its degrees, and edits keep the two together.
///
/// Vertices are numbered from 0 on, and their number stays: one that leaves is parted from all its neighbours.
///
/// ```
/// use isolated::{Graph, Kind, Notion, Settings};
///
/// # fn main() -> Result<(), isolated::Refusal> {
/// let mut graph = Graph::new(4)?;
/// graph.join(0, 1)?;
/// graph.join(0, 2)?;
/// graph.join(1, 2)?;
/// let changed = graph.join(2, 3)?;
/// assert!(changed);
///
/// let settings = Settings::new(Notion::Max, Kind::MaximalIsolated, 1);
/// assert_eq!(graph.groups(settings)?.count(), 0);
///
/// graph.part(3, 2)?;
/// let groups: Vec<Vec<u16>> = graph.groups(settings)?.map(|group| group.vertices).collect();
/// assert_eq!(groups, [vec![3], vec![0, 1, 2]]);
/// assert!(graph.asks(&[0, 1, 2], settings)?);
/// # Ok(())
/// # }
/// ```
///
/// The calls over slices take it too, as [`Graph::table`], [`Graph::degrees`] and [`Graph::vertices`]: [`crate::page`]
/// for who must stop in between, [`Groups::new`] for who lists often in one [`Room`].
#[derive(Clone, PartialEq, Eq)]
pub struct Graph {
    n: usize,
    table: Vec<u64>,
    degrees: Vec<u16>,
}

impl Graph {
    /// A graph of n vertices without an edge.
    ///
    /// # Errors
    ///
    /// [`Refusal::Vertices`] where `n` is over [`VERTICES`].
    pub fn new(n: usize) -> Result<Graph, Refusal> {
        if n > VERTICES {
            return Err(Refusal::Vertices);
        }
        Ok(Graph { n, table: vec![0; table_numbers(n)], degrees: vec![0; n] })
    }

    /// The graph of a text in the DIMACS edge layout: vertex U of the text is vertex U - 1 here.
    ///
    /// ```
    /// use isolated::{Graph, Refusal};
    ///
    /// # fn main() -> Result<(), isolated::TextRefusal> {
    /// let claw = Graph::from_text(b"p edge 4 3\ne 1 2\ne 1 3\ne 1 4\n")?;
    /// assert_eq!((claw.vertices(), claw.edges()), (4, 3));
    /// assert_eq!(claw.degrees(), [3, 1, 1, 1]);
    ///
    /// let refused = Graph::from_text(b"p edge 4 1\ne 1 5\n").unwrap_err();
    /// assert_eq!((refused.refusal, refused.line), (Refusal::Range, 2));
    /// # Ok(())
    /// # }
    /// ```
    ///
    /// # Errors
    ///
    /// As [`read_text`], but for [`Refusal::TableShort`]: the table is long enough for any graph.
    ///
    /// # Panics
    ///
    /// Never with the proved library; only one with other answers could make it panic.
    pub fn from_text(text: &[u8]) -> Result<Graph, TextRefusal> {
        let mut bytes = vec![0; VERTICES * VERTICES];
        let n = read_text(text, &mut bytes)?.vertices;
        let (mut table, mut degrees) = (vec![0; table_numbers(n)], vec![0; n]);
        pack(&bytes[..n * n], &mut table, n).expect("the reader's table is accepted");
        fill_degrees(&table, &mut degrees, n).expect("a packed table is accepted");
        Ok(Graph { n, table, degrees })
    }

    /// The number of vertices.
    #[must_use]
    pub fn vertices(&self) -> usize {
        self.n
    }

    /// The number of edges: half the sum of the degrees.
    #[must_use]
    pub fn edges(&self) -> usize {
        self.degrees.iter().map(|&degree| usize::from(degree)).sum::<usize>() / 2
    }

    /// The number of neighbours of a vertex, `None` where there is no such vertex.
    #[must_use]
    pub fn degree(&self, v: usize) -> Option<usize> {
        self.degrees.get(v).map(|&degree| degree.into())
    }

    /// Whether two vertices are joined; no where one of them is not below n.
    #[must_use]
    pub fn is_joined(&self, u: usize, v: usize) -> bool {
        u < self.n && v < self.n && self.table[u * row_numbers(self.n) + v / 64] >> (v % 64) & 1 == 1
    }

    /// The neighbours of a vertex, in the order of their numbers; none where there is no such vertex.
    pub fn neighbours(&self, v: usize) -> impl Iterator<Item = usize> + '_ {
        (0..self.n).filter(move |&u| self.is_joined(v, u))
    }

    /// The packed table, in the form that the page of the [crate] tells.
    #[must_use]
    pub fn table(&self) -> &[u64] {
        &self.table
    }

    /// The degree of each vertex.
    #[must_use]
    pub fn degrees(&self) -> &[u16] {
        &self.degrees
    }

    /// Joins two vertices, and says whether that changed the graph: not where they are joined already.
    ///
    /// ```
    /// use isolated::{Graph, Refusal};
    ///
    /// # fn main() -> Result<(), Refusal> {
    /// let mut graph = Graph::new(3)?;
    /// assert!(graph.join(0, 2)?);
    /// assert!(!graph.join(2, 0)?);
    /// assert_eq!((graph.is_joined(2, 0), graph.degree(2)), (true, Some(1)));
    /// assert_eq!(graph.join(0, 3), Err(Refusal::NoVertex));
    /// assert_eq!(graph.join(0, 0), Err(Refusal::EqualEnds));
    /// # Ok(())
    /// # }
    /// ```
    ///
    /// # Errors
    ///
    /// [`Refusal::NoVertex`] where one of them is not below n, then [`Refusal::EqualEnds`] where they are the same. The
    /// graph is then as it was.
    ///
    /// # Panics
    ///
    /// Never with the proved library; only one with other answers could make it panic.
    pub fn join(&mut self, u: usize, v: usize) -> Result<bool, Refusal> {
        join(&mut self.table, &mut self.degrees, self.n, u, v)
    }

    /// Parts two vertices, and says whether that changed the graph: not where they are parted already. It undoes a
    /// [`Graph::join`] of the two that changed the graph.
    ///
    /// ```
    /// # fn main() -> Result<(), isolated::Refusal> {
    /// let mut graph = isolated::Graph::new(3)?;
    /// assert!(!graph.part(0, 1)?);
    /// graph.join(0, 1)?;
    /// assert!(graph.part(1, 0)?);
    /// assert_eq!(graph, isolated::Graph::new(3)?);
    /// # Ok(())
    /// # }
    /// ```
    ///
    /// # Errors
    ///
    /// As [`Graph::join`].
    ///
    /// # Panics
    ///
    /// Never with the proved library; only one with other answers could make it panic.
    pub fn part(&mut self, u: usize, v: usize) -> Result<bool, Refusal> {
        part(&mut self.table, &mut self.degrees, self.n, u, v)
    }

    /// All groups, one after the other: an iterator with a room of its own.
    ///
    /// It borrows the graph, so that the borrow rules forbid an edit in the middle of a walk, which would leave the list
    /// without meaning:
    ///
    /// ```compile_fail,E0502
    /// # use isolated::{Graph, Kind, Notion, Settings};
    /// # fn main() -> Result<(), isolated::Refusal> {
    /// # let settings = Settings::new(Notion::Max, Kind::MaximalIsolated, 2);
    /// let mut graph = Graph::new(4)?;
    /// for group in graph.groups(settings)? {
    ///     graph.join(0, 1)?; // an error: the listing has borrowed the graph
    /// }
    /// # Ok(())
    /// # }
    /// ```
    ///
    /// Who wants to edit by what is listed collects first:
    ///
    /// ```
    /// # use isolated::{Graph, Group, Kind, Notion, Settings};
    /// # fn main() -> Result<(), isolated::Refusal> {
    /// # let settings = Settings::new(Notion::Max, Kind::MaximalIsolated, 2);
    /// let mut graph = Graph::new(4)?;
    /// let groups: Vec<Group> = graph.groups(settings)?.collect();
    /// for pair in groups.windows(2) {
    ///     graph.join(pair[0].vertices[0].into(), pair[1].vertices[0].into())?;
    /// }
    /// assert_eq!(graph.degrees(), [1, 2, 2, 1]);
    /// # Ok(())
    /// # }
    /// ```
    ///
    /// # Errors
    ///
    /// [`Refusal::Factor`] where the factor is out of its bounds.
    ///
    /// # Panics
    ///
    /// Never with the proved library; only one with other answers could make it panic.
    pub fn groups(&self, settings: Settings) -> Result<Groups<'_>, Refusal> {
        Groups::start(&self.table, &self.degrees, self.n, settings, Place::Own(Room::new(self.n)))
    }

    /// Whether a set is a group. It is given by its vertices, in any order, as a listing gives them; one that is named
    /// twice counts once. The empty set is no group.
    ///
    /// ```
    /// use isolated::{Graph, Kind, Notion, Refusal, Settings};
    ///
    /// # fn main() -> Result<(), Refusal> {
    /// let mut graph = Graph::new(3)?;
    /// graph.join(0, 1)?;
    /// let settings = Settings::new(Notion::Min, Kind::IsolatedMaximal, 1);
    /// assert!(graph.asks(&[1, 0], settings)?);
    /// assert!(!graph.asks(&[0], settings)?);
    /// assert_eq!(graph.asks(&[3], settings), Err(Refusal::NoVertex));
    /// # Ok(())
    /// # }
    /// ```
    ///
    /// # Errors
    ///
    /// [`Refusal::NoVertex`] where a member is not below n, then [`Refusal::Factor`] where the factor is out of its
    /// bounds.
    ///
    /// # Panics
    ///
    /// Never with the proved library; only one with other answers could make it panic.
    pub fn asks(&self, set: &[u16], settings: Settings) -> Result<bool, Refusal> {
        let mut bytes = vec![0; self.n];
        for &v in set {
            *bytes.get_mut(usize::from(v)).ok_or(Refusal::NoVertex)? = 1;
        }
        set_query(&self.table, &self.degrees, &bytes, &mut vec![0; work_entries(self.n)], self.n, settings)
    }
}

/// Its sizes, without its contents.
impl fmt::Debug for Graph {
    fn fmt(&self, out: &mut fmt::Formatter<'_>) -> fmt::Result {
        out.debug_struct("Graph").field("vertices", &self.n).field("edges", &self.edges()).finish_non_exhaustive()
    }
}
