//! All groups of a graph, one after the other.

use crate::group::first_record;
use crate::{page, record_entries, work_entries, Group, Page, Refusal, Settings, Stop, VERTICES};
use std::fmt;
use std::iter::FusedIterator;

/// Steps that one page may make. A page tests the whole table anew, so that many steps keep that cost small, and
/// a walk of few groups still comes back now and then.
const BUDGET: u32 = 1 << 20;

/// The most entries of a room's output, 32 MiB. By then the tests at the start of a page take little of its time.
const OUTPUT: usize = 1 << 24;

/// The memory of a listing: its position, its output and its work slice. It is made by the caller and lent to
/// [`Groups::new`], so that one room serves many graphs, of any number of vertices up to the one it was made for.
pub struct Room {
    position: Vec<u8>,
    output: Vec<u16>,
    work: Vec<u16>,
}

impl Room {
    /// A room for graphs of up to `n` vertices: n bytes, at least n + 3 entries of output and 8 × n entries of work.
    /// No graph has more than [`VERTICES`], so a larger `n` counts as that.
    #[must_use]
    pub fn new(n: usize) -> Room {
        Room::with_output(n, 4096)
    }

    /// A room with an output of this many entries, or of n + 3 where this is more: any group fits then. More than 2^24
    /// entries, which are 32 MiB, count as that.
    #[must_use]
    pub fn with_output(n: usize, entries: usize) -> Room {
        let n = n.min(VERTICES);
        let entries = entries.clamp(record_entries(n), OUTPUT);
        Room { position: vec![0; n], output: vec![0; entries], work: vec![0; work_entries(n)] }
    }

    /// The most vertices of a graph that it serves.
    #[must_use]
    pub fn vertices(&self) -> usize {
        self.position.len()
    }
}

/// Its sizes, without its contents.
impl fmt::Debug for Room {
    fn fmt(&self, out: &mut fmt::Formatter<'_>) -> fmt::Result {
        out.debug_struct("Room")
            .field("vertices", &self.vertices())
            .field("output", &self.output.len())
            .finish_non_exhaustive()
    }
}

/// All groups of a graph in the order of document 01, each as a [`Group`]: its vertices in rank order, and the number
/// of its outgoing edges.
///
/// It pages underneath and keeps no list: what it needs is in its [`Room`], which it borrows, or owns where
/// [`crate::Graph::groups`] made it. The steps made so far are [`Groups::steps`]; after the last group this is the length
/// of the walk. It borrows the graph, so that nothing can change it in the middle of the walk.
///
/// ```
/// use isolated::{Group, Groups, Kind, Notion, Refusal, Room, Settings};
///
/// # fn main() -> Result<(), Refusal> {
/// let (triangle, degrees) = ([0b110, 0b101, 0b011], [2, 2, 2]);
/// let mut room = Room::new(3);
/// let settings = Settings::new(Notion::Avg, Kind::IsolatedMaximal, 1);
/// let mut groups = Groups::new(&triangle, &degrees, 3, settings, &mut room)?;
/// assert_eq!(groups.next(), Some(Group { vertices: vec![0, 1, 2], outgoing_edges: 0 }));
/// assert_eq!(groups.next(), None);
/// assert_eq!(groups.steps(), 10);
///
/// let refused = Groups::new(&triangle, &degrees, 3, Settings { c: 0, ..settings }, &mut room);
/// assert_eq!(refused.err(), Some(Refusal::Factor));
/// # Ok(())
/// # }
/// ```
pub struct Groups<'a> {
    table: &'a [u64],
    degrees: &'a [u16],
    n: usize,
    settings: Settings,
    room: Place<'a>,
    /// Entries of the output already handed on, and entries that the last page used.
    read: usize,
    used: usize,
    steps: u64,
    finished: bool,
}

/// The room of a listing: one that it borrows, or one that it keeps.
pub(crate) enum Place<'a> {
    Lent(&'a mut Room),
    Own(Room),
}

impl Place<'_> {
    fn room(&mut self) -> &mut Room {
        match self {
            Place::Lent(room) => room,
            Place::Own(room) => room,
        }
    }
}

impl<'a> Groups<'a> {
    /// Starts a listing from the fresh position. `table` is the packed table of n vertices, `degrees` has the degree of
    /// each, and `room` is for n vertices or more; it may hold anything, also what an earlier listing left.
    ///
    /// # Errors
    ///
    /// Any fault of the table, the degrees, n or the settings, as [`page`] tells it, and [`Refusal::Length`] where the
    /// room is for fewer than n vertices. The listing itself is refused nothing after that.
    pub fn new(
        table: &'a [u64],
        degrees: &'a [u16],
        n: usize,
        settings: Settings,
        room: &'a mut Room,
    ) -> Result<Groups<'a>, Refusal> {
        Groups::start(table, degrees, n, settings, Place::Lent(room))
    }

    /// The same in a room of either sort.
    pub(crate) fn start(
        table: &'a [u64],
        degrees: &'a [u16],
        n: usize,
        settings: Settings,
        mut room: Place<'a>,
    ) -> Result<Groups<'a>, Refusal> {
        room.room().position.fill(0);
        let mut groups = Groups { table, degrees, n, settings, room, read: 0, used: 0, steps: 0, finished: false };
        groups.turn(0)?;
        Ok(groups)
    }

    /// The steps that the walk has made so far.
    #[must_use]
    pub fn steps(&self) -> u64 {
        self.steps
    }

    /// One page; the output is read up to its used entries afterwards. Of a room for more vertices the beginning is
    /// lent; one for fewer is lent whole, and the library finds the position too short.
    fn turn(&mut self, budget: u32) -> Result<Page, Refusal> {
        let Room { position, output, work } = self.room.room();
        let lent = self.n.min(position.len());
        let (position, work) = (&mut position[..lent], &mut work[..work_entries(lent)]);
        let done = page(self.table, self.degrees, position, output, work, self.n, self.settings, budget)?;
        self.read = 0;
        self.used = done.used;
        self.steps += u64::from(done.steps);
        self.finished = done.stop == Stop::Finished;
        Ok(done)
    }
}

impl Iterator for Groups<'_> {
    type Item = Group;

    fn next(&mut self) -> Option<Group> {
        while self.read == self.used {
            if self.finished {
                return None;
            }
            self.turn(BUDGET).expect("the walk's own position is accepted");
        }
        let entries = &self.room.room().output[self.read..self.used];
        let (group, rest) = first_record(entries).expect("a page writes whole records");
        self.read = self.used - rest.len();
        Some(group)
    }
}

/// Once the walk is over it stays so.
impl FusedIterator for Groups<'_> {}

/// How far it is, without the graph and the room.
impl fmt::Debug for Groups<'_> {
    fn fmt(&self, out: &mut fmt::Formatter<'_>) -> fmt::Result {
        out.debug_struct("Groups")
            .field("n", &self.n)
            .field("settings", &self.settings)
            .field("steps", &self.steps)
            .field("finished", &self.finished)
            .finish_non_exhaustive()
    }
}
