//! The isolated cliques of a graph.
//!
//! A safe face of the proved static library `libisolated.a`. What the words mean (clique, outside count, notion, kind,
//! rank, position, walk) is told in `include/isolated.h` and, at length, in document 01.
//!
//! A [`Graph`] is kept up to date by edits, and lists its groups. The claw has a centre, vertex 0, joined to three others:
//!
//! ```
//! use isolated::{Graph, Group, Kind, Notion, Settings};
//!
//! # fn main() -> Result<(), isolated::Refusal> {
//! let mut claw = Graph::new(4)?;
//! for leaf in 1..4 {
//!     claw.join(0, leaf)?;
//! }
//! let settings = Settings::new(Notion::Max, Kind::MaximalIsolated, 2);
//! let groups: Vec<Group> = claw.groups(settings)?.collect();
//! let outer = |leaf| Group { vertices: vec![leaf], outgoing_edges: 1 };
//! assert_eq!(groups, [outer(1), outer(2), outer(3)]);
//! # Ok(())
//! # }
//! ```
//!
//! Below it stand the seven calls of the library, which hide nothing and own nothing: every call takes the slices it
//! works on, and what it returns is an enum or a plain struct. A graph of `n` vertices is there its packed table, and
//! beside it the list of its `n` degrees. The packed table has a row for each vertex, one after another, and a row is
//! [`row_numbers`] of `n` numbers of 64 bits: in the row of `u`, bit `v % 64`, of weight 2 to that power, of number
//! `v / 64` is 1 where `u` and `v` are joined, else 0. What is left over in a row, from bit `n` on, is 0.
//!
//! [`page`] lists as many groups at a time as its caller likes, for [`records`] to read, and [`Groups`] all of them;
//! [`set_query`] asks about one set; [`join`] and [`part`] change a pair; [`fill_degrees`] counts the degrees;
//! [`read_text`] reads a graph into a table of bytes, and [`pack`] packs it. [`raw`] declares the calls as they are
//! exported. How to build, and what is proved and what is not, is told in `rust/README.md`.

#![warn(missing_docs)]

mod edit;
mod graph;
mod group;
mod groups;
mod pack;
mod page;
pub mod raw;
mod refusal;
mod set;
mod settings;
mod text;

pub use edit::{fill_degrees, join, part};
pub use graph::Graph;
pub use group::{record_entries, records, Group, Records};
pub use groups::{Groups, Room};
pub use pack::{pack, row_numbers, table_numbers};
pub use page::{page, work_entries, Page, Stop, VERTICES};
pub use refusal::Refusal;
pub use set::set_query;
pub use settings::{Kind, Notion, ParseKindError, ParseNotionError, Settings, FACTOR};
pub use text::{read_text, TextGraph, TextRefusal};

/// The examples of the crate's README, run as tests.
#[cfg(doctest)]
#[doc = include_str!("../README.md")]
struct Readme;
