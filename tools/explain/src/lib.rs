//! Says of one set why it is listed or not, beside the library's own answer.
//!
//! The library reads the file (`isolated::Graph`) and is asked for its verdict (`isolated::set_query`). The reason
//! is found here without it, from document 01's section "Which sets qualify": `reason` goes through the definitions,
//! `larger` searches for the larger isolated clique. `answer` puts both side by side and fails where they differ.

mod answer;
mod graph;
mod larger;
mod reason;
mod refusals;
mod sentence;
mod words;

pub use answer::{answer, Told};
pub use graph::{Graph, Set};
pub use reason::{outside_counts, reason, Counts, Reason};
