//! A second opinion on the library, written from documents 01 and 002 alone, and the means to compare the two.
//!
//! The reference: `graph`, `packed` (the packed table of a graph), `cliques` (a Bron-Kerbosch listing), `groups` (filtered
//! by the definitions), `walk` (the walk as document 01 words it), `calls` (what page, set query, edits and the packing
//! reply), `text` (the reader) and `program` (what the program prints). `lent` and `library` lend guarded memory to the
//! library; `kept` has it edit a graph beside a set of pairs, `faults` has it turn back faulty ones, and `planted` asks
//! about sets with many common neighbours, by the definitions over all sets of these; `random`, `samples` and `cases` make
//! the cases.

pub mod calls;
pub mod cases;
pub mod cliques;
pub mod faults;
pub mod graph;
pub mod groups;
pub mod kept;
pub mod lent;
pub mod library;
pub mod packed;
pub mod planted;
pub mod program;
pub mod random;
pub mod samples;
pub mod text;
pub mod walk;
