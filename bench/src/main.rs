//! The library's times beside plain Rust, all in one run. Prints a page in Markdown: trust the ratios, not the times.

mod blocks;
mod bytes;
mod clock;
mod edits;
mod graphs;
mod growth;
mod kerbosch;
mod larger;
mod larger_after;
mod larger_before;
mod lists;
mod openings;
mod packed;
mod packing;
mod planted;
mod posed;
mod queried;
mod reader;
mod shown;
mod steps;
mod tally;
mod twin;
mod twins;

fn main() {
    steps::print();
    twins::print();
    openings::print();
    packing::print();
    edits::print();
    larger::print();
    lists::print();
    reader::print();
    growth::print();
}
