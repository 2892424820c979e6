//! The seven calls as the static library exports them, with the numbers of document 01 as plain numbers.
//!
//! This is `include/isolated.h` in Rust; [`crate::page`], [`crate::set_query`], [`crate::join`], [`crate::part`],
//! [`crate::fill_degrees`], [`crate::read_text`] and [`crate::pack`] are these calls over slices. A lent slice is a
//! pointer and then its length in elements. For each call the pointers must be aligned, and not null unless the header
//! allows it; each must lead to so many elements that may be read, and behind a `*mut` also written; and what may be
//! written must overlap nothing else that is lent.

/// What [`isolated_page`] returns. Where the refusal is not 0, all other numbers are 0.
#[repr(C)]
#[derive(Clone, Copy, Debug, Default, PartialEq, Eq)]
pub struct PageAnswer {
    /// 0, or the number of a [`crate::Refusal`].
    pub refusal: u32,
    /// 1 finished, 2 spent, 3 full: a [`crate::Stop`].
    pub stop: u32,
    /// Groups written.
    pub groups: u32,
    /// Steps of the walk made, at most the budget.
    pub steps: u32,
    /// Entries of the output used.
    pub used: usize,
    /// Where the page stopped full the entries of the next group's record, else 0.
    pub wanted: usize,
}

/// What [`isolated_set_query`] returns. Where the refusal is not 0, `yes` is 0.
#[repr(C)]
#[derive(Clone, Copy, Debug, Default, PartialEq, Eq)]
pub struct SetAnswer {
    /// 0, or the number of a [`crate::Refusal`].
    pub refusal: u32,
    /// 1 where the set is a group, else 0.
    pub yes: u32,
}

/// What [`isolated_join`] and [`isolated_part`] return. Where the refusal is not 0, `unchanged` is 0.
#[repr(C)]
#[derive(Clone, Copy, Debug, Default, PartialEq, Eq)]
pub struct EditAnswer {
    /// 0, or the number of a [`crate::Refusal`].
    pub refusal: u32,
    /// 1 where the pair was so already and nothing was written, else 0.
    pub unchanged: u32,
}

/// What [`isolated_read_text`] returns. Where the refusal is not 0, `vertices` and `edges` are 0.
#[repr(C)]
#[derive(Clone, Copy, Debug, Default, PartialEq, Eq)]
pub struct TextAnswer {
    /// 0, or the number of a [`crate::Refusal`].
    pub refusal: u32,
    /// The N of the p line.
    pub vertices: u32,
    /// The M of the p line, which is the number of e lines: more than the graph has edges where a pair is repeated. See
    /// [`crate::TextGraph::edges`].
    pub edges: u32,
    /// 0, or the faulty line, counted from 1; at the end of the text the line count plus 1.
    pub line: usize,
}

extern "C" {
    /// Goes on with the walk over a graph and writes the groups it meets: see [`crate::page`].
    pub fn isolated_page(
        table: *const u64,
        table_length: usize,
        degrees: *const u16,
        degrees_length: usize,
        position: *mut u8,
        position_length: usize,
        output: *mut u16,
        output_length: usize,
        work: *mut u16,
        work_length: usize,
        n: usize,
        notion: u32,
        kind: u32,
        c: u32,
        budget: u32,
    ) -> PageAnswer;

    /// Says whether a set is a group: see [`crate::set_query`].
    pub fn isolated_set_query(
        table: *const u64,
        table_length: usize,
        degrees: *const u16,
        degrees_length: usize,
        set: *const u8,
        set_length: usize,
        work: *mut u16,
        work_length: usize,
        n: usize,
        notion: u32,
        kind: u32,
        c: u32,
    ) -> SetAnswer;

    /// Joins two vertices: see [`crate::join`].
    pub fn isolated_join(
        table: *mut u64,
        table_length: usize,
        degrees: *mut u16,
        degrees_length: usize,
        n: usize,
        u: usize,
        v: usize,
    ) -> EditAnswer;

    /// Parts two vertices: see [`crate::part`].
    pub fn isolated_part(
        table: *mut u64,
        table_length: usize,
        degrees: *mut u16,
        degrees_length: usize,
        n: usize,
        u: usize,
        v: usize,
    ) -> EditAnswer;

    /// Counts the degrees of a graph and returns the refusal's number: see [`crate::fill_degrees`].
    pub fn isolated_degrees(
        table: *const u64,
        table_length: usize,
        degrees: *mut u16,
        degrees_length: usize,
        n: usize,
    ) -> u32;

    /// Reads a graph in the DIMACS edge layout: see [`crate::read_text`].
    pub fn isolated_read_text(text: *const u8, text_length: usize, table: *mut u8, table_length: usize) -> TextAnswer;

    /// Packs a byte table and returns the refusal's number: see [`crate::pack`].
    pub fn isolated_pack(
        bytes: *const u8,
        bytes_length: usize,
        packed: *mut u64,
        packed_length: usize,
        n: usize,
    ) -> u32;
}
