//! The library's seven calls over guarded memory. What a call was handed and what it left are plain values here.

use crate::graph::Graph;
use crate::groups::Settings;
use crate::lent::Lent;
use crate::packed;
use crate::random::Random;
use isolated::raw;

pub use isolated::raw::{EditAnswer, PageAnswer, SetAnswer, TextAnswer};

/// The arguments of a page call.
#[derive(Clone, Debug)]
pub struct PageRequest {
    pub table: Vec<u64>,
    pub degrees: Vec<u16>,
    pub position: Vec<u8>,
    pub output: Vec<u16>,
    pub work: Vec<u16>,
    pub n: usize,
    pub settings: Settings,
    pub budget: u32,
}

impl PageRequest {
    /// A call from the fresh position with an output of so many entries; output and work slice hold anything.
    pub fn fresh(random: &mut Random, graph: &Graph, settings: Settings, entries: usize, budget: u32) -> PageRequest {
        let n = graph.n;
        let (table, degrees) = (packed::pack(graph), graph.degrees());
        let (output, work) = (random.entries(entries), random.entries(8 * n));
        PageRequest { table, degrees, position: vec![0; n], output, work, n, settings, budget }
    }
}

/// A page call's answer and the memory it left. The work slice stands here only where the call was refused: after
/// acceptance its contents are free.
#[derive(Clone, Debug, PartialEq)]
pub struct PageReply {
    pub answer: PageAnswer,
    pub position: Vec<u8>,
    pub output: Vec<u16>,
    pub work: Option<Vec<u16>>,
}

pub fn page(request: &PageRequest) -> PageReply {
    let mut table = Lent::new(&request.table);
    let mut degrees = Lent::new(&request.degrees);
    let mut position = Lent::new(&request.position);
    let mut output = Lent::new(&request.output);
    let mut work = Lent::new(&request.work);
    // SAFETY: five slices that overlap nowhere, each with its own length.
    let answer = unsafe {
        raw::isolated_page(
            table.pointer(),
            table.len(),
            degrees.pointer(),
            degrees.len(),
            position.pointer(),
            position.len(),
            output.pointer(),
            output.len(),
            work.pointer(),
            work.len(),
            request.n,
            request.settings.notion,
            request.settings.kind,
            request.settings.c,
            request.budget,
        )
    };
    assert!(table.contents("the table") == request.table, "the table was written");
    assert!(degrees.contents("the degrees") == request.degrees, "the degrees were written");
    let work = work.contents("the work slice");
    PageReply {
        answer,
        position: position.contents("the position"),
        output: output.contents("the output"),
        work: (answer.refusal != 0).then_some(work),
    }
}

/// The arguments of a set query.
#[derive(Clone, Debug)]
pub struct SetRequest {
    pub table: Vec<u64>,
    pub degrees: Vec<u16>,
    pub set: Vec<u8>,
    pub work: Vec<u16>,
    pub n: usize,
    pub settings: Settings,
}

impl SetRequest {
    /// A query of a set, one byte a vertex; the work slice holds anything.
    pub fn of(random: &mut Random, graph: &Graph, settings: Settings, set: Vec<u8>) -> SetRequest {
        let (table, degrees) = (packed::pack(graph), graph.degrees());
        SetRequest { table, degrees, set, work: random.entries(8 * graph.n), n: graph.n, settings }
    }
}

/// A set query's answer, and the work slice where it was refused.
#[derive(Clone, Debug, PartialEq)]
pub struct SetReply {
    pub answer: SetAnswer,
    pub work: Option<Vec<u16>>,
}

pub fn set_query(request: &SetRequest) -> SetReply {
    let mut table = Lent::new(&request.table);
    let mut degrees = Lent::new(&request.degrees);
    let mut set = Lent::new(&request.set);
    let mut work = Lent::new(&request.work);
    // SAFETY: four slices that overlap nowhere, each with its own length.
    let answer = unsafe {
        raw::isolated_set_query(
            table.pointer(),
            table.len(),
            degrees.pointer(),
            degrees.len(),
            set.pointer(),
            set.len(),
            work.pointer(),
            work.len(),
            request.n,
            request.settings.notion,
            request.settings.kind,
            request.settings.c,
        )
    };
    assert!(table.contents("the table") == request.table, "the table was written");
    assert!(degrees.contents("the degrees") == request.degrees, "the degrees were written");
    assert!(set.contents("the set") == request.set, "the set was written");
    let work = work.contents("the work slice");
    SetReply { answer, work: (answer.refusal != 0).then_some(work) }
}

/// The arguments of an edit.
#[derive(Clone, Debug)]
pub struct EditRequest {
    pub table: Vec<u64>,
    pub degrees: Vec<u16>,
    pub n: usize,
    pub u: usize,
    pub v: usize,
}

impl EditRequest {
    pub fn of(graph: &Graph, u: usize, v: usize) -> EditRequest {
        EditRequest { table: packed::pack(graph), degrees: graph.degrees(), n: graph.n, u, v }
    }
}

/// An edit's answer and the memory it left.
#[derive(Clone, Debug, PartialEq)]
pub struct EditReply {
    pub answer: EditAnswer,
    pub table: Vec<u64>,
    pub degrees: Vec<u16>,
}

/// What an edit makes of its pair.
#[derive(Clone, Copy, Debug, PartialEq, Eq)]
pub enum Edit {
    Join,
    Part,
}

impl Edit {
    pub const BOTH: [Edit; 2] = [Edit::Join, Edit::Part];
}

pub fn edit(edit: Edit, request: &EditRequest) -> EditReply {
    let mut table = Lent::new(&request.table);
    let mut degrees = Lent::new(&request.degrees);
    let call = match edit {
        Edit::Join => raw::isolated_join,
        Edit::Part => raw::isolated_part,
    };
    // SAFETY: two slices that do not overlap, each with its own length.
    let answer = unsafe {
        call(table.pointer(), table.len(), degrees.pointer(), degrees.len(), request.n, request.u, request.v)
    };
    EditReply { answer, table: table.contents("the table"), degrees: degrees.contents("the degrees") }
}

/// The refusal's number of a count of the degrees, and the list it left.
#[derive(Clone, Debug, PartialEq)]
pub struct DegreesReply {
    pub refusal: u32,
    pub degrees: Vec<u16>,
}

pub fn degrees(table: &[u64], degrees: &[u16], n: usize) -> DegreesReply {
    let mut lent_table = Lent::new(table);
    let mut lent_degrees = Lent::new(degrees);
    // SAFETY: two slices that do not overlap, each with its own length.
    let refusal = unsafe {
        raw::isolated_degrees(lent_table.pointer(), lent_table.len(), lent_degrees.pointer(), lent_degrees.len(), n)
    };
    assert!(lent_table.contents("the table") == table, "the table was written");
    DegreesReply { refusal, degrees: lent_degrees.contents("the degrees") }
}

/// The refusal's number of a packing, and the packed slice it left.
#[derive(Clone, Debug, PartialEq)]
pub struct PackReply {
    pub refusal: u32,
    pub packed: Vec<u64>,
}

pub fn pack(bytes: &[u8], packed: &[u64], n: usize) -> PackReply {
    let mut lent_bytes = Lent::new(bytes);
    let mut lent_packed = Lent::new(packed);
    // SAFETY: two slices that do not overlap, each with its own length.
    let refusal = unsafe {
        raw::isolated_pack(lent_bytes.pointer(), lent_bytes.len(), lent_packed.pointer(), lent_packed.len(), n)
    };
    assert!(lent_bytes.contents("the bytes") == bytes, "the bytes were written");
    PackReply { refusal, packed: lent_packed.contents("the packed slice") }
}

/// The text reader's answer and the byte table it left.
#[derive(Clone, Debug, PartialEq)]
pub struct TextReply {
    pub answer: TextAnswer,
    pub table: Vec<u8>,
}

pub fn read_text(text: &[u8], table: &[u8]) -> TextReply {
    let mut lent_text = Lent::new(text);
    let mut lent_table = Lent::new(table);
    // SAFETY: two slices that do not overlap, each with its own length.
    let answer = unsafe {
        raw::isolated_read_text(lent_text.pointer(), lent_text.len(), lent_table.pointer(), lent_table.len())
    };
    assert!(lent_text.contents("the text") == text, "the text was written");
    TextReply { answer, table: lent_table.contents("the table") }
}
