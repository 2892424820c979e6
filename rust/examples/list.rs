//! Lists the groups of a graph in a DIMACS edge file of up to 1,024 vertices, page by page.
//!
//! ```text
//! cargo run --release --example list -- NOTION KIND C FILE
//! ```
//!
//! It prints what the program prints: one line a group, its vertices plus 1 in rank order, then `end GROUPS STEPS`. While
//! it pages, standard error tells how far it is. The exit status is 0 where the whole list was written, 1 where the words
//! or the file are refused, 2 where the file was not read or the list is cut; an `end` line is written only in the first
//! of these cases.

use isolated::{page, records, work_entries, Graph, Kind, Notion, Settings, Stop};
use std::ffi::OsString;
use std::io::{self, ErrorKind, IsTerminal, Write};
use std::path::Path;
use std::process::ExitCode;
use std::{env, fs};

/// The steps of a page: so many that the test of the table, which each page makes, costs little beside them, and so few
/// that there is progress to tell.
const BUDGET: u32 = 1 << 22;

/// The entries of the output: many groups, so that few pages end because it is full.
const ENTRIES: usize = 1 << 16;

/// Why there is no whole list.
enum Failure {
    Refused(String),
    Unread(String),
    Cut(io::Error),
}

fn main() -> ExitCode {
    let words: Vec<OsString> = env::args_os().skip(1).collect();
    let (status, message) = match list_file(&words) {
        Ok(()) => return ExitCode::SUCCESS,
        Err(Failure::Refused(message)) => (1, message),
        Err(Failure::Unread(message)) => (2, message),
        // Who closed the pipe has read enough and needs no message.
        Err(Failure::Cut(error)) if error.kind() == ErrorKind::BrokenPipe => return ExitCode::from(2),
        Err(Failure::Cut(error)) => (2, format!("the list is cut, standard output took no more: {error}")),
    };
    to_standard_error(&format!("list: {message}\n"));
    ExitCode::from(status)
}

/// Reads the words and the file and lists its groups.
fn list_file(words: &[OsString]) -> Result<(), Failure> {
    let [notion, kind, c, file] = words else {
        return Err(Failure::Refused("the words are NOTION KIND C FILE".to_owned()));
    };
    let settings = settings(notion, kind, c).map_err(Failure::Refused)?;
    let text = fs::read(file).map_err(|error| Failure::Unread(format!("{}: {error}", Path::new(file).display())))?;
    let graph = Graph::from_text(&text)
        .map_err(|refused| Failure::Refused(format!("{}: {refused}", Path::new(file).display())))?;
    list(&graph, settings)
}

/// The settings that three words name; the library tests the factor's bounds.
fn settings(notion: &OsString, kind: &OsString, c: &OsString) -> Result<Settings, String> {
    let word = |word: &OsString| word.to_str().unwrap_or_default().to_owned();
    let notion: Notion = word(notion).parse().map_err(|error| format!("NOTION: {error}"))?;
    let kind: Kind = word(kind).parse().map_err(|error| format!("KIND: {error}"))?;
    let c = word(c).parse().map_err(|error| format!("C: {error}"))?;
    Ok(Settings::new(notion, kind, c))
}

/// Pages through the walk, writes the groups of each page at once, and the last line once they are all out.
fn list(graph: &Graph, settings: Settings) -> Result<(), Failure> {
    let (table, degrees, n) = (graph.table(), graph.degrees(), graph.vertices());
    let mut position = vec![0; n];
    let mut output = vec![0; ENTRIES];
    let mut work = vec![0; work_entries(n)];
    let (mut groups, mut steps) = (0u64, 0u64);
    let mut progress = Progress::new();
    loop {
        let done = page(table, degrees, &mut position, &mut output, &mut work, n, settings, BUDGET)
            .map_err(|refusal| Failure::Refused(refusal.to_string()))?;
        groups += u64::from(done.groups);
        steps += u64::from(done.steps);
        progress.clear();
        to_standard_output(&lines(&output[..done.used])).map_err(Failure::Cut)?;
        if done.stop == Stop::Finished {
            // As in the program, the totals stay at the largest number of 32 bits.
            let total = |count: u64| count.min(u32::MAX.into());
            return to_standard_output(&format!("end {} {}\n", total(groups), total(steps))).map_err(Failure::Cut);
        }
        progress.tell(steps, groups);
    }
}

/// The groups of a page, one line each.
fn lines(output: &[u16]) -> String {
    let mut lines = String::new();
    for group in records(output) {
        let vertices: Vec<String> = group.vertices.iter().map(|vertex| (vertex + 1).to_string()).collect();
        lines.push_str(&vertices.join(" "));
        lines.push('\n');
    }
    lines
}

/// How far the walk is, on standard error: on a terminal one line that is written anew after each page, else a line
/// whenever the steps have doubled.
struct Progress {
    terminal: bool,
    shown: bool,
    next: u64,
}

impl Progress {
    fn new() -> Progress {
        Progress { terminal: io::stderr().is_terminal(), shown: false, next: 1 << 23 }
    }

    fn tell(&mut self, steps: u64, groups: u64) {
        let line = format!("steps {steps}, groups {groups}");
        if self.terminal {
            to_standard_error(&line);
            self.shown = true;
        } else if steps >= self.next {
            to_standard_error(&format!("list: {line}\n"));
            self.next = 2 * steps;
        }
    }

    /// Takes the line away again, so that nothing is printed behind it.
    fn clear(&mut self) {
        if self.shown {
            to_standard_error("\r\x1b[K");
            self.shown = false;
        }
    }
}

/// Nothing is left in a buffer, so that after an error nothing more is written.
fn to_standard_output(text: &str) -> io::Result<()> {
    let mut out = io::stdout().lock();
    out.write_all(text.as_bytes())?;
    out.flush()
}

/// Where nobody reads standard error, there is nobody to tell that.
fn to_standard_error(text: &str) {
    let _ = io::stderr().write_all(text.as_bytes());
}
