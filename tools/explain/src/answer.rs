//! One call: the explanation beside the library's answer, or why there is none.

use crate::graph::{Graph, Set};
use crate::reason::reason;
use crate::refusals::refused;
use crate::sentence::sentences;
use crate::words::{settings_and_vertices, USAGE};
use isolated::{Refusal, Settings};
use std::io;

/// What goes to standard output and to standard error, and the exit status: 0 listed, 1 not listed, 2 no answer, 3 two
/// answers that differ.
#[derive(Clone, Debug, PartialEq, Eq)]
pub struct Told {
    pub status: u8,
    pub output: String,
    pub error: String,
}

/// Answers a call with these words. `read` gives the text of the graph, and `query` is the library's set query: the graph
/// that it read, a set of one byte a vertex, and the settings.
pub fn answer(
    words: &[String],
    read: impl FnOnce() -> io::Result<Vec<u8>>,
    query: impl FnOnce(&isolated::Graph, &[u8], Settings) -> Result<bool, Refusal>,
) -> Told {
    let no_answer = |message: String| Told { status: 2, output: String::new(), error: format!("why: {message}\n") };
    let (settings, vertices) = match settings_and_vertices(words) {
        Ok(sound) => sound,
        Err(message) => return no_answer(format!("{message}\n{USAGE}")),
    };
    let text = match read() {
        Ok(text) => text,
        Err(error) => return no_answer(format!("standard input was not read: {error}.")),
    };
    let read = match isolated::Graph::from_text(&text) {
        Ok(graph) => graph,
        Err(fault) => return no_answer(refused(fault.refusal, &format!(" at line {} of the file", fault.line))),
    };
    let n = read.vertices();
    let set = match members(&vertices, n) {
        Ok(set) => set,
        Err(message) => return no_answer(message),
    };
    let graph = Graph::of(n, |u, v| read.is_joined(u, v));
    let reason = reason(&graph, &set, settings);
    let explained = sentences(&graph, &set, settings, &reason);
    let bytes: Vec<u8> = (0..n).map(|v| set.has(v).into()).collect();
    let verdict = query(&read, &bytes, settings);
    let shown = match verdict {
        Ok(true) => "library: yes\n".to_owned(),
        Ok(false) => "library: no\n".to_owned(),
        Err(refusal) => format!("library: {}\n", refused(refusal, "")),
    };
    if verdict == Ok(reason.listed()) {
        Told { status: u8::from(!reason.listed()), output: explained + &shown, error: String::new() }
    } else {
        let alarm =
            "why: FAILURE: the explanation and the library differ, so one of them is wrong. Use neither answer, and\n\
                     report this call with its file.";
        Told { status: 3, output: String::new(), error: format!("{alarm}\nexplanation: {explained}{shown}") }
    }
}

/// The set of these vertices, which are numbered from 1 on.
fn members(vertices: &[usize], n: usize) -> Result<Set, String> {
    let mut set = Set::default();
    for &number in vertices {
        if n == 0 {
            return Err(format!("there is no vertex {number}: the graph of the file has none."));
        }
        if number == 0 || number > n {
            return Err(format!("there is no vertex {number}: the vertices of the file are numbered from 1 to {n}."));
        }
        if set.has(number - 1) {
            return Err(format!("vertex {number} is named twice."));
        }
        set = set.with(number - 1);
    }
    Ok(set)
}

#[cfg(test)]
mod tests {
    use super::*;
    use isolated::{set_query, work_entries};

    type Read = isolated::Graph;

    const CLAW: &[u8] = b"p edge 4 3\ne 1 2\ne 1 3\ne 1 4\n";

    fn library(graph: &Read, set: &[u8], settings: Settings) -> Result<bool, Refusal> {
        let n = graph.vertices();
        set_query(graph.table(), graph.degrees(), set, &mut vec![0; work_entries(n)], n, settings)
    }

    fn words(words: &str) -> Vec<String> {
        words.split_whitespace().map(str::to_owned).collect()
    }

    #[test]
    fn answers_that_agree() {
        for (set, status, verdict) in [("2", 0, "library: yes\n"), ("1 2", 1, "library: no\n")] {
            let told = answer(&words(&format!("2 0 2 {set}")), || Ok(CLAW.to_vec()), library);
            assert_eq!((told.status, told.error.as_str()), (status, ""));
            assert!(told.output.ends_with(verdict), "{}", told.output);
        }
    }

    /// A library with the wrong answer, and one that refuses: nothing that looks like an answer is printed.
    #[test]
    fn answers_that_differ_are_a_loud_failure() {
        for set in ["", "1", "2", "1 2", "2 3", "1 2 3 4"] {
            for kind in ["0", "1"] {
                let call = words(&format!("2 {kind} 2 {set}"));
                let wrong = |graph: &Read, set: &[u8], settings| library(graph, set, settings).map(|yes| !yes);
                let refusing = |_: &Read, _: &[u8], _: Settings| Err(Refusal::Symmetry);
                let told = [answer(&call, || Ok(CLAW.to_vec()), wrong), answer(&call, || Ok(CLAW.to_vec()), refusing)];
                for told in told {
                    assert_eq!((told.status, told.output.as_str()), (3, ""), "{call:?}");
                    assert!(told.error.starts_with("why: FAILURE: the explanation and the library differ"), "{call:?}");
                }
            }
        }
    }

    #[test]
    fn a_text_that_is_not_read_has_no_answer() {
        let told = answer(&words("2 0 2 1"), || Err(io::Error::other("out of order")), library);
        let error = "why: standard input was not read: out of order.\n".to_owned();
        assert_eq!(told, Told { status: 2, output: String::new(), error });
    }

    /// Words are tested before anything is read.
    #[test]
    fn wrong_words_read_nothing() {
        let told = answer(&words("2 0 0 1"), || panic!("read"), library);
        assert_eq!((told.status, told.output.as_str()), (2, ""));
    }
}
