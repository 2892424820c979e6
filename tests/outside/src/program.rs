//! What the program prints, by the reference alone: document 01, "One set, one text, one program".

use crate::graph::Graph;
use crate::groups::{Reference, Settings};
use crate::text::{number, read_text};
use crate::walk::Walk;

const TEXT: usize = 65_536;
const TABLE: usize = 65_536;

/// The output for these words and this standard input.
pub fn output(words: &[Vec<u8>], text: &[u8]) -> String {
    match listing(words, text) {
        Ok(listing) => listing,
        Err((refusal, line)) => format!("refused {refusal} {line}\n"),
    }
}

fn settings(words: &[Vec<u8>]) -> Result<Settings, u32> {
    let numbers: Option<Vec<usize>> = words.iter().map(|word| number(word)).collect();
    let Some([notion, kind, c]) = numbers.as_deref() else { return Err(32) };
    let tests = [(6, *notion <= 2), (7, *kind <= 1), (8, (1..=1024).contains(c))];
    match tests.iter().find(|(_, sound)| !sound) {
        Some((refusal, _)) => Err(*refusal),
        None => Ok(Settings { notion: *notion as u32, kind: *kind as u32, c: *c as u32 }),
    }
}

fn listing(words: &[Vec<u8>], text: &[u8]) -> Result<String, (u32, usize)> {
    let settings = settings(words).map_err(|refusal| (refusal, 0))?;
    if text.len() > TEXT {
        return Err((41, 0));
    }
    let read = read_text(text, &[0; TABLE]);
    if read.answer.refusal != 0 {
        return Err((read.answer.refusal, read.answer.line));
    }
    let n = read.answer.vertices as usize;
    let graph = Graph { n, table: read.table[..n * n].to_vec() };
    let length = Walk::new(&graph, settings.c).whole().0;
    let list = Reference::of(graph).full_list(settings);
    let mut printed = String::new();
    for group in &list.groups {
        let vertices: Vec<String> = group.iter().map(|v| (v + 1).to_string()).collect();
        printed.push_str(&vertices.join(" "));
        printed.push('\n');
    }
    let total = |count: u64| count.min(u32::MAX.into());
    printed.push_str(&format!("end {} {}\n", total(list.groups.len() as u64), total(length)));
    Ok(printed)
}
