//! A second text reader: rules over all the lines at once, without a state that is carried from line to line.
//!
//! A fault of a line is a question about that line and the lines before it, which are known to be sound.

use crate::library::{TextAnswer, TextReply};

/// The lines of a text: what stands between the bytes 10; after a last byte 10 comes no further line.
fn lines(text: &[u8]) -> Vec<&[u8]> {
    let mut lines: Vec<&[u8]> = text.split(|&byte| byte == b'\n').collect();
    if lines.last() == Some(&&b""[..]) {
        lines.pop();
    }
    lines
}

/// A number has the digits that it is printed with, and at most 6 of them.
pub fn number(field: &[u8]) -> Option<usize> {
    let word = std::str::from_utf8(field).ok()?;
    let value: usize = word.parse().ok()?;
    (value <= 999_999 && value.to_string() == word).then_some(value)
}

/// The two numbers of `head U V`, with `head` one or two fields.
fn two_numbers(line: &[u8], head: &[&[u8]]) -> Option<(usize, usize)> {
    let fields: Vec<&[u8]> = line.split(|&byte| byte == b' ').collect();
    let numbers = fields.strip_prefix(head)?;
    let [first, second] = numbers else { return None };
    Some((number(first)?, number(second)?))
}

fn is_p(line: &[u8]) -> bool {
    line.starts_with(b"p ")
}

fn is_e(line: &[u8]) -> bool {
    line.starts_with(b"e ")
}

fn p_line(line: &[u8]) -> Option<(usize, usize)> {
    two_numbers(line, &[b"p", b"edge"])
}

fn e_line(line: &[u8]) -> Option<(usize, usize)> {
    two_numbers(line, &[b"e"])
}

/// N and M of the first p line among these lines.
fn size(lines: &[&[u8]]) -> Option<(usize, usize)> {
    p_line(lines.iter().find(|line| is_p(line))?)
}

/// The fault of a line after the lines before it, in document 01's order.
fn fault(line: &[u8], before: &[&[u8]], table: usize) -> Option<u32> {
    let comment = line == b"c" || line.starts_with(b"c ");
    if comment {
        return None;
    }
    if !is_p(line) && !is_e(line) {
        return Some(31);
    }
    let seen = size(before);
    if is_e(line) {
        let Some((n, _)) = seen else { return Some(33) };
        let Some((u, v)) = e_line(line) else { return Some(32) };
        let good = 1..=n;
        if !good.contains(&u) || !good.contains(&v) {
            return Some(36);
        }
        return (u == v).then_some(37);
    }
    if seen.is_some() {
        return Some(34);
    }
    let Some((n, _)) = p_line(line) else { return Some(32) };
    if n > 1024 {
        return Some(35);
    }
    (table < n * n).then_some(40)
}

/// The text reader's whole reply.
pub fn read_text(text: &[u8], table: &[u8]) -> TextReply {
    let lines = lines(text);
    let e_lines = |lines: &[&[u8]]| lines.iter().filter_map(|line| e_line(line)).collect::<Vec<_>>();
    let faulty = (0..lines.len()).find_map(|i| Some((i, fault(lines[i], &lines[..i], table.len())?)));
    let (sound, refusal) = match faulty {
        Some((i, number)) => (&lines[..i], Some((number, i + 1))),
        None => match size(&lines) {
            None => (&lines[..], Some((33, lines.len() + 1))),
            Some((_, m)) if m != e_lines(&lines).len() => (&lines[..], Some((39, lines.len() + 1))),
            Some(_) => (&lines[..], None),
        },
    };
    let mut table = table.to_vec();
    let passed = size(sound);
    if let Some((n, _)) = passed {
        table[..n * n].fill(0);
    }
    let answer = match (refusal, passed) {
        (Some((refusal, line)), _) => TextAnswer { refusal, vertices: 0, edges: 0, line },
        (None, Some((n, m))) => {
            for (u, v) in e_lines(&lines) {
                table[(u - 1) * n + v - 1] = 1;
                table[(v - 1) * n + u - 1] = 1;
            }
            TextAnswer { refusal: 0, vertices: n as u32, edges: m as u32, line: 0 }
        }
        (None, None) => unreachable!("a text without p line is refused"),
    };
    TextReply { answer, table }
}
