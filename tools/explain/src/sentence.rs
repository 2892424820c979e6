//! A reason in sentences; vertices are numbered from 1, as in the file.

use crate::graph::{Graph, Set};
use crate::reason::{isolated, outside_counts, Counts, Reason};
use isolated::{Kind, Notion, Settings};

/// What is said of a set, one line each: the verdict with its reason, then the outside counts that it rests on.
pub fn sentences(graph: &Graph, set: &Set, settings: Settings, reason: &Reason) -> String {
    let begin = format!("{} with {settings} is", shown(set));
    match reason {
        Reason::Empty => format!("{begin} not listed: it is empty, and a group has at least one member.\n"),
        Reason::NotJoined(u, v) => format!("{begin} not listed: {} and {} are not joined.\n", u + 1, v + 1),
        Reason::NotIsolated(counts) => {
            let measure = compared(counts, settings);
            format!("{begin} not listed: it is not isolated: {measure}.\n{}", counted(set, counts))
        }
        Reason::Larger(counts, larger) => {
            let begin = format!("{begin} not listed: the larger set {} is", shown(larger));
            match settings.kind {
                Kind::MaximalIsolated => {
                    let more = outside_counts(graph, larger);
                    let measure = compared(&more, settings);
                    let counts = counted(set, counts) + &counted(larger, &more);
                    format!("{begin} an isolated clique too: {measure}.\n{counts}")
                }
                Kind::IsolatedMaximal => format!("{begin} a clique too.\n{}", counted(set, counts)),
            }
        }
        Reason::Listed(counts) => {
            let measure = compared(counts, settings);
            let larger = match settings.kind {
                Kind::MaximalIsolated => "an isolated clique",
                Kind::IsolatedMaximal => "a clique",
            };
            let isolated = format!("it is an isolated clique ({measure})");
            let counts = counted(set, counts);
            format!("{begin} listed: {isolated}, and no larger set that contains it is {larger}.\n{counts}")
        }
    }
}

/// A set in braces.
fn shown(set: &Set) -> String {
    let members: Vec<String> = set.members().map(|v| (v + 1).to_string()).collect();
    format!("{{{}}}", members.join(", "))
}

/// The line of the outside counts.
fn counted(set: &Set, counts: &Counts) -> String {
    let counts: Vec<String> = counts.iter().map(|(v, count)| format!("{} has {count}", v + 1)).collect();
    format!("outside counts of {}: {}\n", shown(set), counts.join(", "))
}

/// The outside counts of a clique against the factor, as the notion has it.
fn compared(counts: &Counts, settings: Settings) -> String {
    let c = settings.c as usize;
    let than = if isolated(counts, settings.notion, c) { "less than" } else { "not less than" };
    let member = |which: &str, found: Option<&(usize, usize)>| {
        let (v, count) = found.expect("a clique has a member");
        format!("member {} has the {which} neighbours outside, {count}, and {count} is {than} {c}", v + 1)
    };
    match settings.notion {
        Notion::Min => member("fewest", counts.iter().min_by_key(|(v, count)| (*count, *v))),
        Notion::Max => member("most", counts.iter().min_by_key(|(v, count)| (usize::MAX - count, *v))),
        Notion::Avg => {
            let sum: usize = counts.iter().map(|(_, count)| count).sum();
            let size = counts.len();
            format!("the outside counts add up to {sum}, and {sum} is {than} {c} * {size} = {}", c * size)
        }
    }
}
