//! The list of degrees that is lent beside the table: lists that are not the table's turn back page, set query and both
//! edits, by 42, and the count of the degrees fills one.

use outside::cases::cases;
use outside::faults::{check_refused, middle_or_large, wrong_list, LentGraph};
use outside::graph::Graph;
use outside::library::{self, DegreesReply};
use outside::packed::pack;
use outside::random::Random;
use outside::samples;

fn check_wrong_list(random: &mut Random, graph: &Graph, degrees: Vec<u16>) {
    check_refused(random, &LentGraph { degrees, ..LentGraph::of(graph) }, 42);
}

#[test]
fn lists_that_are_not_the_tables() {
    cases("lists_that_are_not_the_tables", 300, |random| {
        let n = random.between(0, 14);
        let graph = samples::any(random, n);
        let right = graph.degrees();
        for place in 0..n {
            for step in [1, u16::MAX] {
                let mut degrees = right.clone();
                degrees[place] = degrees[place].wrapping_add(step);
                check_wrong_list(random, &graph, degrees);
            }
        }
        for length in [0, n.saturating_sub(1), n + 1, 2 * n + 1] {
            let mut degrees = right.clone();
            degrees.resize(length, 0);
            if length != n {
                check_wrong_list(random, &graph, degrees);
            }
        }
        for _ in 0..10 {
            let degrees = wrong_list(random, &right);
            check_wrong_list(random, &graph, degrees);
        }
    });
}

/// One wrong degree, that of vertex 14 or a later one, wrong in either byte alone too; and any other wrong list.
#[test]
fn lists_that_are_not_those_of_larger_tables() {
    cases("lists_that_are_not_those_of_larger_tables", 60, |random| {
        let n = middle_or_large(random);
        let graph = samples::any(random, n);
        let places = [14, n - 1, random.between(14, n - 1), random.between(14, n - 1)];
        for place in places {
            for step in [1, u16::MAX, 255, 256, 257, 1 << 15] {
                let mut degrees = graph.degrees();
                degrees[place] = degrees[place].wrapping_add(step);
                check_wrong_list(random, &graph, degrees);
            }
        }
        for _ in 0..4 {
            let degrees = wrong_list(random, &graph.degrees());
            check_wrong_list(random, &graph, degrees);
        }
    });
}

/// The count takes a list of any contents, and turns back one of another length.
#[test]
fn counts_of_the_degrees() {
    cases("counts_of_the_degrees", 2000, |random| {
        let n = if random.percent(2) { random.between(250, 600) } else { random.between(0, 40) };
        let graph = samples::any(random, n);
        for length in [n, 0, n.saturating_sub(1), n + 1, 8 * n] {
            let before = random.entries(length);
            let expected = match length == n {
                true => DegreesReply { refusal: 0, degrees: graph.degrees() },
                false => DegreesReply { refusal: 42, degrees: before.clone() },
            };
            assert_eq!(library::degrees(&pack(&graph), &before, n), expected, "{graph:?}");
        }
    });
}
