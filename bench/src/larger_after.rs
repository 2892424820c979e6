//! The search for a larger isolated clique as the library has it. Each candidate has a mark: 0 while it is still in, else the
//! depth at which it dropped out, not being joined to the member added there. So it is known how many are still in.

use crate::packed::joined;
use crate::posed::Lent;
use crate::tally::Tally;

/// Is there a larger isolated clique, with some of the first m candidates added? The first of them is often enough, so it is
/// tried before any mark is written.
pub fn beaten(lent: &mut Lent, numbers: Tally, m: usize) -> bool {
    if m == 0 || numbers.hopeless(lent.settings, m, 0) {
        return false;
    }
    let v = lent.candidates[0];
    let larger = lent.with(numbers, v);
    if larger.isolated(lent.settings) {
        return true;
    }
    let low = least_degree(lent, &lent.candidates[1..m]);
    lent.marks[0] = 0;
    let out = mark_first(lent.row(v), &lent.candidates[1..m], &mut lent.marks[1..m], larger.members as u16);
    if search_below(lent, larger, low, 1, m, m - 1 - out) {
        return true;
    }
    !numbers.hopeless(lent.settings, m - 1, low) && search(lent, numbers, low, 1, m, m - 1)
}

/// The least degree of the candidates; 65,535 where there are none.
fn least_degree(lent: &Lent, candidates: &[u16]) -> usize {
    let degrees = candidates.iter().map(|&v| lent.degree(v));
    degrees.fold(65535, usize::min)
}

/// Marks each of the candidates, which are all in: with the depth where it is not joined to the member of this row, else with 0.
/// How many have dropped out.
fn mark_first(row: &[u64], candidates: &[u16], marks: &mut [u16], depth: u16) -> usize {
    let mut out = 0;
    for (mark, &u) in marks.iter_mut().zip(candidates) {
        let still = joined(row, u as usize);
        *mark = if still { 0 } else { depth };
        out += usize::from(!still);
    }
    out
}

/// Of the candidates i to m - 1, so many are still in, none of a degree below low. Each of these is tried in turn as the next
/// member, with those after it.
fn search(lent: &mut Lent, numbers: Tally, low: usize, i: usize, m: usize, left: usize) -> bool {
    let mut still = left;
    for j in i..m {
        if lent.marks[j] == 0 {
            still -= 1;
            if search_with(lent, numbers, low, lent.candidates[j], j + 1, m, still) {
                return true;
            }
            if numbers.hopeless(lent.settings, still, low) {
                return false;
            }
        }
    }
    false
}

/// The same with v added, the candidate right before place i. Where none drops out for it there is none to bring back.
fn search_with(lent: &mut Lent, numbers: Tally, low: usize, v: u16, i: usize, m: usize, left: usize) -> bool {
    let larger = lent.with(numbers, v);
    if larger.isolated(lent.settings) {
        return true;
    }
    if larger.hopeless(lent.settings, left, low) {
        return false;
    }
    let out = drop_out(lent.row(v), &lent.candidates[i..m], &mut lent.marks[i..m], larger.members as u16);
    if out == 0 {
        return search(lent, larger, low, i, m, left);
    }
    search_below(lent, larger, low, i, m, left - out)
}

/// The same once those not joined to the last member have dropped out; a no brings them back.
fn search_below(lent: &mut Lent, larger: Tally, low: usize, i: usize, m: usize, left: usize) -> bool {
    if !larger.hopeless(lent.settings, left, low) && search(lent, larger, low, i, m, left) {
        return true;
    }
    bring_back(&mut lent.marks[i..m], larger.members as u16);
    false
}

/// Marks with the depth each of the candidates that is still in and not joined to the member of this row; how many these are.
fn drop_out(row: &[u64], candidates: &[u16], marks: &mut [u16], depth: u16) -> usize {
    let mut out = 0;
    for (mark, &u) in marks.iter_mut().zip(candidates) {
        if !joined(row, u as usize) && *mark == 0 {
            *mark = depth;
            out += 1;
        }
    }
    out
}

/// Brings back those that dropped out at the depth. Kept apart from the search, whose other loops then stay in registers.
#[inline(never)]
fn bring_back(marks: &mut [u16], depth: u16) {
    for mark in marks {
        if *mark == depth {
            *mark = 0;
        }
    }
}
