//! The search for a larger isolated clique as the library had it before C-13: a candidate is compared with each member that was
//! added.

use crate::posed::Lent;
use crate::tally::Tally;
use isolated::{Notion, Settings};

/// Is there a larger isolated clique, with some of the first m candidates added?
pub fn beaten(lent: &mut Lent, numbers: Tally, m: usize) -> bool {
    search(lent, numbers, numbers.members, 0, m)
}

/// The members from place `base` on were added by the search; the candidates from place i on are left.
fn search(lent: &mut Lent, numbers: Tally, base: usize, i: usize, m: usize) -> bool {
    let end = numbers.members;
    for j in i..m {
        if hopeless(lent.settings, numbers, m - j) {
            return false;
        }
        let v = lent.candidates[j];
        if lent.joined_to_all(v, &lent.members[base..end]) {
            let larger = lent.with(numbers, v);
            if larger.isolated(lent.settings) {
                return true;
            }
            lent.members[end] = v;
            if search(lent, larger, base, j + 1, m) {
                return true;
            }
        }
    }
    false
}

/// Is none isolated of the cliques with these members and up to so many further ones, of whatever degree? Under min it says no.
fn hopeless(settings: Settings, numbers: Tally, further: usize) -> bool {
    let (k, c, all) = (numbers.members, settings.c as usize, numbers.members + further);
    match settings.notion {
        Notion::Min => false,
        Notion::Avg => numbers.sum >= k * (all - 1) + c * all,
        Notion::Max => numbers.largest + 1 >= c + all,
    }
}
