//! All isolated maximal cliques by the method of Bron and Kerbosch with a pivot, over rows of bits, and a filter.

use crate::packed::{row, Packed};
use isolated::{row_numbers, Notion, Settings};

type Bits = Vec<u64>;

pub struct Kerbosch<'a> {
    rows: Vec<&'a [u64]>,
    degrees: &'a [u16],
    settings: Settings,
    groups: u64,
}

fn ones(bits: &[u64]) -> impl Iterator<Item = usize> + '_ {
    bits.iter().enumerate().flat_map(|(i, &word)| {
        let mut word = word;
        std::iter::from_fn(move || {
            let bit = word.trailing_zeros() as usize;
            (word != 0).then(|| {
                word &= word - 1;
                64 * i + bit
            })
        })
    })
}

fn both(a: &[u64], b: &[u64]) -> Bits {
    a.iter().zip(b).map(|(x, y)| x & y).collect()
}

/// The number of isolated maximal cliques.
pub fn count(graph: &Packed, settings: Settings) -> u64 {
    let Packed { n, table, degrees } = graph;
    let length = row_numbers(*n);
    let rows = (0..*n).map(|v| row(table, *n, v)).collect();
    let mut all = vec![0; length];
    (0..*n).for_each(|v| all[v / 64] |= 1 << (v % 64));
    let mut search = Kerbosch { rows, degrees, settings, groups: 0 };
    search.extend(&mut Vec::new(), all, vec![0; length]);
    search.groups
}

impl Kerbosch<'_> {
    fn extend(&mut self, members: &mut Vec<usize>, mut candidates: Bits, mut excluded: Bits) {
        let shared =
            |u: usize| -> u32 { self.rows[u].iter().zip(&candidates).map(|(x, y)| (x & y).count_ones()).sum() };
        let Some(pivot) = ones(&candidates).chain(ones(&excluded)).max_by_key(|&u| shared(u)) else {
            if !members.is_empty() && self.isolated(members) {
                self.groups += 1;
            }
            return;
        };
        let tried: Bits = candidates.iter().zip(self.rows[pivot]).map(|(x, y)| x & !y).collect();
        for v in ones(&tried) {
            members.push(v);
            self.extend(members, both(&candidates, self.rows[v]), both(&excluded, self.rows[v]));
            members.pop();
            candidates[v / 64] &= !(1 << (v % 64));
            excluded[v / 64] |= 1 << (v % 64);
        }
    }

    fn isolated(&self, members: &[usize]) -> bool {
        let (k, c) = (members.len(), self.settings.c as usize);
        let mut outside = members.iter().map(|&v| self.degrees[v] as usize + 1 - k);
        match self.settings.notion {
            Notion::Min => outside.any(|count| count < c),
            Notion::Avg => outside.sum::<usize>() < c * k,
            Notion::Max => outside.all(|count| count < c),
        }
    }
}
