//! A set's numbers, and what they tell of it, as the library keeps them.

use isolated::{Notion, Settings};

/// How many members, the sum of their degrees, the least and the largest of them.
#[derive(Clone, Copy)]
pub struct Tally {
    pub members: usize,
    pub sum: usize,
    least: usize,
    pub largest: usize,
}

impl Tally {
    pub fn of(degrees: impl Iterator<Item = usize>) -> Tally {
        let none = Tally { members: 0, sum: 0, least: usize::MAX, largest: 0 };
        degrees.fold(none, Tally::with_member)
    }

    /// The numbers with one more member, of this degree.
    pub fn with_member(self, degree: usize) -> Tally {
        Tally {
            members: self.members + 1,
            sum: self.sum + degree,
            least: self.least.min(degree),
            largest: self.largest.max(degree),
        }
    }

    /// Is a clique with these numbers isolated?
    pub fn isolated(self, settings: Settings) -> bool {
        let (k, c) = (self.members, settings.c as usize);
        match settings.notion {
            Notion::Min => self.least + 1 < c + k,
            Notion::Avg => self.sum < (c + k - 1) * k,
            Notion::Max => self.largest + 1 < c + k,
        }
    }

    /// The numbers with so many further members, each of the least degree that it can have: low, or how many others the clique
    /// then has. The least degree is left as it is.
    fn grown(self, further: usize, low: usize) -> Tally {
        let members = self.members + further;
        let each = low.max(members - 1);
        Tally { members, sum: self.sum + further * each, least: self.least, largest: self.largest.max(each) }
    }

    /// Is none isolated of the cliques with these members and 1 to so many further ones, none of a degree below low? Under avg it
    /// is so where none is with all of them or with one, under max where none is with all of them. Under min it says no.
    pub fn hopeless(self, settings: Settings, further: usize, low: usize) -> bool {
        let isolated = |further| self.grown(further, low).isolated(settings);
        match settings.notion {
            Notion::Min => false,
            Notion::Avg => further == 0 || !isolated(further) && !isolated(1),
            Notion::Max => further == 0 || !isolated(further),
        }
    }
}
