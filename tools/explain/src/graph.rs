//! Sets of vertices, and a graph by the neighbours of each vertex.

use isolated::VERTICES;

const WORDS: usize = VERTICES / 64;

/// A set of vertices, one bit each.
#[derive(Clone, Copy, Debug, Default, PartialEq, Eq)]
pub struct Set([u64; WORDS]);

impl Set {
    /// The set of these vertices, each less than [`VERTICES`].
    #[must_use]
    pub fn of(vertices: &[usize]) -> Set {
        vertices.iter().fold(Set::default(), |set, &v| set.with(v))
    }

    #[must_use]
    pub fn has(&self, v: usize) -> bool {
        self.0[v / 64] >> (v % 64) & 1 == 1
    }

    #[must_use]
    pub fn with(mut self, v: usize) -> Set {
        self.0[v / 64] |= 1 << (v % 64);
        self
    }

    #[must_use]
    pub fn without(mut self, v: usize) -> Set {
        self.0[v / 64] &= !(1 << (v % 64));
        self
    }

    /// What is in both.
    #[must_use]
    pub fn and(mut self, other: &Set) -> Set {
        self.0.iter_mut().zip(&other.0).for_each(|(mine, its)| *mine &= its);
        self
    }

    /// What is in this one and not in the other.
    #[must_use]
    pub fn less(mut self, other: &Set) -> Set {
        self.0.iter_mut().zip(&other.0).for_each(|(mine, its)| *mine &= !its);
        self
    }

    /// The number of members.
    #[must_use]
    pub fn size(&self) -> usize {
        self.0.iter().map(|word| word.count_ones() as usize).sum()
    }

    /// The smallest member.
    #[must_use]
    pub fn first(&self) -> Option<usize> {
        let place = self.0.iter().position(|&word| word != 0)?;
        Some(64 * place + self.0[place].trailing_zeros() as usize)
    }

    /// The members, in the order of their numbers.
    pub fn members(mut self) -> impl Iterator<Item = usize> {
        std::iter::from_fn(move || {
            let v = self.first()?;
            self = self.without(v);
            Some(v)
        })
    }
}

/// A graph of at most [`VERTICES`] vertices.
#[derive(Clone, Debug)]
pub struct Graph {
    neighbours: Vec<Set>,
}

impl Graph {
    /// The graph of n vertices of which `joined` says whether two are joined.
    #[must_use]
    pub fn of(n: usize, joined: impl Fn(usize, usize) -> bool) -> Graph {
        let row = |u: usize| Set::of(&(0..n).filter(|&v| joined(u, v)).collect::<Vec<usize>>());
        Graph { neighbours: (0..n).map(row).collect() }
    }

    #[must_use]
    pub fn neighbours(&self, v: usize) -> &Set {
        &self.neighbours[v]
    }

    #[must_use]
    pub fn joined(&self, u: usize, v: usize) -> bool {
        self.neighbours[u].has(v)
    }

    #[must_use]
    pub fn degree(&self, v: usize) -> usize {
        self.neighbours[v].size()
    }

    /// The vertices that are joined to every member of a set that is not empty.
    #[must_use]
    pub fn common_neighbours(&self, set: &Set) -> Set {
        let all = Set::of(&(0..self.neighbours.len()).collect::<Vec<usize>>());
        set.members().fold(all, |common, v| common.and(&self.neighbours[v]))
    }
}
