//! Memory that is lent to the library, with guard entries on both sides.

use std::fmt::Debug;

const GUARDS: usize = 40;

/// An entry type, with the guard entries that stand around a slice of it.
pub trait Entry: Copy + PartialEq + Debug {
    fn guard(place: usize) -> Self;
}

impl Entry for u8 {
    fn guard(place: usize) -> u8 {
        (place * 37 + 1) as u8
    }
}

impl Entry for u16 {
    fn guard(place: usize) -> u16 {
        (place * 4099 + 1) as u16
    }
}

impl Entry for u64 {
    fn guard(place: usize) -> u64 {
        (place as u64 + 1).wrapping_mul(0x9E37_79B9_7F4A_7C15)
    }
}

pub struct Lent<T> {
    all: Vec<T>,
}

impl<T: Entry> Lent<T> {
    pub fn new(contents: &[T]) -> Lent<T> {
        let before = (0..GUARDS).map(T::guard);
        let after = (GUARDS..2 * GUARDS).map(T::guard);
        Lent { all: before.chain(contents.iter().copied()).chain(after).collect() }
    }

    pub fn len(&self) -> usize {
        self.all.len() - 2 * GUARDS
    }

    /// Where the slice begins. It may be written for `len` entries.
    pub fn pointer(&mut self) -> *mut T {
        self.all[GUARDS..].as_mut_ptr()
    }

    /// The contents; panics where a guard entry was written.
    pub fn contents(&self, name: &str) -> Vec<T> {
        let end = GUARDS + self.len();
        let guards = self.all[..GUARDS].iter().chain(&self.all[end..]);
        for (place, &entry) in guards.enumerate() {
            assert_eq!(entry, T::guard(place), "guard entry {place} around {name} was written");
        }
        self.all[GUARDS..end].to_vec()
    }
}
