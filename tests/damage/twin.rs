//! Lent memory twice, with the same content: guarded for the proved calls, and for the second implementation. Both have some elements
//! more than are lent, before them, and these are compared too.

use crate::random::Random;
use border::{Guarded, Plain};

/// How many elements before the lent ones are compared.
const BEFORE: usize = 8;

pub struct Twin<T: Plain> {
    guarded: Guarded<T>,
    other: Vec<T>,
    lent: usize,
}

/// An element made of the top bits of a word.
pub trait Element: Plain + PartialEq + Default {
    fn of(word: u64) -> Self;
}

impl Element for u8 {
    fn of(word: u64) -> u8 {
        (word >> 56) as u8
    }
}

impl Element for u16 {
    fn of(word: u64) -> u16 {
        (word >> 48) as u16
    }
}

impl Element for u64 {
    fn of(word: u64) -> u64 {
        word
    }
}

impl<T: Element> Twin<T> {
    /// Room to lend `most` elements; none is lent yet.
    pub fn new(most: usize) -> Twin<T> {
        let size = most + BEFORE;
        Twin { guarded: Guarded::new(size), other: vec![T::default(); size], lent: 0 }
    }

    /// Lends `count` elements from now on, the last ones.
    pub fn lend(&mut self, count: usize) {
        assert!(count + BEFORE <= self.other.len());
        self.lent = count;
    }

    /// Lends elements that are these.
    pub fn hold(&mut self, elements: &[T]) {
        self.lend(elements.len());
        self.edit(|lent| lent.copy_from_slice(elements));
    }

    /// Lends `count` elements with made-up content.
    pub fn garbage(&mut self, r: &mut Random, count: usize) {
        self.lend(count);
        let (mut word, step) = (r.next(), r.next() | 1);
        for element in self.guarded.last_mut(count) {
            *element = T::of(word);
            word = word.wrapping_add(step);
        }
        let first = self.other.len() - count;
        self.other[first..].copy_from_slice(self.guarded.last(count));
    }

    /// The same change in both.
    pub fn edit(&mut self, change: impl Fn(&mut [T])) {
        change(self.guarded.last_mut(self.lent));
        let first = self.other.len() - self.lent;
        change(&mut self.other[first..]);
    }

    pub fn guarded(&self) -> &[T] {
        self.guarded.last(self.lent)
    }

    pub fn guarded_mut(&mut self) -> &mut [T] {
        self.guarded.last_mut(self.lent)
    }

    pub fn other(&self) -> &[T] {
        &self.other[self.other.len() - self.lent..]
    }

    pub fn other_mut(&mut self) -> &mut [T] {
        let first = self.other.len() - self.lent;
        &mut self.other[first..]
    }

    /// Whether both are the same, also just before what is lent. Where not, they are made the same again.
    pub fn same(&mut self) -> bool {
        let compared = self.lent + BEFORE;
        let first = self.other.len() - compared;
        let same = self.guarded.last(compared) == &self.other[first..];
        if !same {
            self.guarded.last_mut(compared).copy_from_slice(&self.other[first..]);
        }
        same
    }
}
