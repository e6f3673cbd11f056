//! All that is lent to the packet call, and what an accepted header makes of it.

use crate::format::{Reference, CACHE_PLACES, GATHER_BYTES, LIST_PLACES, PLACE_BYTES};
use crate::tally::Tally;
use crate::{Lent, ListOut, Pending};
use std::fmt::Display;

/// What lent memory holds before a call.
pub const FILL: u8 = 0xA5;

/// Places of 32 bytes and their lengths: the cache, or the places of an atom list.
#[derive(Clone)]
pub struct Places {
    pub bytes: Vec<u8>,
    pub lengths: Vec<u16>,
}

impl Places {
    pub fn filled(count: usize, length: u16) -> Places {
        Places { bytes: vec![FILL; count * PLACE_BYTES], lengths: vec![length; count] }
    }

    /// A text, then zeros.
    pub fn put(&mut self, place: usize, text: &[u8]) {
        let bytes = &mut self.bytes[place * PLACE_BYTES..][..PLACE_BYTES];
        bytes.fill(0);
        bytes[..text.len()].copy_from_slice(text);
        self.lengths[place] = text.len() as u16;
    }
}

#[derive(Clone)]
pub struct List {
    pub n: u8,
    pub places: Places,
}

impl List {
    fn lent(&mut self) -> ListOut<'_> {
        ListOut { n: &mut self.n, places: &mut self.places.bytes, lengths: &mut self.places.lengths }
    }
}

#[derive(Clone)]
pub struct Memory {
    pub cache: Places,
    pub plain: List,
    pub pending: List,
    pub record: Pending,
    pub gather: Vec<u8>,
}

impl Memory {
    /// Nothing of it zero, and this record.
    pub fn filled(record: Pending) -> Memory {
        let list = List { n: FILL, places: Places::filled(LIST_PLACES, u16::from(FILL)) };
        Memory {
            cache: Places::filled(CACHE_PLACES, u16::from(FILL)),
            plain: list.clone(),
            pending: list,
            record,
            gather: vec![FILL; GATHER_BYTES],
        }
    }

    /// What a plain packet of these new references, their texts in UTF-8, makes of it.
    pub fn taking(mut self, references: &[Reference]) -> Memory {
        self.plain.n = references.len() as u8;
        self.plain.places = Places { bytes: vec![0; LIST_PLACES * PLACE_BYTES], lengths: vec![0; LIST_PLACES] };
        for (i, Reference { place, text }) in references.iter().enumerate() {
            self.plain.places.put(i, text.expect("a new reference"));
            self.cache.put(*place, text.expect("a new reference"));
        }
        self
    }

    pub fn lent(&mut self) -> Lent<'_> {
        Lent {
            cache: &mut self.cache.bytes,
            cache_lengths: &mut self.cache.lengths,
            plain: self.plain.lent(),
            pending: self.pending.lent(),
            record: &mut self.record,
            gather: &mut self.gather,
        }
    }

    /// Compares every lent element with what is due.
    pub fn compare(&self, due: &Memory, case: &dyn Display, what: &dyn Fn(&str) -> String, tally: &mut Tally) {
        tally.same(case, &what("cache"), &self.cache.bytes, &due.cache.bytes);
        tally.same(case, &what("cache lengths"), &self.cache.lengths, &due.cache.lengths);
        for (name, list, due) in [("plain list", &self.plain, &due.plain), ("pending list", &self.pending, &due.pending)] {
            let of = |part: &str| what(&format!("{name}, {part}"));
            tally.same(case, &of("n"), &[list.n], &[due.n]);
            tally.same(case, &of("places"), &list.places.bytes, &due.places.bytes);
            tally.same(case, &of("lengths"), &list.places.lengths, &due.places.lengths);
        }
        tally.same(case, &what("record"), &[self.record], &[due.record]);
        tally.same(case, &what("gather"), &self.gather, &due.gather);
    }
}
