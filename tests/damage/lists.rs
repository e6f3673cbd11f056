//! An atom list lent for reading, as each implementation is lent it, and the words of its references compared.

use crate::random::Random;
use crate::tally::{hex, Call, Tally};
use crate::twin::Twin;
use border::WordReply;
use second::looks::{self, Index};
use second::text::AtomList;
use second::{Connection, Refusal};

#[derive(Clone, Copy)]
pub struct ListTwin<'a> {
    pub n: u8,
    pub places: &'a Twin<u8>,
    pub lengths: &'a Twin<u16>,
}

impl<'a> ListTwin<'a> {
    pub fn guarded(&self) -> border::AtomList<'a> {
        border::AtomList { n: self.n, places: self.places.guarded(), lengths: self.lengths.guarded() }
    }

    pub fn other(&self) -> AtomList<'a> {
        AtomList { n: self.n, texts: self.places.other(), lengths: self.lengths.other() }
    }

    /// Whether no call has changed it.
    pub fn is_kept(&self) -> bool {
        self.places.guarded() == self.places.other() && self.lengths.guarded() == self.lengths.other()
    }

    /// The list in words, for a disagreement.
    pub fn told(&self) -> String {
        let (n, places, lengths) = (usize::from(self.n), self.places.other(), self.lengths.other());
        let (used, told_lengths) = (&places[..(32 * n).min(places.len())], &lengths[..n.min(lengths.len())]);
        format!("n {n} places ({}) {} lengths ({}) {told_lengths:?}", places.len(), hex(used), lengths.len())
    }

    fn word(&self, flags: u8, index: usize, tally: &mut Tally) {
        let got = border::word(flags, &self.guarded(), index);
        let list = self.other();
        let word = looks::word(Connection { flags }, &list, Index(index as u64));
        let expected = match &word {
            Ok(text) => WordReply { start: 32 * index as u64, length: text.len() as u64, ..WordReply::default() },
            Err(Refusal { number, place }) => WordReply { refusal: (*number).into(), place: *place, ..WordReply::default() },
        };
        tally.met(Call::Word, flags, expected.refusal);
        let told = || format!("flags {flags} index {index}: {got:?}, not {expected:?}; {}", self.told());
        tally.check(Call::Word, got == expected, told);
        let answered = list.texts.get(got.start as usize..).and_then(|rest| rest.get(..got.length as usize));
        let same = answered == Some(word.as_deref().unwrap_or_default().as_bytes());
        tally.check(Call::Word, same, || format!("{answered:?}, not {word:?}; {}", told()));
    }

    /// The words of a reference, of one among the first, which are made false, and of indices at n and past it.
    pub fn words(&self, r: &mut Random, flags: u8, tally: &mut Tally) {
        let n = usize::from(self.n);
        for index in [r.below(n.max(1)), r.below(4), n, n + 1, 254, 255, 256, u32::MAX as usize, usize::MAX] {
            self.word(flags, index, tally);
        }
        tally.check(Call::Word, self.is_kept(), || format!("the list changed: {}", self.told()));
    }
}
