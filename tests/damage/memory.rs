//! All that is lent to the packet call, for both implementations, and each call on it compared.

use crate::lists::ListTwin;
use crate::messages;
use crate::random::Random;
use crate::tally::{hex, Call, Tally};
use crate::twin::Twin;
use border::{Guarded, PacketReply, Pending, StateReply};
use second::packets::{self, Answer, Cache, ListOut, Record};
use second::{Connection, Refusal};

pub const CACHE_BYTES: usize = 65_536;
pub const CACHE_PLACES: usize = 2_048;
const LIST_BYTES: usize = 8_160;
const LIST_PLACES: usize = 255;
const GATHER_BYTES: usize = 65_536;

/// An atom list that packets write.
pub struct List {
    n: Twin<u8>,
    places: Twin<u8>,
    lengths: Twin<u16>,
}

pub struct Memory {
    pub cache: Twin<u8>,
    pub cache_lengths: Twin<u16>,
    pub plain: List,
    pub pending: List,
    record: Guarded<Pending>,
    other_record: Record,
    pub gather: Twin<u8>,
}

fn pending_of(record: &Record) -> Pending {
    Pending { sequence: record.sequence, due: record.due, gathered: record.gathered }
}

fn done(answer: Result<(), Refusal>) -> StateReply {
    answer.map_or_else(|refused| StateReply { refusal: refused.number.into(), place: refused.place }, |()| StateReply::default())
}

impl List {
    fn new() -> List {
        List { n: Twin::new(1), places: Twin::new(LIST_BYTES + 1), lengths: Twin::new(LIST_PLACES + 1) }
    }

    /// The list to be read.
    pub fn twin(&self) -> ListTwin<'_> {
        ListTwin { n: self.n.other()[0], places: &self.places, lengths: &self.lengths }
    }

    /// Its state made false.
    pub fn falsify(&mut self, r: &mut Random) {
        let mut n = self.n.other()[0];
        messages::falsify(r, &mut n, &mut self.places, &mut self.lengths);
        self.n.edit(|lent| lent[0] = n);
    }

    fn garbage(&mut self, r: &mut Random) {
        self.n.garbage(r, 1);
        self.places.garbage(r, LIST_BYTES);
        self.lengths.garbage(r, LIST_PLACES);
    }

    fn guarded(&mut self) -> border::ListOut<'_> {
        let n = &mut self.n.guarded_mut()[0];
        border::ListOut { n, places: self.places.guarded_mut(), lengths: self.lengths.guarded_mut() }
    }

    fn other(&mut self) -> ListOut<'_> {
        ListOut { n: &mut self.n.other_mut()[0], texts: self.places.other_mut(), lengths: self.lengths.other_mut() }
    }

    fn same(&mut self) -> bool {
        let same = [self.n.same(), self.places.same(), self.lengths.same()];
        same.iter().all(|same| *same)
    }
}

impl Memory {
    pub fn new() -> Memory {
        Memory {
            cache: Twin::new(CACHE_BYTES + 1),
            cache_lengths: Twin::new(CACHE_PLACES + 1),
            plain: List::new(),
            pending: List::new(),
            record: Guarded::new(1),
            other_record: Record::default(),
            gather: Twin::new(GATHER_BYTES + 1),
        }
    }

    /// Memory of the stated sizes with made-up content, and a record of none pending.
    pub fn garbage(&mut self, r: &mut Random) {
        self.cache.garbage(r, CACHE_BYTES);
        self.cache_lengths.garbage(r, CACHE_PLACES);
        self.plain.garbage(r);
        self.pending.garbage(r);
        self.gather.garbage(r, GATHER_BYTES);
        self.set_record(Record::default());
    }

    /// The stated sizes lent again.
    pub fn right_sizes(&mut self) {
        self.cache.lend(CACHE_BYTES);
        self.cache_lengths.lend(CACHE_PLACES);
        for list in [&mut self.plain, &mut self.pending] {
            list.places.lend(LIST_BYTES);
            list.lengths.lend(LIST_PLACES);
        }
        self.gather.lend(GATHER_BYTES);
    }

    /// One of the seven lent runs not of its stated size.
    pub fn wrong_size(&mut self, r: &mut Random) {
        fn wrong(r: &mut Random, size: usize) -> usize {
            let any = r.below(size);
            r.pick(&[0, 1, any, size - 1, size - 1, size + 1, size + 1])
        }
        match r.below(7) {
            0 => self.cache.lend(wrong(r, CACHE_BYTES)),
            1 => self.cache_lengths.lend(wrong(r, CACHE_PLACES)),
            2 => self.plain.places.lend(wrong(r, LIST_BYTES)),
            3 => self.plain.lengths.lend(wrong(r, LIST_PLACES)),
            4 => self.pending.places.lend(wrong(r, LIST_BYTES)),
            5 => self.pending.lengths.lend(wrong(r, LIST_PLACES)),
            _ => self.gather.lend(wrong(r, GATHER_BYTES)),
        }
    }

    pub fn record(&self) -> Record {
        self.other_record
    }

    pub fn set_record(&mut self, record: Record) {
        self.record[0] = pending_of(&record);
        self.other_record = record;
    }

    /// Every lent byte, after a call.
    fn compare(&mut self, call: Call, tally: &mut Tally, told: &dyn Fn() -> String) {
        let same = [
            ("cache", self.cache.same()),
            ("cache lengths", self.cache_lengths.same()),
            ("plain list", self.plain.same()),
            ("pending list", self.pending.same()),
            ("record", self.record[0] == pending_of(&self.other_record)),
            ("gather", self.gather.same()),
        ];
        for (name, same) in same {
            tally.check(call, same, || format!("{name} differs; {}", told()));
        }
        self.set_record(self.other_record);
    }

    /// A packet taken by both; the answer.
    pub fn packet(&mut self, flags: u8, packet: &Twin<u8>, tally: &mut Tally) -> PacketReply {
        let before = self.other_record;
        let mut lent = border::Lent {
            cache: self.cache.guarded_mut(),
            cache_lengths: self.cache_lengths.guarded_mut(),
            plain: self.plain.guarded(),
            pending: self.pending.guarded(),
            record: &mut self.record[0],
            gather: self.gather.guarded_mut(),
        };
        let got = border::packet(flags, packet.guarded(), &mut lent);
        let mut lent = packets::Lent {
            cache: Cache { texts: self.cache.other_mut(), lengths: self.cache_lengths.other_mut() },
            plain: self.plain.other(),
            pending: self.pending.other(),
            record: &mut self.other_record,
            gather: self.gather.other_mut(),
        };
        let expected = packet_answer(packets::packet(Connection { flags }, &mut lent, packet.other()));
        tally.met(Call::Packet, flags, expected.refusal);
        let told = || format!("{got:?}, {expected:?} expected; flags {flags} {before:?} packet {}", hex(packet.other()));
        tally.check(Call::Packet, got == expected, told);
        self.compare(Call::Packet, tally, &told);
        tally.check(Call::Packet, packet.guarded() == packet.other(), || format!("the packet changed; {}", told()));
        expected
    }

    pub fn drop_pending(&mut self, flags: u8, tally: &mut Tally) -> bool {
        let before = self.other_record;
        let got = border::drop_pending(flags, &mut self.record[0]);
        let expected = done(packets::drop_pending(Connection { flags }, &mut self.other_record));
        tally.met(Call::Drop, flags, expected.refusal);
        let told = || format!("{got:?}, {expected:?} expected; flags {flags} {before:?}");
        tally.check(Call::Drop, got == expected, told);
        self.compare(Call::Drop, tally, &told);
        expected.refusal == 0
    }

    pub fn reset(&mut self, tally: &mut Tally) -> bool {
        let got = border::reset(self.cache.guarded_mut(), self.cache_lengths.guarded_mut(), &mut self.record[0]);
        let mut cache = Cache { texts: self.cache.other_mut(), lengths: self.cache_lengths.other_mut() };
        let expected = done(packets::reset(&mut cache, &mut self.other_record));
        tally.met_without_flags(Call::Reset, expected.refusal);
        let sizes = (self.cache.other().len(), self.cache_lengths.other().len());
        let told = || format!("{got:?}, {expected:?} expected; cache {sizes:?}");
        tally.check(Call::Reset, got == expected, told);
        self.compare(Call::Reset, tally, &told);
        expected.refusal == 0
    }
}

fn packet_answer(answer: Result<Answer, Refusal>) -> PacketReply {
    let none = PacketReply::default();
    match answer {
        Ok(Answer::Plain { offset, length }) => PacketReply { kind: 1, offset: offset as u64, length: length as u64, ..none },
        Ok(Answer::Pending { due, gathered }) => PacketReply { kind: 2, due, gathered, ..none },
        Ok(Answer::Complete { gathered }) => PacketReply { kind: 3, gathered, ..none },
        Err(Refusal { number, place }) => PacketReply { refusal: number.into(), place, ..none },
    }
}
