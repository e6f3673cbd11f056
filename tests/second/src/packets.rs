//! Packets: "a distribution header, the atom cache, fragments. Each packet arrives whole, without the
//! link's length prefix." Also drop and reset.

use crate::text;
use crate::{refusal, Connection, Refusal, CACHE_PLACES, EMPTY, LIST_PLACES, MESSAGE_MAX, PLACE_BYTES};

/// "small record of sequence id, fragment due and gathered length". "The pending record names the id
/// due; 0 there means none pending."
#[derive(Clone, Copy, Debug, Default, PartialEq, Eq)]
pub struct Record {
    pub sequence: u64,
    pub due: u64,
    pub gathered: u64,
}

/// "Cache 2,048 places of 32 bytes beside 2,048 16-bit lengths, 65,535 meaning empty."
#[derive(Debug)]
pub struct Cache<'a> {
    pub texts: &'a mut [u8],
    pub lengths: &'a mut [u16],
}

/// "Atom list a one-byte count n, 255 places of 32 bytes and 255 lengths, one for a plain packet and
/// another for the pending sequence."
#[derive(Debug)]
pub struct ListOut<'a> {
    pub n: &'a mut u8,
    pub texts: &'a mut [u8],
    pub lengths: &'a mut [u16],
}

/// All that is lent to the packet call.
#[derive(Debug)]
pub struct Lent<'a> {
    pub cache: Cache<'a>,
    pub plain: ListOut<'a>,
    pub pending: ListOut<'a>,
    pub record: &'a mut Record,
    pub gather: &'a mut [u8],
}

/// What an accepted packet answers (OP-60).
#[derive(Clone, Copy, Debug, PartialEq, Eq)]
pub enum Answer {
    /// where in the packet its payload lies
    Plain { offset: usize, length: usize },
    /// the id now due, and how many bytes are gathered
    Pending { due: u64, gathered: u64 },
    /// "After that many accepted fragments the sequence is complete."
    Complete { gathered: u64 },
}

/// "a place counts along the cache and is 256 times the segment plus the internal index."
#[derive(Clone, Copy, Debug, PartialEq, Eq)]
struct Place(usize);

/// One reference of a header. A new one carries its text; "Text is stored as UTF-8."
#[derive(Clone, Debug)]
struct Reference {
    place: Place,
    new_text: Option<String>,
}

/// A header from n on, judged, and where the payload after it begins.
#[derive(Clone, Debug)]
struct Header {
    references: Vec<Reference>,
    payload_at: usize,
}

/// What a packet opens with; `at` is the first byte after it.
#[derive(Clone, Copy, Debug)]
enum Opening {
    /// "131, 68, n, flags, references, payload."
    Plain { at: usize },
    /// "131, 69, SequenceId (8), FragmentId (8), then as from n above."
    Start { sequence: u64, fragment: u64, at: usize },
    /// "131, 70, SequenceId, FragmentId, payload."
    Continuation { sequence: u64, fragment: u64, at: usize },
}

impl Cache<'_> {
    fn is_of_its_stated_size(&self) -> bool {
        self.texts.len() == CACHE_PLACES * PLACE_BYTES && self.lengths.len() == CACHE_PLACES
    }
}

impl ListOut<'_> {
    fn is_of_its_stated_size(&self) -> bool {
        self.texts.len() == LIST_PLACES * PLACE_BYTES && self.lengths.len() == LIST_PLACES
    }

    /// "In a place or list written, bytes after a text are zero, and list places from n on have length
    /// 0" (and zero bytes, OP-39).
    fn set(&mut self, texts: &[String]) {
        *self.n = u8::try_from(texts.len()).unwrap_or(u8::MAX);
        self.texts.fill(0);
        self.lengths.fill(0);
        for (index, text) in texts.iter().enumerate() {
            put_text(self.texts, self.lengths, index, text);
        }
    }
}

/// Fills a place: the text, zeros after it, its length.
fn put_text(texts: &mut [u8], lengths: &mut [u16], index: usize, text: &str) {
    let start = index.saturating_mul(PLACE_BYTES);
    if let Some(place) = texts.get_mut(start..start.saturating_add(PLACE_BYTES)) {
        place.fill(0);
        for (byte, from) in place.iter_mut().zip(text.bytes()) {
            *byte = from;
        }
    }
    if let Some(length) = lengths.get_mut(index) {
        *length = u16::try_from(text.len()).unwrap_or(u16::MAX);
    }
}

/// The text that a place of the cache holds, or 21 "cached place empty", or 14 "a length over 32, not
/// the cache's 65,535, of a place whose text is wanted, or that text not UTF-8".
fn cached(texts: &[u8], lengths: &[u16], place: Place) -> Result<String, u8> {
    if lengths.get(place.0) == Some(&EMPTY) {
        return Err(21);
    }
    text::stored(texts, lengths, place.0).ok_or(14)
}

fn eight(packet: &[u8], at: usize) -> Option<u64> {
    let bytes = packet.get(at..at.checked_add(8)?)?;
    Some(bytes.iter().fold(0u64, |sum, byte| sum << 8 | u64::from(*byte)))
}

/// "1, 2, 20, ids with 24 for zero": all of it "0 before the first" reference.
fn opening(packet: &[u8]) -> Result<Opening, u8> {
    // 1: "empty, or first byte not 131 (standalone, packet)"
    if packet.first() != Some(&131) {
        return Err(1);
    }
    let kind = *packet.get(1).ok_or(2u8)?;
    // 20: "second byte not 68, 69, 70"
    if !matches!(kind, 68..=70) {
        return Err(20);
    }
    if kind == 68 {
        return Ok(Opening::Plain { at: 2 });
    }
    let sequence = eight(packet, 2).ok_or(2u8)?;
    let fragment = eight(packet, 10).ok_or(2u8)?;
    // 24: "FragmentId 0"
    if fragment == 0 {
        return Err(24);
    }
    Ok(match kind {
        69 => Opening::Start { sequence, fragment, at: 18 },
        _ => Opening::Continuation { sequence, fragment, at: 18 },
    })
}

/// A header from n on, its cached references looked up in the cache.
///
/// "then 2 on the count and flags, then each reference in turn: 2, 22 (at the later one), 5, 23, 21,
/// 14". The place is "the number of the reference, or 0 before the first"; 5's is its byte's, "in a
/// packet counted from the packet's first byte" (#101).
fn header(connection: Connection, packet: &[u8], at: usize, cache: &Cache) -> Result<Header, Refusal> {
    let n = usize::from(*packet.get(at).ok_or(refusal(2, 0))?);
    let mut at = at + 1;
    // "For n = 0 flags and references are absent, else n/2+1 flag bytes."
    let flags = if n == 0 { &[][..] } else { packet.get(at..at + n / 2 + 1).ok_or(refusal(2, 0))? };
    at += flags.len();
    // "Reference i has half of flag byte i/2: low half for even i." "The half after the last
    // reference's is the spare one": half number n (OP-35).
    let half = |i: usize| {
        let byte = flags.get(i / 2).copied().unwrap_or(0);
        if i % 2 == 0 {
            byte & 15
        } else {
            byte >> 4
        }
    };
    // "its lowest bit, LongAtoms, makes lengths 2 bytes. Other spare bits are ignored."
    let width = if half(n) & 1 == 1 { 2 } else { 1 };
    let mut references: Vec<Reference> = Vec::new();
    for i in 0..n {
        // "Top bit: new. Low three: segment."
        let new = half(i) & 8 != 0;
        let segment = usize::from(half(i) & 7);
        // First 2 on all of this reference (OP-28). "A new reference is internal index, length, text
        // [...]; a cached one is the internal index alone."
        let internal = *packet.get(at).ok_or(refusal(2, i))?;
        at += 1;
        let mut bytes = &[][..];
        let mut text_at = at;
        if new {
            let length = packet.get(at..at + width).ok_or(refusal(2, i))?;
            let length = length.iter().fold(0usize, |sum, byte| sum << 8 | usize::from(*byte));
            at += width;
            text_at = at;
            bytes = packet.get(at..at + length).ok_or(refusal(2, i))?;
            at += length;
        }
        let place = Place(256 * segment + usize::from(internal));
        // 22: "place named again beside a new entry"; "A place filled new is named by no other
        // reference of that header."
        let again = references.iter().any(|r| r.place == place && (new || r.new_text.is_some()));
        if again {
            return Err(refusal(22, i));
        }
        let mut new_text = None;
        if new {
            // "in Latin-1 or UTF-8 as the caller states was agreed"; 5: "text not UTF-8, or over 255
            // characters"
            let text = text::atom_text(bytes, connection.is_utf8()).map_err(|bad| refusal(5, text_at + bad))?;
            // 23: "text over 32 bytes as UTF-8"
            if text.len() > PLACE_BYTES {
                return Err(refusal(23, i));
            }
            new_text = Some(text);
        } else {
            cached(cache.texts, cache.lengths, place).map_err(|number| refusal(number, i))?;
        }
        references.push(Reference { place, new_text });
    }
    Ok(Header { references, payload_at: at })
}

/// Takes an accepted header: fills the cache's new places and the list: "The list of n texts, fixed
/// when its header is taken, stays with that message."
fn take(header: &Header, cache: &mut Cache, list: &mut ListOut) {
    let mut texts = Vec::new();
    for reference in &header.references {
        match &reference.new_text {
            Some(text) => {
                put_text(cache.texts, cache.lengths, reference.place.0, text);
                texts.push(text.clone());
            }
            // No place is both filled new and named cached in one header, so the order of these two
            // does not matter.
            None => texts.push(cached(cache.texts, cache.lengths, reference.place).unwrap_or_default()),
        }
    }
    list.set(&texts);
}

/// Puts a payload into the gather buffer after `gathered` bytes. "Gather bytes past the gathered ones
/// stay."
fn gather_after(gather: &mut [u8], gathered: u64, payload: &[u8]) {
    let start = usize::try_from(gathered).unwrap_or(usize::MAX);
    if let Some(room) = gather.get_mut(start..start.saturating_add(payload.len())) {
        room.copy_from_slice(payload);
    }
}

/// An accepted fragment: the record after it. "Ids run from the total down to 1." "Finishing or
/// dropping zeroes the record".
fn after_fragment(record: &mut Record, sequence: u64, fragment: u64, gathered: u64) -> Answer {
    let due = fragment.saturating_sub(1);
    if due == 0 {
        *record = Record::default();
        Answer::Complete { gathered }
    } else {
        *record = Record { sequence, due, gathered };
        Answer::Pending { due, gathered }
    }
}

/// One packet.
///
/// "In a packet: 13, 14 on the record, 1, 2, 20, ids with 24 for zero, 26 or 25, 24 for the wrong one,
/// then 2 on the count and flags, then each reference in turn [...]; 12 last." The connection's 14 stands
/// next after 13 (#109). Nothing is written before the last judgement: "every other refusal leaves all
/// lent memory unchanged". V4_NC is not used here: the payload is read by a call of its own (OQ-109-11).
pub fn packet(connection: Connection, lent: &mut Lent, packet: &[u8]) -> Result<Answer, Refusal> {
    // 13, on all that is lent, whatever the packet's kind (OP-24).
    let sizes = lent.cache.is_of_its_stated_size()
        && lent.plain.is_of_its_stated_size()
        && lent.pending.is_of_its_stated_size()
        && lent.gather.len() == MESSAGE_MAX;
    if !sizes {
        return Err(refusal(13, 0));
    }
    connection.judge()?;
    // 14: "a pending record gathered past 65,536", whatever id is due (OP-23).
    if lent.record.gathered > MESSAGE_MAX as u64 {
        return Err(refusal(14, 0));
    }
    match opening(packet).map_err(|number| refusal(number, 0))? {
        Opening::Plain { at } => {
            let header = header(connection, packet, at, &lent.cache)?;
            let length = packet.len().saturating_sub(header.payload_at);
            // 12: "term, payload or gathered bytes over 65,536"; the payload's, not the packet's
            // (OP-36).
            if length > MESSAGE_MAX {
                return Err(refusal(12, 0));
            }
            take(&header, &mut lent.cache, &mut lent.plain);
            Ok(Answer::Plain { offset: header.payload_at, length })
        }
        Opening::Start { sequence, fragment, at } => {
            // 26: "a start while one is pending"
            if lent.record.due != 0 {
                return Err(refusal(26, 0));
            }
            let header = header(connection, packet, at, &lent.cache)?;
            let payload = packet.get(header.payload_at..).unwrap_or(&[]);
            if payload.len() > MESSAGE_MAX {
                return Err(refusal(12, 0));
            }
            take(&header, &mut lent.cache, &mut lent.pending);
            // It begins at gathered 0 whatever the record says (OP-42).
            gather_after(lent.gather, 0, payload);
            Ok(after_fragment(lent.record, sequence, fragment, payload.len() as u64))
        }
        Opening::Continuation { sequence, fragment, at } => {
            // 25: "no sequence pending, or another id"
            if lent.record.due == 0 || lent.record.sequence != sequence {
                return Err(refusal(25, 0));
            }
            // 24: "or not the one due"
            if lent.record.due != fragment {
                return Err(refusal(24, 0));
            }
            let payload = packet.get(at..).unwrap_or(&[]);
            let gathered = lent.record.gathered.saturating_add(payload.len() as u64);
            if gathered > MESSAGE_MAX as u64 {
                return Err(refusal(12, 0));
            }
            gather_after(lent.gather, lent.record.gathered, payload);
            Ok(after_fragment(lent.record, sequence, fragment, gathered))
        }
    }
}

/// "A drop gives 14, 25", the connection's 14 first of all (OQ-109-2); "Finishing or dropping zeroes the
/// record".
pub fn drop_pending(connection: Connection, record: &mut Record) -> Result<(), Refusal> {
    connection.judge()?;
    if record.gathered > MESSAGE_MAX as u64 {
        return Err(refusal(14, 0));
    }
    if record.due == 0 {
        return Err(refusal(25, 0));
    }
    *record = Record::default();
    Ok(())
}

/// "a reset only 13"; "a reset does too [zeroes the record], zeroes all places and makes all their
/// lengths 65,535." It measures the cache (OP-25). It does not share the connection record (#109).
pub fn reset(cache: &mut Cache, record: &mut Record) -> Result<(), Refusal> {
    if !cache.is_of_its_stated_size() {
        return Err(refusal(13, 0));
    }
    cache.texts.fill(0);
    cache.lengths.fill(EMPTY);
    *record = Record::default();
    Ok(())
}
