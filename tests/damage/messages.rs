//! Messages: valid ones of every shape, damaged ones, and the atom lists that they are read with.

use crate::flags;
use crate::generate::Encoded;
use crate::headers::{self, Header};
use crate::lists::ListTwin;
use crate::random::Random;
use crate::tally::{Call, Tally};
use crate::terms::{self, Input, Made, Room};
use crate::twin::Twin;
use crate::values::Value;
use crate::{identifiers, maps, mutate, shapes, values};
use border::{format, Form};

const MESSAGE_MOST: usize = 140_000;
/// A longer message is refused.
const LONG: usize = 65_536;
const DEPTH_MOST: usize = 64;
const LIST_BYTES: usize = 8_160;
const LIST_PLACES: usize = 255;
/// How many lists of texts there are to choose from.
const LISTS: usize = 64;
/// One message in so many has a twin.
const TWINS_SHARE: usize = 20;

/// A message, and what it was made to be where that is known.
pub struct Message {
    pub bytes: Vec<u8>,
    made: Option<Made>,
}

/// A value, small mostly.
fn value(r: &mut Random, texts: &[String]) -> Value {
    match r.below(50) {
        0 => values::identifier_keys(r),
        1..=4 => maps::value(r, texts),
        _ => {
            let size = r.pick(&[1, 2, 4, 8, 12, 30]);
            values::value(r, texts, size)
        }
    }
}

/// A term with the texts of a list, small mostly, and how many rows it has where that is known.
fn term(r: &mut Random, texts: &[String], before: usize) -> (Encoded, Option<usize>) {
    let large = match r.below(4000) {
        0 | 1 => shapes::most_keys(r),
        2 => shapes::many_keys(r),
        3..=12 => shapes::many_rows(r),
        13..=40 => shapes::many_bytes(r, before),
        41..=120 => shapes::deep(r, texts),
        121..=140 => shapes::wide(r, texts),
        141..=180 => shapes::long_atom(r),
        181..=210 => shapes::some_keys(r, texts),
        211..=216 => shapes::growing(r, texts),
        217..=400 => identifiers::term(r, texts),
        _ => {
            let value = value(r, texts);
            return (shapes::encoded(r, texts, &value), rows_of(&value));
        }
    };
    (large, None)
}

/// What a message is before its first term.
fn opened(form: Form) -> Encoded {
    let mut out = Encoded::default();
    if form == Form::Standalone {
        out.tag(131);
    }
    out
}

/// How many terms a message has.
fn terms_in(r: &mut Random, form: Form) -> usize {
    if form == Form::Payload && r.one_in(2) {
        2
    } else {
        1
    }
}

/// How many rows a value has where it is not too deep.
fn rows_of(value: &Value) -> Option<usize> {
    (value.depth() <= DEPTH_MOST).then(|| value.rows())
}

/// The message, and what it was made to be where it is not over a limit.
fn made_of(out: Encoded, rows: Option<usize>) -> Message {
    let known = rows.filter(|rows| *rows <= shapes::ROWS_MOST && out.bytes.len() <= LONG);
    Message { bytes: out.bytes, made: known.map(|rows| Made { rows, faults: out.faults }) }
}

/// A message of that form: 131 and a term, or one or two terms; damaged as often as not.
pub fn message(r: &mut Random, form: Form, texts: &[String]) -> Message {
    let mut out = opened(form);
    let mut rows = Some(0);
    for _ in 0..terms_in(r, form) {
        let (term, more) = term(r, texts, out.bytes.len());
        out.append(&term);
        rows = rows.zip(more).map(|(rows, more)| rows + more);
    }
    if r.below(5) > 1 {
        mutate::damage(r, &mut out);
        rows = None;
    }
    made_of(out, rows)
}

/// A message of these values.
fn message_of(r: &mut Random, form: Form, texts: &[String], values: &[Value]) -> Message {
    let mut out = opened(form);
    values.iter().for_each(|value| out.append(&shapes::encoded(r, texts, value)));
    made_of(out, values.iter().map(rows_of).sum())
}

/// Values in other orders of their maps' pairs; now and then changed, one of them at least.
fn twins_of(r: &mut Random, values: &[Value]) -> Vec<Value> {
    let mut twins: Vec<Value> = values.iter().map(|value| maps::turned(r, value)).collect();
    if r.one_in(4) {
        let at = r.below(twins.len());
        twins[at] = maps::altered(r, &twins[at]);
    }
    twins
}

/// An atom list as a header left it, and its texts.
struct List {
    places: Vec<u8>,
    lengths: Vec<u16>,
    texts: Vec<String>,
}

/// Lists from headers that the proved packet call took.
fn lists(seed: u64) -> Vec<List> {
    let mut lists = Vec::new();
    let mut r = Random::new(seed, u64::MAX);
    while lists.len() < LISTS {
        let header = headers::valid(&mut r, &[], true);
        if let Some(list) = taken(&header) {
            lists.push(list);
        }
    }
    lists
}

/// The list that a plain packet with this header and no payload leaves.
fn taken(header: &Header) -> Option<List> {
    let mut packet = vec![131, 68];
    packet.extend_from_slice(&header.out.bytes);
    let (mut cache, mut cache_lengths) = (vec![0; 65_536], vec![u16::MAX; 2_048]);
    let (mut n, mut places, mut lengths) = (0, vec![0; LIST_BYTES], vec![0; LIST_PLACES]);
    let (mut other_n, mut other_places, mut other_lengths) = (0, vec![0; LIST_BYTES], vec![0; LIST_PLACES]);
    let mut lent = border::Lent {
        cache: &mut cache,
        cache_lengths: &mut cache_lengths,
        plain: border::ListOut { n: &mut n, places: &mut places, lengths: &mut lengths },
        pending: border::ListOut { n: &mut other_n, places: &mut other_places, lengths: &mut other_lengths },
        record: &mut border::Pending::default(),
        gather: &mut vec![0; 65_536],
    };
    let answer = border::packet(format::BOTH, &packet, &mut lent);
    let whole = answer.refusal == 0 && usize::from(n) == header.texts.len();
    whole.then(|| List { places, lengths, texts: header.texts.clone() })
}

/// What the cases on terms use again and again.
pub struct Messages {
    lists: Vec<List>,
    message: Twin<u8>,
    places: Twin<u8>,
    lengths: Twin<u16>,
    pub room: Room,
}

impl Messages {
    pub fn new(seed: u64) -> Messages {
        Messages {
            lists: lists(seed),
            message: Twin::new(MESSAGE_MOST),
            places: Twin::new(LIST_BYTES + 1),
            lengths: Twin::new(LIST_PLACES + 1),
            room: Room::new(),
        }
    }

    /// Lends a list, or none of its texts; the texts that are lent.
    fn lend_list(&mut self, r: &mut Random) -> Vec<String> {
        let list = &self.lists[r.below(LISTS)];
        self.places.hold(&list.places);
        self.lengths.hold(&list.lengths);
        if r.one_in(3) {
            return Vec::new();
        }
        list.texts.clone()
    }

    pub fn case(&mut self, r: &mut Random, tally: &mut Tally) {
        if r.one_in(TWINS_SHARE) {
            self.twins(r, tally);
        } else {
            self.one(r, tally);
        }
    }

    /// A message and a twin of it, in other encodings, compared; what is written of both is the same where they mean the same.
    fn twins(&mut self, r: &mut Random, tally: &mut Tally) {
        let texts = self.lend_list(r);
        let (form, flags) = (r.pick(&[Form::Standalone, Form::Payload]), flags::any(r));
        let values: Vec<Value> = (0..terms_in(r, form)).map(|_| maps::value(r, &texts)).collect();
        let twins = twins_of(r, &values);
        let Messages { message, places, lengths, room, .. } = self;
        let [one, other] = [&values, &twins].map(|values| {
            let Message { bytes, made } = message_of(r, form, &texts, values);
            message.hold(&bytes);
            let list = ListTwin { n: texts.len() as u8, places, lengths };
            let input = Input { flags, form, message, list, made: made.as_ref() };
            terms::compare(r, &input, room, tally);
            terms::whole(&input, room, tally)
        });
        let same = values == twins;
        tally.met_twins(same);
        let right = if same { one == other } else { one != other || one.is_none() };
        tally.check(Call::Write, right, || format!("{values:?}, {twins:?}: {one:?}, {other:?}"));
    }

    /// One message with one list, compared; now and then again with other flags.
    fn one(&mut self, r: &mut Random, tally: &mut Tally) {
        let texts = self.lend_list(r);
        let mut n = texts.len() as u8;
        let form = r.pick(&[Form::Standalone, Form::Payload]);
        let Message { bytes, mut made } = message(r, form, &texts);
        let mut flags = flags::any(r);
        if bytes.len() > LONG && r.one_in(4) {
            flags = flags::unknown(r);
        }
        self.message.hold(&bytes);
        if r.one_in(8) {
            made = None;
            falsify(r, &mut n, &mut self.places, &mut self.lengths);
        }
        if r.one_in(40) {
            made = None;
            missize(r, &mut self.places, &mut self.lengths);
            if r.one_in(3) {
                flags = flags::unknown(r);
            }
        }
        let Messages { message, places, lengths, room, .. } = self;
        let input = Input { flags, form, message, list: ListTwin { n, places, lengths }, made: made.as_ref() };
        terms::compare(r, &input, room, tally);
        if r.one_in(5) {
            let flags = flags::other(r, flags);
            terms::compare(r, &Input { flags, ..input }, room, tally);
        }
    }

    /// An accepted payload with the list that goes with it, read with its packet's flags.
    pub fn payload(&mut self, r: &mut Random, flags: u8, payload: &[u8], list: ListTwin, tally: &mut Tally) {
        self.message.hold(payload);
        let input = Input { flags, form: Form::Payload, message: &self.message, list, made: None };
        terms::compare(r, &input, &mut self.room, tally);
    }
}

/// False state among the first places: a count that no header left, lengths over 32, texts that are none.
pub fn falsify(r: &mut Random, n: &mut u8, places: &mut Twin<u8>, lengths: &mut Twin<u16>) {
    for _ in 0..r.between(1, 4) {
        let at = r.below(usize::from(*n).clamp(1, 4));
        let length = r.pick(&[33, 34, 255, 256, 65_535, 32, 31, 1]);
        let byte = r.pick(&[255, 128, 0xc3, 0xed]);
        match r.below(3) {
            0 if r.one_in(2) => *n = r.byte(),
            0 | 1 => lengths.edit(|lent| lent[at] = length),
            _ => places.edit(|lent| lent[32 * at] = byte),
        }
    }
}

/// Lent memory not of its stated size: some or one too few, one too many.
fn missize(r: &mut Random, places: &mut Twin<u8>, lengths: &mut Twin<u16>) {
    if r.one_in(2) {
        places.lend(r.pick(&[0, 1, LIST_BYTES - 32, LIST_BYTES - 1, LIST_BYTES + 1]));
    } else {
        lengths.lend(r.pick(&[0, 1, LIST_PLACES - 1, LIST_PLACES + 1]));
    }
}
