//! Every end of every range of bytes in section 4 of RFC 3629, and the byte beside it, in texts that go through the public calls: as
//! atoms, as a new reference of a header, and as a word of a list. Which texts are UTF-8, and which byte of the others is bad, is said by
//! Rust's own decoder.

use border::format::*;
use border::memory::{Memory, Places, FILL};
use border::tally::Tally;
use border::utf8::{fault, Line, LINES};
use border::{AtomList, Form, Guarded, MarkReply, PacketReply, Pending, ReadReply, TextReply, WordReply};
use std::collections::BTreeSet;
use std::fmt::{Display, Formatter};

const RANGES: usize = 27;

/// What stands before and after a tried character: ASCII, eight bytes of it and one more, or characters of two bytes.
const AROUND: [(&str, &str); 6] = [("", ""), ("a", ""), ("abcdefgh", ""), ("abcdefghi", ""), ("", "z"), ("é", "ß")];

const TABLE_WORDS: usize = 4;
/// Where in a row's word the offset and the size begin.
const ROW_OFFSET_BIT: u32 = 4;
const ROW_SIZE_BIT: u32 = 47;

/// The places of the cache that the two references name.
const PLACES: [usize; 2] = [4 * 256 + 10, 2 * 256 + 9];
const FIRST_TEXT: &[u8] = b"ok";
/// The reference whose text is tried, and the payload that names it.
const TRIED: usize = 1;
const PAYLOAD: [u8; 2] = [ATOM_CACHE_REF, TRIED as u8];
const SEQUENCE_PENDING: Pending = Pending { sequence: 7, due: 2, gathered: 3 };

/// A text, and what it was made for: a rule, and which byte of a character (they count from 1).
struct Case {
    rule: &'static str,
    byte: usize,
    text: Vec<u8>,
}

impl Case {
    fn is_good(&self) -> bool {
        is_utf8(&self.text)
    }

    /// The refusal and the place to be answered, where the text starts at `start`.
    fn verdict(&self, start: usize) -> (u64, u64) {
        fault(&self.text).map_or((ACCEPTED, 0), |at| (TEXT, (start + at) as u64))
    }
}

impl Display for Case {
    fn fmt(&self, out: &mut Formatter) -> std::fmt::Result {
        let Case { rule, byte, text } = self;
        write!(out, "{rule}, byte {byte}, text {text:02x?}")
    }
}

fn is_utf8(text: &[u8]) -> bool {
    std::str::from_utf8(text).is_ok()
}

/// The ends of a range and the bytes beside them, each once.
fn at_and_beside(&(low, high): &(u8, u8)) -> BTreeSet<u8> {
    [low.checked_sub(1), Some(low), Some(high), high.checked_add(1)].into_iter().flatten().collect()
}

/// The texts for a byte of a line's characters, the other bytes lowest and then highest.
fn texts(line: &Line, at: usize, value: u8) -> Vec<Vec<u8>> {
    let mut texts = Vec::new();
    for mut character in [line.lowest(), line.highest()] {
        character[at] = value;
        texts.extend(AROUND.map(|(before, after)| [before.as_bytes(), &character, after.as_bytes()].concat()));
    }
    texts
}

/// Every text once, as what it was first made for.
fn cases() -> Vec<Case> {
    let mut cases = Vec::new();
    for line in &LINES {
        for (at, range) in line.ranges.iter().enumerate() {
            let made = at_and_beside(range).into_iter().flat_map(|value| texts(line, at, value));
            cases.extend(made.map(|text| Case { rule: line.rule, byte: at + 1, text }));
        }
    }
    let mut seen = BTreeSet::new();
    cases.retain(|case| seen.insert(case.text.clone()));
    assert!(cases.iter().all(|case| case.text.len() <= PLACE_BYTES), "a text that no place holds");
    cases
}

/// The table above has as many ranges as the RFC, and exactly the characters that Rust has.
fn check_table(ranges: usize, tally: &mut Tally) {
    tally.check(ranges == RANGES, || format!("the table has {ranges} ranges, not {RANGES}"));
    for line in &LINES {
        for end in [line.lowest(), line.highest()] {
            tally.check(is_utf8(&end), || format!("the table's line {}: {end:02x?} is not UTF-8", line.rule));
        }
    }
    let (mut all, mut outside) = (0, 0);
    for character in '\0'..=char::MAX {
        let mut bytes = [0; 4];
        let coded = character.encode_utf8(&mut bytes).as_bytes();
        all += 1;
        outside += usize::from(!LINES.iter().any(|line| line.has(coded)));
    }
    tally.check(outside == 0, || format!("the table lacks {outside} characters"));
    let count: usize = LINES.iter().map(Line::count).sum();
    tally.check(count == all, || format!("the table has {count} characters, not {all}"));
}

/// An atom of this text as a message; where its tag stands and where its text starts.
fn message(form: Form, tag: u8, text: &[u8]) -> (Vec<u8>, usize, usize) {
    let mut out = if form == Form::Standalone { vec![VERSION] } else { Vec::new() };
    let offset = out.len();
    out.extend(atom(tag, text));
    (out, offset, offset + atom_head(tag))
}

/// The text as an atom: read, and asked for its text and mark.
fn try_atom(case: &Case, form: Form, tag: u8, tally: &mut Tally) {
    let (bytes, offset, start) = message(form, tag, &case.text);
    let message = Guarded::holding(&bytes);
    let list = AtomList { n: 0, places: &[0; LIST_PLACES * PLACE_BYTES], lengths: &[0; LIST_PLACES] };
    let mut table = Guarded::holding(&[u64::MAX; TABLE_WORDS]);
    let reading = border::read(BOTH, form, &message, &list, &mut table);
    let text = border::text(BOTH, form, &message, &list, offset);
    let mark = border::mark(BOTH, form, &message, &list, offset);

    let (refusal, place) = case.verdict(start);
    let mut due_reading = ReadReply { refusal, place, ..ReadReply::default() };
    let mut due_mark = MarkReply { refusal, place, ..MarkReply::default() };
    let (mut due_text, mut due_table) = (TextReply::default(), [0; TABLE_WORDS]);
    if case.is_good() {
        (due_reading.terms, due_reading.rows, due_mark.mark) = (1, 1, MARK_UTF8);
        due_text = TextReply { from: FROM_MESSAGE, start: start as u64, length: case.text.len() as u64 };
        due_table[0] = KIND_ATOM | (offset as u64) << ROW_OFFSET_BIT | 1 << ROW_SIZE_BIT;
    }
    let what = |of: &str| format!("{form:?}, tag {tag}, {of}");
    tally.same(case, &what("reply"), &[reading], &[due_reading]);
    tally.same(case, &what("table"), &table, &due_table);
    tally.same(case, &what("text"), &[text], &[due_text]);
    tally.same(case, &what("mark"), &[mark], &[due_mark]);
    if case.is_good() {
        let answered = message.get(text.start as usize..).and_then(|rest| rest.get(..text.length as usize));
        tally.same(case, &what("bytes"), answered.unwrap_or_default(), &case.text);
    }
}

/// The text as that of a header's second reference.
fn try_header(case: &Case, flags: u8, long_atoms: bool, before: &Memory, tally: &mut Tally) {
    let texts = [(PLACES[0], FIRST_TEXT), (PLACES[TRIED], &case.text)];
    let references = texts.map(|(place, text)| Reference { place, text: Some(text) });
    let (header, starts) = header(&[VERSION, DISTRIBUTION_HEADER], &references, long_atoms);
    let packet = Guarded::holding(&[&header[..], &PAYLOAD].concat());
    let mut memory = before.clone();
    let reply = border::packet(flags, &packet, &mut memory.lent());

    let (refusal, place) = case.verdict(starts[TRIED]);
    let refused = PacketReply { refusal, place, ..PacketReply::default() };
    let (offset, length) = (header.len() as u64, PAYLOAD.len() as u64);
    let plain = PacketReply { kind: PACKET_PLAIN, offset, length, ..PacketReply::default() };
    let (due_reply, due) = if case.is_good() { (plain, before.clone().taking(&references)) } else { (refused, before.clone()) };
    let what = |of: &str| format!("header, flags {flags}, LongAtoms {long_atoms}, {of}");
    tally.same(case, &what("reply"), &[reply], &[due_reply]);
    memory.compare(&due, case, &what, tally);
}

/// The text at a place of a list whose other texts are none; the list's last place ends at a closed page.
fn try_word(case: &Case, index: usize, tally: &mut Tally) {
    let mut list = Places::filled(LIST_PLACES, u16::from(FILL));
    list.put(index, &case.text);
    let (places, lengths) = (Guarded::holding(&list.bytes), Guarded::holding(&list.lengths));
    let reply = border::word(BOTH, &AtomList { n: LIST_PLACES as u8, places: &places, lengths: &lengths }, index);

    let refused = WordReply { refusal: STATE, ..WordReply::default() };
    let (start, length) = ((index * PLACE_BYTES) as u64, case.text.len() as u64);
    let due = if case.is_good() { WordReply { start, length, ..WordReply::default() } } else { refused };
    let what = |of: &str| format!("word {index}, {of}");
    tally.same(case, &what("reply"), &[reply], &[due]);
    tally.same(case, &what("places"), &places, &list.bytes);
    tally.same(case, &what("lengths"), &lengths, &list.lengths);
}

fn main() {
    let mut tally = Tally::default();
    let ranges: Vec<_> = LINES.iter().flat_map(|line| line.ranges).collect();
    check_table(ranges.len(), &mut tally);
    let (cases, before) = (cases(), Memory::filled(SEQUENCE_PENDING));
    for case in &cases {
        for tag in [SMALL_ATOM_UTF8_EXT, ATOM_UTF8_EXT] {
            for form in [Form::Standalone, Form::Payload] {
                try_atom(case, form, tag, &mut tally);
            }
        }
        for (flags, long_atoms) in [(UTF8, false), (UTF8, true), (BOTH, false), (BOTH, true)] {
            try_header(case, flags, long_atoms, &before, &mut tally);
        }
        for index in [0, LIST_PLACES - 1] {
            try_word(case, index, &mut tally);
        }
    }
    let beside: usize = ranges.iter().map(|range| at_and_beside(range).len()).sum();
    let good = cases.iter().filter(|case| case.is_good()).count();
    let (ranges, all, bad) = (ranges.len(), cases.len(), cases.len() - good);
    let Tally { passed, failed } = tally;
    print!("utf8_ranges: {ranges} ranges, {beside} bytes at and beside their ends, {all} texts ({good} good, {bad} bad): ");
    println!("{passed} passed, {failed} failed");
    std::process::exit(i32::from(failed > 0));
}
