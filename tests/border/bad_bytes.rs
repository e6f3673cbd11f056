//! Which byte of a text is bad, told by refusal 5: each kind of fault at each byte of a character, behind texts of several lengths, and
//! faults around 255 characters, in atoms wherever they stand and in new references of headers, through every call that passes it on.
//! The byte due follows from how a text is built, and Rust's own decoder has to name the same.

use border::format::*;
use border::memory::{Memory, Places, FILL};
use border::tally::Tally;
use border::utf8::{self, LINES, TAIL};
use border::{AtomList, Form, Guarded, MarkReply, NumberReply, PacketReply, Pending, ReadReply, TextReply, WordReply, WriteReply};
use std::fmt::{Display, Formatter};

/// Bytes that begin no character.
const BEGIN_NOTHING: [u8; 6] = [0x80, 0xBF, 0xC0, 0xC1, 0xF5, 0xFF];
/// Bytes that continue no character: ASCII and its last, the first past the tail's range, the first byte of another character.
const CONTINUE_NOTHING: [u8; 4] = [b'a', 0x7F, 0xC0, 0xE1];
/// What stands before a fault: ASCII around the eight bytes that are checked at once, wider characters, both.
const BEFORE: [&str; 8] = ["", "a", "abcdefg", "abcdefgh", "abcdefghi", "é", "€", "abcdefghé€"];
/// What stands after a byte that begins no character.
const AFTER: [&[u8]; 3] = [b"", b"z", b"\x80\x80\x80"];

/// Texts around the limit are made of these characters, one after the other and over again.
const CHARACTERS: [&str; 5] = ["a", "é", "€", "😀", "aé€😀"];
const COUNTS: [usize; 5] = [253, 254, 255, 256, 300];
/// After how many of the characters a fault stands.
const FAULTS_AFTER: [usize; 8] = [0, 1, 252, 253, 254, 255, 256, 300];
const LATIN1: [u8; 4] = [b'a', 0x80, 0xC3, 0xFF];

const SHORT_MOST: usize = 255;
/// A tuple of one part.
const ONE_TUPLE: [u8; 2] = [SMALL_TUPLE_EXT, 1];
const BAD_TEXT: &[u8] = b"a\xFF";
/// Where in it the bad byte stands.
const BAD_AT: usize = 1;
const GOOD_TEXT: &[u8] = b"ok";

const ROWS_LENT: usize = 8;
const ROOM: usize = 2_048;
const MESSAGE_ROOM: usize = 70_000;

const PLAIN: &[u8] = &[VERSION, DISTRIBUTION_HEADER];
const START: &[u8] = &[VERSION, FRAGMENT_HEADER, 0, 0, 0, 0, 0, 0, 0, 9, 0, 0, 0, 0, 0, 0, 0, 2];
const CONTINUATION: &[u8] = &[VERSION, FRAGMENT_CONTINUATION, 0, 0, 0, 0, 0, 0, 0, 9, 0, 0, 0, 0, 0, 0, 0, 1];
/// The places of the cache that a header's references name.
const PLACES: [usize; 2] = [4 * 256 + 10, 2 * 256 + 9];
const NONE_PENDING: Pending = Pending { sequence: 7, due: 0, gathered: 3 };

const NO_LIST: AtomList = AtomList { n: 0, places: &[0; LIST_PLACES * PLACE_BYTES], lengths: &[0; LIST_PLACES] };

/// Where an atom stands in a message: the bytes before it and after it, and the message's terms and rows.
struct Spot {
    name: &'static str,
    before: &'static [u8],
    after: &'static [u8],
    terms: u64,
    rows: u64,
}

const SPOTS: [Spot; 10] = [
    Spot { name: "alone", before: &[], after: &[], terms: 1, rows: 1 },
    Spot { name: "in a tuple", before: &[SMALL_TUPLE_EXT, 3, SMALL_INTEGER_EXT, 5], after: &[NIL_EXT], terms: 1, rows: 4 },
    Spot { name: "second term", before: &[SMALL_TUPLE_EXT, 1, NIL_EXT], after: &[], terms: 2, rows: 3 },
    Spot { name: "key", before: &[MAP_EXT, 0, 0, 0, 1], after: &[NIL_EXT], terms: 1, rows: 3 },
    Spot { name: "value", before: &[MAP_EXT, 0, 0, 0, 2, SMALL_INTEGER_EXT, 1, NIL_EXT, NIL_EXT], after: &[], terms: 1, rows: 5 },
    Spot { name: "element", before: &[LIST_EXT, 0, 0, 0, 2, SMALL_INTEGER_EXT, 5], after: &[NIL_EXT], terms: 1, rows: 3 },
    Spot { name: "improper tail", before: &[LIST_EXT, 0, 0, 0, 1, NIL_EXT], after: &[], terms: 1, rows: 3 },
    Spot { name: "node of a pid", before: &[NEW_PID_EXT], after: &[0; 12], terms: 1, rows: 2 },
    Spot { name: "node of a reference", before: &[NEWER_REFERENCE_EXT, 0, 1], after: &[0; 8], terms: 1, rows: 2 },
    Spot { name: "function", before: &[EXPORT_EXT, SMALL_ATOM_UTF8_EXT, 1, b'm'], after: &[SMALL_INTEGER_EXT, 2], terms: 1, rows: 4 },
];

#[derive(Clone, Copy)]
enum Coding {
    Utf8,
    Latin1,
}

impl Coding {
    fn tags(self) -> [u8; 2] {
        match self {
            Coding::Utf8 => [SMALL_ATOM_UTF8_EXT, ATOM_UTF8_EXT],
            Coding::Latin1 => [SMALL_ATOM_EXT, ATOM_EXT],
        }
    }

    fn mark(self) -> u64 {
        match self {
            Coding::Utf8 => MARK_UTF8,
            Coding::Latin1 => MARK_LATIN1,
        }
    }

    /// The flags that the packet call is told; V4_NC is not about texts.
    fn agreed(self) -> u8 {
        match self {
            Coding::Utf8 => BOTH,
            Coding::Latin1 => V4_NC,
        }
    }

    fn as_utf8(self, text: &[u8]) -> Vec<u8> {
        match self {
            Coding::Utf8 => text.to_vec(),
            Coding::Latin1 => text.iter().map(|byte| char::from(*byte)).collect::<String>().into_bytes(),
        }
    }
}

/// A text, the bytes of the message that stand right after it, and where it goes wrong, if it does.
struct Case {
    kind: String,
    coding: Coding,
    text: Vec<u8>,
    after: Vec<u8>,
    fault: Option<usize>,
}

impl Display for Case {
    fn fmt(&self, out: &mut Formatter) -> std::fmt::Result {
        let Case { kind, text, after, fault, .. } = self;
        let around = &text[fault.unwrap_or(0).saturating_sub(4)..];
        let shown = &around[..around.len().min(12)];
        write!(out, "{kind}, text of {} bytes, in it {shown:02x?}, after it {after:02x?}, wrong at {fault:?}", text.len())
    }
}

/// Bytes that are no text, which of them is bad, and the bytes after the text that would go on.
struct Fault {
    kind: String,
    bytes: Vec<u8>,
    bad: usize,
    after: Vec<u8>,
}

/// A byte that begins nothing, alone and before others.
fn nothing_begun() -> Vec<Fault> {
    let made = BEGIN_NOTHING.into_iter().flat_map(|byte| AFTER.map(|rest| [&[byte], rest].concat()));
    made.map(|bytes| Fault { kind: "begins nothing".into(), bytes, bad: 0, after: Vec::new() }).collect()
}

/// A character whose byte `at` is missing, for the text ends there: with nothing after it, and with what is missing.
fn cut_off(rule: &str, character: &[u8], at: usize) -> [Fault; 2] {
    [&[], &character[at..]].map(|after| Fault {
        kind: format!("{rule}, byte {} cut off", at + 1),
        bytes: character[..at].to_vec(),
        bad: 0,
        after: after.to_vec(),
    })
}

/// A character whose byte `at` is another: the text ends right after it, or goes on.
fn wrong(rule: &str, character: &[u8], at: usize, byte: u8) -> [Fault; 2] {
    let rest = [&character[at + 1..], b"z"].concat();
    [&[], &rest[..]].map(|rest| Fault {
        kind: format!("{rule}, byte {} is {byte:02x}", at + 1),
        bytes: [&character[..at], &[byte], rest].concat(),
        bad: at,
        after: Vec::new(),
    })
}

/// The ends of what a range lacks of the tail's, below it and above it.
fn outside(&(low, high): &(u8, u8)) -> Vec<u8> {
    let below = (TAIL.0 < low).then(|| [TAIL.0, low - 1]);
    let above = (high < TAIL.1).then(|| [high + 1, TAIL.1]);
    below.into_iter().chain(above).flatten().collect()
}

/// Every fault of the characters at both ends of each line of RFC 3629.
fn faults() -> Vec<Fault> {
    let mut faults = nothing_begun();
    for line in &LINES {
        for character in [line.lowest(), line.highest()] {
            for (at, range) in line.ranges.iter().enumerate().skip(1) {
                faults.extend(cut_off(line.rule, &character, at));
                let bytes = outside(range).into_iter().chain(CONTINUE_NOTHING);
                faults.extend(bytes.flat_map(|byte| wrong(line.rule, &character, at, byte)));
            }
        }
    }
    faults
}

fn bad_case(kind: String, before: &[u8], fault: &Fault) -> Case {
    let text = [before, &fault.bytes].concat();
    Case { kind, coding: Coding::Utf8, text, after: fault.after.clone(), fault: Some(before.len() + fault.bad) }
}

fn cases_of_faults(faults: &[Fault]) -> Vec<Case> {
    let mut cases = Vec::new();
    for fault in faults {
        let behind = |before: &str| bad_case(format!("{} behind {before:?}", fault.kind), before.as_bytes(), fault);
        cases.extend(BEFORE.map(behind));
    }
    cases
}

/// So many characters, and where each ends.
fn characters(made_of: &str, count: usize) -> (String, Vec<usize>) {
    let text: String = made_of.chars().cycle().take(count).collect();
    let ends = text.char_indices().map(|(start, character)| start + character.len_utf8()).collect();
    (text, ends)
}

/// A fault after `before` of these characters: before the limit it is told itself, from there on the first byte past the limit is.
fn fault_among(made_of: &str, count: usize, before: usize, bytes: &[u8], bad: usize) -> Case {
    let (text, ends) = characters(made_of, count);
    let (front, back) = text.split_at(if before == 0 { 0 } else { ends[before - 1] });
    let at = if before < CHARACTERS_MOST { front.len() + bad } else { ends[CHARACTERS_MOST - 1] };
    let text = [front.as_bytes(), bytes, back.as_bytes()].concat();
    let kind = format!("{count} of {made_of:?}, after {before} of them {bytes:02x?}");
    Case { kind, coding: Coding::Utf8, text, after: b"\xA9".to_vec(), fault: Some(at) }
}

/// Texts around 255 characters: sound ones, and ones with a fault before the limit, at it and after it.
fn cases_of_limits() -> Vec<Case> {
    let mut cases = Vec::new();
    for made_of in CHARACTERS {
        for count in COUNTS {
            let (text, ends) = characters(made_of, count);
            let fault = (count > CHARACTERS_MOST).then(|| ends[CHARACTERS_MOST - 1]);
            let kind = format!("{count} of {made_of:?}");
            cases.push(Case { kind, coding: Coding::Utf8, text: text.into_bytes(), after: Vec::new(), fault });
            for before in FAULTS_AFTER.into_iter().filter(|before| *before <= count) {
                cases.push(fault_among(made_of, count, before, b"\xFF", 0));
                cases.push(fault_among(made_of, count, before, b"\xE0\x80", 1));
            }
            cases.push(fault_among(made_of, count, count, b"\xC3", 0));
        }
    }
    cases
}

/// A fault after every number of ASCII characters.
fn cases_of_lengths() -> Vec<Case> {
    let most = COUNTS[COUNTS.len() - 1];
    let faults: [(&[u8], usize); 3] = [(b"\xFF", 0), (b"\xF4\x90", 1), (b"\xC3", 0)];
    (0..=most).flat_map(|count| faults.map(|(bytes, bad)| fault_among("a", count, count, bytes, bad))).collect()
}

/// Latin-1 has no bad byte: the 256th is one too many.
fn cases_of_latin1() -> Vec<Case> {
    let mut cases = Vec::new();
    for (byte, count) in LATIN1.into_iter().flat_map(|byte| COUNTS.map(|count| (byte, count))) {
        let fault = (count > CHARACTERS_MOST).then_some(CHARACTERS_MOST);
        let kind = format!("Latin-1, {count} times {byte:02x}");
        cases.push(Case { kind, coding: Coding::Latin1, text: vec![byte; count], after: Vec::new(), fault });
    }
    cases
}

/// A message with a list, the offset of the atom asked for, and the rows lent.
struct Asked<'a> {
    form: Form,
    bytes: Vec<u8>,
    list: AtomList<'a>,
    offset: usize,
    rows: usize,
}

impl Asked<'_> {
    /// A message with no list: these bytes and then an atom, of which the offset is the tag's.
    fn atom_after(form: Form, before: &[u8], atom: &[u8], rows: usize) -> Asked<'static> {
        let mut bytes = if form == Form::Standalone { vec![VERSION] } else { Vec::new() };
        bytes.extend_from_slice(before);
        let offset = bytes.len();
        bytes.extend_from_slice(atom);
        Asked { form, bytes, list: NO_LIST, offset, rows }
    }
}

/// What all calls on a message are to answer; of a refused one the number and the place alone.
#[derive(Default)]
struct Due {
    refusal: u64,
    place: u64,
    terms: u64,
    rows: u64,
    output: Vec<u8>,
    text: TextReply,
    mark: u64,
}

impl Due {
    fn refused(refusal: u64, place: usize) -> Due {
        Due { refusal, place: place as u64, ..Due::default() }
    }
}

/// All that is lent, again and again (messages, tables and outputs end at a closed page), and what was tried.
struct Tester {
    messages: u64,
    packets: u64,
    bytes: Guarded<u8>,
    words: Guarded<u64>,
    output: Guarded<u8>,
    before: Memory,
    memory: Memory,
    tally: Tally,
}

impl Tester {
    fn new() -> Tester {
        let memory = Memory::filled(NONE_PENDING);
        Tester {
            messages: 0,
            packets: 0,
            bytes: Guarded::new(MESSAGE_ROOM),
            words: Guarded::new(ROWS_MOST),
            output: Guarded::new(ROOM),
            before: memory.clone(),
            memory,
            tally: Tally::default(),
        }
    }

    /// Asks a message of every call on terms, and looks at all that was lent.
    fn ask(&mut self, case: &dyn Display, what: &str, asked: &Asked, due: &Due) {
        self.messages += 1;
        let Tester { bytes, words, output, tally, .. } = self;
        let Asked { form, list, offset, rows, .. } = asked;
        let Due { refusal, place, terms, .. } = *due;
        let lent = bytes.last_mut(asked.bytes.len());
        lent.copy_from_slice(&asked.bytes);
        let (message, words): (&[u8], _) = (lent, words.last_mut(*rows));
        let of = |call: &str| format!("{form:?}, {what}, {call}");

        words.fill(u64::MAX);
        let reading = border::read(BOTH, *form, message, list, words);
        tally.same(case, &of("read"), &[reading], &[ReadReply { refusal, place, terms, rows: due.rows }]);
        tally.check(words[due.rows as usize..].iter().all(|word| *word == 0), || format!("{case}: {}", of("table not zero")));

        words.fill(u64::MAX);
        output.fill(FILL);
        let writing = border::write(BOTH, *form, message, list, words, output);
        tally.same(case, &of("write"), &[writing], &[WriteReply { refusal, place, terms, length: due.output.len() as u64 }]);
        tally.same(case, &of("output"), &output[..due.output.len()], &due.output);
        tally.check(output[due.output.len()..].iter().all(|byte| *byte == FILL), || format!("{case}: {}", of("output past it")));
        tally.check(words.iter().all(|word| *word == 0), || format!("{case}: {}", of("scratch not zero")));

        let number = border::number(BOTH, *form, message, list, 0);
        tally.same(case, &of("number"), &[number], &[NumberReply { refusal, place, ..NumberReply::default() }]);
        let mark = border::mark(BOTH, *form, message, list, *offset);
        tally.same(case, &of("mark"), &[mark], &[MarkReply { refusal, place, mark: due.mark }]);
        tally.same(case, &of("text"), &[border::text(BOTH, *form, message, list, *offset)], &[due.text]);
    }

    /// A packet that is refused and leaves all lent memory as it was.
    fn refused_packet(&mut self, case: &dyn Display, what: &str, agreed: u8, packet: &[u8], refusal: u64, place: usize) {
        self.packets += 1;
        let lent = self.bytes.last_mut(packet.len());
        lent.copy_from_slice(packet);
        let reply = border::packet(agreed, lent, &mut self.memory.lent());
        let due = PacketReply { refusal, place: place as u64, ..PacketReply::default() };
        let of = |part: &str| format!("{what}, {part}");
        self.tally.same(case, &of("reply"), &[reply], &[due]);
        self.memory.compare(&self.before, case, &of, &mut self.tally);
    }
}

/// The canonical form of a message whose parts are canonical but for the atom.
fn canonical(spot: &Spot, coding: Coding, text: &[u8]) -> Vec<u8> {
    let text = coding.as_utf8(text);
    let [short, long] = Coding::Utf8.tags();
    let atom = atom(if text.len() <= SHORT_MOST { short } else { long }, &text);
    let second: &[u8] = if spot.terms == 2 { &[VERSION] } else { &[] };
    [&[VERSION], spot.before, second, &atom, spot.after].concat()
}

/// The text as an atom in a spot.
fn try_atom(tester: &mut Tester, case: &Case, form: Form, spot: &Spot, tag: u8) {
    let Case { coding, text, after, fault, .. } = case;
    let atom = [&atom(tag, text), &after[..], spot.after].concat();
    let asked = Asked::atom_after(form, spot.before, &atom, ROWS_LENT);
    let start = asked.offset + atom_head(tag);
    let due = match fault {
        Some(at) => Due::refused(TEXT, start + at),
        None => Due {
            terms: spot.terms,
            rows: spot.rows,
            output: canonical(spot, *coding, text),
            text: TextReply { from: FROM_MESSAGE, start: start as u64, length: text.len() as u64 },
            mark: coding.mark(),
            ..Due::default()
        },
    };
    tester.ask(case, &format!("{}, tag {tag}", spot.name), &asked, &due);
}

/// The text as an atom in every spot, by each tag that can have it.
fn try_atoms(tester: &mut Tester, case: &Case) {
    let [short, long] = case.coding.tags();
    for form in [Form::Standalone, Form::Payload] {
        for spot in SPOTS.iter().filter(|spot| form == Form::Payload || spot.terms == 1) {
            try_atom(tester, case, form, spot, long);
            if case.text.len() <= SHORT_MOST {
                try_atom(tester, case, form, spot, short);
            }
        }
    }
}

/// Two new references, one of them with this text, up to it and what stands after it; and where the text starts.
fn packet_with(opening: &[u8], case: &Case, tried: usize, long_atoms: bool) -> (Vec<u8>, usize) {
    let mut references = PLACES.map(|place| Reference { place, text: Some(GOOD_TEXT) });
    references[tried].text = Some(&case.text);
    let (mut packet, starts) = header(opening, &references, long_atoms);
    let end = starts[tried] + case.text.len();
    packet.splice(end..end, case.after.iter().copied());
    (packet, starts[tried])
}

/// The text as that of a header's first and second reference; a sound one is too long for a place.
fn try_headers(tester: &mut Tester, case: &Case) {
    assert!(case.fault.is_some() || case.text.len() > PLACE_BYTES, "a text that a place holds");
    for (opening, tried) in [PLAIN, START].into_iter().flat_map(|opening| [0, 1].map(|tried| (opening, tried))) {
        for long_atoms in [false, true].into_iter().filter(|long| *long || case.text.len() <= SHORT_MOST) {
            let (packet, start) = packet_with(opening, case, tried, long_atoms);
            let (refusal, place) = case.fault.map_or((LONG_TEXT, tried), |at| (TEXT, start + at));
            let what = format!("131, {}, reference {tried}, LongAtoms {long_atoms}", opening[1]);
            tester.refused_packet(case, &what, case.coding.agreed(), &packet, refusal, place);
        }
    }
}

/// The faults in a lent list: 14 at 0, as the text of an atom and as a word.
fn false_lists(tester: &mut Tester, faults: &[Fault]) {
    for (i, fault) in faults.iter().enumerate() {
        let (index, case) = (i % LIST_PLACES, format!("list, {}", fault.kind));
        let mut list = Places::filled(LIST_PLACES, u16::from(FILL));
        list.put(index, &fault.bytes);
        let list = AtomList { n: LIST_PLACES as u8, places: &list.bytes, lengths: &list.lengths };
        for form in [Form::Standalone, Form::Payload] {
            let atom = [ATOM_CACHE_REF, index as u8];
            let asked = Asked { list, ..Asked::atom_after(form, &ONE_TUPLE, &atom, ROWS_LENT) };
            tester.ask(&case, "in a tuple", &asked, &Due::refused(STATE, 0));
        }
        let word = WordReply { refusal: STATE, ..WordReply::default() };
        tester.tally.same(&case, "word", &[border::word(BOTH, &list, index)], &[word]);
    }
}

/// The faults at a place of the cache: 14 at the reference's number, before and after 5 of a new one.
fn false_caches(tester: &mut Tester, faults: &[Fault]) {
    for fault in faults {
        let case = format!("cache, {}", fault.kind);
        tester.before.cache.put(PLACES[1], &fault.bytes);
        tester.memory = tester.before.clone();
        let cached = Reference { place: PLACES[1], text: None };
        let new = |text| Reference { place: PLACES[0], text: Some(text) };
        let tries: [([Reference; 2], Option<usize>); 4] = [
            ([new(GOOD_TEXT), cached], Some(1)),
            ([cached, new(GOOD_TEXT)], Some(0)),
            ([cached, new(BAD_TEXT)], Some(0)),
            ([new(BAD_TEXT), cached], None),
        ];
        for (opening, (references, state)) in [PLAIN, START].into_iter().flat_map(|opening| tries.map(|tried| (opening, tried))) {
            let (packet, starts) = header(opening, &references, false);
            let (refusal, place) = state.map_or((TEXT, starts[0] + BAD_AT), |number| (STATE, number));
            tester.refused_packet(&case, &format!("131, {}", opening[1]), BOTH, &packet, refusal, place);
        }
    }
    tester.before = Memory::filled(NONE_PENDING);
    tester.memory = tester.before.clone();
}

fn forms_and_tags() -> impl Iterator<Item = (Form, u8)> {
    [Form::Standalone, Form::Payload].into_iter().flat_map(|form| Coding::Utf8.tags().map(|tag| (form, tag)))
}

/// A header's first bytes, and whether its lengths have two bytes.
fn openings_and_widths() -> impl Iterator<Item = (&'static [u8], bool)> {
    [PLAIN, START].into_iter().flat_map(|opening| [false, true].map(|long_atoms| (opening, long_atoms)))
}

/// In terms: 2 before 5, 5 before 8 and before 9. With a sound text the later refusal is given, at the tag.
fn order_in_terms(tester: &mut Tester) {
    let deep = ONE_TUPLE.repeat(DEPTH_MOST);
    let full = [&[LARGE_TUPLE_EXT][..], &(ROWS_MOST as u32).to_be_bytes(), &[NIL_EXT; ROWS_MOST - 1]].concat();
    for (form, tag) in forms_and_tags() {
        let (bad, good) = (atom(tag, BAD_TEXT), atom(tag, GOOD_TEXT));
        let fault = atom_head(tag) + BAD_AT;
        let what = format!("tag {tag}");
        let mut try_order = |case: &str, before: &[u8], atom: &[u8], rows: usize, refusal: u64, past_tag: usize| {
            let asked = Asked::atom_after(form, before, atom, rows);
            let due = Due::refused(refusal, asked.offset + past_tag);
            tester.ask(&case, &what, &asked, &due);
        };
        let longer = atom(tag, &[BAD_TEXT, b"z"].concat());
        try_order("2 before 5", &ONE_TUPLE, &longer[..longer.len() - 1], ROWS_LENT, CUT, 0);
        try_order("5 before 8", &deep, &bad, ROWS_MOST, TEXT, fault);
        try_order("8", &deep, &good, ROWS_MOST, DEPTH, 0);
        try_order("5 before 9", &full, &bad, ROWS_MOST, TEXT, fault);
        try_order("9", &full, &good, ROWS_MOST, ROWS, 0);
        try_order("5 before 9, no row at all", &[], &bad, 0, TEXT, fault);
        try_order("5 before 9, one row", &ONE_TUPLE, &bad, 1, TEXT, fault);
    }
}

/// In a header: 2 before 22 before 5 before 23, each reference in turn, 12 last.
fn order_in_headers(tester: &mut Tester) {
    let long = [b'a'; PLACE_BYTES + 1];
    let long_and_bad = [&long, BAD_TEXT].concat();
    let new = |place: usize, text| Reference { place: PLACES[place], text: Some(text) };
    for (opening, long_atoms) in openings_and_widths() {
        let what = format!("131, {}, LongAtoms {long_atoms}", opening[1]);
        let mut try_order = |case: &str, references: [Reference; 2], less: usize, more: usize, (refusal, number): (u64, usize)| {
            let (mut packet, starts) = header(opening, &references, long_atoms);
            // the bad byte is the last of its text
            let bad = starts[number] + references[number].text.unwrap_or_default().len() - 1;
            packet.truncate(packet.len() - less);
            packet.resize(packet.len() + more, NIL_EXT);
            tester.refused_packet(&case, &what, BOTH, &packet, refusal, if refusal == TEXT { bad } else { number });
        };
        try_order("2 before 22 and 5", [new(0, GOOD_TEXT), new(0, BAD_TEXT)], 1, 0, (CUT, 1));
        try_order("22 before 5", [new(0, GOOD_TEXT), new(0, BAD_TEXT)], 0, 0, (NAMED_AGAIN, 1));
        try_order("22 before 5 and 23", [new(0, GOOD_TEXT), new(0, &long_and_bad)], 0, 0, (NAMED_AGAIN, 1));
        try_order("5 before 23", [new(0, GOOD_TEXT), new(1, &long_and_bad)], 0, 0, (TEXT, 1));
        try_order("23", [new(0, GOOD_TEXT), new(1, &long)], 0, 0, (LONG_TEXT, 1));
        try_order("23 of an earlier one before 5", [new(0, &long), new(1, BAD_TEXT)], 0, 0, (LONG_TEXT, 0));
        try_order("5 of an earlier one before 22", [new(0, BAD_TEXT), new(0, GOOD_TEXT)], 0, 0, (TEXT, 0));
        try_order("5 of an earlier one before 2", [new(0, BAD_TEXT), new(1, GOOD_TEXT)], 1, 0, (TEXT, 0));
        try_order("5 before 12", [new(0, GOOD_TEXT), new(1, BAD_TEXT)], 0, GATHER_BYTES + 1, (TEXT, 1));
    }
}

/// The last of 255 references, behind 128 bytes of flags.
fn last_of_many(tester: &mut Tester) {
    let mut references: Vec<_> = (0..LIST_PLACES).map(|place| Reference { place, text: Some(GOOD_TEXT) }).collect();
    references[LIST_PLACES - 1].text = Some(BAD_TEXT);
    for (opening, long_atoms) in openings_and_widths() {
        let (packet, starts) = header(opening, &references, long_atoms);
        let what = format!("131, {}, LongAtoms {long_atoms}", opening[1]);
        tester.refused_packet(&"the last of 255", &what, BOTH, &packet, TEXT, starts[LIST_PLACES - 1] + BAD_AT);
    }
}

/// An atom at the end of the longest message, behind a binary.
fn last_of_the_longest(tester: &mut Tester) {
    for (form, tag) in forms_and_tags() {
        let atom = atom(tag, BAD_TEXT);
        let head = [SMALL_TUPLE_EXT, 2, BINARY_EXT];
        let room = MESSAGE_MOST - usize::from(form == Form::Standalone) - head.len() - size_of::<u32>() - atom.len();
        let before = [&head[..], &(room as u32).to_be_bytes(), &vec![0; room]].concat();
        let asked = Asked::atom_after(form, &before, &atom, ROWS_LENT);
        tester.ask(&"the longest message", &format!("tag {tag}"), &asked, &Due::refused(TEXT, MESSAGE_MOST - 1));
    }
}

/// A header agreed on Latin-1: bytes that are no UTF-8 are taken, and stored as UTF-8.
fn latin1_taken(tester: &mut Tester) {
    let texts = LATIN1.map(|byte| vec![byte; PLACE_BYTES / 2]);
    for (text, long_atoms) in texts.iter().flat_map(|text| [false, true].map(|long| (text, long))) {
        let case = format!("Latin-1, {text:02x?}, LongAtoms {long_atoms}");
        let stored = Coding::Latin1.as_utf8(text);
        let new = |text| PLACES.map(|place| Reference { place, text: Some(text) });
        let (packet, _) = header(PLAIN, &new(text), long_atoms);
        let mut memory = tester.before.clone();
        let reply = border::packet(Coding::Latin1.agreed(), &packet, &mut memory.lent());
        let due = PacketReply { kind: PACKET_PLAIN, offset: packet.len() as u64, ..PacketReply::default() };
        tester.tally.same(&case, "reply", &[reply], &[due]);
        memory.compare(&tester.before.clone().taking(&new(&stored)), &case, &|part| part.to_string(), &mut tester.tally);
    }
}

/// A payload that comes in two fragments counts from its own first byte, and a text goes on from one to the other.
fn gathered_payload(tester: &mut Tester) {
    let payload = [&ONE_TUPLE[..], &atom(SMALL_ATOM_UTF8_EXT, b"\xE2\x82(")].concat();
    let (first, second) = payload.split_at(payload.len() - 2);
    let mut memory = tester.before.clone();
    for packet in [[START, &[0], first].concat(), [CONTINUATION, second].concat()] {
        let reply = border::packet(BOTH, &packet, &mut memory.lent());
        tester.tally.check(reply.refusal == ACCEPTED, || format!("a fragment: {reply:?}"));
    }
    let bytes = memory.gather[..payload.len()].to_vec();
    let asked = Asked { form: Form::Payload, bytes, list: NO_LIST, offset: ONE_TUPLE.len(), rows: ROWS_LENT };
    tester.ask(&"gathered", "in a tuple", &asked, &Due::refused(TEXT, payload.len() - 1));
}

/// What a text's fault is by how it is built, and what Rust's decoder says.
fn check_built(cases: &[Case], tally: &mut Tally) {
    for case in cases {
        tally.same(case, "Rust's decoder", &[utf8::fault(&case.text)], &[case.fault]);
    }
}

fn main() {
    let mut tester = Tester::new();
    let faults = faults();
    let mut cases = cases_of_faults(&faults);
    cases.extend(cases_of_limits());
    cases.extend(cases_of_lengths());
    check_built(&cases, &mut tester.tally);
    cases.extend(cases_of_latin1());
    for case in &cases {
        try_atoms(&mut tester, case);
        try_headers(&mut tester, case);
    }
    false_lists(&mut tester, &faults);
    false_caches(&mut tester, &faults);
    order_in_terms(&mut tester);
    order_in_headers(&mut tester);
    last_of_many(&mut tester);
    last_of_the_longest(&mut tester);
    latin1_taken(&mut tester);
    gathered_payload(&mut tester);
    let (kinds, all, good) = (faults.len(), cases.len(), cases.iter().filter(|case| case.fault.is_none()).count());
    let Tester { messages, packets, tally: Tally { passed, failed }, .. } = tester;
    print!("bad_bytes: {kinds} faults, {all} texts ({good} good, {} bad), {messages} messages, {packets} refused packets: ", all - good);
    println!("{passed} passed, {failed} failed");
    std::process::exit(i32::from(failed > 0));
}
