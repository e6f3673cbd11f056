//! Reading: "term bytes and an atom list to a flat table of rows", and to the value that is the
//! meaning of each term.

use crate::looks::{Mark, Number, Stretch};
use crate::text::{self, AtomList};
use crate::{refusal, Connection, Refusal, DEPTH_MAX, MESSAGE_MAX, PLACE_BYTES, ROWS_MAX};
use std::collections::BTreeMap;

/// "A standalone term is 131, one term, end. A payload is one or two terms without 131, then end".
#[derive(Clone, Copy, Debug, PartialEq, Eq)]
pub enum Form {
    Standalone,
    Payload,
}

/// A whole number. "High zero digits and the sign of zero carry nothing": `digits` (least first) has
/// no high zero digit, and zero (no digits) is not negative.
#[derive(Clone, Debug, PartialEq, Eq, PartialOrd, Ord)]
pub struct Integer {
    pub negative: bool,
    pub digits: Vec<u8>,
}

impl Integer {
    pub fn new(negative: bool, digits: &[u8]) -> Integer {
        let used = digits.iter().rposition(|digit| *digit != 0).map_or(0, |last| last + 1);
        let digits: Vec<u8> = digits.iter().copied().take(used).collect();
        Integer { negative: negative && !digits.is_empty(), digits }
    }

    pub fn from_i64(value: i64) -> Integer {
        Integer::new(value < 0, &value.unsigned_abs().to_le_bytes())
    }

    /// The number, "where an integer lies in -2^63 .. 2^63-1".
    pub fn to_i64(&self) -> Option<i64> {
        if self.digits.len() > 8 {
            return None;
        }
        let size = self.digits.iter().rev().fold(0i128, |sum, digit| sum * 256 + i128::from(*digit));
        i64::try_from(if self.negative { -size } else { size }).ok()
    }
}

/// What a term means. Two terms mean the same where these values are equal. Their order is ours and never seen.
#[derive(Clone, Debug, PartialEq, Eq, PartialOrd, Ord)]
pub enum Term {
    Integer(Integer),
    /// "The meaning is the 64 bits, so the two zeros differ, and 1.0 is not 1"
    Float(u64),
    /// "Atoms mean their characters, whichever tag."
    Atom(String),
    Tuple(Vec<Term>),
    /// Elements and an improper tail (never a list). No elements: the empty list.
    List(Vec<Term>, Option<Box<Term>>),
    Binary(Vec<u8>),
    /// Bytes (never none), and how many bits of the last one count, 1 to 7; "lower bits carry
    /// nothing" and are zero here.
    Bits(Vec<u8>, u8),
    /// #103: "two maps mean the same when they hold the same pairs, in any order, at any depth"
    Map(BTreeMap<Term, Term>),
    Pid { node: String, id: u32, serial: u32, creation: u32 },
    /// 89, 102 and 120: "same kind as 89"
    Port { node: String, id: u64, creation: u32 },
    /// 90, 114 and 101: "same kind as 90 with one word"
    Reference { node: String, creation: u32, words: Vec<u32> },
    Export { module: String, function: String, arity: u8 },
}

/// The kinds of the row layout (given to this implementation with its task; "The row layout is the
/// team's").
#[derive(Clone, Copy, Debug, PartialEq, Eq)]
pub enum Kind {
    Integer = 1,
    Float = 2,
    Atom = 3,
    Tuple = 4,
    /// a proper list, the empty one too
    List = 5,
    Improper = 6,
    Binary = 7,
    Bitstring = 8,
    Map = 9,
    Pid = 10,
    Port = 11,
    Reference = 12,
    Export = 13,
    /// a character of a 107
    Character = 14,
}

/// One row: "A row stands for each term of the meaning, in reading order, parts after their whole".
#[derive(Clone, Debug, PartialEq, Eq)]
pub struct Row {
    pub kind: Kind,
    /// "the offset of its tag (of a character, its byte's)"
    pub offset: usize,
    /// "the row of its whole, if it has one"
    pub whole: Option<usize>,
    /// how many parts it has that have rows
    pub parts: usize,
    /// how many rows it has with all its parts
    pub rows: usize,
    /// what it answers, asked for its number
    pub number: Number,
    /// of an atom: where its text is, and how it is marked
    pub text: Option<(Stretch, Mark)>,
}

impl Row {
    /// The row as a word: from the lowest bit on 4 bits kind, 16 bits offset, 14 bits row of the
    /// whole plus 1 (0 none), 13 bits number of parts, 14 bits rows of the term with all its parts.
    pub fn word(&self) -> u64 {
        let whole = self.whole.map_or(0, |row| row as u64 + 1);
        (self.kind as u64 & 0xf)
            | (self.offset as u64 & 0xffff) << 4
            | (whole & 0x3fff) << 20
            | (self.parts as u64 & 0x1fff) << 34
            | (self.rows as u64 & 0x3fff) << 47
    }
}

/// An accepted message.
#[derive(Clone, Debug, PartialEq, Eq)]
pub struct Reading {
    pub terms: Vec<Term>,
    pub rows: Vec<Row>,
}

/// Reads a message with room for `rows_lent` rows.
///
/// "Order: 13, then 12 on the term bytes, then byte order"; the connection's 14 between 13 and 12.
pub fn read(
    connection: Connection,
    form: Form,
    message: &[u8],
    list: &AtomList,
    rows_lent: usize,
) -> Result<Reading, Refusal> {
    if !list.is_of_its_stated_size() {
        return Err(refusal(13, 0));
    }
    connection.judge()?;
    // "term, payload or gathered bytes over 65,536"; the 131 counts (OP-01).
    if message.len() > MESSAGE_MAX {
        return Err(refusal(12, 0));
    }
    // "Rows at most 8,192 and at most what the lent table holds."
    let rows_max = rows_lent.min(ROWS_MAX);
    let mut reader = Reader { connection, bytes: message, at: 0, list, rows: Vec::new(), rows_max };
    let mut terms = Vec::new();
    match form {
        Form::Standalone => {
            // 1: "empty, or first byte not 131 (standalone, packet)"
            if message.first() != Some(&131) {
                return Err(refusal(1, 0));
            }
            reader.at = 1;
            terms.push(reader.term(1, None)?);
        }
        Form::Payload => {
            terms.push(reader.term(1, None)?);
            // "two share one table, row numbers running on"; the second starts anew at depth 1.
            if reader.at < message.len() {
                terms.push(reader.term(1, None)?);
            }
        }
    }
    // 10: "bytes left over", at "the first byte left".
    if reader.at < message.len() {
        return Err(refusal(10, reader.at));
    }
    Ok(Reading { terms, rows: reader.rows })
}

/// The reading call: how many terms and how many rows, the table filled. "all past the rows is zero";
/// "A refused reading leaves the lent table all zero".
pub fn read_into(
    connection: Connection,
    form: Form,
    message: &[u8],
    list: &AtomList,
    table: &mut [u64],
) -> Result<(usize, usize), Refusal> {
    let answer = read(connection, form, message, list, table.len());
    table.fill(0);
    let reading = answer?;
    for (word, row) in table.iter_mut().zip(&reading.rows) {
        *word = row.word();
    }
    Ok((reading.terms.len(), reading.rows.len()))
}

/// "All numbers are big-endian except bignum digits."
fn big_endian(bytes: &[u8]) -> u64 {
    bytes.iter().fold(0u64, |sum, byte| sum << 8 | u64::from(*byte))
}

struct Reader<'a> {
    connection: Connection,
    bytes: &'a [u8],
    /// the first byte not yet read
    at: usize,
    list: &'a AtomList<'a>,
    rows: Vec<Row>,
    rows_max: usize,
}

impl<'a> Reader<'a> {
    /// The tag that stands here, not yet passed over; 2 "where it would stand, if missing".
    fn tag(&self) -> Result<u8, Refusal> {
        self.bytes.get(self.at).copied().ok_or(refusal(2, self.at))
    }

    /// The next `count` bytes, fields of the term whose tag is at `tag_at`. 2: "bytes end inside [...]
    /// what is being read", at "the offset of the term's tag".
    fn field(&mut self, tag_at: usize, count: usize) -> Result<&'a [u8], Refusal> {
        let short = refusal(2, tag_at);
        let end = self.at.checked_add(count).ok_or(short)?;
        let bytes = self.bytes.get(self.at..end).ok_or(short)?;
        self.at = end;
        Ok(bytes)
    }

    /// A big-endian number of `count` bytes.
    fn number_field(&mut self, tag_at: usize, count: usize) -> Result<u64, Refusal> {
        Ok(big_endian(self.field(tag_at, count)?))
    }

    /// A length of `width` bytes and that many bytes.
    fn counted_field(&mut self, tag_at: usize, width: usize) -> Result<&'a [u8], Refusal> {
        let count = self.number_field(tag_at, width)?;
        self.field(tag_at, usize::try_from(count).unwrap_or(usize::MAX))
    }

    /// "then 8, then 9", judged at `judged_at`, then the row of a term. Its number of parts and of
    /// rows are made up at `close`.
    fn open(
        &mut self,
        kind: Kind,
        offset: usize,
        judged_at: usize,
        depth: usize,
        whole: Option<usize>,
    ) -> Result<usize, Refusal> {
        // 8: "depth over 64"
        if depth > DEPTH_MAX {
            return Err(refusal(8, judged_at));
        }
        // 9: "no row left"
        if self.rows.len() >= self.rows_max {
            return Err(refusal(9, judged_at));
        }
        self.rows.push(Row { kind, offset, whole, parts: 0, rows: 1, number: Number::Neither, text: None });
        Ok(self.rows.len() - 1)
    }

    /// All parts of this row have been read.
    fn close(&mut self, row: usize, parts: usize) {
        let rows = self.rows.len().saturating_sub(row);
        if let Some(row) = self.rows.get_mut(row) {
            row.parts = parts;
            row.rows = rows;
        }
    }

    /// The row of a term without parts.
    fn leaf(&mut self, kind: Kind, tag_at: usize, depth: usize, whole: Option<usize>) -> Result<usize, Refusal> {
        self.open(kind, tag_at, tag_at, depth, whole)
    }

    fn set_number(&mut self, row: usize, number: Number) {
        if let Some(row) = self.rows.get_mut(row) {
            row.number = number;
        }
    }

    /// One term, with its parts: "its parts are read by the same rules as the whole".
    ///
    /// "In a term: tag (2, 3, or 4 for a part), the fields before its first part [...], then 8, then
    /// 9, then parts, then later fields (2 before 4)."
    fn term(&mut self, depth: usize, whole: Option<usize>) -> Result<Term, Refusal> {
        // "Length 0 means the tail itself (our rule)"; no row "nor has a 108 of length 0: 8 and 9 are
        // judged at what stands in its place". The loop passes over any number of them (OP-09).
        let mut at = self.at;
        let mut tag = self.tag()?;
        let mut list_length = 0;
        while tag == 108 {
            self.at += 1;
            list_length = self.number_field(at, 4)?;
            if list_length > 0 {
                break;
            }
            at = self.at;
            tag = self.tag()?;
        }
        if tag == 108 {
            return self.list(at, list_length, depth, whole);
        }
        self.at += 1;
        match tag {
            // "one unsigned byte; signed 32 bits"
            97 => {
                let value = self.number_field(at, 1)?;
                self.integer(Integer::new(false, &value.to_le_bytes()), at, depth, whole)
            }
            98 => {
                let value = self.number_field(at, 4)? as u32 as i32;
                self.integer(Integer::from_i64(i64::from(value)), at, depth, whole)
            }
            // "n in 1 or 4 bytes, Sign 0 or 1, n digits, least first."
            110 | 111 => {
                let n = self.number_field(at, if tag == 110 { 1 } else { 4 })?;
                let sign = self.number_field(at, 1)?;
                let digits = self.field(at, usize::try_from(n).unwrap_or(usize::MAX))?;
                if sign > 1 {
                    return Err(refusal(4, at));
                }
                self.integer(Integer::new(sign == 1, digits), at, depth, whole)
            }
            // "8 bytes; all-ones exponent refused, 4."
            70 => {
                let bits = self.number_field(at, 8)?;
                if bits >> 52 & 0x7ff == 0x7ff {
                    return Err(refusal(4, at));
                }
                let row = self.leaf(Kind::Float, at, depth, whole)?;
                self.set_number(row, Number::Float(bits));
                Ok(Term::Float(bits))
            }
            82 | 100 | 115 | 118 | 119 => Ok(Term::Atom(self.atom(at, tag, depth, whole)?)),
            // "tuple, arity in 1 or 4 bytes"
            104 | 105 => {
                let arity = self.number_field(at, if tag == 104 { 1 } else { 4 })?;
                let row = self.open(Kind::Tuple, at, at, depth, whole)?;
                let mut elements = Vec::new();
                for _ in 0..arity {
                    elements.push(self.term(depth + 1, Some(row))?);
                }
                self.close(row, elements.len());
                Ok(Term::Tuple(elements))
            }
            // "empty list"
            106 => {
                self.leaf(Kind::List, at, depth, whole)?;
                Ok(Term::List(Vec::new(), None))
            }
            // "2-byte length, that many integers 0..255 as a list; length 0 is the empty list"
            107 => {
                let characters = self.counted_field(at, 2)?;
                let row = self.open(Kind::List, at, at, depth, whole)?;
                let mut elements = Vec::new();
                self.characters(characters, at, depth + 1, row, &mut elements)?;
                self.close(row, elements.len());
                Ok(Term::List(elements, None))
            }
            // "4-byte length, bytes"
            109 => {
                let bytes = self.counted_field(at, 4)?;
                self.leaf(Kind::Binary, at, depth, whole)?;
                Ok(Term::Binary(bytes.to_vec()))
            }
            77 => self.bits(at, depth, whole),
            116 => self.map(at, depth, whole),
            88 | 103 => self.pid(at, tag, depth, whole),
            89 | 102 | 120 => self.port(at, tag, depth, whole),
            90 | 114 => self.reference(at, tag, depth, whole),
            101 => self.old_reference(at, depth, whole),
            113 => self.export(at, depth, whole),
            // 3: "tag not in the table"
            _ => Err(refusal(3, at)),
        }
    }

    /// The row and value of an integer whose fields have been read.
    fn integer(&mut self, value: Integer, at: usize, depth: usize, whole: Option<usize>) -> Result<Term, Refusal> {
        let row = self.leaf(Kind::Integer, at, depth, whole)?;
        if let Some(number) = value.to_i64() {
            self.set_number(row, Number::Whole(number));
        }
        Ok(Term::Integer(value))
    }

    /// The rows of a 107's characters, `characters` being the bytes that end here: 8 and 9 are judged
    /// "for a character of a 107 at that 107's tag".
    fn characters(
        &mut self,
        characters: &[u8],
        tag_at: usize,
        depth: usize,
        whole: usize,
        elements: &mut Vec<Term>,
    ) -> Result<(), Refusal> {
        let first = self.at.saturating_sub(characters.len());
        for (number, character) in characters.iter().enumerate() {
            let row = self.open(Kind::Character, first + number, tag_at, depth, Some(whole))?;
            self.set_number(row, Number::Whole(i64::from(*character)));
            elements.push(Term::Integer(Integer::from_i64(i64::from(*character))));
        }
        Ok(())
    }

    /// "4-byte length, elements, tail. A tail that is a list is joined on." Here the length, over 0,
    /// has been read. A loop, since joined tails add no depth in any number (OP-09).
    fn list(&mut self, at: usize, length: u64, depth: usize, whole: Option<usize>) -> Result<Term, Refusal> {
        let row = self.open(Kind::List, at, at, depth, whole)?;
        let mut elements = Vec::new();
        let mut improper = None;
        let mut left = length;
        loop {
            for _ in 0..left {
                elements.push(self.term(depth + 1, Some(row))?);
            }
            // The tail. "A joined tail or closing empty list has none [no row]".
            let tail_at = self.at;
            match self.tag()? {
                106 => {
                    self.at += 1;
                    break;
                }
                107 => {
                    self.at += 1;
                    let characters = self.counted_field(tail_at, 2)?;
                    self.characters(characters, tail_at, depth + 1, row, &mut elements)?;
                    break;
                }
                108 => {
                    self.at += 1;
                    left = self.number_field(tail_at, 4)?;
                }
                // "an improper tail" is a part with a row of its own.
                _ => {
                    improper = Some(Box::new(self.term(depth + 1, Some(row))?));
                    break;
                }
            }
        }
        self.close(row, elements.len() + usize::from(improper.is_some()));
        if improper.is_some() {
            if let Some(row) = self.rows.get_mut(row) {
                row.kind = Kind::Improper;
            }
        }
        Ok(Term::List(elements, improper))
    }

    /// 77: "4-byte length, Bits, bytes."
    fn bits(&mut self, at: usize, depth: usize, whole: Option<usize>) -> Result<Term, Refusal> {
        let length = self.number_field(at, 4)?;
        let bits = self.number_field(at, 1)?;
        let mut bytes = self.field(at, usize::try_from(length).unwrap_or(usize::MAX))?.to_vec();
        // "At length 0 Bits is 0 and the meaning the empty binary (our rule), else 1..8"
        let allowed = if length == 0 { bits == 0 } else { (1..=8).contains(&bits) };
        if !allowed {
            return Err(refusal(4, at));
        }
        // "Bits 8 is a binary"
        if length == 0 || bits == 8 {
            self.leaf(Kind::Binary, at, depth, whole)?;
            return Ok(Term::Binary(bytes));
        }
        self.leaf(Kind::Bitstring, at, depth, whole)?;
        // "it counts from the top of the last byte, and lower bits carry nothing"
        if let Some(last) = bytes.last_mut() {
            *last &= 0xff << (8 - bits);
        }
        Ok(Term::Bits(bytes, bits as u8))
    }

    /// 116: "4-byte count of pairs; keys distinct in meaning." Rows follow "from the bytes as they came" (#103).
    fn map(&mut self, at: usize, depth: usize, whole: Option<usize>) -> Result<Term, Refusal> {
        let count = self.number_field(at, 4)?;
        let row = self.open(Kind::Map, at, at, depth, whole)?;
        let mut pairs = BTreeMap::new();
        for _ in 0..count {
            // 7: "key equal to an earlier key", at "the later key's first byte" (of a 108 of length 0
            // before it too, OP-04). "Key equality is judged before the value is read."
            let key_at = self.at;
            let key = self.term(depth + 1, Some(row))?;
            // #103: "also given for two map keys that differ only in order", at any depth of the keys (OQ-103-4).
            if pairs.contains_key(&key) {
                return Err(refusal(7, key_at));
            }
            let value = self.term(depth + 1, Some(row))?;
            pairs.insert(key, value);
        }
        self.close(row, 2 * pairs.len());
        Ok(Term::Map(pairs))
    }

    /// An atom whose tag has been passed over: its fields, 8, 9, its row.
    fn atom(&mut self, at: usize, tag: u8, depth: usize, whole: Option<usize>) -> Result<String, Refusal> {
        let (text, stretch, mark) = if tag == 82 {
            // "the atom at that index of the atom list"
            let index = self.number_field(at, 1)? as usize;
            // 6: "reference index not below n"
            if index >= usize::from(self.list.n) {
                return Err(refusal(6, at));
            }
            // 14 in reading terms is at 0 ("otherwise 0").
            let text = text::stored(self.list.texts, self.list.lengths, index).ok_or(refusal(14, 0))?;
            let stretch = Stretch::List { start: index * PLACE_BYTES, length: text.len() };
            (text, stretch, Mark::Utf8)
        } else {
            // "100, 115; 118, 119 | atom, Latin-1; UTF-8 (RFC 3629); length in 2 or 1 bytes"
            let width = if tag == 100 || tag == 118 { 2 } else { 1 };
            let mark = if tag == 100 || tag == 115 { Mark::Latin1 } else { Mark::Utf8 };
            let bytes = self.counted_field(at, width)?;
            let start = self.at.saturating_sub(bytes.len());
            // 5 is at its byte, counted from the message's first (#101, OQ-101-4).
            let text = text::atom_text(bytes, mark == Mark::Utf8).map_err(|bad| refusal(5, start + bad))?;
            (text, Stretch::Message { start, length: bytes.len() }, mark)
        };
        let row = self.leaf(Kind::Atom, at, depth, whole)?;
        if let Some(row) = self.rows.get_mut(row) {
            row.text = Some((stretch, mark));
        }
        Ok(text)
    }

    /// A part that must be an atom: "Node, module and function have tag 82, 100, 115, 118 or 119; any
    /// other tag there [...] known or not, is 4", at that part.
    fn atom_part(&mut self, depth: usize, whole: usize) -> Result<String, Refusal> {
        let at = self.at;
        let tag = self.tag()?;
        if !matches!(tag, 82 | 100 | 115 | 118 | 119) {
            return Err(refusal(4, at));
        }
        self.at += 1;
        self.atom(at, tag, depth, Some(whole))
    }

    /// A Creation, "4 bytes" or one; already there. "A one-byte Creation is at most 3."
    fn creation(bytes: &[u8], tag_at: usize) -> Result<u32, Refusal> {
        let creation = big_endian(bytes) as u32;
        if bytes.len() == 1 && creation > 3 {
            return Err(refusal(4, tag_at));
        }
        Ok(creation)
    }

    /// "node, ID, Serial, Creation (4 bytes; in 103 one). ID under 2^15, Serial under 2^13"; #109: "With
    /// V4_NC on, tag 88 may use all 32 bits of ID and Serial".
    fn pid(&mut self, at: usize, tag: u8, depth: usize, whole: Option<usize>) -> Result<Term, Refusal> {
        let row = self.open(Kind::Pid, at, at, depth, whole)?;
        let node = self.atom_part(depth + 1, row)?;
        // "then later fields (2 before 4)": all there before any is judged (OP-06).
        let id = self.number_field(at, 4)?;
        let serial = self.number_field(at, 4)?;
        let creation = self.field(at, if tag == 88 { 4 } else { 1 })?;
        let wide = tag == 88 && self.connection.is_v4_nc();
        if !wide && (id >= 1 << 15 || serial >= 1 << 13) {
            return Err(refusal(4, at));
        }
        let creation = Reader::creation(creation, at)?;
        self.close(row, 1);
        Ok(Term::Pid { node, id: id as u32, serial: serial as u32, creation })
    }

    /// "node, ID under 2^28, Creation (4 bytes; in 102 one)"; 120: "node, 8-byte ID, 4-byte Creation"
    fn port(&mut self, at: usize, tag: u8, depth: usize, whole: Option<usize>) -> Result<Term, Refusal> {
        let row = self.open(Kind::Port, at, at, depth, whole)?;
        let node = self.atom_part(depth + 1, row)?;
        let id = self.number_field(at, if tag == 120 { 8 } else { 4 })?;
        let creation = self.field(at, if tag == 102 { 1 } else { 4 })?;
        if tag != 120 && id >= 1 << 28 {
            return Err(refusal(4, at));
        }
        let creation = Reader::creation(creation, at)?;
        self.close(row, 1);
        Ok(Term::Port { node, id, creation })
    }

    /// "2-byte word count 1..3, node, Creation (4 bytes; in 114 one), words. In 114 the first word is
    /// under 2^18"; #109: "With V4_NC on, [...] tag 90 up to 5 words". The count is a field before the
    /// first part (OP-12).
    fn reference(&mut self, at: usize, tag: u8, depth: usize, whole: Option<usize>) -> Result<Term, Refusal> {
        let count = self.number_field(at, 2)?;
        let most = if tag == 90 && self.connection.is_v4_nc() { 5 } else { 3 };
        if !(1..=most).contains(&count) {
            return Err(refusal(4, at));
        }
        let row = self.open(Kind::Reference, at, at, depth, whole)?;
        let node = self.atom_part(depth + 1, row)?;
        let creation = self.field(at, if tag == 90 { 4 } else { 1 })?;
        let mut words = Vec::new();
        for _ in 0..count {
            words.push(self.number_field(at, 4)? as u32);
        }
        if tag == 114 && words.first().is_some_and(|word| *word >= 1 << 18) {
            return Err(refusal(4, at));
        }
        let creation = Reader::creation(creation, at)?;
        self.close(row, 1);
        Ok(Term::Reference { node, creation, words })
    }

    /// 101: "node, one word under 2^18, Creation one byte; same kind as 90 with one word"
    fn old_reference(&mut self, at: usize, depth: usize, whole: Option<usize>) -> Result<Term, Refusal> {
        let row = self.open(Kind::Reference, at, at, depth, whole)?;
        let node = self.atom_part(depth + 1, row)?;
        let word = self.number_field(at, 4)?;
        let creation = self.field(at, 1)?;
        if word >= 1 << 18 {
            return Err(refusal(4, at));
        }
        let creation = Reader::creation(creation, at)?;
        self.close(row, 1);
        Ok(Term::Reference { node, creation, words: vec![word as u32] })
    }

    /// 113: "module atom, function atom, arity as a tag 97 term"; "another than 97 for an arity, known
    /// or not, is 4".
    fn export(&mut self, at: usize, depth: usize, whole: Option<usize>) -> Result<Term, Refusal> {
        let row = self.open(Kind::Export, at, at, depth, whole)?;
        let module = self.atom_part(depth + 1, row)?;
        let function = self.atom_part(depth + 1, row)?;
        let arity_at = self.at;
        if self.tag()? != 97 {
            return Err(refusal(4, arity_at));
        }
        self.at += 1;
        let arity = self.number_field(arity_at, 1)? as u8;
        self.integer(Integer::from_i64(i64::from(arity)), arity_at, depth + 1, Some(row))?;
        self.close(row, 3);
        Ok(Term::Export { module, function, arity })
    }
}
