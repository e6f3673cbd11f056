//! Values encoded as the papers lay them out, in every encoding that the format has for them, chosen at random.

use crate::random::Random;
use crate::values::{Pairs, Value};

/// What stands at a place of a message, for those who damage it.
#[derive(Clone, Copy, Debug, PartialEq)]
pub enum Role {
    Tag,
    /// a length or count
    Length,
    /// of the atom list
    Index,
    /// a field with a rule
    Field,
    /// a byte of a text
    Text,
}

#[derive(Clone, Copy, Debug)]
pub struct Mark {
    pub role: Role,
    pub at: usize,
    pub width: usize,
}

/// What a message is refused for, and where.
#[derive(Clone, Copy, Debug, PartialEq)]
pub enum Fault {
    /// an identifier that is taken with V4_NC alone
    Newer(usize),
    /// a key that an earlier one equals
    EqualKey(usize),
}

#[derive(Clone, Debug, Default)]
pub struct Encoded {
    pub bytes: Vec<u8>,
    pub marks: Vec<Mark>,
    /// in the order in which reading meets them
    pub faults: Vec<Fault>,
}

impl Encoded {
    /// A big-endian number of `width` bytes.
    pub fn number(&mut self, role: Role, value: u64, width: usize) {
        self.marks.push(Mark { role, at: self.bytes.len(), width });
        self.bytes.extend_from_slice(&value.to_be_bytes()[8 - width..]);
    }

    pub fn tag(&mut self, tag: u8) {
        self.number(Role::Tag, tag.into(), 1);
    }

    pub fn text(&mut self, text: &[u8]) {
        if !text.is_empty() {
            self.marks.push(Mark { role: Role::Text, at: self.bytes.len(), width: text.len() });
        }
        self.bytes.extend_from_slice(text);
    }

    /// Another one's bytes and marks, after these.
    pub fn append(&mut self, other: &Encoded) {
        let start = self.bytes.len();
        self.bytes.extend_from_slice(&other.bytes);
        self.marks.extend(other.marks.iter().map(|mark| Mark { at: mark.at + start, ..*mark }));
        self.faults.extend(other.faults.iter().map(|fault| match fault {
            Fault::Newer(at) => Fault::Newer(at + start),
            Fault::EqualKey(at) => Fault::EqualKey(at + start),
        }));
    }
}

/// The bytes of a text in Latin-1, if it has only such characters.
pub fn latin1(text: &str) -> Option<Vec<u8>> {
    text.chars().map(|character| u8::try_from(u32::from(character)).ok()).collect()
}

pub struct Encoder<'a> {
    pub out: Encoded,
    pub r: &'a mut Random,
    /// the atom list's texts
    pub texts: &'a [String],
}

impl Encoder<'_> {
    /// One term; a 108 of length 0 may stand before it, or several.
    pub fn term(&mut self, value: &Value) {
        while self.r.one_in(60) {
            self.out.tag(108);
            self.out.number(Role::Length, 0, 4);
        }
        match value {
            Value::Integer { negative, digits } => self.integer(*negative, digits),
            Value::Float(bits) => {
                self.out.tag(70);
                self.out.number(Role::Field, *bits, 8);
            }
            Value::Atom(text) => self.atom(text),
            Value::Tuple(elements) => self.tuple(elements),
            Value::List(elements, tail) => self.list(elements, tail.as_deref()),
            Value::Bits(bytes, kept) => self.bits(bytes, *kept),
            Value::Map(Pairs(pairs)) => self.map(pairs),
            _ => self.identifier(value),
        }
    }

    /// 97 and 98 where it fits; 110 and 111, often with high zero digits, zero with any sign.
    fn integer(&mut self, negative: bool, digits: &[u8]) {
        let mut size = [0; 16];
        let small = digits.len() <= 8;
        if small {
            size[..digits.len()].copy_from_slice(digits);
        }
        let number = i128::from_le_bytes(size) * if negative { -1 } else { 1 };
        match self.r.below(4) {
            0 | 1 if small && (0..256).contains(&number) => {
                self.out.tag(97);
                self.out.number(Role::Field, number as u64, 1);
            }
            0..=2 if small && i32::try_from(number).is_ok() => {
                self.out.tag(98);
                self.out.number(Role::Field, number as u64 & 0xffff_ffff, 4);
            }
            _ => self.bignum(negative, digits),
        }
    }

    fn bignum(&mut self, negative: bool, digits: &[u8]) {
        let zeros = if self.r.one_in(2) { 0 } else { self.r.below(4) };
        let count = digits.len() + zeros;
        let wide = count > 255 || self.r.one_in(3);
        self.out.tag(if wide { 111 } else { 110 });
        self.out.number(Role::Length, count as u64, if wide { 4 } else { 1 });
        let sign = if digits.is_empty() { self.r.one_in(2) } else { negative };
        self.out.number(Role::Field, sign.into(), 1);
        self.out.bytes.extend_from_slice(digits);
        self.out.bytes.resize(self.out.bytes.len() + zeros, 0);
    }

    /// By reference where the list has the text; else in one of the four tags.
    fn atom(&mut self, text: &str) {
        let first = self.r.below(self.texts.len().max(1));
        let mut indices = (first..self.texts.len()).chain(0..first);
        let index = indices.find(|index| self.texts[*index] == text);
        if let (Some(index), true) = (index, !self.r.one_in(4)) {
            self.out.tag(82);
            return self.out.number(Role::Index, index as u64, 1);
        }
        let latin1 = latin1(text).filter(|_| self.r.one_in(2));
        let bytes = latin1.as_deref().unwrap_or(text.as_bytes());
        let wide = bytes.len() > 255 || self.r.one_in(2);
        let tag = match (latin1.is_some(), wide) {
            (true, true) => 100,
            (true, false) => 115,
            (false, true) => 118,
            (false, false) => 119,
        };
        self.out.tag(tag);
        self.out.number(Role::Length, bytes.len() as u64, if wide { 2 } else { 1 });
        self.out.text(bytes);
    }

    fn tuple(&mut self, elements: &[Value]) {
        let wide = elements.len() > 255 || self.r.one_in(3);
        self.out.tag(if wide { 105 } else { 104 });
        self.out.number(Role::Length, elements.len() as u64, if wide { 4 } else { 1 });
        elements.iter().for_each(|element| self.term(element));
    }

    /// The empty list: 106, or a 107 of length 0.
    fn nil(&mut self) {
        if self.r.one_in(6) {
            self.characters(&[]);
        } else {
            self.out.tag(106);
        }
    }

    fn characters(&mut self, bytes: &[u8]) {
        self.out.tag(107);
        self.out.number(Role::Length, bytes.len() as u64, 2);
        self.out.bytes.extend_from_slice(bytes);
    }

    /// 106; a 107; 108s joined by their tails, the last of which may be a 107.
    fn list(&mut self, elements: &[Value], tail: Option<&Value>) {
        if elements.is_empty() {
            return self.nil();
        }
        let mut rest = elements;
        while !rest.is_empty() {
            let bytes: Option<Vec<u8>> = rest.iter().map(byte).collect();
            if let (Some(bytes), None, true) = (bytes, tail, self.r.one_in(2)) {
                return self.characters(&bytes);
            }
            let whole = self.r.below(3) > 0;
            let count = if whole { rest.len() } else { self.r.between(1, rest.len()) };
            self.out.tag(108);
            self.out.number(Role::Length, count as u64, 4);
            rest[..count].iter().for_each(|element| self.term(element));
            rest = &rest[count..];
        }
        match tail {
            None => self.nil(),
            Some(tail) => self.term(tail),
        }
    }

    /// A key is judged after its parts and before its value.
    fn map(&mut self, pairs: &[(Value, Value)]) {
        self.out.tag(116);
        self.out.number(Role::Length, pairs.len() as u64, 4);
        for (i, (key, value)) in pairs.iter().enumerate() {
            let at = self.out.bytes.len();
            self.term(key);
            if pairs[..i].iter().any(|(earlier, _)| earlier == key) {
                self.out.faults.push(Fault::EqualKey(at));
            }
            self.term(value);
        }
    }

    /// 109 or a 77 of 8 bits for a binary; a 77 with any low bits for others.
    fn bits(&mut self, bytes: &[u8], kept: u8) {
        let length = bytes.len() as u64;
        if kept == 8 && !self.r.one_in(3) {
            self.out.tag(109);
            self.out.number(Role::Length, length, 4);
            return self.out.bytes.extend_from_slice(bytes);
        }
        self.out.tag(77);
        self.out.number(Role::Length, length, 4);
        self.out.number(Role::Field, if bytes.is_empty() { 0 } else { kept.into() }, 1);
        self.out.bytes.extend_from_slice(bytes);
        let low = u32::from(self.r.byte()) & ((1 << (8 - kept)) - 1);
        if let (Some(last), false) = (self.out.bytes.last_mut(), bytes.is_empty()) {
            *last |= low as u8;
        }
    }

    /// A tag, the word count of a reference, a node.
    fn identified(&mut self, tag: u8, count: Option<usize>, node: &str) {
        self.out.tag(tag);
        if let Some(count) = count {
            self.out.number(Role::Length, count as u64, 2);
        }
        self.atom(node);
    }

    fn fields(&mut self, fields: &[(u64, usize)]) {
        fields.iter().for_each(|(value, width)| self.out.number(Role::Field, *value, *width));
    }

    /// Pids, ports, references, exports: old layouts where the fields are small enough.
    fn identifier(&mut self, value: &Value) {
        let old = self.r.one_in(2) && !value.is_newer();
        if value.is_newer() {
            self.out.faults.push(Fault::Newer(self.out.bytes.len()));
        }
        match value {
            Value::Pid { node, id, serial, creation } => {
                let old = old && *creation < 4;
                self.identified(if old { 103 } else { 88 }, None, node);
                let width = if old { 1 } else { 4 };
                self.fields(&[((*id).into(), 4), ((*serial).into(), 4), ((*creation).into(), width)]);
            }
            Value::Port { node, id, creation } => self.port(node, *id, (*creation).into(), old),
            Value::Reference { node, creation, words } => self.reference(node, (*creation).into(), words, old),
            Value::Export { module, function, arity } => {
                self.identified(113, None, module);
                self.atom(function);
                self.out.tag(97);
                self.out.number(Role::Field, (*arity).into(), 1);
            }
            _ => unreachable!("no identifier"),
        }
    }

    fn port(&mut self, node: &str, id: u64, creation: u64, old: bool) {
        let (tag, id_width, width) = match id < 1 << 28 {
            true if old && creation < 4 => (102, 4, 1),
            true if self.r.one_in(2) => (89, 4, 4),
            _ => (120, 8, 4),
        };
        self.identified(tag, None, node);
        self.fields(&[(id, id_width), (creation, width)]);
    }

    fn reference(&mut self, node: &str, creation: u64, words: &[u32], old: bool) {
        let old = old && creation < 4 && words[0] < 1 << 18;
        if old && words.len() == 1 && self.r.one_in(2) {
            self.identified(101, None, node);
            return self.fields(&[(words[0].into(), 4), (creation, 1)]);
        }
        self.identified(if old { 114 } else { 90 }, Some(words.len()), node);
        self.fields(&[(creation, if old { 1 } else { 4 })]);
        words.iter().for_each(|word| self.fields(&[((*word).into(), 4)]));
    }
}

/// The byte that a small integer is.
fn byte(value: &Value) -> Option<u8> {
    match value {
        Value::Integer { negative: false, digits } if digits.is_empty() => Some(0),
        Value::Integer { negative: false, digits } if digits.len() == 1 => Some(digits[0]),
        _ => None,
    }
}
