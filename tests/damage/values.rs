//! Made-up values: what a message is to mean, before it is encoded.

use crate::maps;
use crate::random::Random;

/// Without V4_NC, IDs and Serials of pids are below these, and references have so many words at most.
const OLD_IDS: u32 = 1 << 15;
const OLD_SERIALS: u32 = 1 << 13;
const OLD_WORDS: usize = 3;
/// With V4_NC.
const WORDS_MOST: usize = 5;

#[derive(Clone, Debug, PartialEq)]
pub enum Value {
    /// digits least first, none of them a high zero
    Integer {
        negative: bool,
        digits: Vec<u8>,
    },
    Float(u64),
    Atom(String),
    Tuple(Vec<Value>),
    /// elements, and a tail that is no list
    List(Vec<Value>, Option<Box<Value>>),
    /// bytes, and how many bits of the last one count (8: a binary, also for no bytes)
    Bits(Vec<u8>, u8),
    Map(Pairs),
    Pid {
        node: String,
        id: u32,
        serial: u32,
        creation: u32,
    },
    Port {
        node: String,
        id: u64,
        creation: u32,
    },
    Reference {
        node: String,
        creation: u32,
        words: Vec<u32>,
    },
    Export {
        module: String,
        function: String,
        arity: u8,
    },
}

/// The pairs of a map in the order in which they are encoded, which carries nothing.
#[derive(Clone, Debug)]
pub struct Pairs(pub Vec<(Value, Value)>);

impl PartialEq for Pairs {
    /// Each pair is met once in the other map, also where keys are equal.
    fn eq(&self, other: &Pairs) -> bool {
        let mut left: Vec<&(Value, Value)> = other.0.iter().collect();
        let mut meets = |pair| left.iter().position(|own| *own == pair).map(|at| left.swap_remove(at)).is_some();
        self.0.len() == other.0.len() && self.0.iter().all(|pair| meets(pair))
    }
}

impl Pairs {
    pub fn has_key(&self, key: &Value) -> bool {
        self.0.iter().any(|(own, _)| own == key)
    }
}

impl Value {
    fn parts(&self) -> Vec<&Value> {
        match self {
            Value::Tuple(elements) => elements.iter().collect(),
            Value::List(elements, tail) => elements.iter().chain(tail.as_deref()).collect(),
            Value::Map(pairs) => pairs.0.iter().flat_map(|(key, value)| [key, value]).collect(),
            _ => Vec::new(),
        }
    }

    /// Whether it is a pid or reference that is taken with V4_NC alone.
    pub fn is_newer(&self) -> bool {
        match self {
            Value::Pid { id, serial, .. } => *id >= OLD_IDS || *serial >= OLD_SERIALS,
            Value::Reference { words, .. } => words.len() > OLD_WORDS,
            _ => false,
        }
    }

    pub fn depth(&self) -> usize {
        let own = usize::from(self.has_named_parts());
        1 + self.parts().iter().map(|part| part.depth()).max().unwrap_or(own)
    }

    /// Whether it has a node, or a module.
    fn has_named_parts(&self) -> bool {
        matches!(self, Value::Pid { .. } | Value::Port { .. } | Value::Reference { .. } | Value::Export { .. })
    }

    /// How many terms it has: itself, its parts, nodes, and an export's three.
    pub fn rows(&self) -> usize {
        let own = match self {
            Value::Pid { .. } | Value::Port { .. } | Value::Reference { .. } => 2,
            Value::Export { .. } => 4,
            _ => 1,
        };
        own + self.parts().iter().map(|part| part.rows()).sum::<usize>()
    }
}

/// A whole number as a value.
pub fn whole(number: i128) -> Value {
    let mut digits = number.unsigned_abs().to_le_bytes().to_vec();
    while digits.last() == Some(&0) {
        digits.pop();
    }
    Value::Integer { negative: number < 0, digits }
}

/// A number at or beside a place where an encoding ends.
fn integer(r: &mut Random) -> Value {
    let beside = r.between(0, 4) as i128 - 2;
    match r.below(12) {
        0 => whole((1 << 31) + beside),
        1 => whole(-(1 << 31) + beside),
        2 => whole((1 << 63) + beside),
        3 => whole(-(1 << 63) + beside),
        4 => whole((1 << 64) + beside),
        5 => whole(255 + beside),
        6 => whole(i128::from(r.next() as i64) >> r.below(60)),
        7 if r.one_in(10) => large_integer(r),
        _ => whole(r.below(6) as i128 + i128::from(r.byte()) * r.below(2) as i128),
    }
}

/// About 255 digits.
fn large_integer(r: &mut Random) -> Value {
    let count = r.pick(&[9, 20, 254, 255, 256, 257, 300]);
    let mut digits = r.bytes(count);
    digits[count - 1] |= 1;
    Value::Integer { negative: r.one_in(2), digits }
}

fn float(r: &mut Random) -> Value {
    let special = [0, 1 << 63, 0x3ff0 << 48, 0xbff0 << 48, 1, 0x7fef_ffff_ffff_ffff, 0x0010 << 48, 0x7fd0 << 48];
    let bits = if r.one_in(3) { r.next() } else { r.pick(&special) };
    // An exponent of all ones is no float; such bits lose one of it.
    Value::Float(if bits >> 52 & 0x7ff == 0x7ff { bits ^ 1 << 60 } else { bits })
}

/// A text of few characters, or of about as many characters or bytes as a limit says.
pub fn text(r: &mut Random) -> String {
    let characters = ['a', 'b', '\0', '\u{7f}', '\u{80}', '\u{e9}', '\u{ff}', '\u{100}', '\u{20ac}', '\u{ffff}', '\u{1f600}', '\u{10ffff}'];
    let count = match r.below(100) {
        0 => r.pick(&[84, 85, 86, 127, 128, 254, 255]),
        1..=4 => r.between(7, 33),
        _ => r.below(4),
    };
    let latin1 = r.one_in(2);
    let usable = if latin1 { 7 } else { characters.len() };
    if count > 33 && r.one_in(2) {
        return String::from(r.pick(&characters[..usable])).repeat(count);
    }
    (0..count).map(|_| r.pick(&characters[..usable])).collect()
}

pub fn atom_text(r: &mut Random, texts: &[String]) -> String {
    if texts.is_empty() || r.one_in(3) {
        return text(r);
    }
    texts[r.below(texts.len())].clone()
}

fn bits(r: &mut Random) -> Value {
    let count = if r.one_in(50) { r.between(200, 300) } else { r.below(5) };
    let mut bytes = r.bytes(count);
    let mut kept = if count == 0 || r.one_in(2) { 8 } else { r.between(1, 8) as u8 };
    if let Some(last) = bytes.last_mut() {
        *last &= 0xff << (8 - kept);
    } else {
        kept = 8;
    }
    Value::Bits(bytes, kept)
}

/// A number under `end`, often the last or the first.
fn under(r: &mut Random, end: u64) -> u64 {
    match r.below(4) {
        0 => end - 1,
        1 => r.below(3) as u64,
        _ => r.next() % end,
    }
}

fn creation(r: &mut Random) -> u32 {
    if r.one_in(2) {
        r.below(4) as u32
    } else {
        under(r, 1 << 32) as u32
    }
}

/// A number of 32 bits at an end that some tag has for it, beside one, or any.
pub fn around(r: &mut Random) -> u32 {
    let end = 1 << r.pick(&[13, 15, 16, 18, 28, 31]);
    match r.below(8) {
        0 => u32::MAX - r.below(2) as u32,
        1 => r.below(3) as u32,
        2 => r.next() as u32,
        _ => end + r.below(3) as u32 - 1,
    }
}

/// A pid; one in three is wide in its ID or in its Serial.
fn pid(r: &mut Random, node: String) -> Value {
    let (mut id, mut serial) = (under(r, OLD_IDS.into()) as u32, under(r, OLD_SERIALS.into()) as u32);
    match r.below(6) {
        0 => id = around(r),
        1 => serial = around(r),
        _ => (),
    }
    Value::Pid { node, id, serial, creation: creation(r) }
}

fn identifier(r: &mut Random, texts: &[String]) -> Value {
    let node = atom_text(r, texts);
    match r.below(4) {
        0 => pid(r, node),
        1 => {
            let id = if r.one_in(3) { r.next() >> r.below(40) } else { under(r, 1 << 28) };
            Value::Port { node, id, creation: creation(r) }
        }
        2 => {
            let most = if r.one_in(3) { WORDS_MOST } else { OLD_WORDS };
            let mut words: Vec<u32> = (0..r.between(1, most)).map(|_| under(r, 1 << 32) as u32).collect();
            if r.one_in(2) {
                words[0] = under(r, 1 << 18) as u32;
            }
            Value::Reference { node, creation: creation(r), words }
        }
        _ => Value::Export { module: node, function: atom_text(r, texts), arity: r.byte() },
    }
}

fn leaf(r: &mut Random, texts: &[String]) -> Value {
    match r.below(8) {
        0..=2 => integer(r),
        3 => float(r),
        4 | 5 => Value::Atom(atom_text(r, texts)),
        6 => bits(r),
        _ => identifier(r, texts),
    }
}

/// A few elements, all of them small integers often.
fn elements(r: &mut Random, texts: &[String], size: usize) -> Vec<Value> {
    let count = r.below(size.min(8) + 1);
    if r.one_in(3) {
        return (0..count).map(|_| whole(r.byte().into())).collect();
    }
    (0..count).map(|_| value(r, texts, size / (count + 1))).collect()
}

fn list(r: &mut Random, texts: &[String], size: usize) -> Value {
    let elements = elements(r, texts, size);
    if elements.is_empty() || !r.one_in(4) {
        return Value::List(elements, None);
    }
    let tail = leaf(r, texts);
    Value::List(elements, Some(Box::new(tail)))
}

/// A pid among few that differ in one high bit.
fn pid_key(r: &mut Random) -> Value {
    let mut high = || r.pick(&[0, 0, 0, 1 << 13, 1 << 15, 1 << 16, 1 << 31]);
    Value::Pid { node: String::new(), id: 1 + high(), serial: high(), creation: 0 }
}

/// A reference among few that differ in their last word, or in how many they have.
fn reference_key(r: &mut Random) -> Value {
    let mut words = vec![0; r.between(1, WORDS_MOST - 1)];
    words.push(r.pick(&[0, 1, 1 << 16, 1 << 31]));
    Value::Reference { node: String::new(), creation: 0, words }
}

/// A map whose keys are such pids or references, alone or in tuples.
pub fn identifier_keys(r: &mut Random) -> Value {
    let make = r.pick(&[pid_key, reference_key]);
    let in_tuples = r.one_in(3);
    let mut pairs = Pairs(Vec::new());
    for i in 0..r.between(2, 8) {
        let key = if in_tuples { Value::Tuple(vec![whole(5), make(r)]) } else { make(r) };
        if !pairs.has_key(&key) || r.one_in(20) {
            pairs.0.push((key, whole(i as i128)));
        }
    }
    Value::Map(pairs)
}

/// A key: from few values, so that equal ones and nearly equal ones meet.
pub fn key(r: &mut Random, texts: &[String], size: usize) -> Value {
    let word = |r: &mut Random| r.below(2) as u32;
    match r.below(11) {
        0 => whole(r.below(3) as i128),
        1 => Value::Float(r.pick(&[0, 1 << 63, 0x3ff0 << 48])),
        2 => Value::Bits(vec![0x80; r.below(2)], 8),
        3 => Value::Bits(vec![0x80], r.between(1, 2) as u8),
        4 => Value::List(vec![whole(r.below(2) as i128); r.below(3)], None),
        5 => Value::Tuple(vec![whole(r.below(2) as i128); r.below(3)]),
        6 => Value::Reference { node: String::new(), creation: word(r), words: vec![word(r); r.between(1, 3)] },
        7 => Value::Port { node: "a".into(), id: r.below(2) as u64, creation: word(r) },
        8 => pid_key(r),
        9 => reference_key(r),
        _ => value(r, texts, size),
    }
}

/// Pairs, now and then with a key that an earlier one equals, its maps in other orders.
fn map(r: &mut Random, texts: &[String], size: usize) -> Value {
    let count = r.below(size.min(5) + 1);
    let mut pairs = Pairs(Vec::new());
    for _ in 0..count {
        let mut new = key(r, texts, size / (count + 1));
        if pairs.has_key(&new) && !r.one_in(20) {
            continue;
        }
        if !pairs.0.is_empty() && r.one_in(30) {
            let earlier = r.below(pairs.0.len());
            new = maps::turned(r, &pairs.0[earlier].0);
        }
        let value = value(r, texts, size / (count + 1));
        pairs.0.push((new, value));
    }
    Value::Map(pairs)
}

/// A value of about `size` terms at most.
pub fn value(r: &mut Random, texts: &[String], size: usize) -> Value {
    if size <= 1 || r.one_in(5) {
        return leaf(r, texts);
    }
    match r.below(5) {
        0 | 1 => Value::Tuple(elements(r, texts, size)),
        2 | 3 => list(r, texts, size),
        _ => map(r, texts, size),
    }
}

/// A part put `levels` deep into tuples, into maps of two pairs, or into tuples, lists, tails and maps.
pub fn nested(r: &mut Random, inmost: Value, levels: usize) -> Value {
    let sort = r.below(5);
    let map = |pairs: &[(&Value, &Value)]| Value::Map(Pairs(pairs.iter().map(|(key, value)| ((*key).clone(), (*value).clone())).collect()));
    // An atom that no value has.
    let (beside, two) = (Value::Atom("beside".into()), whole(2));
    let mut value = inmost;
    for _ in 0..levels {
        let layer = match sort {
            0 | 1 => 0,
            2 => r.between(6, 8),
            _ => r.below(10),
        };
        value = match layer {
            0 | 1 => Value::Tuple(vec![value]),
            2 => Value::List(vec![value], None),
            3 if !matches!(value, Value::List(..)) => Value::List(vec![whole(1)], Some(Box::new(value))),
            4 => map(&[(&value, &two)]),
            5 => map(&[(&two, &value)]),
            6 => map(&[(&value, &two), (&beside, &two)]),
            7 => map(&[(&beside, &two), (&value, &two)]),
            8 => map(&[(&beside, &value), (&two, &two)]),
            _ => Value::Tuple(vec![whole(300), value]),
        };
    }
    value
}
