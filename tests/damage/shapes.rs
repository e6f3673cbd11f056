//! Messages at the ends of the limits: depth, rows, bytes, keys, long texts.

use crate::generate::{Encoded, Encoder, Role};
use crate::random::Random;
use crate::values::{self, Value};

const MESSAGE_MOST: usize = 65_536;
pub const ROWS_MOST: usize = 8_192;

/// A number at an end, one or two before or after it.
fn about(r: &mut Random, end: usize) -> usize {
    end + r.below(5) - 2
}

/// Nested about 64 deep, with something of every sort at the bottom.
pub fn deep(r: &mut Random, texts: &[String]) -> Encoded {
    let inmost = values::value(r, texts, 4);
    let levels = r.between(60, 66);
    let value = values::nested(r, inmost, levels);
    encoded(r, texts, &value)
}

pub fn encoded(r: &mut Random, texts: &[String], value: &Value) -> Encoded {
    let mut encoder = Encoder { out: Encoded::default(), r, texts };
    encoder.term(value);
    encoder.out
}

/// A tag and a length in 4 bytes.
fn counted(tag: u8, count: usize) -> Encoded {
    let mut out = Encoded::default();
    out.tag(tag);
    out.number(Role::Length, count as u64, 4);
    out
}

/// About 8,192 rows: a tuple, a list, a 107, joined lists; what it is made of is the same all through.
pub fn many_rows(r: &mut Random) -> Encoded {
    let count = about(r, ROWS_MOST) - 1;
    let element: &[u8] = r.pick(&[&[97, 7], &[106], &[119, 0], &[98, 0, 0, 1, 0], &[109, 0, 0, 0, 0], &[104, 0]]);
    match r.below(4) {
        0 => {
            let mut out = counted(105, count);
            out.bytes.extend(element.repeat(count));
            out
        }
        1 => {
            let mut out = counted(108, count);
            out.bytes.extend(element.repeat(count));
            out.bytes.push(r.pick(&[106, 106, 97]));
            out.bytes.extend(&[5]);
            out
        }
        2 => characters(count),
        _ => joined(r, count),
    }
}

fn characters(count: usize) -> Encoded {
    let mut out = Encoded::default();
    out.tag(107);
    out.number(Role::Length, count as u64, 2);
    out.bytes.extend((0..count).map(|i| i as u8));
    out
}

/// Lists of one element, each the tail of the one before, the last tail a 107.
fn joined(r: &mut Random, count: usize) -> Encoded {
    let links = r.below(count);
    let mut out = Encoded { bytes: [108, 0, 0, 0, 1, 106].repeat(links), ..Encoded::default() };
    out.append(&characters(count - links));
    out
}

/// As many pairs as there may be rows for, or some more.
pub fn most_keys(r: &mut Random) -> Encoded {
    let most = about(r, ROWS_MOST / 2 - 1);
    let count = r.pick(&[most, most, ROWS_MOST]);
    keys(r, count)
}

/// Some hundreds of pairs.
pub fn many_keys(r: &mut Random) -> Encoded {
    let count = r.between(100, 600);
    keys(r, count)
}

/// Pairs with integers as keys, rising, falling or mixed; often one of the last equals another, in another encoding.
fn keys(r: &mut Random, count: usize) -> Encoded {
    let mut out = counted(116, count);
    let equal = if r.one_in(2) { count - 1 - r.below(3) } else { count };
    let order = r.below(3);
    for i in 0..count {
        let number = if i == equal { i / 2 } else { i };
        // Each number below 65,536 is met once: 40,503 is odd.
        let key = [number, count - number, number * 40_503 % 65_536][order] as u64;
        if i == equal || r.one_in(8) {
            out.bytes.extend([111, 0, 0, 0, 3, 0, key as u8, (key >> 8) as u8, 0]);
        } else {
            out.bytes.push(98);
            out.bytes.extend((key as u32).to_be_bytes());
        }
        out.bytes.push(106);
    }
    out
}

/// What the keys of a map are: tuples with a number, or identifiers that differ in their highest bits or last word alone.
#[derive(Clone, Copy)]
enum Keys {
    Tuples,
    Ids,
    Serials,
    Words,
}

/// The key of a number below 64.
fn numbered(keys: Keys, number: u32) -> Value {
    let (node, high) = (String::from("k"), number << 26);
    match keys {
        Keys::Tuples => Value::Tuple(vec![Value::Atom(node), values::whole(number.into())]),
        Keys::Ids => Value::Pid { node, id: high, serial: 0, creation: 1 },
        Keys::Serials => Value::Pid { node, id: 0, serial: high, creation: 1 },
        Keys::Words => Value::Reference { node, creation: 1, words: vec![7, 7, 7, 7, number] },
    }
}

/// Some tens of pairs, their keys in all encodings.
pub fn some_keys(r: &mut Random, texts: &[String]) -> Encoded {
    let count = r.between(10, 60);
    let equal = if r.one_in(2) { r.between(1, count - 1) } else { count };
    let keys = r.pick(&[Keys::Tuples, Keys::Ids, Keys::Serials, Keys::Words]);
    let mut out = counted(116, count);
    for i in 0..count {
        let number = if i == equal { r.below(i) } else { i } as u32;
        out.append(&encoded(r, texts, &numbered(keys, number)));
        out.append(&encoded(r, texts, &values::whole(number.into())));
    }
    out
}

/// About 65,536 bytes, `before` of them before the term: a binary, a bit string, a number, lists of length 0, a text cut off.
pub fn many_bytes(r: &mut Random, before: usize) -> Encoded {
    let size = about(r, MESSAGE_MOST).saturating_sub(before).max(40);
    match r.below(5) {
        0 => filled(109, size - 5, &[]),
        1 => filled(77, size - 6, &[r.between(1, 8) as u8]),
        2 => filled(111, size - 6, &[1]),
        3 => {
            let mut out = Encoded { bytes: [108, 0, 0, 0, 0].repeat(size / 5), ..Encoded::default() };
            out.append(&filled(r.pick(&[106, 3]), size % 5, &[]));
            out.bytes.truncate(size);
            out
        }
        _ => {
            let mut out = counted(105, 2);
            out.append(&filled(109, size / 2, &[]));
            let left = size - out.bytes.len() - 5;
            out.append(&filled(109, left, &[]));
            out
        }
    }
}

/// A tag, a length, a field, and as many bytes as the length says.
fn filled(tag: u8, count: usize, field: &[u8]) -> Encoded {
    let mut out = counted(tag, count);
    out.bytes.extend_from_slice(field);
    out.bytes.extend((0..count).map(|i| (i * 7) as u8 | 1));
    out
}

/// An atom of about 255 characters of 1 to 4 bytes each, or with a length of two bytes and more characters.
pub fn long_atom(r: &mut Random) -> Encoded {
    let character = r.pick(&['a', '\u{e9}', '\u{20ac}', '\u{1f600}']);
    let text = String::from(character).repeat(r.pick(&[63, 64, 127, 128, 254, 255, 255, 255, 256, 257, 300]));
    let mut out = Encoded::default();
    let latin1 = crate::generate::latin1(&text).filter(|_| r.one_in(2));
    out.tag(if latin1.is_some() { 100 } else { 118 });
    let bytes = latin1.unwrap_or(text.into_bytes());
    out.number(Role::Length, bytes.len() as u64, 2);
    out.text(&bytes);
    out
}

/// A tuple of about 255 elements.
pub fn wide(r: &mut Random, texts: &[String]) -> Encoded {
    let count = about(r, 255);
    let element = values::value(r, texts, 1);
    let elements = vec![element; count];
    let value = if r.one_in(2) { Value::Tuple(elements) } else { Value::List(elements, None) };
    encoded(r, texts, &value)
}

/// Atoms that are longer in the canonical form, so that it may be longer than a message can be.
pub fn growing(r: &mut Random, texts: &[String]) -> Encoded {
    let mut atom = [vec![115, 255], vec![0xe9; 255]].concat();
    let mut count = r.between(200, 254);
    if !texts.is_empty() && r.one_in(2) {
        atom = vec![82, r.below(texts.len()) as u8];
        count = r.between(1_000, ROWS_MOST);
    }
    let mut out = counted(105, count);
    out.bytes.extend(atom.repeat(count));
    out
}
