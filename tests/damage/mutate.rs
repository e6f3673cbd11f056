//! Damage to messages and packets: cut, flipped, spliced, and tags, lengths, indices, fields and texts changed where they stand.

use crate::generate::{Encoded, Mark, Role};
use crate::random::Random;
use crate::{shapes, values};

/// Every tag of the format, those that are refused among them.
const TAGS: [u8; 36] = [
    97, 98, 110, 111, 70, 100, 115, 118, 119, 82, 104, 105, 106, 107, 108, 109, 77, 116, 88, 103, 89, 102, 120, 90, 114, 101, 113, 67, 78,
    80, 99, 112, 117, 131, 0, 255,
];

/// Bytes that break a text in UTF-8, each by another rule.
const NO_TEXT: [&[u8]; 8] = [
    &[0xff],
    &[0x80],
    &[0xc0, 0x80],
    &[0xc3],
    &[0xe0, 0x80, 0x80],
    &[0xed, 0xa0, 0x80],
    &[0xf0, 0x80, 0x80, 0x80],
    &[0xf4, 0x90, 0x80, 0x80],
];

/// One to three changes.
pub fn damage(r: &mut Random, message: &mut Encoded) {
    let changes = if r.one_in(3) { r.between(2, 3) } else { 1 };
    for _ in 0..changes {
        if r.one_in(2) && change_at_mark(r, message) {
            continue;
        }
        match r.below(7) {
            0 => cut(r, message),
            1 => flip(r, &mut message.bytes),
            2 => set(r, &mut message.bytes),
            3 => splice(r, &mut message.bytes),
            4 => insert(r, &mut message.bytes),
            5 => remove(r, &mut message.bytes),
            _ => append(r, &mut message.bytes),
        }
    }
}

/// Changes what stands at one of the marks; false where there is none.
pub fn change_at_mark(r: &mut Random, message: &mut Encoded) -> bool {
    if message.marks.is_empty() {
        return false;
    }
    let mark = message.marks[r.below(message.marks.len())];
    let Some(bytes) = message.bytes.get_mut(mark.at..mark.at + mark.width) else {
        return false;
    };
    match mark.role {
        Role::Tag => bytes[0] = r.pick(&TAGS),
        Role::Length => change_length(r, bytes),
        Role::Index => bytes[0] = bytes[0].wrapping_add(r.pick(&[1, 2, 3, 255, 128])),
        Role::Field => change_field(r, bytes),
        Role::Text => spoil_text(r, bytes),
    }
    true
}

/// One more, one fewer, none, as many as there can be, any number.
fn change_length(r: &mut Random, bytes: &mut [u8]) {
    let last = bytes.len() - 1;
    match r.below(6) {
        0 | 1 => bytes[last] = bytes[last].wrapping_add(1),
        2 => bytes[last] = bytes[last].wrapping_sub(1),
        3 => bytes.fill(0),
        4 => bytes.fill(255),
        _ => bytes[last] = r.byte(),
    }
}

/// All ones, a top bit, an exponent of all ones, any byte.
fn change_field(r: &mut Random, bytes: &mut [u8]) {
    let at = r.below(bytes.len());
    match r.below(5) {
        0 => bytes.fill(255),
        1 => bytes[0] |= 0x7f,
        2 if bytes.len() == 8 => bytes[..2].copy_from_slice(&[0x7f, 0xf0]),
        3 => bytes[at] ^= 1 << r.below(8),
        _ => bytes[at] = r.byte(),
    }
}

fn spoil_text(r: &mut Random, bytes: &mut [u8]) {
    let at = r.below(bytes.len());
    let spoiling = r.pick(&NO_TEXT);
    bytes[at..].iter_mut().zip(spoiling).for_each(|(byte, new)| *byte = *new);
}

fn position(r: &mut Random, bytes: &[u8]) -> usize {
    r.below(bytes.len() + 1)
}

/// Cut at any byte, or inside or just after a field.
fn cut(r: &mut Random, message: &mut Encoded) {
    let mut at = position(r, &message.bytes);
    if !message.marks.is_empty() && r.one_in(2) {
        let Mark { at: start, width, .. } = message.marks[r.below(message.marks.len())];
        at = start + r.below(width + 1);
    }
    message.bytes.truncate(at);
}

fn flip(r: &mut Random, bytes: &mut [u8]) {
    if !bytes.is_empty() {
        bytes[r.below(bytes.len())] ^= 1 << r.below(8);
    }
}

fn set(r: &mut Random, bytes: &mut [u8]) {
    if !bytes.is_empty() {
        bytes[r.below(bytes.len())] = r.byte();
    }
}

/// A piece of the message, or of another, put in place of some bytes or between them.
fn splice(r: &mut Random, bytes: &mut Vec<u8>) {
    let mut donor = bytes.clone();
    if r.one_in(2) {
        let value = values::value(r, &[], 4);
        donor = shapes::encoded(r, &[], &value).bytes;
    }
    let from = position(r, &donor);
    let piece: Vec<u8> = donor[from..].iter().take(r.below(20)).copied().collect();
    let to = position(r, bytes);
    let replaced = if r.one_in(2) { (to + piece.len()).min(bytes.len()) } else { to };
    bytes.splice(to..replaced, piece);
}

fn insert(r: &mut Random, bytes: &mut Vec<u8>) {
    let at = position(r, bytes);
    let count = r.between(1, 4);
    let new = r.bytes(count);
    bytes.splice(at..at, new);
}

fn remove(r: &mut Random, bytes: &mut Vec<u8>) {
    let from = position(r, bytes);
    let to = (from + r.between(1, 4)).min(bytes.len());
    bytes.drain(from..to);
}

fn append(r: &mut Random, bytes: &mut Vec<u8>) {
    let count = r.between(1, 4);
    bytes.extend(r.bytes(count));
}
