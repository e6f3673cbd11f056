//! Headers of packets from n on, in all their shapes.

use crate::generate::{latin1, Encoded, Role};
use crate::random::Random;
use crate::values;

/// A header and the texts that its list will have.
pub struct Header {
    pub out: Encoded,
    pub texts: Vec<String>,
    /// the places that it fills, with their texts
    pub filled: Vec<(usize, String)>,
}

/// One reference: a place, with its text where it is new.
struct Reference {
    place: usize,
    text: String,
    new: bool,
}

/// A text that a place can hold; now and then at the end of what it can.
fn short_text(r: &mut Random, utf8: bool) -> String {
    let length = r.pick(&[32, 31, 30]);
    let mut text = match r.below(8) {
        0 => "\u{e9}".repeat(length / 2),
        1 => "x".repeat(length),
        2 if utf8 => "\u{1f600}".repeat(8),
        _ => values::text(r),
    };
    while text.len() > 32 || !utf8 && latin1(&text).is_none() {
        text.pop();
    }
    text
}

/// How many references a header has: few mostly.
fn count(r: &mut Random) -> usize {
    match r.below(40) {
        0 => r.between(250, 255),
        1 => r.between(7, 255),
        2..=6 => 0,
        _ => r.between(1, 6),
    }
}

/// A place, often one of few, so that places are filled again.
fn any_place(r: &mut Random) -> usize {
    match r.below(3) {
        0 => r.pick(&[0, 1, 5, 255, 256, 1_034, 1_791, 1_792, 2_047]),
        1 => r.below(16),
        _ => r.below(2_048),
    }
}

/// References that do not break 22: new ones to places of their own, cached ones to places of `known`.
fn references(r: &mut Random, known: &[(usize, String)], utf8: bool) -> Vec<Reference> {
    let mut taken: Vec<Reference> = Vec::new();
    let count = count(r);
    while taken.len() < count {
        let cached = !known.is_empty() && r.one_in(2);
        let (place, text) = if cached { known[r.below(known.len())].clone() } else { (any_place(r), short_text(r, utf8)) };
        let free = taken.iter().all(|other| other.place != place || cached && !other.new);
        if free {
            taken.push(Reference { place, text, new: !cached });
        }
    }
    taken
}

/// The header of these references; `long` makes lengths 2 bytes wide.
fn encoded(r: &mut Random, references: &[Reference], utf8: bool, long: bool) -> Encoded {
    let mut out = Encoded::default();
    let n = references.len();
    out.number(Role::Length, n as u64, 1);
    let mut flags = vec![0; if n == 0 { 0 } else { n / 2 + 1 }];
    for (i, reference) in references.iter().enumerate() {
        let half = u8::from(reference.new) << 3 | (reference.place >> 8) as u8;
        flags[i / 2] |= half << (4 * (i % 2));
    }
    // The spare half has LongAtoms; its other bits, and the half after it, carry nothing.
    if let Some(last) = flags.last_mut() {
        let spare = (r.below(8) as u8 * 2) | u8::from(long);
        *last |= if n % 2 == 1 { spare << 4 } else { spare | (r.below(16) as u8) << 4 };
    }
    flags.iter().for_each(|flag| out.number(Role::Field, (*flag).into(), 1));
    for Reference { place, text, new } in references {
        out.number(Role::Field, (place & 255) as u64, 1);
        if *new {
            let text = if utf8 { text.as_bytes().to_vec() } else { latin1(text).unwrap_or_default() };
            out.number(Role::Length, text.len() as u64, if long { 2 } else { 1 });
            out.text(&text);
        }
    }
    out
}

fn header(r: &mut Random, references: Vec<Reference>, utf8: bool) -> Header {
    let longest = references.iter().map(|reference| reference.text.len()).max().unwrap_or(0);
    let long = longest > 255 || r.one_in(3);
    let out = encoded(r, &references, utf8, long);
    let texts = references.iter().map(|reference| reference.text.clone()).collect();
    let new = references.into_iter().filter(|reference| reference.new);
    Header { out, texts, filled: new.map(|reference| (reference.place, reference.text)).collect() }
}

/// A header that is accepted, if the places of `known` hold these texts.
pub fn valid(r: &mut Random, known: &[(usize, String)], utf8: bool) -> Header {
    let references = references(r, known, utf8);
    header(r, references, utf8)
}

/// A header with one fault of its own: a place named again, a text too long, an empty place, many characters.
pub fn faulty(r: &mut Random, known: &[(usize, String)], utf8: bool) -> Header {
    let mut references = references(r, known, utf8);
    references.truncate(254);
    let at = r.below(references.len() + 1);
    let place = any_place(r);
    let again = references.get(r.below(references.len().max(1))).map_or(place, |other| other.place);
    let wide = if utf8 && r.one_in(2) { "\u{20ac}" } else { "\u{e9}" };
    let fault = match r.below(6) {
        0 => Reference { place: again, text: "again".into(), new: r.one_in(2) },
        1 => Reference { place, text: "x".repeat(r.pick(&[33, 34, 40, 255])), new: true },
        2 => Reference { place, text: wide.repeat(r.pick(&[11, 12, 16, 17])), new: true },
        3 => Reference { place, text: wide.repeat(r.pick(&[254, 255, 256, 300])), new: true },
        4 => Reference { place, text: "y".repeat(r.pick(&[255, 256, 257, 600])), new: true },
        _ => Reference { place, text: String::new(), new: false },
    };
    references.insert(at, fault);
    header(r, references, utf8)
}
