//! Pids and references with fields about the ends of what their tags may hold, right or wrong, wherever they can stand.

use crate::generate::{Encoded, Role};
use crate::random::Random;
use crate::shapes;
use crate::values::{self, Value};

/// What stands before an identifier and after it: nothing, or a tuple, a list, a map around it.
const SPOTS: [(&[u8], &[u8]); 7] = [
    (&[], &[]),
    (&[104, 3, 97, 5], &[106]),
    (&[108, 0, 0, 0, 2, 97, 5], &[106]),
    (&[108, 0, 0, 0, 1, 106], &[]),
    (&[116, 0, 0, 0, 1], &[106]),
    (&[116, 0, 0, 0, 2, 97, 5, 106], &[106]),
    (&[116, 0, 0, 0, 1, 106], &[]),
];
/// No nodes: terms that are no atoms, an index past any list, a text that is none, a tag that is none.
const NO_NODES: [&[u8]; 6] = [&[97, 5], &[106], &[104, 0], &[82, 255], &[119, 1, 255], &[99]];
/// A tuple of one part.
const ONE_TUPLE: [u8; 2] = [104, 1];

/// A term that is an identifier or has one, now and then about 64 deep, now and then cut at the node or in it.
pub fn term(r: &mut Random, texts: &[String]) -> Encoded {
    let mut out = Encoded::default();
    if r.one_in(8) {
        out.bytes = ONE_TUPLE.repeat(r.between(60, 64));
    }
    let (before, after) = r.pick(&SPOTS);
    out.bytes.extend_from_slice(before);
    let node = if r.one_in(2) { pid(r, texts, &mut out) } else { reference(r, texts, &mut out) };
    out.bytes.extend_from_slice(after);
    if r.one_in(12) {
        out.bytes.truncate(node + r.below(3));
    }
    out
}

/// Tag 88 mostly, else 103; where its node stands.
fn pid(r: &mut Random, texts: &[String], out: &mut Encoded) -> usize {
    let old = r.one_in(4);
    out.tag(if old { 103 } else { 88 });
    let at = node(r, texts, out);
    field(r, out);
    field(r, out);
    creation(r, old, out);
    at
}

/// Tag 90 mostly, else 114, of no word to some too many; where its node stands.
fn reference(r: &mut Random, texts: &[String], out: &mut Encoded) -> usize {
    let (old, words) = (r.one_in(4), r.below(8));
    out.tag(if old { 114 } else { 90 });
    out.number(Role::Length, words as u64, 2);
    let at = node(r, texts, out);
    creation(r, old, out);
    (0..words).for_each(|_| field(r, out));
    at
}

fn field(r: &mut Random, out: &mut Encoded) {
    out.number(Role::Field, values::around(r).into(), 4);
}

/// One byte, mostly under 4, or four bytes.
fn creation(r: &mut Random, old: bool, out: &mut Encoded) {
    if old {
        out.number(Role::Field, r.below(5) as u64, 1);
    } else {
        field(r, out);
    }
}

/// An atom mostly, else what is none; where it stands.
fn node(r: &mut Random, texts: &[String], out: &mut Encoded) -> usize {
    let at = out.bytes.len();
    if r.one_in(20) {
        out.bytes.extend_from_slice(r.pick(&NO_NODES));
    } else {
        let atom = Value::Atom(values::atom_text(r, texts));
        out.append(&shapes::encoded(r, texts, &atom));
    }
    at
}
