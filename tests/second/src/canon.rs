//! Writing: "the same input to one canonical standalone term. For a payload of two terms it writes
//! two, one after the other". Written from the meaning alone: the flags decide what is accepted, not
//! what is written (OQ-109-9).

use crate::terms::{self, Form, Integer, Term};
use crate::text::AtomList;
use crate::{refusal, Connection, Refusal};
use std::collections::BTreeMap;

/// The canonical standalone terms of a message, one after the other. Its refusals are the reader's
/// (OP-48).
pub fn canonical(
    connection: Connection,
    form: Form,
    message: &[u8],
    list: &AtomList,
    rows: usize,
) -> Result<Vec<u8>, Refusal> {
    let reading = terms::read(connection, form, message, list, rows)?;
    let mut out = Vec::new();
    for term in &reading.terms {
        out.push(131);
        put(&mut out, term);
    }
    Ok(out)
}

/// The writing call: how many bytes of the output were written. "Output bytes past them stay."
/// "every other refusal leaves all lent memory unchanged, save the writer's scratch table, which
/// always ends all zero."
pub fn write_into(
    connection: Connection,
    form: Form,
    message: &[u8],
    list: &AtomList,
    scratch: &mut [u64],
    output: &mut [u8],
) -> Result<usize, Refusal> {
    let answer = canonical(connection, form, message, list, scratch.len());
    scratch.fill(0);
    let bytes = answer?;
    // 11: "output shorter than the canonical form"; "11 comes last", at 0.
    let room = output.get_mut(..bytes.len()).ok_or(refusal(11, 0))?;
    room.copy_from_slice(&bytes);
    Ok(bytes.len())
}

/// The low `width` bytes of a number, big-endian.
fn number(out: &mut Vec<u8>, value: u64, width: usize) {
    let bytes = value.to_be_bytes();
    out.extend_from_slice(bytes.get(bytes.len().saturating_sub(width)..).unwrap_or(&bytes));
}

/// One term in its canonical form, without 131.
pub fn put(out: &mut Vec<u8>, term: &Term) {
    match term {
        Term::Integer(value) => integer(out, value),
        // "70"
        Term::Float(bits) => {
            out.push(70);
            number(out, *bits, 8);
        }
        Term::Atom(text) => atom(out, text),
        // "104 up to arity 255, else 105"
        Term::Tuple(elements) => {
            if elements.len() <= 255 {
                out.push(104);
                number(out, elements.len() as u64, 1);
            } else {
                out.push(105);
                number(out, elements.len() as u64, 4);
            }
            for element in elements {
                put(out, element);
            }
        }
        Term::List(elements, tail) => list(out, elements, tail.as_deref()),
        // "109"
        Term::Binary(bytes) => {
            out.push(109);
            number(out, bytes.len() as u64, 4);
            out.extend_from_slice(bytes);
        }
        // "77 with Bits 1..7 and zero low bits"
        Term::Bits(bytes, bits) => {
            out.push(77);
            number(out, bytes.len() as u64, 4);
            out.push(*bits);
            out.extend_from_slice(bytes);
        }
        // "116"; #103: "The writer puts pairs in rising byte order of the key's canonical form."
        Term::Map(pairs) => {
            out.push(116);
            number(out, pairs.len() as u64, 4);
            for (key, value) in in_rising_order(pairs) {
                out.extend_from_slice(&key);
                put(out, value);
            }
        }
        // "88"
        Term::Pid { node, id, serial, creation } => {
            out.push(88);
            atom(out, node);
            number(out, u64::from(*id), 4);
            number(out, u64::from(*serial), 4);
            number(out, u64::from(*creation), 4);
        }
        // "89 for a port ID under 2^28, else 120"
        Term::Port { node, id, creation } => {
            let old = *id < 1 << 28;
            out.push(if old { 89 } else { 120 });
            atom(out, node);
            number(out, *id, if old { 4 } else { 8 });
            number(out, u64::from(*creation), 4);
        }
        // "90"
        Term::Reference { node, creation, words } => {
            out.push(90);
            number(out, words.len() as u64, 2);
            atom(out, node);
            number(out, u64::from(*creation), 4);
            for word in words {
                number(out, u64::from(*word), 4);
            }
        }
        // "113"
        Term::Export { module, function, arity } => {
            out.push(113);
            atom(out, module);
            atom(out, function);
            out.extend_from_slice(&[97, *arity]);
        }
    }
}

/// Each key's canonical form (its own maps in order, OQ-103-9) with its value, by rising forms alone (OQ-103-2).
fn in_rising_order(pairs: &BTreeMap<Term, Term>) -> Vec<(Vec<u8>, &Term)> {
    let mut forms: Vec<(Vec<u8>, &Term)> = Vec::new();
    for (key, value) in pairs {
        let mut form = Vec::new();
        put(&mut form, key);
        forms.push((form, value));
    }
    forms.sort_by(|(one, _), (other, _)| one.cmp(other));
    forms
}

/// "97 if 0..255, else 98 if it fits, else 110 up to 255 digits, else 111, with no high zero digit"
fn integer(out: &mut Vec<u8>, value: &Integer) {
    match value.to_i64() {
        Some(small) if (0..=255).contains(&small) => {
            out.push(97);
            number(out, small as u64, 1);
        }
        Some(small) if i32::try_from(small).is_ok() => {
            out.push(98);
            number(out, small as u64, 4);
        }
        _ => {
            if value.digits.len() <= 255 {
                out.push(110);
                number(out, value.digits.len() as u64, 1);
            } else {
                out.push(111);
                number(out, value.digits.len() as u64, 4);
            }
            out.push(u8::from(value.negative));
            out.extend_from_slice(&value.digits);
        }
    }
}

/// "119 up to 255 bytes, else 118"
fn atom(out: &mut Vec<u8>, text: &str) {
    if text.len() <= 255 {
        out.push(119);
        number(out, text.len() as u64, 1);
    } else {
        out.push(118);
        number(out, text.len() as u64, 2);
    }
    out.extend_from_slice(text.as_bytes());
}

/// The byte that an integer 0..255 is.
fn byte(term: &Term) -> Option<u8> {
    match term {
        Term::Integer(value) => u8::try_from(value.to_i64()?).ok(),
        _ => None,
    }
}

/// "106; 107 for a proper list of one or more integers 0..255, else 108, its tail 106 or no list".
/// A list here has at most 8,191 elements (#111), so a 107's 2-byte length holds them.
fn list(out: &mut Vec<u8>, elements: &[Term], tail: Option<&Term>) {
    if elements.is_empty() {
        out.push(106);
        return;
    }
    let bytes: Option<Vec<u8>> = elements.iter().map(byte).collect();
    match (bytes, tail) {
        (Some(bytes), None) => {
            out.push(107);
            number(out, bytes.len() as u64, 2);
            out.extend_from_slice(&bytes);
        }
        _ => {
            out.push(108);
            number(out, elements.len() as u64, 4);
            for element in elements {
                put(out, element);
            }
            match tail {
                None => out.push(106),
                Some(tail) => put(out, tail),
            }
        }
    }
}
