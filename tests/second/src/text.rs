//! Texts of atoms: UTF-8, Latin-1, and texts kept in places of 32 bytes.

use crate::{CHARACTERS_MAX, LIST_PLACES, PLACE_BYTES};
use std::ops::RangeInclusive;

/// What may stand after a character's first byte, byte for byte; None where that byte begins none. The
/// lines are those of RFC 3629, section 4, in its order (#104).
fn bytes_after(first: u8) -> Option<&'static [RangeInclusive<u8>]> {
    const TAIL: RangeInclusive<u8> = 0x80..=0xBF;
    Some(match first {
        0x00..=0x7F => &[],
        0xC2..=0xDF => &[TAIL],
        0xE0 => &[0xA0..=0xBF, TAIL],
        0xE1..=0xEC => &[TAIL, TAIL],
        0xED => &[0x80..=0x9F, TAIL],
        0xEE..=0xEF => &[TAIL, TAIL],
        0xF0 => &[0x90..=0xBF, TAIL, TAIL],
        0xF1..=0xF3 => &[TAIL, TAIL, TAIL],
        0xF4 => &[0x80..=0x8F, TAIL, TAIL],
        _ => return None,
    })
}

/// How many bytes the character has that begins with `first`, or which of them is bad, counted from
/// `first`: "the first byte at which no valid text can continue" (#101).
fn character(first: u8, rest: &[u8]) -> Result<usize, usize> {
    let after = bytes_after(first).ok_or(0usize)?;
    for (i, range) in after.iter().enumerate() {
        // "A sequence that the text's end cuts off is reported at its lead byte"; a byte that stands
        // before the end and is already impossible is itself the one (OQ-101-2).
        let byte = rest.get(i).ok_or(0usize)?;
        if !range.contains(byte) {
            return Err(i + 1);
        }
    }
    Ok(1 + after.len())
}

/// "UTF-8 (RFC 3629)": the text, or the offset of its bad byte.
pub fn utf8(bytes: &[u8]) -> Result<String, usize> {
    let mut at = 0;
    let mut characters = 0;
    while let Some([first, rest @ ..]) = bytes.get(at..) {
        // "or of the first after 255 characters, whichever comes first" (OQ-101-3). Characters are
        // counted, not bytes (OP-52).
        if characters == CHARACTERS_MAX {
            return Err(at);
        }
        at += character(*first, rest).map_err(|bad| at + bad)?;
        characters += 1;
    }
    // All of it is UTF-8, so nothing is lost.
    Ok(String::from_utf8_lossy(bytes).into_owned())
}

/// "Latin-1": each byte is the character of that number, so the 256th is "the first after 255
/// characters" (OQ-101-7). The text, or the offset of that byte.
pub fn latin1(bytes: &[u8]) -> Result<String, usize> {
    if bytes.len() > CHARACTERS_MAX {
        return Err(CHARACTERS_MAX);
    }
    Ok(bytes.iter().map(|byte| char::from(*byte)).collect())
}

/// 5: "text not UTF-8, or over 255 characters". The text, or the offset in it of the byte that 5 is
/// about.
pub fn atom_text(bytes: &[u8], is_utf8: bool) -> Result<String, usize> {
    if is_utf8 {
        utf8(bytes)
    } else {
        latin1(bytes)
    }
}

/// The text that place `index` of a run of 32-byte places holds. None where 14 is due: "a length
/// over 32 [...] of a place whose text is wanted, or that text not UTF-8". (That the cache's 65,535
/// is no such length is seen to by who asks for a cache's place: it is 21 before.) Bytes after the
/// text are not judged (OP-40). 14 tells no byte (OQ-101-5).
pub fn stored(texts: &[u8], lengths: &[u16], index: usize) -> Option<String> {
    let length = usize::from(*lengths.get(index)?);
    if length > PLACE_BYTES {
        return None;
    }
    let start = index.checked_mul(PLACE_BYTES)?;
    utf8(texts.get(start..start.checked_add(length)?)?).ok()
}

/// An atom list as it is lent for reading: "a one-byte count n, 255 places of 32 bytes and 255
/// lengths".
#[derive(Clone, Copy, Debug)]
pub struct AtomList<'a> {
    pub n: u8,
    pub texts: &'a [u8],
    pub lengths: &'a [u16],
}

impl AtomList<'_> {
    /// 13: "a cache, list or gather buffer not of its stated size".
    pub fn is_of_its_stated_size(&self) -> bool {
        self.texts.len() == LIST_PLACES * PLACE_BYTES && self.lengths.len() == LIST_PLACES
    }
}

/// "An empty atom list is of its stated size, with n = 0."
pub fn empty_list() -> AtomList<'static> {
    AtomList { n: 0, texts: &[0; LIST_PLACES * PLACE_BYTES], lengths: &[0; LIST_PLACES] }
}
