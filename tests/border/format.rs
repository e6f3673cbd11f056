//! Numbers of the format and of include/ikparumo.h, and headers of packets.

pub const VERSION: u8 = 131;
pub const DISTRIBUTION_HEADER: u8 = 68;
pub const FRAGMENT_HEADER: u8 = 69;
pub const FRAGMENT_CONTINUATION: u8 = 70;

pub const ATOM_CACHE_REF: u8 = 82;
pub const NEW_PID_EXT: u8 = 88;
pub const NEWER_REFERENCE_EXT: u8 = 90;
pub const SMALL_INTEGER_EXT: u8 = 97;
pub const ATOM_EXT: u8 = 100;
pub const SMALL_TUPLE_EXT: u8 = 104;
pub const LARGE_TUPLE_EXT: u8 = 105;
pub const NIL_EXT: u8 = 106;
pub const LIST_EXT: u8 = 108;
pub const BINARY_EXT: u8 = 109;
pub const EXPORT_EXT: u8 = 113;
pub const SMALL_ATOM_EXT: u8 = 115;
pub const MAP_EXT: u8 = 116;
pub const ATOM_UTF8_EXT: u8 = 118;
pub const SMALL_ATOM_UTF8_EXT: u8 = 119;

/// The connection's flags.
pub const UTF8: u8 = 1;
pub const V4_NC: u8 = 2;
pub const BOTH: u8 = UTF8 | V4_NC;

pub const ACCEPTED: u64 = 0;
pub const CUT: u64 = 2;
pub const TEXT: u64 = 5;
pub const DEPTH: u64 = 8;
pub const ROWS: u64 = 9;
pub const STATE: u64 = 14;
pub const NAMED_AGAIN: u64 = 22;
pub const LONG_TEXT: u64 = 23;

pub const KIND_ATOM: u64 = 3;
pub const FROM_MESSAGE: u64 = 1;
pub const MARK_LATIN1: u64 = 1;
pub const MARK_UTF8: u64 = 2;
pub const PACKET_PLAIN: u64 = 1;

pub const MESSAGE_MOST: usize = 65_536;
pub const CHARACTERS_MOST: usize = 255;
pub const DEPTH_MOST: usize = 64;
pub const ROWS_MOST: usize = 8_192;
pub const PLACE_BYTES: usize = 32;
pub const LIST_PLACES: usize = 255;
pub const CACHE_PLACES: usize = 2_048;
pub const GATHER_BYTES: usize = 65_536;

/// The bit of a new reference in its half of a flag byte, beside its segment.
const NEW: u8 = 8;

/// A length in one byte, or in two.
pub fn push_length(out: &mut Vec<u8>, in_two: bool, text: &[u8]) {
    let length = (text.len() as u16).to_be_bytes();
    assert!(in_two || length[0] == 0, "a length that one byte does not hold");
    out.extend_from_slice(&length[usize::from(!in_two)..]);
}

/// An atom of this text, by a tag that has its length in one byte or in two.
pub fn atom(tag: u8, text: &[u8]) -> Vec<u8> {
    let mut out = vec![tag];
    push_length(&mut out, [ATOM_EXT, ATOM_UTF8_EXT].contains(&tag), text);
    out.extend_from_slice(text);
    out
}

/// How many bytes of an atom stand before its text.
pub fn atom_head(tag: u8) -> usize {
    atom(tag, &[]).len()
}

/// A reference of a header: a place of the cache, and the text of a new one.
#[derive(Clone, Copy)]
pub struct Reference<'a> {
    pub place: usize,
    pub text: Option<&'a [u8]>,
}

impl Reference<'_> {
    fn half(&self) -> u8 {
        let new = self.text.map_or(0, |_| NEW);
        new | (self.place >> 8) as u8
    }
}

/// A packet up to its payload, and where the text of each reference starts (of a cached one, where it ends).
pub fn header(opening: &[u8], references: &[Reference], long_atoms: bool) -> (Vec<u8>, Vec<usize>) {
    let mut out = opening.to_vec();
    let mut halves: Vec<u8> = references.iter().map(Reference::half).collect();
    halves.push(u8::from(long_atoms));
    out.push(references.len() as u8);
    out.extend(halves.chunks(2).map(|pair| pair[0] | pair.get(1).unwrap_or(&0) << 4));
    let mut starts = Vec::new();
    for Reference { place, text } in references {
        out.push(*place as u8);
        if let Some(text) = text {
            push_length(&mut out, long_atoms, text);
        }
        starts.push(out.len());
        out.extend_from_slice(text.unwrap_or_default());
    }
    (out, starts)
}
