//! Section 4 of RFC 3629 as a table, and where a text goes wrong by Rust's own decoder.

use crate::format::CHARACTERS_MOST;
use std::str::from_utf8;

/// A rule, or one of its alternatives, and the range of each byte of its characters: lowest, highest.
pub struct Line {
    pub rule: &'static str,
    pub ranges: &'static [(u8, u8)],
}

/// UTF8-tail = %x80-BF
pub const TAIL: (u8, u8) = (0x80, 0xBF);
pub const LINES: [Line; 9] = [
    Line { rule: "UTF8-1: %x00-7F", ranges: &[(0x00, 0x7F)] },
    Line { rule: "UTF8-2: %xC2-DF UTF8-tail", ranges: &[(0xC2, 0xDF), TAIL] },
    Line { rule: "UTF8-3: %xE0 %xA0-BF UTF8-tail", ranges: &[(0xE0, 0xE0), (0xA0, 0xBF), TAIL] },
    Line { rule: "UTF8-3: %xE1-EC 2( UTF8-tail )", ranges: &[(0xE1, 0xEC), TAIL, TAIL] },
    Line { rule: "UTF8-3: %xED %x80-9F UTF8-tail", ranges: &[(0xED, 0xED), (0x80, 0x9F), TAIL] },
    Line { rule: "UTF8-3: %xEE-EF 2( UTF8-tail )", ranges: &[(0xEE, 0xEF), TAIL, TAIL] },
    Line { rule: "UTF8-4: %xF0 %x90-BF 2( UTF8-tail )", ranges: &[(0xF0, 0xF0), (0x90, 0xBF), TAIL, TAIL] },
    Line { rule: "UTF8-4: %xF1-F3 3( UTF8-tail )", ranges: &[(0xF1, 0xF3), TAIL, TAIL, TAIL] },
    Line { rule: "UTF8-4: %xF4 %x80-8F 2( UTF8-tail )", ranges: &[(0xF4, 0xF4), (0x80, 0x8F), TAIL, TAIL] },
];

impl Line {
    pub fn lowest(&self) -> Vec<u8> {
        self.ranges.iter().map(|range| range.0).collect()
    }

    pub fn highest(&self) -> Vec<u8> {
        self.ranges.iter().map(|range| range.1).collect()
    }

    /// How many characters it has.
    pub fn count(&self) -> usize {
        self.ranges.iter().map(|(low, high)| usize::from(high - low) + 1).product()
    }

    pub fn has(&self, bytes: &[u8]) -> bool {
        bytes.len() == self.ranges.len() && self.ranges.iter().zip(bytes).all(|((low, high), byte)| low <= byte && byte <= high)
    }
}

/// Whether a character can begin with this byte: not 80..C1 and not F5..FF.
fn begins_a_character(byte: u8) -> bool {
    !(0x80..=0xC1).contains(&byte) && byte < 0xF5
}

/// The first byte at which no text in UTF-8 can continue; of a character that the end cuts off, its first byte.
fn first_bad_byte(text: &[u8]) -> Option<usize> {
    let error = from_utf8(text).err()?;
    let first = error.valid_up_to();
    let good = error.error_len().filter(|_| begins_a_character(text[first]));
    Some(first + good.unwrap_or(0))
}

/// The first byte after 255 sound characters.
fn first_past_the_most(text: &[u8]) -> Option<usize> {
    let sound = text.utf8_chunks().next()?.valid();
    let mut ends = sound.char_indices().map(|(start, character)| start + character.len_utf8());
    ends.nth(CHARACTERS_MOST - 1).filter(|end| *end < text.len())
}

/// Where a text goes wrong, if it does: the first bad byte or the first after 255 characters, whichever comes first.
pub fn fault(text: &[u8]) -> Option<usize> {
    first_bad_byte(text).into_iter().chain(first_past_the_most(text)).min()
}
