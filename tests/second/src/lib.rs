//! A second implementation of what document 01 ("What we are to build, with rules") states, written
//! from the papers alone and used to test another implementation against. Each rule has the words
//! of document 01 beside it, in quotation marks; "OP-nn" is a reading of READINGS.md, "#nnn" a change
//! request of document 02 that the words follow, "OQ-nnn-n" a reading of READINGS-02.md.
//!
//! Straightforward rather than fast: a message is read into a value (`terms::Term`, its meaning) and
//! into rows; the canonical form is written from the value alone.

#![forbid(unsafe_code)]

pub mod canon;
pub mod connection;
pub mod drive;
pub mod looks;
pub mod packets;
pub mod terms;
pub mod text;

pub use connection::Connection;

/// "Term bytes or payload at most 65,536." "Gather buffer 65,536 bytes."
pub const MESSAGE_MAX: usize = 65_536;
/// "Rows at most 8,192"
pub const ROWS_MAX: usize = 8_192;
/// "Depth at most 64."
pub const DEPTH_MAX: usize = 64;
/// "Atom at most 255 characters."
pub const CHARACTERS_MAX: usize = 255;
/// "Cache 2,048 places of 32 bytes beside 2,048 16-bit lengths"
pub const CACHE_PLACES: usize = 2_048;
/// "places of 32 bytes"
pub const PLACE_BYTES: usize = 32;
/// "65,535 meaning empty"
pub const EMPTY: u16 = 65_535;
/// "255 places of 32 bytes and 255 lengths"
pub const LIST_PLACES: usize = 255;

/// A refusal: its number in the table of document 01, and the place answered with it.
#[derive(Clone, Copy, Debug, PartialEq, Eq)]
pub struct Refusal {
    pub number: u8,
    pub place: u64,
}

/// The refusal `number` at `place`.
pub fn refusal(number: u8, place: usize) -> Refusal {
    Refusal { number, place: place as u64 }
}
