//! The connection's byte of flags, made up for each call.

use crate::random::Random;
use border::format::{BOTH, UTF8, V4_NC};

/// Bytes below this have no unknown flag.
pub const KNOWN: usize = 4;

/// A byte: both flags mostly, often one or none, now and then an unknown one.
pub fn any(r: &mut Random) -> u8 {
    match r.below(32) {
        0 => unknown(r),
        _ => known(r),
    }
}

/// A byte with no unknown flag.
pub fn known(r: &mut Random) -> u8 {
    r.pick(&[BOTH, BOTH, BOTH, BOTH, UTF8, UTF8, V4_NC, 0])
}

/// A byte with one unknown flag, alone or beside known ones, or with any.
pub fn unknown(r: &mut Random) -> u8 {
    let one = (KNOWN as u8) << r.below(6);
    match r.below(3) {
        0 => one,
        1 => one | r.below(KNOWN) as u8,
        _ => r.between(KNOWN, 255) as u8,
    }
}

/// Another byte, often one that differs in V4_NC alone.
pub fn other(r: &mut Random, flags: u8) -> u8 {
    if r.one_in(2) {
        return flags ^ V4_NC;
    }
    any(r)
}

pub fn is_known(flags: u8) -> bool {
    usize::from(flags) < KNOWN
}

pub fn is_utf8(flags: u8) -> bool {
    flags & UTF8 != 0
}

/// Whether newer identifiers are taken.
pub fn is_v4_nc(flags: u8) -> bool {
    flags & V4_NC != 0
}
