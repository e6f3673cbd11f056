//! The border to the proved archive: the exports of include/ikparumo.h as safe calls on slices, lent memory that ends at a page which
//! may not be touched, and what the tests of texts share: the format's numbers, headers, lent memory, a judge of UTF-8 and a tally.

pub mod calls;
pub mod format;
pub mod guarded;
pub mod memory;
pub mod tally;
pub mod utf8;

pub use calls::*;
pub use guarded::{Guarded, Plain};
