//! Comparisons, counted.

use std::fmt::{Debug, Display};

const SHOWN_MOST: u64 = 50;

#[derive(Default)]
pub struct Tally {
    pub passed: u64,
    pub failed: u64,
}

impl Tally {
    /// Counts a comparison; the first failures are printed.
    pub fn check(&mut self, right: bool, told: impl FnOnce() -> String) {
        self.passed += u64::from(right);
        self.failed += u64::from(!right);
        if !right && self.failed <= SHOWN_MOST {
            println!("FAILED {}", told());
        }
    }

    /// Compares all elements; of a failure the first that differs is told.
    pub fn same<T: PartialEq + Debug>(&mut self, case: &dyn Display, what: &str, got: &[T], expected: &[T]) {
        self.check(got == expected, || {
            let at = got.iter().zip(expected).take_while(|(one, other)| one == other).count();
            let (answered, due) = (got.get(at), expected.get(at));
            format!("{case}: {what} [{at}]: {answered:?}, not {due:?}")
        });
    }
}
