//! Tests of `Guarded`: each touch is made in a process of its own, and how that process ends is compared.

use border::{Guarded, Plain};
use std::os::unix::process::ExitStatusExt;
use std::process::Command;

const SIGSEGV: i32 = 11;

/// Touches the element `at` counted from the first of `count`, past all checks.
fn touch<T: Plain>(count: usize, at: isize, writes: bool) {
    let mut memory = Guarded::<T>::new(count);
    let first = memory.as_mut_ptr();
    let element = first.wrapping_offset(at);
    // SAFETY: none: the element may be outside, which the system is to stop.
    unsafe {
        let value = if writes { std::mem::zeroed() } else { element.read_volatile() };
        element.write_volatile(value);
    }
}

fn touch_of_kind(words: &[String]) {
    let at = words[2].parse().expect("a number");
    let count = words[1].parse().expect("a number");
    let writes = words[3] == "write";
    match words[0].as_str() {
        "u8" => touch::<u8>(count, at, writes),
        "u16" => touch::<u16>(count, at, writes),
        "u64" => touch::<u64>(count, at, writes),
        _ => touch::<border::Pending>(count, at, writes),
    }
}

/// Whether a process that touches so ends by SIGSEGV.
fn is_stopped(kind: &str, count: usize, at: isize, how: &str) -> bool {
    let program = std::env::current_exe().expect("own name");
    let words = [kind, &count.to_string(), &at.to_string(), how].map(String::from);
    let end = Command::new(program).args(words).status().expect("a process");
    assert!(end.success() || end.signal() == Some(SIGSEGV), "an end of another sort: {end}");
    !end.success()
}

fn main() {
    let words: Vec<String> = std::env::args().skip(1).collect();
    if words.len() == 4 {
        return touch_of_kind(&words);
    }
    let (mut passed, mut failed) = (0, 0);
    for kind in ["u8", "u16", "u64", "pending"] {
        for (count, how) in [(1, "read"), (1, "write"), (5, "read"), (5000, "write")] {
            let last = count as isize - 1;
            for (at, stopped) in [(0, false), (last, false), (last + 1, true)] {
                let right = is_stopped(kind, count, at, how) == stopped;
                (passed, failed) = (passed + i32::from(right), failed + i32::from(!right));
            }
        }
        for (count, at) in [(0, 0), (4096, -1)] {
            let right = is_stopped(kind, count, at, "read");
            (passed, failed) = (passed + i32::from(right), failed + i32::from(!right));
        }
    }
    println!("guard pages: {passed} passed, {failed} failed");
    std::process::exit(i32::from(failed > 0));
}
