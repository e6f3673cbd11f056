//! The damaged-message run: made-up and damaged messages, packets and sessions through the proved archive and the second
//! implementation in one process; answers and every lent byte compared. Memory lent to the archive ends at a closed page.
//!
//! damage [CASES] [SEED] [FIRST]: the cases FIRST, FIRST + 1, .. of a seed; the last line is 'N passed, M failed'.

mod flags;
mod generate;
mod headers;
mod identifiers;
mod lists;
mod maps;
mod memory;
mod messages;
mod mutate;
mod packets;
mod random;
mod shapes;
mod tally;
mod terms;
mod twin;
mod values;

use random::Random;
use std::ffi::c_int;
use std::sync::atomic::{AtomicU64, Ordering};
use tally::Tally;

extern "C" {
    fn signal(number: c_int, handler: usize) -> usize;
    fn write(file: c_int, bytes: *const u8, count: usize) -> isize;
}

const SIGSEGV: c_int = 11;
const SIG_DFL: usize = 0;
/// The case that is running.
static CASE: AtomicU64 = AtomicU64::new(0);

/// Tells the case in which memory outside was touched; the touch, made again, then ends the program.
extern "C" fn touched_outside(number: c_int) {
    let mut text = *b"memory that is not lent was touched in case                     \n";
    let (mut case, mut at) = (CASE.load(Ordering::Relaxed), text.len() - 2);
    while case > 0 || at == text.len() - 2 {
        text[at] = b'0' + (case % 10) as u8;
        (case, at) = (case / 10, at - 1);
    }
    // SAFETY: both calls may be made in a handler, and the text is this function's own.
    unsafe {
        write(1, text.as_ptr(), text.len());
        signal(number, SIG_DFL);
    }
}

const CASES: u64 = 1_000_000;
const SEED: u64 = 20_260_101;
/// One case in so many is a session.
const SESSION_SHARE: usize = 5;
/// From so many cases on, every answer that a call can give must have been met.
const CASES_FOR_ALL: u64 = 50_000;

fn argument(number: usize, otherwise: u64) -> u64 {
    match std::env::args().nth(number) {
        Some(word) => word.parse().unwrap_or_else(|_| panic!("no number: {word}")),
        None => otherwise,
    }
}

fn main() {
    let (cases, seed, first) = (argument(1, CASES), argument(2, SEED), argument(3, 0));
    let mut tally = Tally::new(seed);
    let mut messages = messages::Messages::new(seed);
    let mut sessions = packets::Sessions::new();
    let mut session_count = 0u64;
    // SAFETY: the handler does only what a handler may.
    unsafe { signal(SIGSEGV, touched_outside as extern "C" fn(c_int) as usize) };
    for case in first..first + cases {
        let r = &mut Random::new(seed, case);
        CASE.store(case, Ordering::Relaxed);
        tally.begin(case);
        if r.one_in(SESSION_SHARE) {
            session_count += 1;
            sessions.case(r, &mut messages, &mut tally);
        } else {
            messages.case(r, &mut tally);
        }
        tally.end();
    }
    tally.print();
    let unmet = tally.unmet();
    let enough = unmet.is_empty() || cases < CASES_FOR_ALL;
    if !enough {
        println!("never met: {unmet:?}");
    }
    println!("seed {seed}: {} messages, {session_count} sessions, {} calls", cases - session_count, tally.calls);
    println!("{} passed, {} failed", tally.passed, tally.failed + u64::from(!enough));
    std::process::exit(i32::from(tally.failed > 0 || !enough));
}
