//! Names the case in which the library under test stops the program.

use std::io::{stderr, Write};
use std::sync::atomic::{AtomicU64, Ordering};

static SEED: AtomicU64 = AtomicU64::new(0);
static CASE: AtomicU64 = AtomicU64::new(0);

/// SIGILL, SIGABRT, SIGBUS, SIGFPE and SIGSEGV.
const SIGNALS: [i32; 5] = [4, 6, 7, 8, 11];

extern "C" {
    fn signal(number: i32, handler: extern "C" fn(i32)) -> usize;
    fn _exit(status: i32) -> !;
}

pub fn watch(seed: u64) {
    SEED.store(seed, Ordering::Relaxed);
    for number in SIGNALS {
        // SAFETY: the handler writes one line and ends the program.
        unsafe { signal(number, stopped) };
    }
}

pub fn enter(case: u64) {
    CASE.store(case, Ordering::Relaxed);
}

extern "C" fn stopped(number: i32) {
    let [seed, case] = [&SEED, &CASE].map(|value| value.load(Ordering::Relaxed));
    let _ = writeln!(stderr(), "STOPPED by signal {number}, seed {seed} case {case}");
    // SAFETY: it takes any status.
    unsafe { _exit(1) }
}
