//! Where a run is when a call crashes the process; it could not be shown otherwise.

use std::sync::atomic::{AtomicU64, Ordering::Relaxed};

/// What a run is doing.
#[derive(Clone, Copy)]
pub enum At {
    Sequence,
    Limit,
    DesignF,
    Losses,
    Fuzz,
}

const NAMES: [&str; 5] = [
    "sequence",
    "the arrays near the limit,",
    "the losses of design F, of a list of",
    "the losses of array",
    "the raw strings of seed",
];

/// What the run is doing, the number of the sequence or array, and that of the call.
static WHERE: [AtomicU64; 3] = [const { AtomicU64::new(0) }; 3];

extern "C" {
    fn signal(number: i32, handler: extern "C" fn(i32)) -> usize;
}

/// SIGILL, SIGBUS, SIGFPE, SIGSEGV.
const FATAL: [i32; 4] = [4, 7, 8, 11];

/// From now on such a signal prints where the run is and ends it.
pub fn watch() {
    for number in FATAL {
        // SAFETY: the handler has the form that the system asks for; it does not return.
        unsafe { signal(number, struck) };
    }
}

/// A call begins.
pub fn at(at: At, number: u64, call: u64) {
    WHERE.iter().zip([at as u64, number, call]).for_each(|(to, from)| to.store(from, Relaxed));
}

extern "C" fn struck(signal: i32) {
    let [at, number, call] = [0, 1, 2].map(|which: usize| WHERE[which].load(Relaxed));
    eprintln!("signal {signal} in {} {number}, call {call}", NAMES[at as usize]);
    std::process::exit(1);
}
