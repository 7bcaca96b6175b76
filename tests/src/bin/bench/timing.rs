//! Best times of two calls, measured in turns.
use std::hint::black_box;
use std::time::Instant;
use tarczolin_tests::share;

const ROUNDS: usize = 300;
const CALLS: usize = 100;

/// Nanoseconds a call, over one round of so many calls.
fn round<T>(calls: usize, call: &mut impl FnMut() -> T) -> f64 {
    let began = Instant::now();
    for _ in 0..calls {
        black_box(call());
    }
    began.elapsed().as_nanos() as f64 / calls as f64
}

/// The best times of the library and of plain Rust, in nanoseconds a call, over so many rounds of so many calls, or a share of the rounds.
pub fn best_of<T, U>(rounds: usize, calls: usize, mut library: impl FnMut() -> T, mut plain: impl FnMut() -> U) -> (f64, f64) {
    let mut best = (f64::MAX, f64::MAX);
    for _ in 0..share::of(rounds) {
        best.0 = best.0.min(round(calls, &mut library));
        best.1 = best.1.min(round(calls, &mut plain));
    }
    best
}

/// The best times over many rounds of many calls.
pub fn best<T, U>(library: impl FnMut() -> T, plain: impl FnMut() -> U) -> (f64, f64) {
    best_of(ROUNDS, CALLS, library, plain)
}
