//! A share of the random cases: under valgrind, which is slow, `TEST_SHARE=100` leaves a hundredth of them.

fn divisor() -> usize {
    std::env::var("TEST_SHARE").ok().and_then(|n| n.parse().ok()).unwrap_or(1).max(1)
}

/// So many cases out of all.
pub fn of(cases: usize) -> usize {
    (cases / divisor()).max(1)
}

/// Are all cases run? Only then is it told what they must have reached.
pub fn whole() -> bool {
    divisor() == 1
}
