//! How often each call was made.
use std::sync::atomic::{AtomicU64, Ordering};

/// The calls, without the word in front of their names.
const NAMES: [&str; 39] = [
    "check",
    "graph",
    "class",
    "judge",
    "start",
    "continue",
    "violation",
    "count",
    "count_with",
    "violation_with",
    "kth",
    "rank",
    "rows",
    "rows_after",
    "outcomes",
    "covers",
    "covers_models",
    "covers_with",
    "force",
    "force_with",
    "tso_graph",
    "tso_class",
    "tso_start",
    "tso_continue",
    "tso_violation",
    "tso_count",
    "tso_count_with",
    "tso_violation_with",
    "tso_rows",
    "tso_rows_after",
    "tso_outcomes",
    "robust",
    "open",
    "ask",
    "serve",
    "close",
    "set",
    "return",
    "forget",
];

pub struct Tally {
    calls: [AtomicU64; NAMES.len()],
    programs: AtomicU64,
}

impl Default for Tally {
    /// No calls yet.
    fn default() -> Tally {
        Tally { calls: std::array::from_fn(|_| AtomicU64::new(0)), programs: AtomicU64::new(0) }
    }
}

impl Tally {
    /// One more call of this name.
    pub fn call(&self, name: &str) {
        let at = NAMES.iter().position(|known| *known == name).expect("a call of the library");
        self.calls[at].fetch_add(1, Ordering::Relaxed);
    }

    pub fn program(&self) {
        self.programs.fetch_add(1, Ordering::Relaxed);
    }

    pub fn programs(&self) -> u64 {
        self.programs.load(Ordering::Relaxed)
    }

    pub fn calls(&self) -> u64 {
        self.calls.iter().map(|calls| calls.load(Ordering::Relaxed)).sum()
    }

    /// A line for each call.
    pub fn table(&self) -> String {
        let row = |(name, calls): (&&str, &AtomicU64)| format!("{:>14}  {name}\n", calls.load(Ordering::Relaxed));
        NAMES.iter().zip(&self.calls).map(row).collect()
    }
}
