//! Rows of the table in docs/PERFORMANCE.md, as the programs that measure print them; tests/performance.py puts them there.

/// A time in nanoseconds: three digits and a unit.
pub fn time(nanoseconds: f64) -> String {
    let (value, unit) = match nanoseconds {
        t if t < 999.5 => (t, "ns"),
        t if t < 999.5e3 => (t / 1e3, "us"),
        t if t < 999.5e6 => (t / 1e6, "ms"),
        t => (t / 1e9, "s"),
    };
    let digits = if value < 9.995 { 2 } else { usize::from(value < 99.95) };
    format!("{value:.digits$} {unit}")
}

/// A ratio; one below a tenth by what it divides.
pub fn ratio(value: f64) -> String {
    if value < 0.1 {
        format!("1 / {}", grouped((1.0 / value).round() as u64))
    } else {
        format!("{value:.2}")
    }
}

/// A number with a comma in front of every third digit from the end.
pub fn grouped(number: u64) -> String {
    let digits = number.to_string();
    let comma = |k: usize| if k > 0 && (digits.len() - k).is_multiple_of(3) { "," } else { "" };
    digits.chars().enumerate().map(|(k, digit)| format!("{}{digit}", comma(k))).collect()
}

/// A row: what is measured, the library's time and plain Rust's in nanoseconds, their ratio, and at most which is asked for.
pub fn row(what: &str, library: f64, plain: f64, asked: &str) -> String {
    row_by(what, library, plain, "", asked)
}

/// The same beside something else than plain Rust's own call, which these words name.
pub fn row_by(what: &str, library: f64, other: f64, by: &str, asked: &str) -> String {
    let beside = format!("{} {by}", time(other));
    let front = format!("| {what} | {} | {} | {} | {asked}", time(library), beside.trim_end(), ratio(library / other));
    format!("{} |", front.trim_end())
}
