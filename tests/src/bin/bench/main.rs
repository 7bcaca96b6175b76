//! Times of the library beside plain Rust, both measured in one run: all parts, or those that are named. No time is asserted. Lines of
//! five cells between bars are rows of the table in docs/PERFORMANCE.md.
mod chart;
mod check;
mod covers;
mod force;
mod graph;
mod growth;
mod judge;
mod listing;
mod search;
mod states;
mod step;
mod store_order;
mod timing;

const PARTS: [(&str, fn()); 11] = [
    ("check", check::report),
    ("graph", graph::report),
    ("step", step::report),
    ("judge", judge::report),
    ("search", search::report),
    ("states", states::report),
    ("listing", listing::report),
    ("growth", growth::report),
    ("store_order", store_order::report),
    ("covers", covers::report),
    ("force", force::report),
];

fn main() {
    let named: Vec<String> = std::env::args().skip(1).collect();
    for (name, report) in PARTS {
        if named.is_empty() || named.iter().any(|other| other == name) {
            report();
        }
    }
}
