//! A report as JUnit writes it, for the machines that collect such: a case for each expectation under each model.
use super::report::{Ended, Report};
use crate::decide::Verdict;
use std::fmt::Write;

/// A text as XML has it: no control character has a place there.
fn escaped(text: &str) -> String {
    let one = |c: char| match c {
        '&' => "&amp;".to_string(),
        '<' => "&lt;".to_string(),
        '>' => "&gt;".to_string(),
        '"' => "&quot;".to_string(),
        '\n' => "&#10;".to_string(),
        c if c.is_control() || matches!(c, '\u{fffe}' | '\u{ffff}') => "\u{fffd}".to_string(),
        c => c.to_string(),
    };
    text.chars().map(one).collect()
}

/// A case: the file, what it is about, its time in seconds, and what is wrong with it: an element and its words.
fn case(file: &str, name: &str, seconds: f64, wrong: Option<(&str, String)>) -> String {
    let head = format!("  <testcase classname=\"{}\" name=\"{}\" time=\"{seconds:.3}\"", escaped(file), escaped(name));
    match wrong {
        None => format!("{head}/>\n"),
        Some((element, words)) => format!("{head}><{element} message=\"{}\"/></testcase>\n", escaped(&words)),
    }
}

/// The cases of a file.
fn cases(report: &Report) -> Vec<String> {
    let file = report.recorded.as_str();
    let seconds = report.time.as_secs_f64() / report.expectations().max(1) as f64;
    let mut all = Vec::new();
    for found in &report.found {
        for (one, decision) in found.decisions() {
            let wrong = match decision.verdict {
                Verdict::Holds(_) => None,
                Verdict::Fails(_) => Some(("failure", found.told(one, decision))),
                Verdict::Open => Some(("error", found.told(one, decision))),
            };
            all.push(case(file, &format!("line {}: {}", one.line, one.under(found.model)), seconds, wrong));
        }
    }
    let error = report.error.as_ref().map(|error| case(file, "read", 0.0, Some(("error", error.to_string()))));
    all.extend(error);
    if report.ended() == Ended::NoExpectation {
        all.push(case(file, "no expectation", seconds, Some(("skipped", "the file expects nothing".to_string()))));
    }
    all
}

/// The whole report.
pub fn xml(reports: &[Report]) -> String {
    let cases: Vec<String> = reports.iter().flat_map(cases).collect();
    let count = |element: &str| cases.iter().filter(|case| case.contains(&format!("><{element} "))).count();
    let seconds: f64 = reports.iter().map(|report| report.time.as_secs_f64()).sum();
    let mut text = String::from("<?xml version=\"1.0\" encoding=\"UTF-8\"?>\n");
    writeln!(
        text,
        "<testsuite name=\"tarczolin\" tests=\"{}\" failures=\"{}\" errors=\"{}\" skipped=\"{}\" time=\"{seconds:.3}\">",
        cases.len(),
        count("failure"),
        count("error"),
        count("skipped")
    )
    .expect("text grows");
    text + &cases.concat() + "</testsuite>\n"
}
