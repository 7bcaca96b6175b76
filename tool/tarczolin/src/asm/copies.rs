//! Threads of the same code: `thread worker * 3 alike` is three threads, worker0 to worker2, declared alike.
use super::line::{Line, Piece};
use super::words::constant;
use super::wrong::{used, Wrong};
use crate::program::THREADS;
use std::collections::BTreeMap;

/// What a thread's line asks for: so many threads of this name, alike or not.
struct Head {
    name: Option<String>,
    times: usize,
    alike: bool,
}

fn first(line: &Line) -> &str {
    line.pieces.first().map_or("", |piece| piece.text.as_str())
}

/// What a line that opens threads asks for; none where it opens one.
fn head(line: &Line, constants: &BTreeMap<String, u32>) -> Option<Result<Head, Wrong>> {
    let star = line.pieces.iter().position(|piece| piece.text == "*")?;
    let wrong = |at: usize, message: String| {
        let last = line.pieces.last().map_or(1, |piece| piece.column + piece.text.chars().count());
        Some(Err(Wrong {
            line: line.number,
            column: line.pieces.get(at).map_or(last, |piece| piece.column),
            message: message + &used(&line.uses),
        }))
    };
    if first(line) != "thread" || star > 2 {
        return wrong(star, "* has no meaning here".to_string());
    }
    let word = line.pieces.get(star + 1).map(|piece| piece.text.as_str()).unwrap_or("");
    let times = constant(word).and_then(Result::ok).or_else(|| constants.get(word).copied()).map(|times| times as usize);
    let Some(times) = times.filter(|times| (1..=THREADS).contains(times)) else {
        return wrong(star + 1, format!("a number of threads from 1 to {THREADS} is expected here"));
    };
    let alike = match line.pieces.get(star + 2).map(|piece| piece.text.as_str()) {
        None => false,
        Some("alike") if times < 2 => return wrong(star + 2, "two threads at least are alike".to_string()),
        Some("alike") if line.pieces.len() == star + 3 => true,
        Some("alike") => return wrong(star + 3, "the statement has ended here".to_string()),
        Some(other) => return wrong(star + 2, format!("alike is expected here, not {other}")),
    };
    Some(Ok(Head { name: line.pieces.get(1).filter(|_| star == 2).map(|piece| piece.text.clone()), times, alike }))
}

/// A line of these words, at the place of another.
fn instead(line: &Line, words: &[String]) -> Line {
    let column = line.pieces[0].column;
    let pieces = words.iter().map(|text| Piece { text: text.clone(), column }).collect();
    Line { pieces, ..line.clone() }
}

/// The lines with each of their threads written out, and behind them the threads that are alike.
pub fn threads(lines: Vec<Line>, constants: &BTreeMap<String, u32>, wrong: &mut Vec<Wrong>) -> Vec<Line> {
    let (mut all, mut alike, mut opened) = (Vec::new(), Vec::new(), 0);
    let mut rest = &lines[..];
    while let Some((line, behind)) = rest.split_first() {
        rest = behind;
        let head = match head(line, constants) {
            Some(Err(error)) => {
                wrong.push(error);
                continue;
            }
            None => {
                opened += (first(line) == "thread") as usize;
                all.push(line.clone());
                continue;
            }
            Some(Ok(head)) => head,
        };
        let length = behind.iter().position(|line| ["thread", "alike"].contains(&first(line))).unwrap_or(behind.len());
        for k in 0..head.times {
            let name = head.name.iter().map(|name| format!("{name}{k}"));
            all.push(instead(line, &["thread".to_string()].into_iter().chain(name).collect::<Vec<_>>()));
            all.extend_from_slice(&behind[..length]);
        }
        if head.alike {
            let members = (opened..opened + head.times).map(|t| t.to_string());
            alike.push(instead(line, &["alike".to_string()].into_iter().chain(members).collect::<Vec<_>>()));
        }
        opened += head.times;
        rest = &behind[length..];
    }
    all.extend(alike);
    all
}
