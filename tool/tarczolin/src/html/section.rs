//! One execution: a header, the two columns, and the drawing beside them.
use super::drawing;
use super::escape::escaped;
use super::layout::{HEAD, ROW};
use super::rows::{rows, Row};
use crate::execution::Execution;
use crate::model::thread;
use std::fmt::Write;

pub fn section(execution: &Execution) -> String {
    let (class, verdict) = if execution.fails { ("fails", "fails") } else { ("holds", "does not fail") };
    let name = execution.name();
    let title = if execution.position.is_some() { format!("Execution {name}") } else { "Execution".to_string() };
    let steps: Vec<String> =
        execution.schedule.iter().map(|byte| format!("<span class=\"t{}\">{byte:02x}</span>", thread(*byte))).collect();
    let schedule = if steps.is_empty() { "no step".to_string() } else { steps.join(" ") };
    let standing = execution.standing().map_or(String::new(), |standing| format!(", {standing}"));
    let rows = rows(execution);
    format!(
        "<section id=\"e{name}\" class=\"{class}\">\n<h2>{title} <span class=\"verdict\">{verdict}</span> \
         <span class=\"schedule\">schedule {schedule}{standing}</span></h2>\n<div class=\"both\" style=\"--print:{:.2}\">\n{}{}</div>\n{}</section>\n",
        on_paper(rows.len()),
        table(execution, &rows),
        drawing::svg(execution, &rows),
        end(execution)
    )
}

/// How large it is printed: so that it fits a sheet of A4 on its side, which has room for 1,180 pixels by 560 at this size.
fn on_paper(rows: usize) -> f64 {
    const LARGEST: f64 = 0.84;
    LARGEST.min(560.0 / (HEAD + ROW * rows) as f64)
}

/// The values at the end.
fn end(execution: &Execution) -> String {
    let (memory, registers) = execution.end();
    let all: Vec<String> = memory.into_iter().chain(registers).collect();
    format!("<p class=\"end\">at the end: {}</p>\n", escaped(&all.join(", ")))
}

/// The two columns. Rows are as high as those of the drawing: a cell has room for three lines, and says all where a pointer rests.
fn table(execution: &Execution, rows: &[Row]) -> String {
    let mut text = format!(
        "<table>\n<tr style=\"height:{HEAD}px\"><th class=\"number\"></th><th></th><th>step</th><th>its read saw</th></tr>\n"
    );
    for row in rows {
        let t = row.thread();
        let thread = cell(&format!(" class=\"t{t}\""), &execution.program.names.thread(t));
        let (class, cells) = match row {
            Row::Failure(t, failed) => {
                let words = cell(" colspan=\"2\"", &execution.failure(*t, failed));
                (" class=\"failure\"", format!("<td></td>{thread}{words}"))
            }
            Row::Step(step) => {
                let number = format!("<td class=\"number\">#{}</td>", step.done.event.i);
                let seen = execution.source(step);
                let own = execution.written(&step.done).map(ToString::to_string);
                ("", format!("{number}{thread}{}{}", own_cell(&execution.access(&step.done), own), cell("", &seen)))
            }
        };
        writeln!(text, "<tr style=\"height:{ROW}px\" {}{class}>{cells}</tr>", row.data()).expect("text grows");
    }
    text + "</table>\n"
}

/// A step, and below it the statement of a text as it is written, with its line.
fn own_cell(words: &str, own: Option<String>) -> String {
    let Some(own) = own else { return cell("", words) };
    let (words, own) = (escaped(words), escaped(&own));
    format!("<td title=\"{words}; {own}\"><div>{words}<br/><span class=\"own\">{own}</span></div></td>")
}

fn cell(attributes: &str, words: &str) -> String {
    let words = escaped(words);
    format!("<td{attributes} title=\"{words}\"><div>{words}</div></td>")
}
