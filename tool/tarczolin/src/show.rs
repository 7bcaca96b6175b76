//! An execution in two columns: on the left the steps, on the right the write that each read saw; of a text beside them the statement as it is
//! written, with its line. Below, the values at the end.
use crate::execution::{Execution, Step};
use crate::program::{number, Program};
use crate::schedule::NO_STEP;
use std::fmt::Write;

/// How the left column is sorted.
#[derive(Clone, Copy, Debug, PartialEq, Eq)]
pub enum By {
    /// As the schedule has it.
    Time,
    /// One thread after the other.
    Thread,
}

/// The header: the place in the list, the schedule, whether it fails, and how many executions it stands for.
pub fn header(execution: &Execution) -> String {
    let verdict = if execution.fails { "fails" } else { "does not fail" };
    let steps = execution.schedule.iter().map(|t| format!("{t:02x}")).collect::<Vec<_>>().join(" ");
    let schedule = if steps.is_empty() { NO_STEP } else { &steps };
    let position = execution.position.map_or("execution".to_string(), |position| format!("execution {position}"));
    let standing = execution.standing().map_or(String::new(), |standing| format!(", {standing}"));
    format!("{position}: schedule {schedule}, {verdict}{standing}")
}

/// The header, a line a step, and the end. `#2` in front of a line is the number of that access in its thread. The right
/// column stands where the longest left line ends.
pub fn columns(execution: &Execution, by: By) -> String {
    let lines = match by {
        By::Time => lines(execution, |_| true),
        By::Thread => execution.program.numbers().flat_map(|t| lines(execution, move |of| of == t)).collect(),
    };
    let wide = |column: usize| lines.iter().map(|line| line[column].chars().count()).max().unwrap_or(0);
    let (first, second) = (wide(0), wide(1));
    let mut text = header(execution) + "\n";
    for [left, right, own] in &lines {
        let line = format!("{left:<first$}  {right:<second$}  {own}");
        writeln!(text, "{}", line.trim_end()).expect("text grows");
    }
    text + &end_lines(execution)
}

/// Final memory, by names.
pub fn memory_line(program: &Program, memory: &[u32; 8]) -> String {
    let value = |l: u8| format!("{} = {}", program.names.location(l), number(memory[l as usize]));
    let values: Vec<String> = program.locations().into_iter().map(value).collect();
    if values.is_empty() {
        return String::new();
    }
    format!("{:<9}  {}\n", "memory", values.join(", "))
}

/// The values at the end.
pub fn end_lines(execution: &Execution) -> String {
    let (memory, registers) = execution.end();
    let all = [("memory", memory), ("registers", registers)];
    let line = |(what, values): (&str, Vec<String>)| format!("{what:<9}  {}\n", values.join(", "));
    all.into_iter().filter(|(_, values)| !values.is_empty()).map(line).collect()
}

/// The lines of some threads: left, right, and the statement of a text.
fn lines(execution: &Execution, of: impl Fn(u8) -> bool) -> Vec<[String; 3]> {
    let names = &execution.program.names;
    let width = execution.program.numbers().map(|t| names.thread(t).chars().count()).max().unwrap_or(0);
    let front = |mark: &str, t: u8| format!("{mark:<4} {:<width$}  ", names.thread(t));
    let own = |t: u8, at: usize| names.written(t, at).map_or(String::new(), ToString::to_string);
    let mut lines = Vec::new();
    for (t, failed) in execution.at_once.iter().filter(|(t, _)| of(*t)) {
        let left = format!("{}{}, before the first step", front("!!", *t), execution.failure(*t, failed));
        lines.push([left, String::new(), own(*t, failed.at)]);
    }
    for step in execution.steps.iter().filter(|step| of(step.done.event.t)) {
        let Step { done, .. } = step;
        let t = done.event.t;
        let left = front(&format!("#{}", done.event.i), t) + &execution.access(done);
        lines.push([left, execution.source(step), own(t, done.at)]);
        if let Some(failed) = &done.failure {
            lines.push([front("!!", t) + &execution.failure(t, failed), String::new(), own(t, failed.at)]);
        }
    }
    lines
}
