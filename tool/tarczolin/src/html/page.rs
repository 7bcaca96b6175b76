//! A page: what it tells of a program's list, the program, and its executions.
use super::escape::escaped;
use super::pick::{LeftOut, MOST};
use super::{drawing, section};
use crate::ask::Counts;
use crate::execution::Execution;
use crate::model::Model;
use crate::program::Program;
use std::fmt::Write;

/// What a page tells of a program's list.
pub struct Page<'a> {
    pub name: &'a str,
    pub program: &'a Program,
    /// The counts of the whole list; none where the page shows one execution by its schedule.
    pub listed: Option<Counts>,
    /// The executions that the page shows, in its order.
    pub executions: Vec<Execution<'a>>,
    /// How many were chosen to be shown and have no place.
    pub left_out: LeftOut,
}

impl Page<'_> {
    /// How many executions the page shows.
    fn shown(&self) -> Counts {
        let failing = self.executions.iter().filter(|e| e.fails).count();
        Counts { listed: self.executions.len() as u64, failing: failing as u64 }
    }

    /// How many executions there are and how many fail, of the whole list where it has been walked.
    pub fn all(&self) -> Counts {
        self.listed.unwrap_or(self.shown())
    }

    /// Does it show less than the whole list?
    fn is_part(&self) -> bool {
        self.shown() != self.all()
    }

    /// How many executions there are, and how many of them the page shows where these are not all.
    pub fn counts(&self) -> String {
        let (all, shown) = (self.all(), self.shown());
        if self.listed.is_none() {
            return format!("one execution by its schedule, {} failing", all.failing);
        }
        let part = format!("; {} of them, {} failing", shown.listed, shown.failing);
        format!("{}, {} failing{}", executions(all.listed), all.failing, if self.is_part() { &part } else { "" })
    }

    /// How many were chosen and have no place, in words; none where all have one.
    pub fn tell_left_out(&self) -> Option<String> {
        let LeftOut { listed, failing, looked_at } = self.left_out;
        let failing = failing.map_or(String::new(), |failing| format!(", {failing} failing,"));
        let looked_at = looked_at.map_or(String::new(), |number| format!(" of {number} that were looked at"));
        let others = "--from, --to and --only failing choose others";
        let why = format!("it holds at most {MOST}, the failing ones first{looked_at}; {others}");
        (listed > 0).then(|| format!("{listed} more{failing} are left out of the page: {why}"))
    }

    pub fn text(&self) -> String {
        let (name, model) = (escaped(self.name), self.program.model.name());
        let style = include_str!("style.css");
        let mut page = format!(
            "<!DOCTYPE html>\n<html lang=\"en\">\n<head>\n<meta charset=\"utf-8\">\n\
             <meta name=\"viewport\" content=\"width=device-width\">\n<title>{name}: executions under {model}</title>\n\
             <style>\n{style}</style>\n</head>\n<body>\n{}<h1>{name} <span class=\"model\">under {model}</span></h1>\n",
            drawing::arrow_heads()
        );
        page += &self.summary();
        page += &filter(self.program);
        page += &code(self.program);
        page += LEGEND;
        if self.program.model == Model::Tso {
            page += PENDING;
        }
        for execution in &self.executions {
            page += &section::section(execution);
        }
        page + "<script>\n" + include_str!("script.js") + "</script>\n</body>\n</html>\n"
    }

    /// How many executions there are, how many of them stand here, and a way to each.
    fn summary(&self) -> String {
        let Counts { listed, failing } = self.all();
        let what = if self.listed.is_some() { executions(listed) } else { "One execution by its schedule".to_string() };
        let mut text = format!("<p class=\"summary\">{what}, <b>{failing} failing</b>.");
        if self.is_part() {
            let Counts { listed, failing } = self.shown();
            write!(text, " This page shows {listed} of them, {failing} failing.").expect("text grows");
        }
        if let Some(left_out) = self.tell_left_out() {
            write!(text, " {left_out}.").expect("text grows");
        }
        text += "</p>\n<nav>";
        for execution in &self.executions {
            let name = execution.name();
            let class = if execution.fails { " class=\"fails\"" } else { "" };
            write!(text, "<a href=\"#e{name}\"{class}>{name}</a> ").expect("text grows");
        }
        text + "</nav>\n"
    }
}

/// So many, in words.
fn executions(number: u64) -> String {
    let word = if number == 1 { "execution" } else { "executions" };
    format!("{number} {word}")
}

/// What chooses among executions, threads and locations, and the keys.
fn filter(program: &Program) -> String {
    let names = &program.names;
    let option = |(value, name): (u8, String)| format!("<option value=\"{value}\">{}</option>", escaped(&name));
    let threads: String = program.numbers().map(|t| option((t, names.thread(t)))).collect();
    let places: String = program.locations().into_iter().map(|l| option((l, names.location(l)))).collect();
    let all = "<option value=\"\">all</option>";
    format!(
        "<p class=\"filter\"><label>thread <select id=\"thread\">{all}{threads}</select></label>\
         <label>location <select id=\"place\">{all}{places}</select></label>\
         <label><input type=\"checkbox\" id=\"failing\"/> failing only</label>\
         keys: <kbd>n</kbd> next, <kbd>p</kbd> the one before, <kbd>f</kbd> next failing</p>\n"
    )
}

/// The program in the text form, thread beside thread.
fn code(program: &Program) -> String {
    let mut text = String::from("<div class=\"code\">\n");
    for (t, code) in program.threads.iter().enumerate() {
        let (names, of) = (&program.names, t as u8);
        let lines: Vec<String> = match names.written(of, 0) {
            None => code.iter().enumerate().map(|(at, i)| escaped(&names.statement_at(of, at, i))).collect(),
            Some(_) => beside(program, of),
        };
        let name = escaped(&names.thread(of));
        writeln!(text, "<div><h2 class=\"t{t}\">{name}</h2><pre>{}</pre></div>", lines.join("\n")).expect("text grows");
    }
    text += "</div>\n";
    for members in &program.alike {
        let members: Vec<String> = members.iter().map(|t| escaped(&program.names.thread(*t))).collect();
        writeln!(text, "<p class=\"alike\">alike: {}</p>", members.join(", ")).expect("text grows");
    }
    text
}

/// A thread of a text: its labels and statements as they are written, with their lines, and beside each the instructions made of it where
/// these are written otherwise.
fn beside(program: &Program, t: u8) -> Vec<String> {
    let names = &program.names;
    let (code, of) = (&program.threads[t as usize], &names.threads[t as usize]);
    let wide = of.written.iter().map(|written| written.text.chars().count()).max().unwrap_or(0);
    let label =
        |at: usize| of.labels.iter().filter(move |(place, _)| *place == at).map(|(_, name)| format!("      {}:", escaped(name)));
    let mut lines: Vec<String> = Vec::new();
    for (at, (instruction, written)) in code.iter().zip(&of.written).enumerate() {
        lines.extend(label(at));
        let again = at > 0 && of.written[at - 1] == *written && names.statement(t, at).is_some();
        let plain = names.statement_at(t, at, instruction);
        let made = if plain == written.text { String::new() } else { names.instruction(t, instruction) };
        let made = if names.is_fence(t, at) { String::new() } else { made };
        let (line, text) = if again { (String::new(), "") } else { (written.line.to_string(), written.text.as_str()) };
        let row = format!("{line:>4}  {text:<wide$}  {made}");
        lines.push(escaped(row.trim_end()));
    }
    lines.extend(label(code.len()));
    lines
}

const LEGEND: &str = "\
<p class=\"legend\"><span class=\"key po\">program order</span> <span class=\"key rf\">reads from</span> \
<span class=\"key co\">coherence, to the next write</span> \
<span class=\"key fr\">from reads, to the first write behind the one seen</span><br>\
Time runs down: a row is a step, and every arrow points down. <b>#2</b> is a thread's access number 2, counted from 0.</p>\n";

const PENDING: &str = "\
<p class=\"legend\">Under total store order a store is pending in its thread's queue until it reaches memory, in a row of its own; until then \
only its own thread reads it. Coherence is the order of reaching memory.</p>\n";
