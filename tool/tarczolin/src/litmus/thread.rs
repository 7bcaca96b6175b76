//! One thread of a test: from its cells to the statements of the text form.
use super::cell::{Cell, What};
use super::operand::Operand;
use super::part::Part;
use super::starts::{Place, Start};
use crate::asm::Wrong;
use crate::program::REGISTERS;
use std::collections::BTreeSet;

/// A line of the text form, and where in the test it comes from.
pub struct Line<'a> {
    pub text: String,
    pub part: Part<'a>,
}

/// A thread: its number, its cells, the registers that the condition asks for, and the name of a register for old values that nobody asked for.
pub struct Thread<'a, 't> {
    pub number: usize,
    pub cells: &'t [Cell<'a>],
    pub starts: &'t [Start<'a>],
    pub asked: BTreeSet<&'t str>,
    pub old: &'t str,
}

/// An operand as the text form writes it.
fn told(p: &Operand) -> &str {
    match p {
        Operand::Number(text) | Operand::Register(text) | Operand::Location(text) => text,
    }
}

impl What {
    /// The registers that it reads, and the one that it gives a value.
    fn registers(&self) -> (Vec<&str>, Option<&str>) {
        fn of(p: &Operand) -> Option<&str> {
            match p {
                Operand::Register(r) => Some(r),
                _ => None,
            }
        }
        match self {
            What::Statement { reads, gives, .. } => (reads.iter().map(String::as_str).collect(), gives.as_deref()),
            What::Add { p, .. } => (of(p).into_iter().collect(), None),
            What::Compare { r, p } => ([r.as_str()].into_iter().chain(of(p)).collect(), None),
            What::Jump { .. } | What::Fence | What::Needless(_) => (Vec::new(), None),
        }
    }
}

impl<'a> Thread<'a, '_> {
    /// Its statements, or what is wrong with it.
    pub fn lines(&self) -> Result<Vec<Line<'a>>, Vec<Wrong>> {
        let all = 0..self.cells.len();
        let wrong: Vec<Wrong> = all.clone().filter_map(|at| self.wrong_jump(at).or_else(|| self.wrong_label(at))).collect();
        let wrong: Vec<Wrong> = wrong.into_iter().chain(self.without_register()).collect();
        if !wrong.is_empty() {
            return Err(wrong);
        }
        let begins = self.beginnings().into_iter();
        let begins = begins.map(|(r, value, part)| Line { text: format!("  {r} = {value}"), part });
        Ok(begins.chain(all.flat_map(|at| self.statement(at))).collect())
    }

    /// The registers that need a first statement, each with its value: those that begin with another value than 0, and those that the text
    /// form knows only once they are given one.
    fn beginnings(&self) -> Vec<(String, &'a str, Part<'a>)> {
        let mut all: Vec<(String, &'a str, Part<'a>)> = Vec::new();
        let mut given: BTreeSet<&str> = BTreeSet::new();
        for cell in self.cells {
            let (reads, gives) = cell.what.as_ref().map_or((Vec::new(), None), What::registers);
            for r in reads.into_iter().filter(|r| !given.contains(r) && gives != Some(r)) {
                if !all.iter().any(|(other, ..)| other == r) {
                    all.push((r.to_string(), "0", cell.part));
                }
            }
            given.extend(gives);
        }
        for start in self.starts {
            let Place::Register(t, r) = &start.place else { continue };
            let wanted = !start.is_zero() || (self.asked.contains(r.as_str()) && !given.contains(r.as_str()));
            if *t == self.number && wanted {
                all.retain(|(other, ..)| other != r);
                all.push((r.clone(), start.value, start.part));
            }
        }
        all
    }

    /// A fetch and add for which no register is left.
    fn without_register(&self) -> Option<Wrong> {
        let first = self.cells.iter().find(|cell| matches!(cell.what, Some(What::Add { .. })))?;
        let of_cells = self.cells.iter().filter_map(|cell| cell.what.as_ref()).flat_map(|what| {
            let (reads, gives) = what.registers();
            reads.into_iter().chain(gives)
        });
        let begin = self.beginnings();
        let used: BTreeSet<&str> = of_cells.chain(begin.iter().map(|(r, ..)| r.as_str())).collect();
        let message =
            format!("{} takes a register for the old value, and none is left: {} are used", first.part.text(), used.len());
        (used.len() >= REGISTERS as usize).then(|| first.part.wrong(message))
    }

    fn what(&self, at: usize) -> Option<&What> {
        self.cells.get(at).and_then(|cell| cell.what.as_ref())
    }

    /// Does this cell jump by a comparison, and can nothing come between?
    fn jumps_behind(&self, at: usize) -> bool {
        let unlabelled = self.cells.get(at).is_some_and(|cell| cell.label.is_none());
        unlabelled && matches!(self.what(at), Some(What::Jump { equal: Some(_), .. }))
    }

    /// What is wrong with a comparison or a jump.
    fn wrong_jump(&self, at: usize) -> Option<Wrong> {
        let part = self.cells[at].part;
        match self.what(at)? {
            What::Compare { .. } if !self.jumps_behind(at + 1) => {
                Some(part.wrong("right behind CMP stands the JE or JNE that asks for it"))
            }
            What::Jump { equal: Some(_), .. } if self.comparison(at).is_none() => {
                Some(part.wrong("JE and JNE stand right behind the CMP that they ask for, and no label between them"))
            }
            What::Jump { to, .. } => match self.labelled(to) {
                None => Some(part.wrong(format!("there is no label {to} in this thread"))),
                Some(there) if there <= at => {
                    let line = self.cells[there].part.place().0;
                    Some(part.wrong(format!("{to} stands above, in line {line}: jumps go forward only, programs have no loops")))
                }
                Some(_) => None,
            },
            _ => None,
        }
    }

    /// A label that stands in the thread twice.
    fn wrong_label(&self, at: usize) -> Option<Wrong> {
        let label = self.cells[at].label?;
        let first = self.labelled(label.text())?;
        (first != at).then(|| label.wrong(format!("the label {} stands in this thread twice", label.text())))
    }

    fn labelled(&self, name: &str) -> Option<usize> {
        self.cells.iter().position(|cell| cell.label.is_some_and(|label| label.text() == name))
    }

    /// The comparison that a jump asks for: that of the cell in front of it, and of the jumps right in front of it.
    fn comparison(&self, at: usize) -> Option<(&str, &Operand)> {
        let first = (0..=at).rev().find(|at| !self.jumps_behind(*at)).filter(|first| *first < at)?;
        match self.what(first)? {
            What::Compare { r, p } => Some((r, p)),
            _ => None,
        }
    }

    /// The lines of a cell.
    fn statement(&self, at: usize) -> Vec<Line<'a>> {
        let Cell { part, label, what, .. } = &self.cells[at];
        let label = label.map(|label| Line { text: format!("{}:", label.text()), part: label });
        let text = what.as_ref().and_then(|what| match what {
            What::Statement { text, .. } => Some(text.clone()),
            What::Add { location, p } => Some(format!("{} = fetch_add {location} {}", self.old, told(p))),
            What::Compare { .. } => None,
            What::Jump { equal: None, to } => Some(format!("goto {to}")),
            What::Jump { equal: Some(equal), to } => {
                let (r, p) = self.comparison(at)?;
                Some(format!("if {r} {} {} goto {to}", if *equal { "==" } else { "!=" }, told(p)))
            }
            What::Fence => Some("fence".to_string()),
            What::Needless(why) => Some(format!("# {why}")),
        });
        label.into_iter().chain(text.map(|text| Line { text: format!("  {text}"), part: *part })).collect()
    }
}
