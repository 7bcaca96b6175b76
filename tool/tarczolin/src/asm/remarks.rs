//! Remark lines of programs, and names kept in them: `# name x3 lock`, `# name T0 producer`, `# name T0 r1 old`; fences too: `# fence T0 2`.
use super::words;
use crate::program::{Names, INSTRUCTIONS, THREADS};
use std::collections::BTreeMap;

/// The remark line in place of a fence that is left out.
const LEFT_OUT: &str = "# a fence is left out here: under sequential consistency it means nothing";

/// What a name line names.
#[derive(Clone, Copy, Debug, PartialEq, Eq)]
enum Thing {
    Location(u8),
    Thread(u8),
    Register(u8, u8),
}

/// Remark lines without their ends, each with the number of frames in front of it.
#[derive(Clone, Debug, Default, PartialEq, Eq)]
pub struct Remarks(pub Vec<(usize, String)>);

/// What a remark line names, and how, if it is a name line.
fn named(line: &str) -> Option<(Thing, &str)> {
    let words: Vec<&str> = line.split_whitespace().collect();
    let thread = |word: &str| words::thread(word).filter(|t| word.starts_with('T') && (*t as usize) < THREADS);
    let (thing, name) = match words.as_slice() {
        ["#", "name", thing, name] => match words::location(thing) {
            Some(l) => (Thing::Location(l.ok()?), *name),
            None => (Thing::Thread(thread(thing)?), *name),
        },
        ["#", "name", of, register, name] => (Thing::Register(thread(of)?, words::register(register)?.ok()?), *name),
        _ => return None,
    };
    let plain = |name: &str| !name.is_empty() && name.bytes().all(|c| c.is_ascii_alphanumeric() || c == b'_');
    // a location may be a place of an array: next[2]
    let array = || {
        matches!(thing, Thing::Location(_))
            && name
                .strip_suffix(']')
                .and_then(|name| name.split_once('['))
                .is_some_and(|(name, k)| plain(name) && k.parse::<u32>().is_ok_and(|number| number.to_string() == k))
    };
    ((plain(name) || array()) && words::is_name(name)).then_some((thing, name))
}

/// The name line of a thing.
fn line(thing: Thing, name: &str) -> String {
    match thing {
        Thing::Location(l) => format!("# name x{l} {name}"),
        Thing::Thread(t) => format!("# name T{t} {name}"),
        Thing::Register(t, r) => format!("# name T{t} r{r} {name}"),
    }
}

/// The line of a fence: its thread, and its place among the thread's instructions, from 0.
fn fence_line(t: u8, at: usize) -> String {
    format!("# fence T{t} {at}")
}

/// The thread and the place of a fence, if a remark line tells one.
fn fence(line: &str) -> Option<(u8, usize)> {
    let all = (0..THREADS as u8).flat_map(|t| (0..INSTRUCTIONS).map(move |at| (t, at)));
    all.into_iter().find(|(t, at)| fence_line(*t, *at) == line.trim_end())
}

/// Every thing that has a name.
fn all(names: &Names) -> Vec<(Thing, &str)> {
    fn some(name: &Option<String>) -> Option<&str> {
        name.as_deref()
    }
    let locations = (0..).zip(&names.locations).filter_map(|(l, name)| Some((Thing::Location(l), some(name)?)));
    let threads = (0..).zip(&names.threads).flat_map(|(t, of)| {
        let registers = (0..).zip(&of.registers).filter_map(move |(r, name)| Some((Thing::Register(t, r), some(name)?)));
        some(&of.name).map(|name| (Thing::Thread(t), name)).into_iter().chain(registers)
    });
    locations.chain(threads).collect()
}

impl Remarks {
    /// The remark lines of a program file.
    pub fn of_file(file: &[u8]) -> Remarks {
        let mut frames = 0;
        let mut remarks = Vec::new();
        for line in file.split(|&c| c == b'\n').filter(|line| !line.is_empty()) {
            match line.starts_with(b"#") {
                true => remarks.push((frames, String::from_utf8_lossy(line).into_owned())),
                false => frames += 1,
            }
        }
        Remarks(remarks)
    }

    /// The remark lines of a text, by the lines of the text that its frames come from.
    pub fn of_text(text: &[u8], lines: &[usize]) -> Remarks {
        Remarks::of_text_without(text, lines, &[], BTreeMap::new())
    }

    /// The same of a text whose fences in some lines are left out: a remark line stands in place of each. So does one in place of each line
    /// that expects something.
    pub fn of_text_without(text: &[u8], lines: &[usize], left_out: &[usize], expected: BTreeMap<usize, String>) -> Remarks {
        let all = (1..).zip(text.split(|&c| c == b'\n').map(<[u8]>::trim_ascii));
        let own = all.filter(|(at, line)| line.starts_with(b"#") && !expected.contains_key(at));
        let own = own.map(|(at, line)| (at, String::from_utf8_lossy(line).into_owned()));
        let mut remarks: Vec<(usize, String)> = own.chain(left_out.iter().map(|at| (*at, LEFT_OUT.to_string()))).collect();
        remarks.extend(expected);
        remarks.sort_by_key(|(at, _)| *at);
        let before = |at: usize| lines.iter().filter(|line| **line < at).count();
        Remarks(remarks.into_iter().map(|(at, line)| (before(at), line)).collect())
    }

    /// The names that the name lines give; of two for one thing, or of one for two things that could be taken for each other, the first.
    pub fn names(&self) -> Names {
        let mut names = Names::default();
        for (thing, name) in self.0.iter().filter_map(|(_, line)| named(line)) {
            let meets = |other: &Thing| match (thing, other) {
                (Thing::Register(t, _), Thing::Register(u, _)) => t == *u,
                (Thing::Thread(_), Thing::Thread(_)) => true,
                // a word of a statement is a location or a register
                (Thing::Thread(_), _) | (_, Thing::Thread(_)) => false,
                _ => true,
            };
            if all(&names).iter().any(|(other, taken)| *other == thing || (meets(other) && *taken == name)) {
                continue;
            }
            let name = Some(name.to_string());
            match thing {
                Thing::Location(l) => names.locations[l as usize] = name,
                Thing::Thread(t) => names.of_thread(t).name = name,
                Thing::Register(t, r) => names.of_thread(t).registers[r as usize] = name,
            }
        }
        names
    }

    /// These remarks, in front of them a name line for each name that they do not give.
    pub fn with(&self, names: &Names) -> Remarks {
        let given = self.names();
        let given = all(&given);
        let missing = all(names).into_iter().filter(|one| !given.contains(one));
        let lines = missing.map(|(thing, name)| (0, line(thing, name)));
        Remarks(lines.chain(self.0.iter().cloned()).collect())
    }

    /// The fences that remark lines tell.
    pub fn fences(&self) -> impl Iterator<Item = (u8, usize)> + '_ {
        self.0.iter().filter_map(|(_, line)| fence(line))
    }

    /// Takes away the lines of these fences.
    pub fn without_fences(&mut self, fences: &[(u8, usize)]) {
        self.0.retain(|(_, line)| !fence(line).is_some_and(|one| fences.contains(&one)));
    }

    /// These remarks, in front of them a line for each fence.
    pub fn with_fences(self, names: &Names) -> Remarks {
        let lines = names.fences().map(|(t, at)| (0, fence_line(t, at)));
        Remarks(lines.chain(self.0).collect())
    }

    /// The remark lines that stand right in front of a frame, by its number, or behind the last one.
    pub fn before(&self, frame: usize) -> impl Iterator<Item = &str> {
        self.0.iter().filter(move |(at, _)| *at == frame).map(|(_, line)| line.as_str())
    }
}
