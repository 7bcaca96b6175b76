//! What the documents show of the command is what the command prints, what they name is there, and their links lead somewhere.
mod common;

use common::json::{parse, Value};
use common::tool;
use std::collections::BTreeSet;
use std::io::{BufRead, BufReader, Read};
use std::path::Path;
use std::process::{Command, Stdio};
use tarczolin::commands::all;
use tarczolin_tests::files::{path, read};

/// The documents that show commands, in the order in which these are run.
const DOCUMENTS: [&str; 5] = ["README.md", "docs/GUIDE.md", "docs/FORMAT.md", "docs/JSON.md", "docs/CLUSTER.md"];

/// A command of a document, and the lines shown below it. A line of two dots stands for lines that are left out.
struct Shown {
    command: String,
    lines: Vec<String>,
}

fn text(name: &str) -> String {
    String::from_utf8(read(name)).unwrap()
}

/// The front of a line that ends in a backslash and goes on in the next.
fn unended(line: &str) -> Option<&str> {
    line.strip_suffix('\\')
}

/// The indented lines that begin with a dollar, each with those that follow it, over empty lines too.
fn shown(text: &str) -> Vec<Shown> {
    let mut all: Vec<Shown> = Vec::new();
    let (mut open, mut empty) = (false, 0);
    for line in text.lines() {
        match (line.strip_prefix("    "), all.last_mut()) {
            (Some(code), Some(last)) if open && last.lines.is_empty() && unended(&last.command).is_some() => {
                last.command += &format!("\n{code}");
            }
            (Some(code), _) if code.starts_with("$ ") => {
                all.push(Shown { command: code[2..].to_string(), lines: Vec::new() });
                (open, empty) = (true, 0);
            }
            (Some(code), Some(last)) if open => {
                last.lines.extend(vec![String::new(); empty]);
                match last.lines.last().and_then(|line| unended(line)) {
                    Some(front) => *last.lines.last_mut().unwrap() = format!("{front}{}", code.trim_start()),
                    None => last.lines.push(code.to_string()),
                }
                empty = 0;
            }
            _ if line.is_empty() => empty += 1,
            _ => open = false,
        }
    }
    all
}

/// Are these the lines that were printed?
fn same(printed: &[&str], lines: &[String]) -> bool {
    let Some(at) = lines.iter().position(|line| line == "..") else { return printed == lines };
    let (front, back) = (&lines[..at], &lines[at + 1..]);
    let inner = printed.len().checked_sub(front.len() + back.len());
    inner.is_some() && printed[..front.len()] == *front && printed[printed.len() - back.len()..] == *back
}

/// Lines are read as they are meant: one that goes on, one that is left out, and no others are taken for these.
#[test]
fn shown_lines_are_read() {
    let all = shown("    $ a \\\n      | b\n    one \\\n      more\n    ..\n\n    last\ntext\n    $ c\n\n    d\n");
    let found: Vec<(&str, Vec<&str>)> =
        all.iter().map(|one| (one.command.as_str(), one.lines.iter().map(String::as_str).collect())).collect();
    assert_eq!(found, [("a \\\n  | b", vec!["one more", "..", "", "last"]), ("c", vec!["", "d"])]);
    let lines = &all[0].lines;
    assert!(same(&["one more", "x", "", "last"], lines) && same(&["one more", "", "last"], lines));
    assert!(!same(&["one", "", "last"], lines) && !same(&["one more", "last"], lines) && !same(&["one more", ""], lines));
    assert!(same(&["", "d"], &all[1].lines) && !same(&["", "d", ""], &all[1].lines));
}

/// A folder with what a reader has.
fn folder() -> String {
    let folder = common::folder("documents");
    for name in ["examples", "Makefile", "package.mk", "crates", "crates.txt", "tests", "python"] {
        let _ = std::os::unix::fs::symlink(path(name), folder.join(name));
    }
    folder.display().to_string()
}

#[test]
fn commands_print_what_is_shown() {
    let (folder, all) = (folder(), DOCUMENTS.map(|name| shown(&text(name))));
    let tool = Path::new(env!("CARGO_BIN_EXE_tarczolin")).parent().unwrap().display().to_string();
    for Shown { command, lines } in all.iter().flatten() {
        let path = format!("{tool}:{}", std::env::var("PATH").unwrap());
        let shell = format!("({command}\n) 2>&1");
        let output = Command::new("sh").args(["-c", &shell]).current_dir(&folder).env("PATH", path).output().unwrap();
        let text = String::from_utf8(output.stdout).unwrap();
        let printed: Vec<&str> = text.lines().collect();
        assert!(same(&printed, lines), "{command}\nprints\n{text}\nand this is shown:\n{}", lines.join("\n"));
    }
    let numbers = all.each_ref().map(Vec::len);
    assert!(numbers.iter().all(|number| *number > 0) && numbers.iter().sum::<usize>() >= 84, "{numbers:?} commands");
}

/// Every command and every option stands in the guide, and every command is shown with what it prints there or in the formats.
#[test]
fn every_command_and_option_is_shown() {
    let guide = text("docs/GUIDE.md");
    let shown = ["docs/GUIDE.md", "docs/FORMAT.md"].map(|name| shown(&text(name)));
    for command in all() {
        let name = command.name;
        assert!(
            guide.contains(&format!("tarczolin {name}")) || guide.contains(&format!("also man, {name}")) || name == "man",
            "{name}"
        );
        let by = |shown: &&Shown| shown.command.contains(&format!("tarczolin {name} ")) && !shown.lines.is_empty();
        assert!(shown.iter().flatten().any(|one| by(&one)) || ["help", "man", "completions"].contains(&name), "{name} is shown");
        for option in command.options {
            assert!(guide.contains(option.name), "{name} {}", option.name);
        }
    }
}

/// Numbers as N, runs of digits and points.
fn without_numbers(line: &str) -> String {
    let mut text = String::new();
    for c in line.chars() {
        match c {
            '0'..='9' | '.' if text.ends_with('N') => {}
            '0'..='9' => text.push('N'),
            c => text.push(c),
        }
    }
    text
}

/// The lines of progress and of Ctrl-C that the guide shows are those of a run that is interrupted, but for the numbers.
#[test]
fn progress_and_interrupt_as_shown() {
    let mut command = tool(&["list", "examples/long.asm"]);
    let mut child = command.env("TARCZOLIN_PROGRESS", "50").stdout(Stdio::null()).stderr(Stdio::piped()).spawn().unwrap();
    let mut told = BufReader::new(child.stderr.take().unwrap());
    let mut err = String::new();
    // Ctrl-C behind the first line of progress
    told.read_line(&mut err).unwrap();
    assert!(Command::new("kill").args(["-INT", &child.id().to_string()]).status().unwrap().success());
    told.read_to_string(&mut err).unwrap();
    assert_eq!(child.wait().unwrap().code(), Some(2), "{err}");
    let printed: Vec<String> = err.lines().map(without_numbers).collect();
    let guide = text("docs/GUIDE.md").replace("\\\n      ", "");
    for front in ["    tarczolin: 1171456 listed", "    tarczolin: interrupted: "] {
        let line = guide.lines().find(|line| line.starts_with(front)).unwrap_or_else(|| panic!("{front}"));
        assert!(printed.contains(&without_numbers(line.trim_start())), "{line} in {err}");
    }
}

/// A heading as links name it: small letters, spaces as dashes, and no other sign.
fn anchor(heading: &str) -> String {
    let kept = heading.trim_start_matches('#').trim().chars().filter(|c| c.is_alphanumeric() || " -_".contains(*c));
    kept.map(|c| if c == ' ' { '-' } else { c.to_ascii_lowercase() }).collect()
}

/// What is wrong with the links of a document to files beside it and to headings.
fn wrong_links(name: &str) -> Vec<String> {
    let links = text(name).split("](").skip(1).map(|rest| rest.split(')').next().unwrap().to_string()).collect::<Vec<_>>();
    let beside = Path::new(name).parent().unwrap();
    let wrong = |link: &String| {
        let (file, heading) = link.split_once('#').unwrap_or((link, ""));
        let file = if file.is_empty() { name.to_string() } else { beside.join(file).display().to_string() };
        let there = path(&file).exists();
        let headed = || text(&file).lines().any(|line| line.starts_with('#') && anchor(line) == heading);
        !link.starts_with("http") && !(there && (heading.is_empty() || headed()))
    };
    links.into_iter().filter(wrong).map(|link| format!("{name}: {link}")).collect()
}

#[test]
fn links_lead_somewhere() {
    let more = ["CONTRIBUTING.md", "CHANGELOG.md", "docs/ARCHITECTURE.md", "docs/CLAIMS.md", "docs/CONTRACT.md"];
    let others = ["docs/DECISIONS.md", "docs/PERFORMANCE.md", "docs/PROVING.md"];
    let wrong: Vec<String> = DOCUMENTS.into_iter().chain(more).chain(others).flat_map(wrong_links).collect();
    assert_eq!(wrong, Vec::<String>::new());
}

/// The properties and the words that a schema names.
fn named_in(schema: &Value) -> BTreeSet<String> {
    match schema {
        Value::List(values) => values.iter().flat_map(named_in).collect(),
        Value::Object(fields) => fields.iter().flat_map(|(name, value)| own_names(name, value)).collect(),
        _ => BTreeSet::new(),
    }
}

/// Those of a field: the names of its properties, or its words, and what stands in it.
fn own_names(name: &str, value: &Value) -> BTreeSet<String> {
    let mut names = named_in(value);
    match (name, value) {
        ("properties", Value::Object(properties)) => names.extend(properties.iter().map(|(name, _)| name.clone())),
        ("enum", Value::List(words)) => names.extend(words.iter().filter_map(|word| match word {
            Value::Text(word) => Some(word.clone()),
            _ => None,
        })),
        _ => {}
    }
    names
}

/// docs/JSON.md names every property and every word that docs/schema.json names, and every command that answers so.
#[test]
fn every_property_is_explained() {
    let (said, named) = (text("docs/JSON.md"), named_in(&parse(&text("docs/schema.json"))));
    let left_out: Vec<&String> = named.iter().filter(|name| !said.contains(&format!("`{name}`"))).collect();
    assert!(named.len() > 90 && left_out.is_empty(), "{} names, without these: {left_out:?}", named.len());
    let answers = all().into_iter().filter(|command| command.options.iter().any(|option| option.name == "--json"));
    let unnamed: Vec<&str> = answers.map(|command| command.name).filter(|name| !said.contains(&format!("`{name}`"))).collect();
    assert_eq!(unnamed, Vec::<&str>::new());
}
