//! Every command's answers as JSON fit docs/schema.json, and say what the words say.
mod common;

use common::json::{fits_the_schema, parse, Value};
use common::{folder, run, run_with};
use std::collections::BTreeSet;
use std::io::Write;
use std::process::{Command as Process, Stdio};
use tarczolin::commands::{all, Command};
use tarczolin_tests::files::path;

const QUEUE: &str = "examples/queue-broken.asm";

/// The objects of an answer, each held to the schema.
fn held(words: &[&str], input: &[u8]) -> (i32, Vec<Value>) {
    let ran = run_with(&[words, &["--json"]].concat(), input);
    let objects: Vec<Value> = ran.out.lines().map(parse).collect();
    for object in &objects {
        assert!(fits_the_schema(object), "{words:?}: {object:?}");
    }
    assert!(!objects.is_empty(), "{words:?}: {}", ran.err);
    (ran.status, objects)
}

/// An answer in words, kept in a file of this name.
fn kept(at: &str, (name, words): (&str, &[&str])) -> String {
    let path = folder(at).join(name);
    std::fs::write(&path, run(words).out).unwrap();
    path.display().to_string()
}

/// Every kind of answer: the words, standard input, the exit status and how many objects there are. Gives the commands back.
fn every_answer(at: &str, mut each: impl FnMut(&[&str], &[u8], i32, usize)) -> BTreeSet<String> {
    let [graph, piece] =
        [("graph", &["graph", QUEUE, "00000102020201"][..]), ("piece", &["list", QUEUE])].map(|one| kept(at, one));
    let (no, pair) = (b"400001ffff\n400101ffff\n41000000\n41010100\n", "examples/store-load-pair.hex");
    let cases: [(&[&str], &[u8], i32, usize); 60] = [
        (&["list", QUEUE], b"", 1, 7),
        (&["count", QUEUE], b"", 1, 1),
        (&["count", QUEUE, "--jobs", "2"], b"", 1, 1),
        (&["violation", QUEUE], b"", 1, 1),
        (&["violation", QUEUE, "--show"], b"", 1, 1),
        (&["force", QUEUE, "--hostile", "0,1"], b"", 1, 1),
        (&["force", QUEUE, "--hostile", "2", "--play"], b"", 0, 1),
        (&["force", QUEUE, "--hostile", "3"], b"", 2, 1),
        (&["outcomes", QUEUE], b"", 1, 3),
        (&["outcomes", QUEUE, "--where", "tail = 4"], b"", 0, 1),
        (&["outcomes", QUEUE, "--jobs", "2"], b"", 1, 3),
        (&["outcomes", QUEUE, "--count"], b"", 1, 3),
        (&["outcomes", QUEUE, "--registers"], b"", 1, 7),
        (&["outcomes", QUEUE, "--where", "second.mine = 1"], b"", 1, 8),
        (&["x86", QUEUE], b"", 0, 1),
        (&["x86", pair], b"", 1, 1),
        (&["x86", "examples/suite/dekker.asm"], b"", 1, 1),
        (&["x86", "-"], b"01\n110400\n", 2, 1),
        (&["robust", QUEUE], b"", 0, 1),
        (&["robust", pair], b"", 1, 1),
        (&["robust", "-"], b"01\n110400\n", 2, 1),
        (&["covers", QUEUE, QUEUE], b"", 0, 1),
        (&["covers", QUEUE, pair], b"", 2, 1),
        (&["covers", QUEUE, pair, "--by", "number"], b"", 1, 1),
        (&["covers", QUEUE, "-"], b"01\n110400\n", 2, 1),
        (&["covers", pair, pair, "--under", "sc,tso"], b"", 0, 1),
        (&["show", QUEUE], b"", 1, 7),
        (&["show", QUEUE, "00000102020201"], b"", 1, 1),
        (&["show", "-"], b"01\n23000000000001\n", 1, 2),
        (&["check", QUEUE], b"", 0, 1),
        (&["check", "-"], b"01\n110400\n", 2, 1),
        (&["check", "-"], b"thread\n  stor x 1\n", 2, 1),
        (&["check", "no/such/file"], b"", 2, 1),
        (&["graph", QUEUE, "00000102020201"], b"", 0, 1),
        (&["judge", QUEUE, &graph], b"", 0, 1),
        (&["judge", pair, "-"], no, 1, 1),
        (&["list", QUEUE, "--from", "2", "--to", "4"], b"", 1, 3),
        (&["show", QUEUE, "--from", "6"], b"", 1, 2),
        (&["rank", QUEUE, "00000102020201"], b"", 0, 1),
        (&["rank", pair, "000001011011", "--model", "tso"], b"", 0, 1),
        (&["rank", QUEUE, "00"], b"", 2, 1),
        (&["sample", QUEUE, "3", "--seed", "5"], b"", 1, 4),
        (&["cuts", QUEUE, "3"], b"", 0, 1),
        (&["cuts", pair, "3", "--model", "tso"], b"", 0, 1),
        (&["join", &piece], b"", 1, 7),
        (&["users"], b"open 0 examples/empty-thread.hex\nask 0\nserve\nask 0\nserve\nserve\nask 1\ncount 0\nx\n", 2, 9),
        (&["disasm", QUEUE], b"", 0, 1),
        (&["show", pair, "--model", "tso"], b"", 0, 5),
        (&["graph", pair, "000001011011", "--model", "tso"], b"", 0, 1),
        (&["outcomes", pair, "--model", "tso"], b"", 0, 2),
        (&["count", "examples/accesses-24.hex", "--model", "tso"], b"", 2, 1),
        (&["violation", QUEUE, "--fewest", "switches"], b"", 1, 1),
        (&["check", "-", "--limit", "1"], b"thread\n  a = load x\nthread\n  store x 2\nforbid T0.a = 3\nexists x = 2\n", 2, 5),
        (&["violation", "-"], b"thread\n  store x 1\nexpect none\n", 0, 2),
        (&["outcomes", "-"], b"thread\n  store x 1\nforbid x = 1\n", 1, 3),
        (&["check", "-"], b"thread\n  store x 1\nforbid z = 1\n", 2, 1),
        (&["test", "examples/suite", "examples/whole.hex", "no/such/file"], b"", 2, 8),
        (&["test", "-"], b"thread\n  store x 1\nforbid z = 1\n", 2, 2),
        (&["fences", "examples/suite/dekker.asm"], b"", 0, 1),
        (&["fences", "-"], b"thread\n  n = load x\n  assert n == 1\n", 1, 2),
    ];
    cases.iter().for_each(|(words, input, status, objects)| each(words, input, *status, *objects));
    cases.iter().map(|(words, ..)| words[0].to_string()).collect()
}

#[test]
fn every_command_fits_the_schema() {
    let mut commands = every_answer("json", |words, input, status, objects| {
        let (ended, found) = held(words, input);
        assert_eq!((ended, found.len()), (status, objects), "{words:?}: {found:?}");
    });
    commands.extend(TEXTS.map(str::to_string));
    let has_json = |command: &&&Command| command.options.iter().any(|option| option.name == "--json");
    let known: BTreeSet<String> = all().iter().filter(has_json).map(|command| command.name.to_string()).collect();
    assert_eq!(commands, known, "every command that has --json");
    let pair = "examples/store-load-pair.hex";
    assert!(held(&["judge", pair, "-"], b"400001ffff\n41000000\n41010100\n").1[0].get("why").is_some());
}

/// How many of these lines fit the schema by python3-jsonschema, and how many do not; none where that is not installed.
fn validated(lines: &str) -> Option<String> {
    let has =
        |python: &&&str| Process::new(python).args(["-c", "import jsonschema"]).output().is_ok_and(|ran| ran.status.success());
    // Debian's package belongs to Debian's Python, which need not be the first one
    let python = ["python3", "/usr/bin/python3"].iter().find(has)?;
    let words = ["tool/tarczolin/tests/schema.py", "docs/schema.json"].map(path);
    let mut child = Process::new(python).args(words).stdin(Stdio::piped()).stdout(Stdio::piped()).spawn().unwrap();
    child.stdin.take().unwrap().write_all(lines.as_bytes()).unwrap();
    Some(String::from_utf8(child.wait_with_output().unwrap().stdout).unwrap())
}

/// An off-the-shelf validator says the same, and sees what does not fit.
#[test]
fn by_a_validator() {
    let mut lines = String::new();
    every_answer("json-validated", |words, input, _, _| lines += &run_with(&[words, &["--json"]].concat(), input).out);
    lines += &run_with(&["count", "-", "--json"], b"thread\n  fence\n  n = load slto\n").out;
    lines += &run_with(&["show", "-", "--model", "tso", "--json"], b"thread\n  store x 1\n  fence\n").out;
    let Some(said) = validated(&lines) else {
        println!("not run: python3-jsonschema is not installed here");
        return;
    };
    assert_eq!(said, format!("{} fit, 0 do not\n", lines.lines().count()));
    assert!(lines.contains("\"kind\":\"fence\",\"location\":null") && lines.contains("\"kind\":\"warning\""), "{lines}");
    let right = "{\"command\":\"count\",\"file\":\"-\",\"listed\":3,\"failing\":0,\"interrupted\":false}\n";
    let wrong = [right.replace("3", "\"3\""), right.replace(",\"interrupted\":false", ""), right.replace("count", "list")];
    assert_eq!(validated(&(right.to_string() + &wrong.concat())).unwrap(), "1 fit, 3 do not\n");
}

/// The notes of one warning or note.
fn note(kind: &str, [line, column]: [Value; 2], message: &str) -> Value {
    let text = |text: &str| Value::Text(text.to_string());
    let fields = [("kind", text(kind)), ("line", line), ("column", column), ("message", text(message))];
    Value::List(vec![Value::Object(fields.map(|(name, value)| (name.to_string(), value)).into())])
}

/// What looks like a slip is told under the same name, with its place; with a fence left out both stand in one object.
#[test]
fn warnings() {
    let text = b"thread\n  store slot 7\n  n = load slto\n";
    let slip = note("warning", [3, 12].map(Value::Number), "slto is read and never written; is it slot?");
    for words in [&["check", "-"][..], &["count", "-"], &["asm", "-"], &["violation", "-", "--model", "tso"]] {
        let (_, found) = held(words, text);
        assert_eq!((found.len(), found[0].get("notes")), (2, Some(&slip)), "{words:?}: {found:?}");
    }
    let both = [&text[..], b"  fence\n"].concat();
    let (_, found) = held(&["count", "-"], &both);
    let Some(Value::List(notes)) = found[0].get("notes") else { panic!("{found:?}") };
    let kinds: Vec<_> = notes.iter().map(|note| note.get("kind").cloned()).collect();
    assert_eq!(kinds, ["warning", "note"].map(|kind| Some(Value::Text(kind.to_string()))));
    // in a suite that fences are left out under one of its models is no news
    let expecting = [&both[..], b"forbid slot = 8\n"].concat();
    for (command, objects) in [("test", 3), ("fences", 2)] {
        let (_, found) = held(&[command, "-"], &expecting);
        assert_eq!((found.len(), found[0].get("notes")), (objects, Some(&slip)), "{command}: {found:?}");
    }
    let path = folder("json-warnings").join("slip.asm");
    std::fs::write(&path, text).unwrap();
    let (_, found) = held(&["users"], format!("open 0 {}\n", path.display()).as_bytes());
    assert_eq!((found.len(), found[0].get("notes")), (2, Some(&slip)));
}

/// What words tell on standard error of fences that are left out is an object in front of the answers of its file.
#[test]
fn fences_that_are_left_out() {
    let text = b"init x1 1\nthread\n  store x0 1\n  fence\n  r0 = load x1\nthread\n  r0 = load x0\n";
    let note = note("note", [Value::Null, Value::Null], "1 fence is left out: under sequential consistency it means nothing");
    let cases: [(&[&str], usize); 9] = [
        (&["list", "-"], 4),
        (&["count", "-"], 2),
        (&["violation", "-"], 2),
        (&["force", "-", "--hostile", "0"], 2),
        (&["outcomes", "-"], 3),
        (&["show", "-", "000001"], 2),
        (&["graph", "-", "000001"], 2),
        (&["cuts", "-", "2"], 2),
        (&["asm", "-", "--model", "sc"], 2),
    ];
    for (words, objects) in &cases {
        let (_, found) = held(words, text);
        assert_eq!((found.len(), found[0].get("notes")), (*objects, Some(&note)), "{words:?}: {found:?}");
        assert!(found[1..].iter().all(|one| one.get("notes").is_none() && one.get("file") == found[0].get("file")), "{found:?}");
    }
    for words in [&["count", "-", "--model", "tso"][..], &["check", "-"], &["asm", "-"]] {
        assert!(held(words, text).1.iter().all(|one| one.get("notes").is_none()), "{words:?}");
    }
    let path = folder("json-notes").join("fenced.asm");
    std::fs::write(&path, text).unwrap();
    let path = path.display().to_string();
    let (_, found) = held(&["covers", &path, &path], b"");
    assert_eq!(found.iter().map(|one| one.get("notes").is_some()).collect::<Vec<_>>(), [true, true, false]);
    let (_, found) = held(&["users"], format!("open 0 {path}\nask 0\n").as_bytes());
    assert_eq!((found.len(), found[0].get("notes"), found[0].get("line")), (3, Some(&note), Some(&Value::Number(1))));
}

/// What is not said of the expectations is a note, behind those of how the file was read.
#[test]
fn notes_of_expectations() {
    let text = b"thread\n  store x 1\n  fence\nforbid x = 2 under tso\n";
    let nowhere = || [Value::Null, Value::Null];
    let other = note("note", nowhere(), "1 expectation speaks of another model, and nothing is said of it here");
    for command in ["check", "outcomes", "violation"] {
        let (_, found) = held(&[command, "-", "--model", "sc"], text);
        assert!(found[0].get("notes").is_some_and(|first| *first != other), "{command}: {found:?}");
        assert_eq!(found[1].get("notes"), Some(&other), "{command}: {found:?}");
    }
    let left_out = "what is expected of the program is left out: the test has the condition exists (true)";
    let (_, found) = held(&["export-litmus", "-"], text);
    assert_eq!((found.len(), found[0].get("notes")), (2, Some(&note("note", nowhere(), left_out))), "{found:?}");
}

/// The commands that answer by a text, beside disasm.
const TEXTS: [&str; 3] = ["asm", "import-litmus", "export-litmus"];

/// The text of an answer is what the words are.
#[test]
fn texts() {
    let text = |words: &[&str], input: &[u8]| match held(words, input).1[0].get("text") {
        Some(Value::Text(text)) => text.clone(),
        other => panic!("{other:?}"),
    };
    let litmus = run(&["export-litmus", "examples/store-load-pair.hex"]).out;
    for (command, input) in TEXTS.iter().zip(["thread\n  fail\n", &litmus, "01\n110000\n"]) {
        assert_eq!(text(&[command, "-"], input.as_bytes()), run_with(&[command, "-"], input.as_bytes()).out, "{command}");
    }
}

#[test]
fn a_refusal_by_its_number_and_place() {
    let (status, found) = held(&["check", "-"], b"01\n110400\n");
    let error = found[0].get("error").unwrap();
    assert_eq!((status, error.get("number"), error.get("place")), (2, Some(&Value::Number(4)), Some(&Value::Number(2))));
    let (_, found) = held(&["list", "-"], b"thread\n  stor x 1\n  fial\n");
    let Some(Value::List(marks)) = found[0].get("error").unwrap().get("marks") else { panic!("{found:?}") };
    assert_eq!(marks.len(), 2);
}

/// Several files: each answer with its file's name, what is wrong with one does not stop the others, the worst status.
#[test]
fn several_files() {
    let files = ["examples/whole.hex", "no/such/file", QUEUE];
    let (status, found) = held(&[&["count"], &files[..]].concat(), b"");
    let names: Vec<Option<&Value>> = found.iter().map(|object| object.get("file")).collect();
    assert_eq!((status, names), (2, files.map(|name| Value::Text(name.to_string())).iter().map(Some).collect()));
    let ran = run(&["count", "examples/whole.hex", QUEUE]);
    let words = format!("examples/whole.hex: 3 listed, 0 failing\n{QUEUE}: 6 listed, 3 failing\n");
    assert_eq!((ran.status, ran.out), (1, words));
    let ran = run(&["list", "examples/whole.hex", "examples/empty-thread.hex"]);
    assert!(
        ran.out.starts_with("==> examples/whole.hex <==\n5000000102\n")
            && ran.out.contains("==> examples/empty-thread.hex <==\n5000\n")
    );
    let refused = run(&["list", "examples/accesses-25-refused.hex", "examples/empty-thread.hex"]);
    let headed = "==> examples/accesses-25-refused.hex <==\n5206001b\n==> examples/empty-thread.hex <==\n5000\n";
    assert!(refused.status == 2 && refused.out.starts_with(headed), "{}", refused.out);
}
