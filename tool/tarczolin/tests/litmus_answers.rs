//! The litmus tests of tests/litmus: what each asks for is allowed or forbidden as it says, under both memory models. Which of the answers are
//! published stands in tests/litmus/INDEX.md; the others are by the models' definitions.
mod common;

use common::{run, run_with};
use tarczolin_tests::files::path;

/// The answers that a test's own remark tells: under sequential consistency, and under total store order.
fn said(text: &str) -> [&str; 2] {
    let line = text.lines().nth(1).unwrap_or("");
    let inner = line.strip_prefix("(* sc: ").and_then(|line| line.strip_suffix(" *)")).unwrap_or_else(|| panic!("{line}"));
    let (sc, tso) = inner.split_once("; tso: ").unwrap_or_else(|| panic!("{line}"));
    [sc, tso]
}

/// How the third line of a test begins that is known from a publication.
const SOURCES: [&str; 4] = [
    "(* Owens, Sarkar, Sewell: x86-TSO; ",
    "(* Intel: Software Developer's Manual 3A; ",
    "(* Adve, Gharachorloo: Shared Memory Consistency Models: A Tutorial; ",
    "(* Sorin, Hill, Wood: A Primer on Memory Consistency and Cache Coherence; ",
];

/// What the command answers, as a user asks it.
fn answered(form: &str, condition: &str, model: &str) -> &'static str {
    let ran = run_with(&["outcomes", "-", "--where", condition, "--model", model], form.as_bytes());
    match ran.status {
        0 => "forbidden",
        1 => "allowed",
        _ => panic!("{form}{}", ran.err),
    }
}

#[test]
fn answers_as_each_says() {
    let (mut tests, mut fenced, mut allowed, mut known) = (0, 0, 0, 0);
    let index = std::fs::read_to_string(path("tests/litmus/INDEX.md")).unwrap();
    let folder = std::fs::read_dir(path("tests/litmus")).unwrap();
    for file in folder.map(|entry| entry.unwrap().path()).filter(|file| file.extension().is_some_and(|end| end == "litmus")) {
        let text = std::fs::read_to_string(&file).unwrap();
        let imported = run(&["import-litmus", &file.display().to_string()]);
        assert_eq!((imported.status, imported.err.as_str()), (0, ""), "{text}");
        let form = imported.out;
        let said_of = |model: &str| {
            form.lines().find_map(|line| line.strip_prefix("# ")?.strip_suffix(&format!(" under {model}"))).unwrap()
        };
        let (word, condition) = said_of("tso").split_once(' ').unwrap();
        assert_eq!(word, if said(&text)[1] == "allowed" { "exists" } else { "forbid" }, "the answer is what is expected: {form}");
        assert_eq!(said_of("sc"), format!("forbid {condition}"), "{form}");
        assert_eq!(["sc", "tso"].map(|model| answered(&form, condition, model)), said(&text), "{text}{form}");
        assert_eq!(form.matches("  fence\n").count(), text.matches("MFENCE").count(), "no fence is dropped: {form}");
        let name = file.file_stem().unwrap().to_str().unwrap();
        let [sc, tso] = said(&text);
        let row = index.lines().find_map(|line| line.strip_prefix(&format!("| {name} | {sc} | {tso} | ")));
        let row = row.unwrap_or_else(|| panic!("INDEX.md has no row of {name}"));
        let from = text.lines().nth(2).unwrap();
        assert_eq!(row.starts_with("known: "), SOURCES.iter().any(|source| from.starts_with(source)), "{name}: {row} {from}");
        assert_eq!(row == "classic |", from == "(* classic shape; answer by the model's definition *)", "{name}: {row} {from}");
        tests += 1;
        fenced += text.contains("MFENCE") as usize;
        allowed += (said(&text)[1] == "allowed") as usize;
        known += row.starts_with("known: ") as usize;
    }
    assert_eq!(index.lines().filter(|line| line.contains(" | forbidden | ") || line.contains(" | allowed | ")).count(), tests);
    assert!(tests >= 64 && fenced >= 9 && allowed >= 9 && known >= 16, "{tests} {fenced} {allowed} {known}");
}
