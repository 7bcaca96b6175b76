//! `tarczolin test`: a line for each file, one exit status, and no success where nothing was tested.
mod common;

use common::json::{parse, Value};
use common::{folder, run, run_with, tool};
use std::io::{BufRead, BufReader, Read};
use std::path::PathBuf;
use std::process::{Command, Stdio};
use tarczolin_tests::files::path;

/// A fresh folder with these files.
fn suite(name: &str, files: &[(&str, &str)]) -> String {
    let folder: PathBuf = folder(name);
    std::fs::remove_dir_all(&folder).unwrap();
    for (name, text) in files {
        let file = folder.join(name);
        std::fs::create_dir_all(file.parent().unwrap()).unwrap();
        std::fs::write(file, text).unwrap();
    }
    std::fs::create_dir_all(&folder).unwrap();
    folder.display().to_string()
}

const GOOD: &str = "thread\n  store x 1\nforall x = 1\n";
const BAD: &str = "thread\n  store x 1\nthread\n  n = load x\n  assert n == 0\nexpect none\nexists x = 1\n";
const BROKEN: &str = "thread\n  stor x 1\nforall x = 1\n";
const MISREAD: &str = "thread\n  store x 1\nforall z = 1\n";
const NOTHING: &str = "thread\n  store x 1\n";

/// The lines without times, and the paths without the folder.
fn told(out: &str, folder: &str) -> Vec<String> {
    let plain = |line: &str| line.split(" (").next().unwrap().split(" in ").next().unwrap().replace(&format!("{folder}/"), "");
    out.lines().map(plain).collect()
}

/// The suite that ships: the litmus tests with their answers, and the examples.
#[test]
fn the_suite_that_ships() {
    for jobs in ["1", "2"] {
        let ran = run(&["test", "examples/suite", "tests/litmus", "--jobs", jobs]);
        assert_eq!((ran.status, ran.err.as_str()), (0, ""), "{}", ran.out);
        let tests = std::fs::read_dir(path("tests/litmus"))
            .unwrap()
            .filter(|entry| entry.as_ref().unwrap().path().extension().is_some_and(|end| end == "litmus"));
        let (tests, own) = (tests.count(), std::fs::read_dir(path("examples/suite")).unwrap().count());
        assert!(tests >= 54 && own >= 5);
        assert_eq!(ran.out.lines().filter(|line| line.starts_with("ok ")).count(), tests + own, "{}", ran.out);
        let line = format!("{} files: {} ok, 0 FAILS, 0 refused, 0 without expectation", tests + own, tests + own);
        assert!(ran.out.contains(&line), "{}", ran.out);
        let litmus = ran.out.lines().filter(|line| line.contains("tests/litmus/"));
        assert!(litmus.into_iter().all(|line| line.contains(": 2 hold ")), "each under both models: {}", ran.out);
    }
}

#[test]
fn a_line_each() {
    let folder = suite(
        "suite-lines",
        &[
            ("a.asm", GOOD),
            ("b.asm", BAD),
            ("c/d.asm", BROKEN),
            ("c/e.asm", MISREAD),
            ("f.hex", "01\n"),
            ("g.txt", BAD),
            ("h.asm", NOTHING),
        ],
    );
    let ran = run(&["test", &folder]);
    assert_eq!(ran.status, 2);
    let lines = told(&ran.out, &folder);
    assert_eq!(lines[0], "ok              a.asm: 2 hold");
    assert_eq!(lines[1], "FAILS           b.asm: line 6: expect none under sc: FAILS, first by 0001");
    assert_eq!(lines[2], "                b.asm: line 6: expect none under tso: FAILS, first by 001001");
    assert_eq!(lines[3], "refused         c/d.asm:2:3: a statement does not begin with stor; is it store?");
    assert!(lines.contains(&"refused         c/e.asm:3:8: there is no location z; is it x?".to_string()), "{lines:?}");
    assert!(
        lines.contains(&"no expectation  f.hex".to_string()) && lines.contains(&"no expectation  h.asm".to_string()),
        "{lines:?}"
    );
    assert!(!ran.out.contains("g.txt"), "of a folder only programs");
    assert!(lines.contains(&"6 files: 1 ok, 1 FAILS, 2 refused, 2 without expectation; 6 expectations".to_string()), "{lines:?}");
    assert!(ran.out.ends_with("(which outcomes there are and what fails first are the library's answers; that a condition fits an outcome is found by plain Rust, which is not proved)\n"), "{}", ran.out);
    assert_eq!(run(&["test", &format!("{folder}/b.asm"), &format!("{folder}/a.asm")]).status, 1);
    assert_eq!(run(&["test", &format!("{folder}/g.txt")]).status, 1, "a file that is named is tested whatever its name is");
    assert_eq!(run(&["test", &folder, "--filter", "a.asm"]).status, 0);
    assert_eq!(run_with(&["test", "-"], BAD.as_bytes()).status, 1);
}

/// A suite in which nothing was tested is no success.
#[test]
fn nothing_tested_is_no_success() {
    let folder = suite("suite-nothing", &[("h.asm", NOTHING), ("a.asm", GOOD)]);
    let empty = suite("suite-empty", &[]);
    for words in [vec!["test", &empty], vec!["test", &folder, "--filter", "no such"], vec!["test", &folder, "--filter", "h.asm"]]
    {
        let ran = run(&words);
        assert_eq!(ran.status, 2, "{words:?}: {}", ran.out);
        assert!(ran.err.contains("nothing was tested"), "{words:?}: {}", ran.err);
    }
    let ran = run(&["test", &format!("{folder}/none.asm")]);
    assert_eq!(ran.status, 2);
    assert!(ran.out.starts_with("refused         "), "{}", ran.out);
    assert_eq!(run(&["test", &folder, &format!("{folder}/none.asm")]).status, 2, "what is not there is not passed over");
    assert_eq!(run(&["test"]).status, 2);
}

/// What is not decided is refused, and a limit decides nothing.
#[test]
fn a_limit_is_refused() {
    let folder = suite("suite-limit", &[("a.asm", "thread\n  n = load x\nthread\n  store x 2\nforbid T0.n = 3 under sc\n")]);
    let ran = run(&["test", &folder, "--limit", "1"]);
    assert_eq!(ran.status, 2);
    assert!(ran.out.starts_with("refused ") && ran.out.contains("not decided: more than 1 are listed"), "{}", ran.out);
    assert_eq!(run(&["test", &folder, "--limit", "2"]).status, 0);
}

/// A folder that a link leads back to is walked once, and a link that leads nowhere is refused.
#[test]
fn links() {
    let folder = suite("suite-links", &[("sub/a.asm", GOOD)]);
    std::os::unix::fs::symlink(&folder, format!("{folder}/sub/back")).unwrap();
    let ran = run(&["test", &folder]);
    assert_eq!((ran.status, ran.out.matches("ok  ").count()), (0, 1), "{}", ran.out);
    std::os::unix::fs::symlink("nowhere", format!("{folder}/gone.asm")).unwrap();
    assert_eq!(run(&["test", &folder]).status, 2);
}

/// Ctrl-C ends a suite: what is not decided and what is not begun is told, and that is no success. The list of the second file has no end
/// that a test could wait for, and Ctrl-C comes once the first file is told, so that it is noted.
#[test]
fn interrupted() {
    let endless = format!("{}forbid T0.r0 = 77 under sc\n", format!("thread\n{}", "  r0 = fetch_add x 1\n".repeat(6)).repeat(4));
    let folder = suite("suite-interrupted", &[("a.asm", GOOD), ("b.asm", &endless), ("c.asm", GOOD)]);
    let mut command = tool(&["test", &folder, "--limit", "1000000000000"]);
    let mut child = command.stdout(Stdio::piped()).stderr(Stdio::null()).spawn().unwrap();
    let mut told = BufReader::new(child.stdout.take().unwrap());
    let mut out = String::new();
    told.read_line(&mut out).unwrap();
    assert!(Command::new("kill").args(["-INT", &child.id().to_string()]).status().unwrap().success());
    told.read_to_string(&mut out).unwrap();
    assert_eq!(child.wait().unwrap().code(), Some(2), "{out}");
    // the second file may have been begun by then, or not
    let begun = out.contains("not decided: interrupted behind ")
        && out.contains("1 ok, 0 FAILS, 1 refused")
        && out.contains(", 1 not begun");
    let not_begun = out.contains("1 ok, 0 FAILS, 0 refused") && out.contains(", 2 not begun");
    assert!(out.starts_with("ok ") && (begun || not_begun), "{out}");
}

#[test]
fn as_json() {
    let folder = suite("suite-json", &[("a.asm", GOOD), ("b.asm", BAD), ("c.asm", BROKEN), ("d.asm", NOTHING)]);
    let ran = run(&["test", &folder, "--json"]);
    let objects: Vec<Value> = ran.out.lines().map(parse).collect();
    assert_eq!((ran.status, objects.len()), (2, 5));
    let results: Vec<Option<&Value>> = objects.iter().map(|one| one.get("result")).collect();
    let wanted = ["ok", "FAILS", "refused", "no expectation"].map(|word| Value::Text(word.to_string()));
    assert_eq!(results[..4], wanted.iter().map(Some).collect::<Vec<_>>());
    assert_eq!((objects[4].get("ok"), objects[4].get("tested")), (Some(&Value::Number(1)), Some(&Value::Number(6))));
}

#[test]
fn as_junit() {
    let folder = suite("suite-junit", &[("a.asm", GOOD), ("b&\u{1b}.asm", BAD), ("c.asm", BROKEN), ("d.asm", NOTHING)]);
    let out = format!("{folder}/report.xml");
    assert_eq!(run(&["test", &folder, "--junit", &out]).status, 2);
    let xml = std::fs::read_to_string(&out).unwrap();
    assert!(xml.starts_with("<?xml version=\"1.0\" encoding=\"UTF-8\"?>\n<testsuite name=\"tarczolin\" tests=\"8\" failures=\"2\" errors=\"1\" skipped=\"1\""), "{xml}");
    assert!(xml.contains("b&amp;\u{fffd}.asm\" name=\"line 6: expect none under sc\"") && !xml.contains('\u{1b}'), "{xml}");
    assert!(xml.contains("<failure message=\"line 6: expect none under sc: FAILS, first by 0001\"/>"), "{xml}");
    assert_eq!(xml.matches("<testcase ").count(), 8);
    let over = run(&["test", &folder, "--junit", &format!("{folder}/a.asm")]);
    assert_eq!(over.status, 2);
    assert!(over.err.contains("the report would overwrite this test"), "{}", over.err);
    assert_eq!(std::fs::read_to_string(format!("{folder}/a.asm")).unwrap(), GOOD);
    assert_eq!(run(&["test", &folder, "--junit", "-"]).status, 2);
    assert_eq!(run(&["test", &folder, "--filter", "a.asm", "--junit", "/no/such/folder/x"]).status, 2);
}
