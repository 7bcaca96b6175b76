//! Work that takes long: progress where there is no terminal, and Ctrl-C.
mod common;

use common::{run_with, tool};
use std::collections::BTreeMap;
use std::io::{Read, Write};
use std::process::{Command, Stdio};
use std::sync::{Arc, Mutex};
use std::thread::JoinHandle;
use std::time::Duration;
use tarczolin_tests::files::{lines, text};
use tarczolin_tests::random::program::{frames, SMALL};
use tarczolin_tests::random::Random;
use tarczolin_tests::share;

/// Eight stores beside two threads of eight loads: more than a hundred million are listed.
fn long() -> Vec<u8> {
    let loads = "110000 ".repeat(8);
    lines(&format!("01 {} 01 {loads} 01 {loads}", "10000000000001 ".repeat(8)))
}

/// Six threads of four stores to one location: nobody sees the end of 24!/(4!)^6.
fn endless() -> Vec<u8> {
    lines(&format!("01 {}", "10000000000001 ".repeat(4)).repeat(6))
}

/// What a command had told when it was interrupted after a while.
fn interrupted(words: &[&str]) -> (Option<i32>, String, String) {
    interrupted_with("50", words, &long())
}

/// What has come of a stream so far, and the thread that reads it to its end.
type Reading = (Arc<Mutex<Vec<u8>>>, JoinHandle<()>);

fn reading(mut stream: impl Read + Send + 'static) -> Reading {
    let all = Arc::new(Mutex::new(Vec::new()));
    let so_far = all.clone();
    let reader = std::thread::spawn(move || {
        let mut some = [0; 1 << 16];
        while let Ok(length @ 1..) = stream.read(&mut some) {
            so_far.lock().unwrap().extend(&some[..length]);
        }
    });
    (all, reader)
}

/// Does this process catch Ctrl-C?
fn catches(id: u32) -> bool {
    let status = std::fs::read_to_string(format!("/proc/{id}/status")).unwrap_or_default();
    let caught = status.lines().find_map(|line| line.strip_prefix("SigCgt:")).map(str::trim);
    caught.is_some_and(|mask| u64::from_str_radix(mask, 16).unwrap() & 1 << (2 - 1) != 0)
}

/// The same of another program, with another progress than a line every 50 milliseconds. On a busy machine the while is as long as it takes
/// the command to come so far that there is something to tell: it catches Ctrl-C, save where it is one call, and has told what it tells on
/// its way. After half a minute it is interrupted in any case.
fn interrupted_with(progress: &str, words: &[&str], file: &[u8]) -> (Option<i32>, String, String) {
    // with memory for their states these programs would be counted at once
    interrupted_in("0", progress, words, file, "")
}

/// The same with so many bytes of memory, and not before standard error has this.
fn interrupted_in(memory: &str, progress: &str, words: &[&str], file: &[u8], told: &str) -> (Option<i32>, String, String) {
    let mut child = tool(words)
        .env("TARCZOLIN_PROGRESS", progress)
        .env("TARCZOLIN_MEMORY", memory)
        .stdin(Stdio::piped())
        .stdout(Stdio::piped())
        .stderr(Stdio::piped())
        .spawn()
        .unwrap();
    child.stdin.take().unwrap().write_all(file).unwrap();
    let (out, out_reader) = reading(child.stdout.take().unwrap());
    let (err, err_reader) = reading(child.stderr.take().unwrap());
    let one_job = matches!(words[0], "count" | "violation");
    let begun = || {
        let lines = err.lock().unwrap().iter().filter(|&&c| c == b'\n').count();
        (catches(child.id()) || (one_job && progress == "off"))
            && (words[0] != "list" || !out.lock().unwrap().is_empty())
            && String::from_utf8_lossy(&err.lock().unwrap()).contains(told)
            && (progress != "50" || lines > 4 || !(one_job || words[0] == "list"))
    };
    std::thread::sleep(Duration::from_millis(700));
    for _ in 0..600 {
        if begun() {
            break;
        }
        std::thread::sleep(Duration::from_millis(50));
    }
    assert!(Command::new("kill").args(["-INT", &child.id().to_string()]).status().unwrap().success());
    let status = child.wait().unwrap();
    [out_reader, err_reader].into_iter().for_each(|reader| reader.join().unwrap());
    let text = |bytes: Arc<Mutex<Vec<u8>>>| String::from_utf8(bytes.lock().unwrap().clone()).unwrap();
    (status.code(), text(out), text(err))
}

/// The counts so far, the schedule to go on from, and lines of progress before.
#[test]
fn interrupted_list_tells_from_where_to_go_on() {
    for jobs in ["1", "2"] {
        let (status, out, err) = interrupted(&["list", "-", "--jobs", jobs]);
        assert_eq!(status, Some(2), "nothing has failed so far, and the rest is not known: {err}");
        let last = out.lines().last().unwrap().strip_prefix("5000").expect("a listed schedule, and no line of counts");
        let said = err.lines().last().unwrap();
        assert!(said.contains(&format!("{} listed, 0 failing so far; go on with --after {last}", out.lines().count())), "{said}");
        assert!(err.contains(" % of the range\n"), "progress: {err}");
        let (status, on, err) = interrupted(&["list", "-", "--after", last]);
        assert_eq!(status, Some(2), "{err}");
        assert!(on.lines().next().unwrap() > format!("5000{last}").as_str(), "{on}");
    }
}

/// Where the members are soon counted, beside the walk, the share is exactly that of the list or of the piece.
#[test]
fn the_share_of_the_list() {
    let counted = run_with(&["count", "-"], &long()).out;
    let listed: u64 = counted.split(' ').next().unwrap().parse().unwrap();
    for (words, size) in [(&["list", "-"][..], listed), (&["list", "-", "--from", "50000001"], listed - 50_000_000)] {
        let (status, _, err) = interrupted_in("16777216", "50", words, &long(), " % of the list\n");
        let line = err.lines().find(|line| line.ends_with(" % of the list")).unwrap_or_else(|| panic!("{words:?}: {err}"));
        let walked: u64 = line.strip_prefix("tarczolin: ").unwrap().split(' ').next().unwrap().parse().unwrap();
        let share = format!(", {:.1} % of the list", walked as f64 / size as f64 * 100.0);
        assert!(status == Some(2) && line.ends_with(&share), "{words:?}: {line}, {size} in all");
    }
}

/// show tells from which place it goes on; a page that is not whole is not written.
#[test]
fn interrupted_show() {
    let (status, out, err) = interrupted(&["show", "-"]);
    assert_eq!(status, Some(2), "{err}");
    let shown = out.matches("execution ").count();
    let said = format!("interrupted: {shown} listed, 0 failing so far; go on with --from {}", shown + 1);
    assert!(err.lines().last().unwrap().ends_with(&said), "{shown}: {err}");
    let page = common::folder("long_work").join("page.html");
    let _ = std::fs::remove_file(&page);
    let (status, _, err) = interrupted(&["show", "-", "--html", &page.display().to_string()]);
    assert!(status == Some(2) && err.contains("failing so far; nothing is written"), "{err}");
    assert!(!page.exists());
}

/// Of several files those behind the one that was interrupted are not begun.
#[test]
fn interrupted_between_files() {
    let (status, _, err) = interrupted(&["list", "-", "examples/whole.hex"]);
    assert!(status == Some(2) && err.ends_with("not begun: examples/whole.hex\n"), "{err}");
}

/// A call by states tells how many it remembers, and how full its memory is. Every access keeps the history, so that no two states are one.
#[test]
fn progress_by_states() {
    let thread = |t: usize| format!("01 12000000{:08x} {}", 1 << t, "1200000100000000 ".repeat(3));
    let file = lines(&(0..6).map(thread).collect::<String>());
    for words in [["count", "-", "--memory", "1000000"], ["violation", "-", "--memory", "1000000"]] {
        let (status, _, err) = interrupted_with("50", &words, &file);
        assert_eq!(status, Some(2), "{err}");
        let told = |line: &&str| line.contains(" states remembered, ") && line.ends_with(" % of the memory for them");
        let line = err.lines().rfind(told).unwrap_or_else(|| panic!("{err}"));
        let before = |words: &str| line.split_once(words).unwrap().0.split_whitespace().last().unwrap().parse::<f64>().unwrap();
        let (states, share) = (before(" states remembered"), before(" % of the memory"));
        assert!(before(" states visited") >= states, "what is remembered was visited: {line}");
        // a slot has four to twenty words
        assert!(states > 100.0 && share <= 100.0 && share * 1_250.0 <= states * 20.0 + 1_250.0, "{line}");
    }
}

/// Joining tells how far it is too.
#[test]
fn progress_of_join() {
    let list = run_with(&["list", "-"], &lines(&format!("01 {} 01 {}", "10000000000001 ".repeat(8), "110000 ".repeat(8)))).out;
    let mut child = tool(&["join", "-"])
        .env("TARCZOLIN_PROGRESS", "1")
        .stdin(Stdio::piped())
        .stdout(Stdio::piped())
        .stderr(Stdio::piped())
        .spawn()
        .unwrap();
    let mut stdin = child.stdin.take().unwrap();
    let text = list.clone();
    let writer = std::thread::spawn(move || stdin.write_all(text.as_bytes()).unwrap());
    let output = child.wait_with_output().unwrap();
    writer.join().unwrap();
    assert!(String::from_utf8(output.stdout).unwrap() == list);
    let told = String::from_utf8(output.stderr).unwrap();
    assert!(told.contains(" listed, 0 failing, ") && told.contains(" a second\n"), "{told}");
}

#[test]
fn interrupted_count_and_outcomes() {
    let (status, out, err) = interrupted(&["count", "-", "--jobs", "2"]);
    assert_eq!(status, Some(2), "{err}");
    assert!(out.ends_with(" listed, 0 failing\n") && err.contains("interrupted: "), "{out}{err}");
    for words in [&["outcomes", "-", "--json"][..], &["outcomes", "-", "--json", "--count"], &["outcomes", "-", "--registers"]] {
        let (status, _, err) = interrupted(words);
        assert!(status == Some(2) && err.contains("interrupted: "), "{words:?}: {err}");
        assert!(err.ends_with(" listed, 0 failing so far\n"), "outcomes has no --after to go on by: {words:?}: {err}");
    }
}

/// By one job too `count` and `violation` tell how far they are, and Ctrl-C tells the counts so far.
#[test]
fn progress_of_one_job() {
    for (words, further) in [(["count", "-"], "; go on with --after 0"), (["violation", "-"], "; go on with list --after 0")] {
        let (status, out, err) = interrupted(&words);
        assert_eq!(status, Some(2), "{err}");
        assert!(err.lines().filter(|line| line.ends_with(" % of the range")).count() > 3, "{words:?}: {err}");
        let last = err.lines().last().unwrap();
        assert!(last.contains(" listed, 0 failing so far") && last.contains(further), "{words:?}: {err}");
        let counted = last.split("interrupted: ").nth(1).unwrap().split(" so far").next().unwrap();
        assert_eq!(out, if words[0] == "count" { format!("{counted}\n") } else { String::new() });
    }
}

/// Before the first line of progress too.
#[test]
fn interrupted_before_any_progress() {
    for (words, further) in [(["count", "-"], "; go on with --after 0"), (["violation", "-"], "; go on with list --after 0")] {
        let (status, out, err) = interrupted_with("60000", &words, &long());
        assert_eq!((status, err.lines().count()), (Some(2), 1), "{words:?}: {err}");
        assert!(
            err.contains("interrupted: ") && err.contains(" listed, 0 failing so far") && err.contains(further),
            "{words:?}: {err}"
        );
        assert_eq!(out.is_empty(), words[0] == "violation", "{out}");
    }
}

/// With progress off they are one call of the library, which tells nothing and ends by the signal.
#[test]
fn one_long_call() {
    for command in ["count", "violation"] {
        let ended = interrupted_with("off", &[command, "-"], &endless());
        assert_eq!(ended, (None, String::new(), String::new()), "{command}");
    }
    let (status, _, err) = interrupted_with("off", &["list", "-"], &endless());
    assert!(status == Some(2) && err.lines().count() == 1 && err.contains("interrupted: "), "{err}");
}

/// What a command answers with progress so often, or off.
fn answered(progress: &str, words: &[&str], file: &[u8]) -> (Option<i32>, Vec<u8>) {
    let mut told = tool(words);
    told.env("TARCZOLIN_PROGRESS", progress).stdin(Stdio::piped()).stdout(Stdio::piped()).stderr(Stdio::null());
    let mut child = told.spawn().unwrap();
    // a command that does not read its input closes it
    let _ = child.stdin.take().unwrap().write_all(file);
    let output = child.wait_with_output().unwrap();
    (output.status.code(), output.stdout)
}

/// The rows, counted and looked through, give what the single calls give.
#[test]
fn rows_answer_as_the_single_calls_do() {
    let mut random = Random::new(63);
    let mut seen = BTreeMap::new();
    let failing = lines(&format!("01 {} 01 {} 23000000000001", "10000000000001 ".repeat(7), "110000 ".repeat(7)));
    let some = [failing, lines(""), lines("01 23000000000001"), lines("01 110400"), lines("01 110000")];
    let drawn = (0..share::of(60)).map(|_| text(&frames(&mut random, SMALL)));
    for file in some.into_iter().chain(drawn) {
        for words in [&["count", "-"][..], &["count", "-", "--json"], &["violation", "-"], &["violation", "-", "--show"]] {
            let single = answered("off", words, &file);
            assert_eq!(answered("1", words, &file), single, "{words:?}: {}", file.escape_ascii());
            *seen.entry(single.0).or_insert(0) += 1;
        }
    }
    assert!(!share::whole() || seen.len() == 3, "answered, a violation, refused: {seen:?}");
}
