//! Files and words of any bytes: they are read and told, and a terminal gets nothing from them that it would obey.
mod common;

use common::{folder, run, run_with, tool};
use std::ffi::{OsStr, OsString};
use std::os::unix::ffi::{OsStrExt, OsStringExt};
use std::path::Path;
use std::process::Command;

const PROGRAM: &[u8] = b"01\n10000000000001\n";

/// A file of this name in a folder of this test, with this program in it.
fn written(name: &[u8]) -> OsString {
    let path = folder("strange_names").join(OsStr::from_bytes(name));
    std::fs::write(&path, PROGRAM).unwrap();
    path.into_os_string()
}

/// What a command says that gets these words, of any bytes.
fn said(words: &[&OsStr]) -> (Option<i32>, Vec<u8>, Vec<u8>) {
    let output = tool(&[]).args(words).output().unwrap();
    (output.status.code(), output.stdout, output.stderr)
}

/// A file's name need not be text.
#[test]
fn names_that_are_not_text() {
    let (one, other) = (written(b"one-\xff.hex"), written(b"other-\xfe\n\x1b[31m.hex"));
    let (status, out, err) = said(&[OsStr::new("count"), &one, &other]);
    let out = String::from_utf8(out).unwrap();
    assert_eq!((status, err.as_slice()), (Some(0), &b""[..]));
    assert!(out.contains("one-\u{fffd}.hex: 1 listed") && out.contains("other-\u{fffd}\\n\\u{1b}[31m.hex: 1 listed"), "{out}");
    let (status, out, _) = said(&[OsStr::new("count"), OsStr::new("--json"), &other]);
    assert!(status == Some(0) && String::from_utf8(out).unwrap().contains("other-\u{fffd}\\n\\u001b[31m.hex\""));
    let page = folder("strange_names").join(OsStr::from_bytes(b"page-\xfd.html"));
    let (status, out, _) = said(&[OsStr::new("show"), &one, OsStr::new("--html"), page.as_os_str()]);
    assert!(status == Some(0) && Path::new(&page).exists(), "{}", out.escape_ascii());
}

/// Any other word that is not text is bad usage, in words.
#[test]
fn words_that_are_not_text() {
    let strange = OsString::from_vec(b"\xffx".to_vec());
    let file = written(b"plain.hex");
    let text = |words: &[&str]| -> Vec<OsString> { words.iter().map(OsString::from).collect() };
    for (front, told) in [
        (text(&[]), "there is no command \u{fffd}x"),
        (text(&["help"]), "there is no command \u{fffd}x"),
        (text(&["outcomes", &file.to_string_lossy(), "--where"]), "--where takes a text, and \u{fffd}x is not UTF-8"),
        (text(&["list", &file.to_string_lossy(), "--jobs"]), "--jobs takes a text, and \u{fffd}x is not UTF-8"),
        (text(&["cuts", &file.to_string_lossy()]), "cuts takes a number from 1 to 100000, not \u{fffd}x"),
        (text(&["graph", &file.to_string_lossy()]), "\u{fffd}x is no schedule"),
    ] {
        let words: Vec<&OsStr> = front.iter().chain([&strange]).map(OsString::as_os_str).collect();
        let (status, out, err) = said(&words);
        let err = String::from_utf8(err).unwrap();
        assert_eq!((status, out.as_slice()), (Some(2), &b""[..]), "{words:?}: {err}");
        assert!(err.contains(told), "{words:?}: {err}");
    }
}

/// Messages have no control character of what they tell of.
#[test]
fn messages_for_a_terminal() {
    let file = folder("strange_names").join("strange.asm");
    std::fs::write(&file, b"thread\n  sto\x1bre x 1\n").unwrap();
    let strange = "\x1b[31m";
    let file = file.display().to_string();
    let words: [&[&str]; 10] = [
        &[strange],
        &["check", strange],
        &["check", &file],
        &["check", "--\x1b"],
        &["check", "examples/whole.hex", strange],
        &["outcomes", "examples/whole.hex", "--where", strange],
        &["force", "examples/whole.hex", "--hostile", strange],
        &["list", "examples/whole.hex", "--model", strange],
        &["show", "examples/whole.hex", "--html", "no/such/\x1b[31m"],
        &["judge", "examples/whole.hex", strange],
    ];
    for words in words {
        let ran = run(words);
        assert_eq!(ran.status, 2, "{words:?}: {}", ran.err);
        let raw = |c: char| c.is_control() && c != '\n';
        assert!(!ran.err.contains(raw) && !ran.out.contains(raw), "{words:?}: {:?}", ran.err);
        assert!(ran.err.contains("\\u{1b}"), "{words:?}: {}", ran.err);
    }
    let ran = run_with(&["users"], b"open 0 \x1b[31m\n");
    assert!(ran.out.starts_with("error: \\u{1b}[31m: "), "{:?}", ran.out);
}

/// Remark lines may hold any bytes: a pipe gets them as they are, a terminal does not.
#[test]
fn remarks_on_a_terminal() {
    let file = folder("strange_names").join("remarks.hex");
    std::fs::write(&file, b"# \x1b[31mred\n01\n").unwrap();
    let plain = run(&["disasm", &file.display().to_string()]);
    assert_eq!(plain.out, "# \x1b[31mred\nthread  # 0\n");
    let script = "import pty, sys; sys.exit(pty.spawn(sys.argv[1:]) >> 8)";
    let tool = env!("CARGO_BIN_EXE_tarczolin");
    let output = Command::new("python3").args(["-c", script, tool, "disasm"]).arg(&file).output().expect("python3 starts");
    let shown = String::from_utf8(output.stdout).unwrap().replace('\r', "");
    assert_eq!(shown, "# \\u{1b}[31mred\nthread  # 0\n");
}
