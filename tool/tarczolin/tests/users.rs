//! users: four callers driven by lines, what each line is answered, and the records as a C program has them.
mod common;

use common::{folder, run_with};
use std::io::{BufRead, BufReader, Write};
use std::mem::{offset_of, size_of};
use std::process::{Command, Stdio};
use tarczolin_sys::{Caller, Mark, MARKS};
use tarczolin_tests::files::path;
use tarczolin_tests::oracle::users::{Call, Lists, Said, Shared};
use tarczolin_tests::random::users::{call, files};
use tarczolin_tests::random::Random;
use tarczolin_tests::share;

/// What a list of lines is answered, line by line.
fn answers(lines: &str) -> (i32, Vec<String>) {
    let ran = run_with(&["users"], lines.as_bytes());
    assert_eq!(ran.err, "", "{lines}");
    (ran.status, ran.out.lines().map(str::to_string).collect())
}

#[test]
fn each_line_is_answered_by_a_line() {
    let (status, said) = answers(
        "open 0 examples/whole.hex\nask 0\nask 0\nserve\nserve\n\n# a remark\nask 0\nserve\nask 0\nserve\nask 0\nserve\ncount 0\nclose 0\n",
    );
    let wanted =
        ["ok", "ok", "ok", "schedule 0 000102", "idle", "ok", "schedule 0 010002", "ok", "schedule 0 010200", "ok", "no more 0"];
    assert_eq!((status, said), (0, [&wanted[..], &["count 0 3", "ok"]].concat().iter().map(|s| s.to_string()).collect()));
}

/// A refusal is an answer; a line that cannot be carried out is told, and the next is read.
#[test]
fn refusals_and_errors() {
    let (status, said) =
        answers("ask 4\nask 0\nserve\nopen 0 examples/accesses-25-refused.hex\nopen 1 examples/queue-broken.asm\nopen 1 x.hex\n");
    assert_eq!(
        (status, said.len(), &said[..5]),
        (2, 6, &["refused 42 0", "refused 44 0", "idle", "refused 6 27", "ok"].map(String::from)[..])
    );
    assert_eq!(said[5], "error: x.hex: No such file or directory (os error 2)", "before 43: the file cannot be read");
    let (status, said) = answers("open 0 examples/whole.hex\nopen 0 examples/whole.hex\nclose 3\nask 18446744073709551615\n");
    assert_eq!((status, said), (0, ["ok", "refused 43 0", "refused 44 0", "refused 42 0"].map(String::from).to_vec()));
    for wrong in [
        "sreve",
        "ask",
        "ask x",
        "open 0",
        "open 0 -",
        "serve 1",
        "raw 0 place",
        "raw 0 plaice 00",
        "raw 9 place 00",
        "raw 0 place 0001",
        "set",
        "set 0 6",
        "set x 61",
        "return 0 6g",
        "forget 0 61 62",
        "raw 0 mark8.place 00",
        "raw 0 mark.place 00",
        "raw 0 mark0.plaice 00",
        "raw 0 mark0.name 616263646566676869",
    ] {
        let (status, said) = answers(&format!("{wrong}\nserve\n"));
        assert_eq!((status, said.len(), said[1].as_str()), (2, 2, "idle"), "{wrong}");
        assert!(said[0].starts_with("error: "), "{wrong}: {}", said[0]);
    }
    // a text form that is wrong is told in one line
    let text = folder("users").join("wrong.asm").display().to_string();
    std::fs::write(&text, "thread\n  stor x 1\n  fial\n").unwrap();
    let (status, said) = answers(&format!("open 0 {text}\nserve\n"));
    assert!(status == 2 && said.len() == 2 && said[0].contains("is it store?") && said[0].contains("is it fail?"), "{said:?}");
    assert_eq!(run_with(&["users", "file"], b"").status, 2);
}

/// What a file expects is passed over, and that is said; a statement that cannot be read is an error as it is everywhere.
#[test]
fn expectations() {
    let folder = folder("users_expect");
    let opened = |name: &str, text: &str, json: &[&str]| {
        let path = folder.join(name).display().to_string();
        std::fs::write(&path, text).unwrap();
        run_with(&[&["users"], json].concat(), format!("open 0 {path}\n").as_bytes())
    };
    let program = "thread\n  store x 1\n";
    let one = opened("one.asm", &format!("{program}forbid x = 2\n"), &[]);
    assert_eq!((one.status, one.out.as_str()), (0, "ok\n"));
    assert!(one.err.contains("1 expectation is not looked at here; check and test decide it"), "{}", one.err);
    let two = opened("two.hex", "# exists x0 = 1\n# expect none\n01\n10000000000001\n", &["--json"]);
    assert!(two.out.contains("2 expectations are not looked at here"), "{}", two.out);
    let wrong = opened("wrong.asm", &format!("{program}forbid x = 2 and x = 3\n"), &[]);
    assert_eq!(wrong.status, 2);
    assert!(wrong.out.starts_with("error: ") && wrong.out.contains("&& joins two conditions"), "{}", wrong.out);
}

/// Damaged records count as closed and empty, and a last caller above 3 is read as 3.
#[test]
fn raw_bytes() {
    for (raw, said) in [
        ("raw 0 place 00", "refused 44 0"),
        ("raw 0 place 02", "refused 44 0"),
        ("raw 0 place 03", "ok"),
        ("raw 0 length 1001", "refused 44 0"),
        ("raw 0 length 0000000000000000", "ok"),
        ("raw 0 file 78", "refused 44 0"),
        ("raw 0 steps 19", "ok"),
        ("raw 0 asking ff", "ok"),
        ("raw 1 place 00", "ok"),
    ] {
        assert_eq!(answers(&format!("open 0 examples/whole.hex\n{raw}\nask 0\n")).1, ["ok", "ok", said], "{raw}");
    }
    let (_, said) = answers(
        "open 0 examples/whole.hex\nraw 0 schedule 020100\nraw 0 steps 03\nraw 0 place 02\nask 0\nserve\n\
         raw 0 schedule 000102\nraw 0 place 02\nraw 0 asking 01\nraw 0 steps 03\nraw 0 count ffffffffffffffff\nserve\ncount 0\n",
    );
    let wanted = ["ok", "ok", "ok", "ok", "ok", "no more 0", "ok", "ok", "ok", "ok", "ok", "schedule 0 010002", "count 0 0"];
    assert_eq!(said, wanted);
    let (_, said) = answers("open 0 examples/whole.hex\nopen 1 examples/whole.hex\nraw last 0100\nask 0\nask 1\nserve\nserve\n");
    assert_eq!(said[5..], ["schedule 0 000102", "schedule 1 000102"]);
}

/// A host that waits for each answer before it writes the next line is not left waiting.
#[test]
fn line_by_line() {
    let mut child = common::tool(&["users"]).stdin(Stdio::piped()).stdout(Stdio::piped()).spawn().unwrap();
    let (mut to, mut from) = (child.stdin.take().unwrap(), BufReader::new(child.stdout.take().unwrap()));
    for (line, answer) in [("open 1 examples/whole.hex", "ok"), ("ask 1", "ok"), ("serve", "schedule 1 000102"), ("x", "error: ")]
    {
        to.write_all(format!("{line}\n").as_bytes()).unwrap();
        let mut said = String::new();
        from.read_line(&mut said).unwrap();
        assert!(said.starts_with(answer), "{line}: {said}");
    }
    drop(to);
    assert_eq!(child.wait().unwrap().code(), Some(2));
}

fn digits(bytes: &[u8]) -> String {
    bytes.iter().map(|byte| format!("{byte:02x}")).collect()
}

/// Marks by lines: names are digits, two a byte.
#[test]
fn marks() {
    let (status, said) = answers(
        "open 0 examples/whole.hex\nset 0 61\nask 0\nserve\nset 0 62\nask 0\nserve\nreturn 0 61\nask 0\nserve\nreturn 0 62\nask 0\nserve\n\
         forget 0 62\nreturn 0 62\nset 0\nset 1 61\nset 0 616263646566676869\nset 4 61\n",
    );
    let (first, second) = ("schedule 0 000102", "schedule 0 010002");
    let front = ["ok", "ok", "ok", first, "ok", "ok", second, "ok", "ok", first, "ok", "ok", second];
    let refused = ["ok", "refused 46 0", "refused 45 0", "refused 44 0", "refused 45 0", "refused 42 0"];
    assert_eq!((status, said), (0, [&front[..], &refused].concat().iter().map(|s| s.to_string()).collect()));
    let (_, said) = answers(
        "open 0 examples/whole.hex\nset 0 61\nraw 0 mark0.place 03\nreturn 0 61\nraw 0 mark0.place 01\nreturn 0 61\nraw 0 mark0.length 09\nreturn 0 61\n\
         raw 0 mark7.name 62\nraw 0 mark7.length 01\nraw 0 mark7.place 02\nraw 0 mark7.steps 03\nraw 0 mark7.schedule 010002\nreturn 0 62\nask 0\nserve\n",
    );
    let wanted = ["ok", "ok", "ok", "refused 46 0", "ok", "ok", "ok", "refused 46 0", "ok", "ok", "ok", "ok", "ok", "ok", "ok"];
    assert_eq!(said, [&wanted[..], &["schedule 0 010200"]].concat());
}

/// Lists of thousands of calls through the command, beside the oracle.
#[test]
fn random_lists_of_lines() {
    for seed in 0..share::of(4) {
        let mut random = Random::new(0x7573 + seed as u64);
        let files = files(&mut random);
        let folder = folder("users_random");
        let name = |k: usize| folder.join(format!("{seed}-{k}.hex")).display().to_string();
        files.iter().enumerate().for_each(|(k, file)| std::fs::write(name(k), file).unwrap());
        let (mut lists, mut shared) = (Lists::default(), Shared::fresh());
        let (mut lines, mut wanted) = (String::new(), Vec::new());
        for _ in 0..3_000 {
            let call = match call(&mut random, &files) {
                Call::Serve(_) => Call::Serve(24),
                other => other,
            };
            lines += &match &call {
                Call::Open(k, file) => format!("open {k} {}\n", name(files.iter().position(|one| one == file).unwrap())),
                Call::Ask(k) => format!("ask {k}\n"),
                Call::Serve(_) => "serve\n".to_string(),
                Call::Close(k) => format!("close {k}\n"),
                Call::Set(k, name) => format!("set {k} {}\n", digits(name)),
                Call::Return(k, name) => format!("return {k} {}\n", digits(name)),
                Call::Forget(k, name) => format!("forget {k} {}\n", digits(name)),
            };
            wanted.push(match shared.call(&mut lists, &call) {
                Ok(Said::Done) => "ok".to_string(),
                Ok(Said::Schedule(k, steps)) => format!("schedule {k} {}", digits(&steps)),
                Ok(Said::NoMore(k)) => format!("no more {k}"),
                Ok(Said::Idle) => "idle".to_string(),
                Err(refusal) => format!("refused {} {}", refusal.number, refusal.place),
            });
        }
        let (status, said) = answers(&lines);
        let differs = said.iter().zip(&wanted).position(|(a, b)| a != b);
        assert!(status == 0 && said == wanted, "{differs:?}");
    }
}

/// The layout of a mark, as the C program prints it.
fn marks_in_c() -> String {
    let fields = [
        ("name", offset_of!(Mark, name), 8),
        ("length", offset_of!(Mark, length), 1),
        ("place", offset_of!(Mark, place), 1),
        ("steps", offset_of!(Mark, steps), 1),
        ("schedule", offset_of!(Mark, schedule), 24),
    ];
    let layout: String = fields.iter().map(|(name, offset, size)| format!("mark {name} {offset} {size}\n")).collect();
    format!("mark {}, {MARKS} of them\n{layout}", size_of::<Mark>())
}

/// What the C program tells of its calls: the word, the last caller, the records that changed.
const CALLS: &str = "\
open 0100000000000000 last 3 changed 2
28 1 0
ask 0100000000000000 last 3 changed 2
asking 1
serve 0100020000000002 last 2 changed 2
1 2 2, 0 2 0, count 1
serve 0500000000000000 last 2 changed
ask 032a000000000000 last 2 changed
ask 0316000000000000 last 2 changed
set 0100000000000000 last 2 changed 2
4 2 2, 0 0
set 032d000000000000 last 2 changed
return 032e000000000000 last 2 changed
place 0000000000000000 last 2 changed 2
return 0100000000000000 last 2 changed 2
2 2
forget 0100000000000000 last 2 changed 2
forget 032e000000000000 last 2 changed
eight 0000000000000000 last 2 changed 2
set 032f000000000000 last 2 changed
close 0100000000000000 last 2 changed 2
";

/// The record of the header is that of the Rust wrapper, and the library's: a C program lends it and finds what it expects.
#[test]
fn records_in_c() {
    let built = folder("users").join("callers").display().to_string();
    let words = ["-std=c99", "-Wall", "-Wextra", "-Werror", "-pedantic", "-Iinclude", "tool/tarczolin/tests/callers.c"];
    let compiled = Command::new("cc")
        .args(words)
        .args(["target/staticlib/libtarczolin.a", "-o", &built])
        .current_dir(path("."))
        .output()
        .unwrap();
    assert!(compiled.status.success(), "{}", String::from_utf8_lossy(&compiled.stderr));
    let ran = String::from_utf8(Command::new(&built).output().unwrap().stdout).unwrap();
    let fields = [
        ("file", offset_of!(Caller, file), 4096),
        ("length", offset_of!(Caller, length), 8),
        ("count", offset_of!(Caller, count), 8),
        ("place", offset_of!(Caller, place), 1),
        ("asking", offset_of!(Caller, asking), 1),
        ("steps", offset_of!(Caller, steps), 1),
        ("schedule", offset_of!(Caller, schedule), 24),
        ("handed", offset_of!(Caller, handed), 1),
        ("size", offset_of!(Caller, size), 1),
        ("newest", offset_of!(Caller, newest), 24),
        ("marks", offset_of!(Caller, marks), 8 * size_of::<Mark>()),
        ("padding", offset_of!(Caller, padding), 3),
    ];
    assert_eq!((size_of::<Caller>(), offset_of!(Caller, marks), size_of::<Mark>()), (4448, 4165, 35), "as the header says");
    let layout: String = fields.iter().map(|(name, offset, size)| format!("{name} {offset} {size}\n")).collect();
    assert_eq!(ran, format!("size {}\n{layout}{}{CALLS}", size_of::<Caller>(), marks_in_c()));
}
