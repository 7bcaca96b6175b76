//! What a file expects of its program: read wherever it stands, decided under the model asked for, and never passed over.
mod common;

use common::json::{parse, Value};
use common::{folder, run, run_with};
use tarczolin_tests::files::{path, text};
use tarczolin_tests::random::ends::mixing;
use tarczolin_tests::random::program::{frames, SMALL};
use tarczolin_tests::random::Random;
use tarczolin_tests::share;

const PAIR: &str = "thread\n  store x 1\n  n = load y\nthread\n  store y 1\n  n = load x\n";
const BY_CALLS: &str =
    "(which outcomes there are and what fails first are the library's answers; that a condition fits an outcome is found by \
plain Rust, which is not proved)\n";
const BY_LIST: &str =
    "(what speaks of registers or of one thread's failure is decided by plain Rust over the list, which is not proved; the list is)\n";

fn lines(words: &[&str], text: &str) -> (i32, Vec<String>) {
    let ran = run_with(words, text.as_bytes());
    assert_eq!(ran.err, "", "{text}");
    let told = ran.out.lines().filter(|line| line.starts_with("line ")).map(str::to_string).collect();
    (ran.status, told)
}

/// All five, each holding and each failing, with the execution that shows it.
#[test]
fn each_kind() {
    let cases = [
        ("exists T0.n = 0 & T1.n = 1", 0, "holds, first by 00000101"),
        ("exists T0.n = 0 & T1.n = 0", 1, "FAILS: none of 3 listed ends so"),
        ("forbid T0.n = 0 & T1.n = 0", 0, "holds: none of 3 listed ends so"),
        ("forbid T0.n = 1 & T1.n = 1", 1, "FAILS, first by 00010001"),
        ("forall x = 1 & y = 1", 0, "holds: the only outcome is so"),
        ("exists x = 0 | fails", 1, "FAILS: the only outcome is not so"),
        ("forbid x = 1", 1, "FAILS, first by 00000101"),
        ("forall T0.n = 0", 1, "FAILS, first by 00010001"),
        ("expect none", 0, "holds: the program asserts nothing"),
        ("expect violation", 1, "FAILS: the program asserts nothing"),
    ];
    for (expected, status, told) in cases {
        let text = format!("{PAIR}{expected}\n");
        for words in [&["check", "-", "--model", "sc"][..], &["violation", "-"], &["outcomes", "-"]] {
            assert_eq!(lines(words, &text), (status, vec![format!("line 7: {expected} under sc: {told}")]), "{words:?}");
        }
    }
    let fails = "thread\n  n = load x\n  assert n == 0\nthread\n  store x 1\n";
    assert_eq!(lines(&["check", "-", "--model", "sc"], &format!("{fails}expect violation\n")).0, 0);
    let holds = fails.replace("== 0", "<= 1");
    let (status, told) = lines(&["check", "-", "--model", "sc"], &format!("{holds}expect none\n"));
    assert_eq!((status, told), (0, vec!["line 6: expect none under sc: holds: no execution fails".to_string()]));
    let (status, told) = lines(&["check", "-", "--model", "sc"], &format!("{fails}expect none\n"));
    assert_eq!((status, told), (1, vec!["line 6: expect none under sc: FAILS, first by 0100".to_string()]));
}

/// Without `under` an expectation is asked under each model; with it under that one.
#[test]
fn under_a_model() {
    let both = format!("{PAIR}forbid T0.n = 0 & T1.n = 0 under sc\nexists T0.n = 0 & T1.n = 0 under tso\nforall x = 1\n");
    let ran = run_with(&["check", "-"], both.as_bytes());
    assert_eq!((ran.status, ran.out.matches(": holds").count()), (0, 4), "{}", ran.out);
    assert!(ran.out.ends_with(&format!("{BY_CALLS}{BY_LIST}")), "{}", ran.out);
    let ran = run_with(&["violation", "-"], both.as_bytes());
    assert_eq!((ran.status, ran.out.matches(" under sc: holds").count()), (0, 2), "{}", ran.out);
    assert!(ran.err.contains("1 expectation speaks of another model, and nothing is said of it here"), "{}", ran.err);
    let ran = run_with(&["outcomes", "-", "--model", "tso"], both.as_bytes());
    assert_eq!((ran.status, ran.out.matches(" under tso: holds").count()), (0, 2), "{}", ran.out);
    let swapped = format!("{PAIR}forbid T0.n = 0 & T1.n = 0\n");
    let (status, told) = lines(&["check", "-"], &swapped);
    assert_eq!((status, told.len()), (1, 2));
    assert!(told[0].contains("under sc: holds") && told[1].contains("under tso: FAILS, first by 000001011011"), "{told:?}");
}

/// A fence counts under total store order, and is left out under the other model.
#[test]
fn with_fences() {
    let fenced = PAIR.replace("  n =", "  fence\n  n =");
    let ran = run_with(&["check", "-"], format!("{fenced}forbid T0.n = 0 & T1.n = 0\n").as_bytes());
    assert_eq!((ran.status, ran.out.matches(": holds").count()), (0, 2), "{}", ran.out);
}

/// Threads that are alike are exchanged.
#[test]
fn of_alike_threads() {
    let text = "thread a\n  n = fetch_add x 1\nthread b\n  n = fetch_add x 1\nalike a b\nexists a.n = 1\nforbid b.n = 0\nforall a.n = 0\n";
    let (status, told) = lines(&["check", "-", "--model", "sc"], text);
    assert_eq!(status, 1);
    assert_eq!(told[0], "line 6: exists a.n = 1 under sc: holds, first by 0100, with alike threads exchanged");
    assert_eq!(told[1], "line 7: forbid b.n = 0 under sc: FAILS, first by 0100, with alike threads exchanged");
    assert_eq!(told[2], "line 8: forall a.n = 0 under sc: FAILS, first by 0100, with alike threads exchanged");
}

/// In a program file they are remarks, in a text remarks too; constants of a text are known, and are numbers in the file made of it.
#[test]
fn in_remarks_and_by_constants() {
    let text = format!(
        "const ONE = 1\n# exists x = ONE & y = ONE under sc\n{PAIR}forbid T0.n = 2 | T1.n = ONE & T0.n = 0 & x = 0 under tso\n"
    );
    assert_eq!(lines(&["check", "-"], &text).0, 0);
    let file = run_with(&["asm", "--remarks", "-"], text.as_bytes());
    assert!(file.out.contains("# exists x = 1 & y = 1 under sc\n"), "{}", file.out);
    assert!(file.out.contains("# forbid T0.n = 2 | T1.n = 1 & T0.n = 0 & x = 0 under tso\n"), "{}", file.out);
    let (status, told) = lines(&["check", "-"], &file.out);
    assert_eq!((status, told.len()), (0, 2));
    let back = run_with(&["disasm", "-"], file.out.as_bytes());
    assert_eq!(lines(&["check", "-"], &back.out).1.len(), 2, "{}", back.out);
    let capitals = "# EXISTS: x0 = 1\n01\n10000000000001\n";
    assert_eq!(lines(&["check", "-"], capitals).1[0], "line 1: exists x0 = 1 under sc: holds, first by 00");
    assert_eq!(
        run_with(&["outcomes", "-", "--where", "x = ONE & y = ONE"], text.as_bytes()).status,
        1,
        "constants behind --where too"
    );
}

/// What cannot be read is an error with its place, in a remark and in a statement; nothing is passed over.
#[test]
fn broken_ones_are_errors() {
    let cases = [
        ("exists", 7, "a location, a register or a number is missing"),
        ("exists x =", 11, "a location, a register or a number is missing"),
        ("exists z = 1", 8, "there is no location z"),
        ("forbid x = 1 &", 15, "a location, a register or a number is missing"),
        ("forbid (x = 1", 14, ") is missing"),
        ("forbid T7.n = 1", 8, "there is no thread T7"),
        ("forbid x = 1 y", 14, "the condition has ended; y is too much"),
        ("forbid x = 1 and y = 1", 14, "the condition has ended; and is too much; && joins two conditions"),
        (
            "forbid x = 1 OR y = 1",
            14,
            "the condition has ended; OR is too much; || stands between two conditions of which one is enough",
        ),
        ("forall x % 1", 10, "the character % has no meaning here"),
        ("forall x = 1 under", 19, "sc or tso is missing behind under"),
        ("forall x = 1 under arm", 20, "sc or tso is expected behind under, not arm"),
        ("expect", 7, "violation or none is missing behind expect"),
        ("expect nothing", 8, "violation or none is expected behind expect, not nothing"),
        ("expect none of this under sc", 8, "violation or none is expected behind expect, not none of this"),
    ];
    for (line, column, message) in cases {
        for (front, program, words) in
            [("", PAIR, &["count", "-"][..]), ("# ", PAIR, &["check", "-"]), ("#", PAIR, &["violation", "-"])]
        {
            let ran = run_with(words, format!("{program}{front}{line}\n").as_bytes());
            let place = format!("standard input:7:{}: {message}", column + front.len());
            assert_eq!((ran.status, ran.out.as_str()), (2, ""), "{line}");
            assert!(ran.err.contains(&place), "{line}: {} has not {place}", ran.err);
        }
        let ran = run_with(&["check", "-"], format!("# {line}\n01\n1000000000000a\n110001\n").as_bytes());
        assert_eq!(ran.status, 2, "{line}: {}", ran.out);
        assert!(ran.err.contains("standard input:1:"), "{}", ran.err);
    }
    let two = run_with(&["check", "-"], format!("{PAIR}exists a = 1\n# forbid b = 1\n").as_bytes());
    assert!(
        two.err.contains(":7:8:")
            && run_with(&["check", "-"], format!("{PAIR}# exists a = 1\n# forbid b = 1\n").as_bytes()).err.contains(":8:10:")
    );
}

/// A remark that only looks like an expectation is told of; a listing is not refused for a remark.
#[test]
fn what_looks_like_one_is_warned_of() {
    let ran = run_with(&["check", "-"], format!("# forbids x = 1\n{PAIR}  # nothing\n").as_bytes());
    assert_eq!(ran.status, 0);
    assert!(
        ran.err.contains("standard input:1:3: warning: this remark expects nothing; is forbids meant to be forbid?"),
        "{}",
        ran.err
    );
    let ran = run_with(&["check", "-"], PAIR.replace("  store x 1", "  store x 1  # forbid x = 2").as_bytes());
    assert!(ran.err.contains("standard input:2:14: warning: this remark stands behind a statement"), "{}", ran.err);
    assert_eq!(run_with(&["count", "-"], format!("# expect the worst\n{PAIR}").as_bytes()).status, 0);
    assert_eq!(run_with(&["check", "-"], format!("# expect the worst\n{PAIR}").as_bytes()).status, 2);
    let name = run_with(&["check", "-"], b"thread\n  exists = load x\n");
    assert_eq!(name.status, 2, "the words are no names any more: {}", name.out);
}

/// Behind the limit nothing is known, and that is a refusal; what was found in front of it counts.
#[test]
fn a_limit_is_no_answer() {
    let text = format!("{PAIR}forbid T0.n = 0 & T1.n = 0 under sc\nexists T0.n = 0 under sc\n");
    let ran = run_with(&["check", "-", "--limit", "2"], text.as_bytes());
    assert_eq!(ran.status, 2);
    assert!(ran.out.contains("line 7: forbid T0.n = 0 & T1.n = 0 under sc: not decided: more than 2 are listed"), "{}", ran.out);
    assert!(ran.out.contains("line 8: exists T0.n = 0 under sc: holds"), "{}", ran.out);
    assert_eq!(run_with(&["check", "-", "--limit", "3"], text.as_bytes()).status, 0, "three are listed");
    for bad in ["0", "-1", "x"] {
        assert_eq!(run_with(&["check", "-", "--limit", bad], text.as_bytes()).status, 2);
    }
}

/// A program that one model does not take is refused under it, not passed over.
#[test]
fn too_many_accesses_for_one_model() {
    let file = String::from_utf8(std::fs::read(path("examples/accesses-24.hex")).unwrap()).unwrap();
    let first = file.lines().find(|line| !line.starts_with('#')).unwrap();
    assert!(first.len() >= 2);
    let ran = run_with(&["check", "-", "--limit", "5"], format!("# exists true\n{file}").as_bytes());
    assert_eq!(ran.status, 2);
    assert!(ran.out.contains("exists true under sc: holds") && ran.err.contains("refusal 41"), "{} {}", ran.out, ran.err);
    assert_eq!(run_with(&["check", "-"], format!("# exists true under sc\n{file}").as_bytes()).status, 0);
}

/// What the library's calls decide and what a walk over the list decides is the same, on random programs under both models.
#[test]
fn the_calls_and_the_walk() {
    let mut random = Random::new(0x6578);
    let mut seen = [0; 2];
    for k in 0..share::of(80) {
        let file = if k % 2 == 0 { mixing(&mut random) } else { text(&frames(&mut random, SMALL)) };
        if !file.split(|c| *c == b'\n').any(|line| line == b"01") {
            // without a thread there is no register to ask about
            continue;
        }
        let value = random.below(3);
        for condition in [format!("x0 = {value}"), format!("x1 != {value} & !fails"), "fails".to_string()] {
            for kind in ["exists", "forbid", "forall"] {
                // a thread's name makes it a condition that is not of memory alone, and changes nothing of what it says
                let same = format!("{condition} & (T0.r0 = 0 | T0.r0 != 0)");
                let [called, walked] = [&condition, &same].map(|condition| {
                    let ran =
                        run_with(&["check", "-", "--json"], &[format!("# {kind} {condition}\n").as_bytes(), &file].concat());
                    let all = ran.out.lines().map(parse).filter(|one| one.get("holds").is_some());
                    (
                        ran.status,
                        all.map(|one| ["model", "holds", "schedule"].map(|name| one.get(name).cloned())).collect::<Vec<_>>(),
                    )
                });
                assert_eq!(called, walked, "{kind} {condition}: {}", file.escape_ascii());
                seen[called.0.min(1) as usize] += 1;
            }
        }
    }
    assert!(!share::whole() || seen.iter().all(|times| *times > 100), "{seen:?}");
}

/// What speaks of another model is told in JSON too; `asm` passes over nothing, and `export-litmus` says what it leaves out.
#[test]
fn nothing_is_left_out_in_silence() {
    let text = format!("{PAIR}forbid T0.n = 1 under tso\n");
    let ran = run_with(&["violation", "-", "--json"], text.as_bytes());
    let note = "{\"kind\":\"note\",\"line\":null,\"column\":null,\"message\":\"1 expectation speaks of another model";
    let front = "{\"command\":\"violation\",\"file\":\"standard input\",\"notes\":[";
    assert!(ran.out.starts_with(&format!("{front}{note}")), "{}", ran.out);
    for words in [&["asm", "-"][..], &["asm", "--remarks", "-"], &["disasm", "-"]] {
        let ran = run_with(words, format!("{PAIR}forbid z = 1\n").as_bytes());
        assert!(ran.status == 2 && ran.err.contains(":7:8: there is no location z"), "{words:?}: {}", ran.err);
    }
    let ran = run_with(&["export-litmus", "-"], text.as_bytes());
    assert!(ran.status == 0 && ran.err.contains("what is expected of the program is left out"), "{}", ran.err);
    let long = format!("{}{PAIR}forbid T0.n = 9\n", format!("# {}\n", "x".repeat(500)).repeat(9));
    let ran = run_with(&["asm", "--remarks", "-"], long.as_bytes());
    assert!(ran.status == 2 && ran.err.contains("what is expected stands in them"), "{}", ran.err);
}

#[test]
fn as_json() {
    let text = format!("{PAIR}forbid T0.n = 1 under sc\nexists x = 5 under tso\n");
    let ran = run_with(&["check", "-", "--json"], text.as_bytes());
    let objects: Vec<Value> = ran.out.lines().map(parse).collect();
    assert_eq!((ran.status, objects.len()), (1, 3));
    let field = |at: usize, name: &str| objects[at].get(name).cloned();
    assert_eq!(field(1, "expectation"), Some(Value::Text("forbid T0.n = 1".to_string())));
    assert_eq!((field(1, "line"), field(1, "holds")), (Some(Value::Number(7)), Some(Value::Bool(false))));
    assert_eq!(field(1, "schedule"), Some(Value::Text("00010001".to_string())));
    assert_eq!((field(2, "model"), field(2, "schedule")), (Some(Value::Text("tso".to_string())), Some(Value::Null)));
    // the walk was over two, where the second decides; of memory the outcomes decide, and nothing is walked
    assert_eq!((field(1, "walked"), field(2, "walked")), (Some(Value::Number(2)), Some(Value::Null)));
}

/// A litmus test's condition, or its answers, are what it expects; the line is the test's own.
#[test]
fn of_litmus_tests() {
    let folder = folder("litmus-expected");
    let file = |name: &str, text: &str| {
        let path = folder.join(name);
        std::fs::write(&path, text).unwrap();
        path.display().to_string()
    };
    let sb = "X86 SB\nREMARK{ x=0; y=0; }\n P0 | P1 ;\n MOV [x],$1 | MOV [y],$1 ;\n MOV EAX,[y] | MOV EAX,[x] ;\nQ (0:EAX=0 /\\ 1:EAX=0)\n";
    for (remark, quantifier, told, status) in [
        ("", "exists", vec!["line 6: exists (P0.eax=0 & P1.eax=0) under tso: holds"], 0),
        ("", "~exists", vec!["line 6: forbid (P0.eax=0 & P1.eax=0) under tso: FAILS"], 1),
        ("", "forall", vec!["line 6: forall (P0.eax=0 & P1.eax=0) under tso: FAILS"], 1),
        (
            "(* sc: forbidden; tso: allowed *)",
            "exists",
            vec!["forbid (P0.eax=0 & P1.eax=0) under sc: holds", "exists (P0.eax=0 & P1.eax=0) under tso: holds"],
            0,
        ),
        ("(* tso: forbidden *)", "exists", vec!["forbid (P0.eax=0 & P1.eax=0) under tso: FAILS"], 1),
    ] {
        let path = file("sb.litmus", &sb.replace("REMARK", remark).replace("Q ", &format!("{quantifier} ")));
        let ran = run(&["check", &path]);
        assert_eq!((ran.status, ran.out.matches("line 6: ").count()), (status, told.len()), "{} {}", ran.out, ran.err);
        assert!(told.iter().all(|one| ran.out.contains(one)), "{}", ran.out);
    }
    let broken = file("broken.litmus", &sb.replace("REMARK", "(* sc: perhaps *)\n").replace("Q ", "exists "));
    let ran = run(&["check", &broken]);
    assert_eq!(ran.status, 2);
    assert!(ran.err.contains(":2:8: allowed or forbidden is expected here, not perhaps"), "{}", ran.err);
}
