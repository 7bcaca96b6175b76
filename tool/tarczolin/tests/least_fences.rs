//! `tarczolin fences`: the fewest places for fences, held to an exhaustive search over all sets by the command itself.
mod common;

use common::json::{parse, Value};
use common::{folder, run, run_with};

const PAIR: &str = "thread left\n  store x 1\n  n = load y\nthread right\n  store y 1\n  n = load x\n";
const FORBIDS: &str = "forbid left.n = 0 & right.n = 0\n";

fn fences(text: &str) -> (i32, String) {
    let ran = run_with(&["fences", "-"], text.as_bytes());
    (ran.status, ran.out + &ran.err)
}

#[test]
fn store_buffering_takes_two() {
    let (status, told) = fences(&format!("{PAIR}{FORBIDS}"));
    let wanted = "2 fences, 6 of 16 accesses with them:\n  in front of line 3: n = load y\n  in front of line 6: n = load x\n";
    assert_eq!(status, 0);
    assert!(told.starts_with(wanted) && told.matches("accesses with them").count() == 1, "{told}");
    assert!(told.contains("plain Rust, which is not proved"), "{told}");
}

#[test]
fn mutual_exclusion_by_assertions() {
    let ran = run(&["fences", "examples/suite/dekker.asm"]);
    assert_eq!(ran.status, 0);
    assert!(ran.out.starts_with("2 fences, 8 of 16 accesses with them:\n"), "{}", ran.out);
    assert!(ran.out.contains("expect violation under tso, and with fences that may not happen any more"), "{}", ran.out);
}

/// What is written is the program with the fences, and keeps what it should; as a program file too.
#[test]
fn what_is_written_does_it() {
    let folder = folder("least-fences");
    for name in ["repaired.asm", "repaired.hex"] {
        let out = folder.join(name).display().to_string();
        let ran = run_with(&["fences", "-", "--write", &out], format!("# mine\n{PAIR}{FORBIDS}").as_bytes());
        assert_eq!(ran.status, 0, "{}", ran.err);
        assert!(ran.out.contains(&format!("with the first of these in {out}\n")), "{}", ran.out);
        assert_eq!(run(&["test", &out]).status, 0, "{}", run(&["test", &out]).out);
        assert!(std::fs::read_to_string(&out).unwrap().starts_with("# "));
    }
    let text = std::fs::read_to_string(folder.join("repaired.asm")).unwrap();
    assert_eq!(text, format!("# mine\n{}{FORBIDS}", PAIR.replace("  n =", "  fence\n  n =")));
    let own = folder.join("own.asm");
    std::fs::write(&own, format!("{PAIR}{FORBIDS}")).unwrap();
    let own = own.display().to_string();
    let ran = run(&["fences", &own, "--write", &own]);
    assert_eq!(ran.status, 2);
    assert!(ran.err.contains("would overwrite the program"), "{}", ran.err);
    assert_eq!(std::fs::read_to_string(&own).unwrap(), format!("{PAIR}{FORBIDS}"));
    assert_eq!(run(&["fences", &own, "--write", "-"]).status, 2);
}

#[test]
fn none_needed_none_helps_nothing_to_keep() {
    let (status, told) =
        fences("thread w\n  store d 1\n  store f 1\nthread r\n  a = load f\n  b = load d\nforbid r.a = 1 & r.b = 0\n");
    assert!(status == 0 && told.starts_with("no fence is needed\n"), "{told}");
    let (status, told) = fences("thread\n  store x 1\n  n = load x\nthread\n  m = load x\n  assert m == 0\n");
    assert!(
        status == 1
            && told.starts_with("no fences do it: under sequential consistency, where they mean nothing, 000001 is wrong too\n"),
        "{told}"
    );
    let (status, told) = fences(PAIR);
    assert!(
        status == 2 && told.contains("there is nothing to keep: the program asserts nothing, and the file forbids nothing"),
        "{told}"
    );
    let (status, told) = fences(&format!("{PAIR}forbid left.m = 0\n"));
    assert!(status == 2 && told.contains(":7:8: there is no register m"), "{told}");
    let (status, told) = fences(&format!("{PAIR}forbid left.n = 0 & right.n = 0 under sc\n"));
    assert!(status == 2 && told.contains("nothing to keep"), "what is forbidden under the other model is kept already: {told}");
}

/// Threads that are alike take fences together.
#[test]
fn alike_threads_together() {
    let thread = "  store x 1\n  n = load y\n  store y 1\n  m = load x\n";
    let text =
        format!("thread a\n{thread}thread b\n{thread}alike a b\nforbid a.n = 0 & b.n = 0 & x = 7\nforbid a.n = 0 & b.n = 9\n");
    let (status, told) = fences(&text);
    assert!(status == 0 && told.starts_with("no fence is needed"), "{told}");
    let sb = "thread a\n  mine = fetch_add turn 1\n  if mine != 0 goto second\n  store x 1\n  n = load y\n  goto end\nsecond:\n  store y 1\n  n = load x\nend:\n";
    let text = format!("{sb}{}alike a b\nforbid a.n = 0 & b.n = 0\n", sb.replace("thread a", "thread b"));
    let (status, told) = fences(&text);
    assert_eq!(status, 0, "{told}");
    assert!(
        told.starts_with("4 fences, ") && told.matches("in front of line").count() == 4,
        "two places in each of two threads: {told}"
    );
}

/// Against every set of places, asked for one by one: no smaller set does it, and the sets told are all that do of that size.
#[test]
fn fewest_by_exhaustion() {
    let text = "thread a\n  store x 1\n  n = load y\n  store z 1\n  m = load x\nthread b\n  store y 1\n  n = load z\n  m = load x\nforbid a.n = 0 & b.m = 0\n";
    let lines: Vec<&str> = text.lines().collect();
    let places = [3, 5, 8, 9];
    let does = |chosen: &[usize]| {
        let line = |(k, line): (usize, &&str)| {
            if chosen.contains(&(k + 1)) {
                format!("  fence\n{line}\n")
            } else {
                format!("{line}\n")
            }
        };
        let made: String = lines.iter().enumerate().map(line).collect();
        run_with(&["check", "-", "--model", "tso"], made.as_bytes()).status == 0
    };
    let sets: Vec<Vec<usize>> =
        (0u32..16).map(|bits| (0..4).filter(|k| bits >> k & 1 == 1).map(|k| places[k]).collect()).collect();
    let working: Vec<&Vec<usize>> = sets.iter().filter(|set| does(set)).collect();
    let least = working.iter().map(|set| set.len()).min().unwrap();
    assert!(least > 0);
    let wanted = working.iter().filter(|set| set.len() == least).count();
    let ran = run_with(&["fences", "-", "--json"], text.as_bytes());
    let answer = parse(ran.out.trim_end());
    let Some(Value::List(told)) = answer.get("sets") else { panic!("{}", ran.out) };
    assert_eq!(told.len(), wanted, "{}", ran.out);
    assert!(told.iter().all(|set| set.get("fences") == Some(&Value::Number(least as i64))), "{}", ran.out);
}

/// Room for fewer fences than it takes is told, and a limit is a refusal.
#[test]
fn no_room_and_a_limit() {
    let filler = "  store z 1\n".repeat(5);
    let text = format!("thread left\n  store x 1\n{filler}  n = load y\nthread right\n  store y 1\n{filler}  m = load z\n  n = load x\nforbid left.n = 0 & right.n = 0\n");
    let (status, told) = fences(&text);
    assert!(status == 2 && told.contains("room for 1 more access"), "{told}");
    let ran = run_with(&["fences", "-", "--limit", "1"], format!("{PAIR}{FORBIDS}").as_bytes());
    assert!(ran.status == 2 && ran.err.contains("not decided: more than 1 are listed"), "{}{}", ran.out, ran.err);
}

/// A set that has no register left for its fence is not asked for, and that is told.
#[test]
fn sets_that_do_not_fit_are_told() {
    let loads: String = ["a", "b", "c", "n"].map(|r| format!("  {r} = load z\n")).concat();
    let left = format!("thread left\n{loads}  store x 1\n  if n != 0 goto end\n  n = load y\nend:\n");
    let text = format!("{left}thread right\n  store y 1\n  n = load x\nforbid left.n = 0 & right.n = 0\n");
    let (status, told) = fences(&text);
    assert_eq!(status, 0, "{told}");
    assert!(told.contains(" do not fit the program, and are not asked for\n"), "{told}");
}

/// Program files and litmus tests are read too: their lines are those of the text form.
#[test]
fn of_other_files() {
    let ran =
        run_with(&["fences", "-"], b"# forbid T0.r0 = 0 & T1.r0 = 0\n01\n10000000000001\n110001\n01\n10010000000001\n110000\n");
    assert_eq!(ran.status, 0, "{}", ran.err);
    assert!(ran.out.contains("in front of line 4 as disasm has it: r0 = load x1\n"), "{}", ran.out);
    let file = folder("least-fences").join("sb.litmus");
    std::fs::write(
        &file,
        "X86 SB\n{ }\n P0 | P1 ;\n MOV [x],$1 | MOV [y],$1 ;\n MOV EAX,[y] | MOV EAX,[x] ;\n~exists (0:EAX=0 /\\ 1:EAX=0)\n",
    )
    .unwrap();
    let ran = run(&["fences", &file.display().to_string()]);
    assert!(ran.status == 0 && ran.out.starts_with("2 fences, 6 of 16 accesses"), "{}{}", ran.out, ran.err);
}
