//! Fences of the text form: nothing can tell them but what they forbid, what is missing for one is told, and they go to a file and back.
mod common;
#[path = "common/fenced.rs"]
mod fenced;

use common::json::{fits_the_schema, parse, Value};
use common::{run_with, without_statements, Ran};
use fenced::{asserted, random, End, Fenced};
use std::collections::BTreeSet;
use tarczolin_tests::random::Random;
use tarczolin_tests::share;

/// Store buffering, with a fence in each thread.
const BUFFERED: &str = "\
thread a
  store x 1
  fence
  n = load y
thread b
  store y 1
  fence
  n = load x
";

fn under(model: &str, words: &[&str], text: &str) -> Ran {
    run_with(&[words, &["--model", model]].concat(), text.as_bytes())
}

/// Forbidden with both fences, allowed without one of them; under sequential consistency they are left out, and that is told.
#[test]
fn store_buffering() {
    let asked = ["outcomes", "-", "--where", "a.n=0 & b.n=0"];
    assert_eq!(under("tso", &asked, BUFFERED).status, 0);
    assert_eq!(under("tso", &asked, &BUFFERED.replacen("  fence\n", "", 1)).status, 1);
    let ran = under("sc", &asked, BUFFERED);
    let told = "tarczolin: standard input: 2 fences are left out: under sequential consistency they mean nothing\n";
    assert!(ran.status == 0 && ran.err.starts_with(told) && ran.err.lines().count() == 2, "{}", ran.err);
    let bare = BUFFERED.replace("  fence\n", "");
    for words in [&["list", "-"][..], &["show", "-"], &["count", "-", "--classes"], &["outcomes", "-"], &["cuts", "-", "2"]] {
        let [fenced, bare] = [BUFFERED, &bare].map(|text| without_statements(&run_with(words, text.as_bytes()).out));
        assert_eq!(fenced, bare, "{words:?}");
    }
    for words in [&["force", "-", "--hostile", "a"][..], &["check", "-", "--model", "sc"], &["covers", "-", "examples/whole.hex"]]
    {
        assert!(run_with(words, BUFFERED.as_bytes()).err.contains("2 fences are left out"), "{words:?}");
    }
    for words in [&["check", "-"][..], &["disasm", "-"], &["export-litmus", "-"], &["asm", "-"]] {
        assert_eq!(run_with(words, BUFFERED.as_bytes()).err, "", "it is not run, and nothing is left out: {words:?}");
    }
    let shown = without_statements(&under("tso", &["show", "-", "0010000001110101"], BUFFERED).out);
    assert!(shown.contains("#1   a  fence\n#2   a  load y -> n = 0             initial\n"), "{shown}");
    assert!(shown.ends_with("memory     x = 1, y = 1\nregisters  a.n = 0, b.n = 1\n"), "{shown}");
    let page = under("tso", &["show", "-", "0010000001110101", "--html", "-"], BUFFERED).out;
    assert!(page.contains("#1 fence") && !page.contains("fetch_add") && !page.contains("x7"), "nothing of what it becomes");
    let object = parse(under("tso", &["show", "-", "0010000001110101", "--json"], BUFFERED).out.trim_end());
    assert!(fits_the_schema(&object), "{object:?}");
    let dot = under("tso", &["graph", "-", "0010000001110101", "--dot"], BUFFERED).out;
    assert!(dot.contains("t0_1 [label=\"#1 fence\"]") && !dot.contains("initial -> t0_1"), "{dot}");
}

/// The integer or the truth of a field.
fn field(object: &Value, name: &str) -> i64 {
    match object.get(name) {
        Some(Value::Number(value)) => *value,
        Some(Value::Bool(value)) => *value as i64,
        other => panic!("{name}: {other:?}"),
    }
}

/// What an outcome says of the locations and registers that it names.
type Told = (Vec<(String, i64)>, Vec<(String, i64)>, bool);

fn told(out: &str) -> BTreeSet<Told> {
    let named = |value: Option<&Value>| match value {
        Some(Value::Object(fields)) => fields.iter().map(|(name, _)| (name.clone(), field(value.unwrap(), name))).collect(),
        other => panic!("{other:?}"),
    };
    let outcomes = out.lines().map(parse).filter(|object| object.get("outcome").is_some());
    outcomes.map(|one| (named(one.get("memory")), named(one.get("registers")), field(&one, "fails") == 1)).collect()
}

/// The same of the ends that the machine with fences of its own has.
fn projected(ends: &BTreeSet<End>, names: &Told) -> BTreeSet<Told> {
    let number = |text: &str| text[1..].parse::<usize>().unwrap();
    let of = |(memory, registers, fails): &End| {
        let locations = names.0.iter().map(|(name, _)| (name.clone(), memory[number(name)] as i64)).collect();
        let register = |name: &str| {
            let (t, r) = name.split_once('.').unwrap();
            registers[number(t)][number(r)] as i64
        };
        (locations, names.1.iter().map(|(name, _)| (name.clone(), register(name))).collect(), *fails)
    };
    ends.iter().map(of).collect()
}

/// Outcomes with what they say of these names alone: a program file without remarks does not say which register is a fence's.
fn narrowed(all: BTreeSet<Told>, names: &Told) -> BTreeSet<Told> {
    let known = |name: &String| names.0.iter().chain(&names.1).any(|(other, _)| other == name);
    let of = |values: Vec<(String, i64)>| values.into_iter().filter(|(name, _)| known(name)).collect();
    all.into_iter().map(|(memory, registers, fails)| (of(memory), of(registers), fails)).collect()
}

/// Random programs, under both models: the outcomes of a program with fences are those of a machine that has fences of its own, in every
/// location and register that the program names; and those of the program file that is made of it, with its remarks and without.
#[test]
fn nothing_can_tell_a_fence() {
    let mut numbers = Random::new(0xfe9ce);
    let programs = (0..share::of(250)).map(|_| random(&mut numbers));
    let (compared, without, fences) = all_compared(programs);
    assert!(!share::whole() || (compared > 120 && without > 5 && fences > 200), "{compared} {without} {fences}");
}

/// A failed assertion ends a thread, and its registers are told as they are then: a register that is given a value behind the assertion only
/// is not free in front of it.
#[test]
fn nor_behind_a_failed_assertion() {
    let text = "thread\n  r0 = 5\n  r1 = 6\n  r2 = 7\n  r3 = 8\n  fence\n  assert r0 == 0\n  r3 = 1\n";
    let ran = under("tso", &["outcomes", "-", "--registers"], text);
    assert!(ran.status == 2 && ran.err.contains(":6:3: a fence needs a register"), "{}{}", ran.out, ran.err);
    let given = text.replace("  assert", "  r2 = 9\n  assert");
    let ran = under("tso", &["outcomes", "-", "--registers"], &given);
    assert!(ran.status == 1 && ran.out.contains("T0.r2 = 9") && ran.out.contains("T0.r3 = 8"), "{}{}", ran.out, ran.err);
}

/// Random programs that mostly fail behind a fence, compared as the others: the program file without remarks shows what a fence did to its
/// register.
#[test]
fn nothing_can_tell_a_fence_where_threads_fail() {
    let mut numbers = Random::new(0xa55e);
    let programs = (0..share::of(120)).map(|_| asserted(&mut numbers));
    let (compared, without, fences) = all_compared(programs);
    assert!(!share::whole() || (compared > 30 && without > 20 && fences > 30), "{compared} {without} {fences}");
}

/// Outcomes without the lines of failed assertions, `(instruction 4, line 7)`, which a program file has not.
fn without_lines(out: &str) -> String {
    let bare = |line: &str| match line.split_once(", line ").filter(|_| line.starts_with("fails ")) {
        Some((front, _)) => format!("{front})\n"),
        None => format!("{line}\n"),
    };
    out.lines().map(bare).collect()
}

/// Compares these, and says how many were compared, how many had no register for a fence, and how many fences the first ones had.
fn all_compared(programs: impl Iterator<Item = Fenced>) -> (usize, usize, usize) {
    let (mut compared, mut without, mut fences) = (0, 0, 0);
    for program in programs {
        let text = program.text();
        let ran = under("tso", &["outcomes", "-", "--registers", "--json"], &text);
        if ran.status == 2 {
            let said = ran.err.contains("a fence needs a register") && ran.err.contains("none is left: all 4 are used");
            assert!(said, "{}", ran.err);
            without += 1;
            continue;
        }
        let plain = run_with(&["asm", "-"], text.as_bytes()).out;
        for model in ["sc", "tso"] {
            let ran = under(model, &["outcomes", "-", "--registers", "--json"], &text);
            let found = told(&ran.out);
            let names = found.first().expect("an outcome");
            assert_eq!(found, projected(&program.ends(model == "tso"), names), "{model}\n{text}{}", ran.out);
            let kept = narrowed(told(&under(model, &["outcomes", "-", "--registers", "--json"], &plain).out), names);
            assert_eq!(found, kept, "{model}\n{text}{plain}");
        }
        let file = run_with(&["asm", "--remarks", "-"], text.as_bytes()).out;
        let of_text = without_lines(&under("tso", &["outcomes", "-", "--registers"], &text).out);
        assert_eq!(under("tso", &["outcomes", "-", "--registers"], &file).out, of_text, "{text}{file}");
        let outcomes = |program: &str| under("tso", &["outcomes", "-"], program).out;
        assert_eq!(outcomes(&file), outcomes(&text), "{text}{file}");
        compared += 1;
        fences += text.matches("fence").count();
    }
    (compared, without, fences)
}

/// What one fence becomes: the frame in the program file.
fn frame(text: &str) -> String {
    let file = run_with(&["asm", "--remarks", "-"], text.as_bytes());
    assert_eq!(file.status, 0, "{}", file.err);
    let (front, code): (Vec<&str>, Vec<&str>) = file.out.lines().partition(|line| line.starts_with('#'));
    let fence = front.iter().find_map(|line| line.strip_prefix("# fence T")).expect("a fence");
    let (t, at) = fence.split_once(' ').unwrap();
    let opened = code.iter().enumerate().filter(|(_, line)| **line == "01").nth(t.parse().unwrap()).unwrap().0;
    code[opened + 1 + at.parse::<usize>().unwrap()].to_string()
}

/// The register is one that the thread does not name, else one that is given a value anew on every path; the location one that nothing else
/// uses, else the one that the other threads write least.
#[test]
fn where_a_fence_stands() {
    assert_eq!(frame("thread\n  store x0 1\n  fence\n  r0 = load x1\n"), "1203070000000000");
    let four = "  r0 = load x0\n  r1 = load x0\n  r2 = load x0\n  r3 = load x0\n";
    assert_eq!(frame(&format!("thread\n  fence\n{four}")), "1203070000000000", "all four are given a value behind it");
    assert_eq!(frame(&format!("thread\n{four}  fence\n  if r0 != 1 skip 1\n  r1 = 1\n  r1 = 2\n")), "1201070000000000");
    for behind in ["", "  r3 = r3\n", "  r3 += 1\n", "  assert r0 == 0\n  r3 = 1\n", "  if r0 != 1 skip 1\n  r3 = 1\n"] {
        let ran = run_with(&["asm", "-"], format!("thread\n{four}  fence\n{behind}").as_bytes());
        let said = ":6:3: a fence needs a register that the thread does not name";
        assert!(ran.status == 2 && ran.err.contains(said) && ran.err.contains("all 4 are used"), "{behind}: {}", ran.err);
    }
    let stores = |l: std::ops::Range<u8>| l.map(|l| format!("  store x{l} 1\n")).collect::<String>();
    let text = format!("thread\n{}  fence\nthread\n{}  r0 = load x7\n", stores(0..4), stores(3..8));
    assert_eq!(frame(&text), "1203020000000000", "only its own thread writes x2");
    let text = format!("thread\n{}  fence\nthread\n{}  store x7 2\n", stores(0..1), stores(0..8));
    assert_eq!(frame(&text), "1203060000000000", "x7 is written twice");
    let bare = "thread\n  store x0 1\n  r0 = load x1\nthread\n  store x1 1\n  r0 = load x0\n";
    let fenced = bare.replace("  r0 =", "  fence\n  r0 =");
    let file = run_with(&["asm", "-"], fenced.as_bytes()).out;
    assert_eq!(
        run_with(&["count", "-"], file.as_bytes()).out,
        run_with(&["count", "-"], bare.as_bytes()).out,
        "the list does not grow"
    );
    let alike = "thread a\n  store x 1\n  fence\nthread b\n  store x 1\n  fence\nalike a b\n";
    assert_eq!(under("tso", &["count", "-"], alike).status, 0);
}

/// Instructions and accesses that a fence takes: where none is left that is told, with how many are used.
#[test]
fn what_is_missing() {
    let said = |words: &[&str], text: String, part: &str| {
        let ran = run_with(words, text.as_bytes());
        assert!(ran.status == 2 && ran.out.is_empty() && ran.err.contains(part), "{part}\n{}", ran.err);
    };
    let sets = "  r0 = 1\n".repeat(16);
    said(
        &["check", "-"],
        format!("thread\n{sets}  fence\n"),
        ":18:3: a fence takes an instruction, and none is left: 16 are used",
    );
    said(&["check", "-"], format!("thread\n  fence\n{sets}"), ":18:3: this is instruction number 17 of its thread");
    said(&["check", "-"], format!("thread\n  fence\n{sets}"), "; 1 fence is among all of them, and --model sc leaves it out");
    assert_eq!(run_with(&["count", "-"], format!("thread\n  fence\n{sets}").as_bytes()).out, "1 listed, 0 failing\n");
    let loads = |n: usize| format!("thread\n{}", "  r0 = load x0\n".repeat(n));
    let full = loads(12) + &loads(12) + "  fence\n";
    said(&["asm", "-"], full.clone(), ":27:3: a fence takes an access, and none is left: 24 are used");
    assert_eq!(under("sc", &["asm", "-"], &full).status, 0);
    assert_eq!(run_with(&["count", "-"], full.as_bytes()).out, "1 listed, 0 failing\n");
    let more = loads(8) + &loads(8) + "  fence\n";
    assert_eq!(run_with(&["asm", "-"], more.as_bytes()).status, 0);
    let words = ":19:3: a fence takes an access, and none is left: 16 are used, as many as a program has under total store order";
    said(&["count", "-", "--model", "tso"], more.clone(), words);
    said(&["asm", "-", "--model", "tso"], more, words);
    said(&["asm", "-", "--model", "tso"], loads(9) + &loads(9), "refusal 41: the file has 18 accesses");
    said(&["check", "-"], "thread\n  fence x\n".to_string(), ":2:9: the statement has ended; x is too much");
    said(&["check", "-"], "thread\n  store fence 1\n".to_string(), ":2:9: a location");
}

/// Skips and labels count statements, whether fences are kept or left out; the remark says where one was.
#[test]
fn skips_over_fences() {
    let text =
        "thread\n  r0 = load x0\n  if r0 != 1 skip 2\n  fence\n  r1 = 1\n  if r0 == 2 goto end\n  fence\nend:\n  store x1 r1\n";
    let kept = "01\n110000\n2200000000000102\n1203070000000000\n20010000000001\n2200000000000201\n2200000000000301\n1203070000000000\n10010100000001\n";
    assert_eq!(run_with(&["asm", "-"], text.as_bytes()).out, kept);
    let left = "01\n110000\n2200000000000101\n20010000000001\n10010100000001\n";
    let ran = under("sc", &["asm", "-"], text);
    assert_eq!((ran.out.as_str(), ran.err.contains("2 fences are left out")), (left, true));
    let remarked = under("sc", &["asm", "--remarks", "-"], text).out;
    let remark = "# a fence is left out here: under sequential consistency it means nothing\n";
    assert!(remarked.contains(&format!("01\n{remark}20010000000001\n{remark}10010100000001\n")), "{remarked}");
}

/// What a program uses: its fences take instructions and accesses, which sequential consistency alone does without.
#[test]
fn what_is_used() {
    let used = |words: &[&str]| run_with(&[&["check", "-"], words].concat(), BUFFERED.as_bytes()).out;
    let with = "accepted: 2 of 6 threads, 3 of 16 instructions in the longest, 6 of 24 accesses (16 under --model tso), 2 of 8 locations, 1 of 4 registers\n";
    assert_eq!([used(&[]), used(&["--model", "tso"])], [with, with]);
    assert_eq!(used(&["--model", "sc"]), with.replace("3 of 16", "2 of 16").replace("6 of 24", "4 of 24"));
    let file = run_with(&["asm", "--remarks", "-"], BUFFERED.as_bytes()).out;
    assert_eq!(run_with(&["check", "-"], file.as_bytes()).out, with);
}

/// To a program file and back: by its line in the remarks a fence is shown as one. Without it, it is the fetch and add that it became.
#[test]
fn there_and_back() {
    let file = run_with(&["asm", "--remarks", "-"], BUFFERED.as_bytes()).out;
    assert!(file.starts_with("# fence T0 1\n# fence T1 1\n# name x0 x\n"), "{file}");
    let form = run_with(&["disasm", "-"], file.as_bytes()).out;
    assert!(form.ends_with(BUFFERED) && !form.contains("# fence"), "{form}");
    assert_eq!(run_with(&["asm", "--remarks", "-"], form.as_bytes()).out, file);
    assert_eq!(under("tso", &["show", "-"], &file).out, without_statements(&under("tso", &["show", "-"], BUFFERED).out));
    let bare = run_with(&["asm", "-"], BUFFERED.as_bytes()).out;
    assert!(run_with(&["disasm", "-"], bare.as_bytes()).out.contains("  r3 = fetch_add x7 0\n"));
    let litmus = run_with(&["export-litmus", "-"], file.as_bytes()).out;
    assert_eq!(litmus.matches("MFENCE").count(), 2, "{litmus}");
    let again = run_with(&["import-litmus", "-"], litmus.as_bytes()).out;
    assert_eq!(run_with(&["asm", "-"], again.as_bytes()).out, bare, "{again}");
}

/// A line that calls something a fence that is none is a remark as any: what the program means stays to be seen.
#[test]
fn no_fence_by_its_line() {
    for code in
        ["12000700000000000\n", "1200070000000001\n", "110007\n", "1200070000000000\n10000100000000\n", "1200070100000001\n"]
    {
        let code = code.replace("12000700000000000\n", "1200070000000000\n23000000000000\n");
        let file = format!("# fence T0 0\n01\n{code}01\n10070000000001\n");
        let form = run_with(&["disasm", "-"], file.as_bytes()).out;
        assert!(form.starts_with("# fence T0 0\n") && !form.contains("  fence"), "{form}");
        let bare = file.replace("# fence T0 0\n", "");
        let ends = |file: &str| run_with(&["outcomes", "-", "--registers"], file.as_bytes()).out;
        assert_eq!(ends(&file), ends(&bare));
    }
    for line in ["# fence T0", "# fence T6 0", "# fence T0 16", "# fence T1 7", "# fence", "#fence T0 0", "# fence T0 0 0"] {
        let form = run_with(&["disasm", "-"], format!("{line}\n01\n1200070000000000\n").as_bytes()).out;
        assert!(form.starts_with(line) && form.ends_with("  r0 = fetch_add x7 0\n"), "{form}");
    }
}
