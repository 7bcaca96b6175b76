//! Programs that write themselves: what is made is what could have been written out, and every error points into the text.
mod common;

use common::json::{parse, Value};
use common::{folder, run_with};

/// The program file of a text.
fn file(text: &str) -> String {
    let ran = run_with(&["asm", "-"], text.as_bytes());
    assert_eq!(ran.status, 0, "{text}{}", ran.err);
    ran.out
}

#[test]
fn what_could_have_been_written_out() {
    let cases = [
        ("thread w * 2 alike\n  store x 1\nthread\n  n = load x\n", "thread w0\n  store x 1\nthread w1\n  store x 1\nthread\n  n = load x\nalike 0 1\n"),
        ("const N = 3\nthread * N\n  store x 1\n", "thread\n  store x 1\nthread\n  store x 1\nthread\n  store x 1\n"),
        ("thread a\n  store x 1\nthread b * 2 alike\n  n = load x\nthread c * 2 alike\n", "thread a\n  store x 1\nthread b0\n  n = load x\nthread b1\n  n = load x\nthread c0\nthread c1\nalike 1 2\nalike 3 4\n"),
        ("const TWO = 2\nthread\n  repeat TWO {\n    n = fetch_add x 1\n    repeat 2 {\n      store y n\n    }\n  }\n", "thread\n  n = fetch_add x 1\n  store y n\n  store y n\n  n = fetch_add x 1\n  store y n\n  store y n\n"),
        ("def put(where, what) {\n  store where what\n}\nthread\n  put(x, 5)\n  put(y, -1)\n", "thread\n  store x 5\n  store y -1\n"),
        ("def twice(k) {\n  repeat k {\n    one()\n  }\n}\ndef one() {\n  n = fetch_add x 1\n}\nthread\n  twice(2)\n", "thread\n  n = fetch_add x 1\n  n = fetch_add x 1\n"),
        ("const LAST = 2\nconst next[1..2]\ninit next[1] 4\nthread\n  store next[LAST] 1\n  n = load next[1]\n", "init a 4\nthread\n  store b 1\n  n = load a\n"),
        ("const q[0..1]\ndef set(k) {\n  store q[k] k\n}\nthread\n  set(0)\n  set(1)\n", "thread\n  store a 0\n  store b 1\n"),
    ];
    for (short, long) in cases {
        assert_eq!(file(short), file(long), "{short}");
    }
}

/// Labels of a body are its own, each time; those outside can be jumped to.
#[test]
fn labels_of_their_own() {
    let short = "def try() {\n  n = load x\n  if n == 1 goto out\n  store y 1\nout:\n}\nthread\n  try()\n  repeat 2 {\n    m = load y\n    if m != 0 goto next\n    if m != 0 goto end\n    store z 1\n  next: store z 2\n  }\nend:\n";
    let long = "thread\n  n = load x\n  if n == 1 goto o\n  store y 1\no:\n  m = load y\n  if m != 0 goto a\n  if m != 0 goto end\n  store z 1\na: store z 2\n  m = load y\n  if m != 0 goto b\n  if m != 0 goto end\n  store z 1\nb: store z 2\nend:\n";
    assert_eq!(file(short), file(long));
    let shown = run_with(&["show", "-", "--html", "-"], short.as_bytes());
    assert!(!shown.out.contains("out#"), "labels are shown as they are written");
    let ran = run_with(&["check", "-"], b"def f() {\n  goto nowhere\n}\nthread\n  f()\n");
    assert!(ran.err.contains(":2:8: there is no label nowhere in this thread; here by line 5"), "{}", ran.err);
}

/// The names that are shown, asked for and written are those of the text; a file made of it knows them too.
#[test]
fn names_there_and_back() {
    let text = "const LAST = 1\nconst next[0..1]\nthread w * 2 alike\n  store next[0] 7\n  n = load next[LAST]\nexists w1.n = 0 & next[LAST] = 0 & next[0] = 7\n";
    let ran = run_with(&["check", "-"], text.as_bytes());
    assert_eq!((ran.status, ran.out.matches(": holds").count()), (0, 2), "{}{}", ran.out, ran.err);
    let file = run_with(&["asm", "--remarks", "-"], text.as_bytes()).out;
    assert!(file.contains("# name x1 next[1]\n") && file.contains("# exists w1.n = 0 & next[1] = 0 & next[0] = 7\n"), "{file}");
    assert_eq!(run_with(&["check", "-"], file.as_bytes()).out.matches(": holds").count(), 2);
    let form = run_with(&["disasm", "-"], file.as_bytes()).out;
    assert_eq!(run_with(&["asm", "--remarks", "-"], form.as_bytes()).out, file, "{form}");
    assert!(run_with(&["outcomes", "-", "--where", "next[0] = 7"], text.as_bytes()).status == 1);
    assert!(run_with(&["outcomes", "-", "--where", "next[5] = 7"], text.as_bytes()).err.contains("there is no location next[5]"));
    let litmus = run_with(&["export-litmus", "-"], b"const a[0..1]\nthread\n  store a[0] 1\n  store a[1] 1\n").out;
    assert!(litmus.contains("MOV [a_0],$1") && litmus.contains("MOV [a_1],$1"), "{litmus}");
    let clash = run_with(&["export-litmus", "-"], b"const a[0..0]\nthread\n  store a[0] 1\n  store a_0 1\n").out;
    assert!(clash.contains("MOV [x0],$1") && clash.contains("MOV [x1],$1"), "{clash}");
}

/// Which error, and where: line and column of the text as it is written.
#[test]
fn errors_point_into_the_text() {
    let cases = [
        ("thread\n  repeat 0 {\n  }\n", "2:10: repeat takes a number from 1 to 24"),
        ("thread\n  repeat k {\n  }\n", "2:10: repeat takes a number from 1 to 24"),
        ("thread\n  repeat 2 3 {\n  }\n", "2:10: repeat takes a number"),
        ("thread\n  repeat 2\n", "2:10: { is missing at the end of this line"),
        ("thread\n  repeat 2 {\n  store x 1\n", "2:12: this brace is not closed: } is missing"),
        ("thread\n}\n", "2:1: no brace is open here"),
        ("thread\n  repeat 2 { store x 1 }\n", "2:12: a brace opens at the end of a line"),
        ("thread\n  if r0 == 1 {\n  }\n", "2:14: a brace opens at the end of a line that begins with repeat or def"),
        ("def (x) {\n}\nthread\n", "1:5: a definition is written as def push(node) {"),
        ("def f x {\n}\nthread\n", "1:7: ( is expected here, not x"),
        ("def f(x {\n}\nthread\n", "1:9: ) is missing"),
        ("def f(x y) {\n}\nthread\n", "1:9: , or ) is expected here, not y"),
        ("def f(x, x) {\n}\nthread\n", "1:10: x stands here twice"),
        ("def if(x) {\n}\nthread\n", "1:5: if cannot be a name"),
        ("def f() {\n}\ndef f() {\n}\nthread\n  f()\n", "3:5: f is defined already, in line 1"),
        ("def push() {\n}\nthread\n  pusj()\n", "4:3: nothing defines pusj; is it push?"),
        ("def f(a) {\n  store x a\n}\nthread\n  f()\n", "5:4: f takes 1 words, by line 1, not 0"),
        ("def f(a) {\n  store x a\n}\nthread\n  f(1,)\n", "5:7: a word is expected here, not )"),
        ("def f(a) {\n  store x a\n}\nthread\n  f(1) 2\n", "5:8: the statement has ended; 2 is too much"),
        ("def f() {\n  f()\n}\nthread\n  f()\n", "2:3: f, defined in line 1, uses itself: programs have no loops"),
        ("def f() {\n  g()\n}\ndef g() {\n  f()\n}\nthread\n  f()\n", "5:3: f, defined in line 1, uses itself"),
        ("thread\n  repeat 2 {\n    def f() {\n    }\n  }\n", "3:5: a definition stands outside of all braces"),
        ("def f(a) {\n  store x a\n  stor x a\n}\nthread\n  store y 1\n  f(2)\n", "3:3: a statement does not begin with stor; is it store?; here by line 7"),
        ("def f(a) {\n  store x a\n}\nthread\n  repeat 2 {\n    f(none)\n  }\n", "2:11: a number or a register is expected here, not none; here by line 6, by line 5"),
        ("thread\n  store next[0] 1\n", "2:9: there is no array next"),
        ("const next[0..3]\nthread\n  store nxt[0] 1\n", "3:9: there is no array nxt; is it next?"),
        ("const next[0..3]\nthread\n  store next[4] 1\n", "3:14: next has the places 0 to 3, not 4"),
        ("const a[0..1]\ndef f(k) {\n  store a[k] 1\n}\nthread\n  f(2)\n", "3:11: a has the places 0 to 1, not 2; here by line 6"),
        ("def g() {\n  none(1)\n}\nthread\n  repeat 2 {\n    g()\n  }\n", "2:3: nothing defines none; here by line 6, by line 5"),
        ("const next[0..3]\nthread\n  n = load next[n]\n", "3:17: an index is a number or a constant, not n"),
        ("const next[0..3]\nthread\n  store next[1 1\n", "3:16: ] is expected here, not 1"),
        ("const next[0..3]\nthread\n  store next[\n", "3:9: an index and ] are expected behind next["),
        ("const next[0..9]\nthread\n", "1:12: 0 to 9 are no places of an array: at least one, at most 8"),
        ("const next[3..1]\nthread\n", "1:12: 3 to 1 are no places of an array"),
        ("const next[0-3]\nthread\n", "1:7: an array is written as const next[0..3]"),
        ("const next[0..1]\nconst next[0..1]\nthread\n", "2:7: next is an array already"),
        ("const a[0..6]\nconst b[0..6]\nthread\n  store a[0] 1\n  store a[1] 1\n  store a[2] 1\n  store a[3] 1\n  store b[0] 1\n  store b[1] 1\n  store b[2] 1\n  store b[3] 1\n  store b[4] 1\n", "12:9: b[4] is one location too many; a program has at most 8"),
        ("thread a * 7\n", "1:12: a number of threads from 1 to 6 is expected here"),
        ("thread a * 1 alike\n", "1:14: two threads at least are alike"),
        ("thread a * 2 same\n", "1:14: alike is expected here, not same"),
        ("thread a * 2 alike b\n", "1:20: the statement has ended here"),
        ("thread\n  store x * 2\n", "2:11: * has no meaning here"),
        ("thread a * 4\n  store x 1\nthread b * 3\n", "this is thread number 7; a program has at most 6"),
        ("thread\n  repeat 20 {\n    n = 1\n  }\n", "3:5: this is instruction number 17 of its thread"),
        ("thread\n  repeat 24 {\n  repeat 24 {\n  repeat 24 {\n    n = 1\n  }\n  }\n  }\n", "5:5: this is repeated until there are more than 4096 lines"),
    ];
    for (text, wanted) in cases {
        let ran = run_with(&["check", "-"], text.as_bytes());
        assert!(ran.status == 2 && ran.out.is_empty() && ran.err.contains(wanted), "{text}{wanted}\n{}", ran.err);
    }
}

/// How many accesses are made is told, and what nothing uses.
#[test]
fn accesses_are_told() {
    let text = "def put(k) {\n  store x k\n  fence\n}\ndef spare() {\n}\nthread w * 2 alike\n  repeat 3 {\n    put(1)\n  }\n";
    let ran = run_with(&["check", "-"], text.as_bytes());
    assert!(ran.out.ends_with("line 8 makes 12 of these accesses\nline 9 makes 12 of these accesses\n"), "{}", ran.out);
    assert!(ran.out.contains("12 of 24 accesses"), "{}", ran.out);
    assert!(ran.err.contains("5:1: warning: nothing uses spare"), "{}", ran.err);
    let objects: Vec<Value> = run_with(&["check", "-", "--json"], text.as_bytes()).out.lines().map(parse).collect();
    assert!(objects.len() == 2 && objects[0].get("notes").is_some(), "{objects:?}");
    assert!(
        matches!(objects[1].get("made"), Some(Value::List(made)) if made.len() == 2 && made[0].get("accesses") == Some(&Value::Number(12)))
    );
}

/// Least fences stand in what is repeated and defined, each counted as often as it is made.
#[test]
fn fences_in_definitions() {
    let text = "def enter(mine, other) {\n  store mine 1\n  n = load other\n}\nthread a\n  enter(x, y)\nthread b\n  enter(y, x)\nforbid a.n = 0 & b.n = 0\n";
    let out = folder("writes-itself").join("repaired.asm").display().to_string();
    let ran = run_with(&["fences", "-", "--write", &out], text.as_bytes());
    assert_eq!(ran.status, 0, "{}", ran.err);
    assert!(ran.out.starts_with("2 fences, 6 of 16 accesses with them:\n  in front of line 3: n = load y\n"), "{}", ran.out);
    let made = std::fs::read_to_string(&out).unwrap();
    assert_eq!(made, text.replace("  n = load other", "  fence\n  n = load other"));
    assert_eq!(run_with(&["check", "-", "--model", "tso"], made.as_bytes()).status, 0);
}
