//! The text form: there and back on random programs, and errors by line and column.
mod common;

use common::{run, run_with};
use tarczolin::asm::{assemble, text as written, Remarks};
use tarczolin::error::Mark;
use tarczolin::program::{frames as frames_of, Names};
use tarczolin_tests::files::{read, text};
use tarczolin_tests::random::program::{frames, ANY, SMALL};
use tarczolin_tests::random::Random;
use tarczolin_tests::share;

/// The program file of a text in which nothing is wrong.
fn file_of(form: &str) -> Vec<u8> {
    assemble(form.as_bytes()).unwrap_or_else(|marks| panic!("{form}\n{marks:?}")).file
}

/// The only thing that is wrong with a text.
fn wrong(form: &str) -> Mark {
    let marks = assemble(form.as_bytes()).expect_err(form);
    assert_eq!(marks.len(), 1, "{form}: {marks:?}");
    marks[0].clone()
}

#[test]
fn there_and_back() {
    let mut random = Random::new(81);
    for k in 0..share::of(20_000) {
        let file = text(&frames(&mut random, if k % 3 == 0 { SMALL } else { ANY }));
        let form = written(&frames_of(&file).unwrap(), &Names::default(), &Remarks::default());
        assert_eq!(file_of(&form), file, "{form}");
    }
}

#[test]
fn every_statement() {
    let form = "\
# a remark
thread
  store x 1
  r0 = load x
  r0 = fetch_add x 1

  r1 = cas x 0 1     # another
  r0 = 5
  r0 += 1
  if r0 != 1 skip 2
  assert r0 == 1
  store y r1
  if r0 > -1 skip 1
  assert r0 <= r1
thread
thread
alike 1 2
";
    let file = "01\n10000000000001\n110000\n1200000000000001\n13010000000000000000000001\n20000000000005\n21000000000001\n\
                2200000000000102\n23000000000001\n10010100000001\n240000ffffffff01\n25000100000001\n01\n01\n020102\n";
    assert_eq!(run_with(&["asm", "-"], form.as_bytes()).out, file);
    let back = run_with(&["disasm", "-"], file.as_bytes());
    assert_eq!(run_with(&["asm", "-"], back.out.as_bytes()).out, file);
    assert!(back.out.contains("  r1 = cas x0 0 1\n") && back.out.ends_with("alike 1 2\n"), "{}", back.out);
    assert!(back.out.contains("  if r0 > -1 skip 1\n  assert r0 <= r1\n"), "{}", back.out);
}

/// Names take the least numbers that nothing else has; numbers are decimal, hexadecimal or negative.
#[test]
fn names_and_numbers() {
    let file = |form: &str| String::from_utf8(file_of(form)).unwrap();
    let stores = "01\n10010000000001\n10000000000002\n10020000000003\n10010000000004\n";
    assert_eq!(file("thread\nstore tail 1\nstore x0 2\nstore head 3\nstore tail 4"), stores);
    assert_eq!(file("thread\nr0=-1\nr0+=0xff\nr1 = 4294967295"), "01\n200000ffffffff\n210000000000ff\n200100ffffffff\n");
}

#[test]
fn examples_of_the_text_form() {
    for name in ["queue-broken", "queue-repaired", "message-passing"] {
        let form = String::from_utf8(read(&format!("examples/{name}.asm"))).unwrap();
        assert_eq!(file_of(&form), read(&format!("examples/{name}.hex")), "{name}");
    }
    let ran = run(&["violation", "examples/queue-broken.hex"]);
    assert_eq!((ran.status, ran.out.as_str()), (1, "00000102020201\n"));
    for name in ["queue-repaired", "message-passing"] {
        let ran = run(&["violation", &format!("examples/{name}.hex")]);
        assert_eq!((ran.status, ran.out.as_str()), (0, "none\n"), "{name}");
    }
}

/// What is wrong, where, and a word of the message.
#[test]
fn errors_by_line_and_column() {
    let many = format!("thread\n{}", "store x 1\n".repeat(17));
    let names = format!("thread\n{}", "abcdefghi".chars().map(|c| format!("  store {c} 1\n")).collect::<String>());
    let table: Vec<(&str, usize, usize, &str)> = vec![
        ("thread\n  stor x 1", 2, 3, "does not begin with stor; is it store?"),
        ("thread\n  store x", 2, 10, "a number or a register is missing"),
        ("thread\n  store x y", 2, 11, "not y"),
        ("thread\n  store 5 1", 2, 9, "a location"),
        ("thread\n  store x9 1", 2, 9, "no location x9"),
        ("thread\n  store x 1 2", 2, 13, "too much"),
        ("thread\n  r4 = 1", 2, 3, "no register r4"),
        ("thread\n  r0 = r7", 2, 8, "no register r7"),
        ("thread\n  r0 - 1", 2, 6, "= or +="),
        ("thread\n  load x", 2, 3, "needs a register"),
        ("thread\n  r0 = 4294967296", 2, 8, "32 bits"),
        ("thread\n  r0 = 0xg", 2, 8, "32 bits"),
        ("thread\n  if r0 = 1 skip 2", 2, 9, "==, !=, <=, >, < or >= is expected"),
        ("thread\n  if r0 <> 1 skip 2", 2, 9, "not <>"),
        ("thread\n  if r0 < -2147483648 skip 2\n  r0 = 1\n  r0 = 2", 2, 11, "-2147483648 is the least value"),
        ("thread\n  assert r0 >= 0x80000000", 2, 16, "0x80000000 is the least value"),
        ("thread\ninit tail 1", 2, 1, "in front of the first thread"),
        ("init tail 1\ninit tail 1\nthread", 2, 6, "has a starting value already, in line 1"),
        ("init tail rest\nthread", 1, 11, "a number is expected here"),
        ("init x8 1\nthread", 1, 6, "there is no location x8"),
        ("init tail\nthread", 1, 10, "a number is missing"),
        ("thread\n  goto end\n  r0 = 1", 2, 8, "no label end"),
        ("thread\n  goto ned\n  r0 = 1\nend:", 2, 8, "is it end?"),
        ("thread\nagain:\n  r0 = load x\n  if r0 != 1 goto again", 4, 19, "stands above, in line 2"),
        ("thread\nhere:\nhere:", 3, 1, "twice"),
        ("thread\n  tail = 1\n  store tail 1", 2, 3, "is a location; it is written by: store tail"),
        ("thread\n  assert item == 1", 2, 10, "not item"),
        ("thread\n  item = 1\n  assert iten == 1", 3, 10, "is it item?"),
        ("thread\n  assert item == 1\n  item = 1", 2, 10, "only below"),
        ("thread\n  n = load tail\n  store x tail", 3, 11, "load it into a register first"),
        ("const N = 1\nconst N = 2\nthread", 2, 7, "already"),
        ("const N = M\nthread", 1, 11, "a number is expected"),
        ("thread a\nthread a", 2, 8, "called a already"),
        ("thread\n  a = 1\n  b = 1\n  c = 1\n  d = 1\n  e = 1", 6, 3, "one register too many"),
        ("thread\n  store if 1", 2, 9, "a location"),
        ("thread\n  if r0 != 1 skip 16", 2, 19, "1 to 15"),
        ("thread\n  assert r0 = 1", 2, 13, "< or >= is expected"),
        ("thread\n  store x $", 2, 11, "the character $"),
        ("thread\n  \u{e9} = 1", 2, 3, "the character \u{e9}"),
        ("thread\nthread\nalike 0", 3, 8, "missing"),
        ("thread\nthread\nalike 0 a", 3, 9, "thread number"),
        ("thread\nthread\nalike 0 1 2 3 4 5 6", 3, 19, "two to six"),
        ("store x 1", 1, 1, "in front of the first thread"),
        ("alike 0 1", 1, 1, "there is no thread 0"),
        (&many, 18, 1, "instruction number 17"),
        (&names, 10, 9, "at most 8"),
        ("thread\n\n  if r0 != 0 skip 2\n  r0 = 1", 3, 3, "only 1 follow"),
        ("thread\n  r0 = 1\nthread\nalike 0 1", 4, 1, "differ in their code"),
        ("thread\nthread\nalike 1 0", 3, 1, "ascend"),
        ("thread\nthread\nalike 0 1\nthread", 4, 1, "in front of"),
    ];
    for (form, line, column, words) in table {
        let error = wrong(form);
        assert_eq!((error.line, error.column), (line, column), "{form}: {}", error.message);
        assert!(error.message.contains(words), "{form}: {}", error.message);
    }
}

#[test]
fn errors_of_long_texts_and_of_no_texts() {
    let long = format!("thread\n{}", "r0 = cas x 0 1\n".repeat(1_000));
    let marks = assemble(long.as_bytes()).expect_err("too long");
    assert_eq!(marks[0].line, 18, "far beyond the limit of a file");
    let marks = assemble(b"thread\n \xff").expect_err("no text");
    assert_eq!((marks[0].line, marks[0].column), (2, 2));
}

#[test]
fn errors_are_shown_with_the_line() {
    let ran = run_with(&["asm", "-"], b"thread\n  store x y\n");
    let shown = "\
tarczolin: standard input:2:11: a number or a register is expected here, not y
     2 |   store x y
       |           ^
";
    assert_eq!((ran.status, ran.out.as_str(), ran.err.as_str()), (2, "", shown));
}

/// Whatever the text is: assembled, or an error at a place of it.
#[test]
fn any_text() {
    let mut random = Random::new(82);
    let words = [
        "thread",
        "alike",
        "store",
        "load",
        "r0",
        "r9",
        "x",
        "x8",
        "=",
        "==",
        "+=",
        "!=",
        "<=",
        ">",
        "<",
        "if",
        "skip",
        "assert",
        "cas",
        "1",
        "-",
        "0x",
        "\n",
        "\n",
        "#",
        "\u{e9}",
        "99999999999",
    ];
    for _ in 0..share::of(50_000) {
        let word = |random: &mut Random| [random.pick(&words), random.pick(&[" ", "", "  "])].concat();
        let form: String = (0..random.below(30)).map(|_| word(&mut random)).collect();
        for Mark { line, column, .. } in assemble(form.as_bytes()).err().into_iter().flatten() {
            let at = form.split('\n').nth(line - 1).expect("a line of the text");
            assert!((1..=at.chars().count() + 1).contains(&column), "{form}: {line}:{column}");
        }
    }
}
