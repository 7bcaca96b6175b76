//! --model tso: what the commands print, against the oracle's lists; columns, pages and graphs with stores that are pending.
mod common;

use common::{run, run_with};
use tarczolin_tests::files::{line, lines, text};
use tarczolin_tests::oracle::tso::calls::accepted;
use tarczolin_tests::oracle::tso::listing::{list_within, ROW};
use tarczolin_tests::random::program::{Size, SMALL};
use tarczolin_tests::random::{tso, Random};
use tarczolin_tests::share;

const PAIR: &str = "examples/store-load-pair.hex";

/// What a command says under total store order.
fn under_tso(words: &[&str], input: &[u8]) -> (i32, String) {
    let ran = run_with(&[words, &["--model", "tso"]].concat(), input);
    (ran.status, ran.out)
}

#[test]
fn the_store_and_load_pair() {
    let listed = "5000000001011011\n5000000001100111\n5000000101101100\n5000000110011100\n5100000000000000040000000000000000\n";
    assert_eq!(under_tso(&["list", PAIR], b""), (0, listed.to_string()));
    assert_eq!(under_tso(&["count", PAIR], b""), (0, "4 listed, 0 failing\n".to_string()));
    assert_eq!(under_tso(&["violation", PAIR], b""), (0, "none\n".to_string()));
    assert_eq!(run(&["count", PAIR, "--model", "sc"]).out, "3 listed, 0 failing\n");
    let shown = "\
execution: schedule 00 00 01 01 10 11, does not fail
#0   T0  store x0 = 1, pending
#1   T0  load x1 -> r0 = 0            initial
#0   T1  store x1 = 1, pending
#1   T1  load x0 -> r0 = 0            initial
#0   T0  store x0 = 1 reaches memory
#0   T1  store x1 = 1 reaches memory
memory     x0 = 1, x1 = 1
registers  T0.r0 = 0, T1.r0 = 0
";
    assert_eq!(under_tso(&["show", PAIR, "000001011011"], b""), (0, shown.to_string()));
    assert_eq!(under_tso(&["graph", PAIR, "000001011011"], b"").1, "400001ffff\n400101ffff\n41000000\n41010100\n");
    let (status, out) = under_tso(&["outcomes", PAIR, "--where", "T0.r0 = 0 & T1.r0 = 0"], b"");
    assert!(status == 1 && out.starts_with("outcome 1: 1 listed, first 000001011011\n"), "{out}");
    assert_eq!(run(&["outcomes", PAIR, "--where", "T0.r0 = 0 & T1.r0 = 0"]).status, 0, "not under SC");
}

/// A load that takes the newest own pending store says so, and its thread's moves stand among its lines.
#[test]
fn a_pending_store_is_read() {
    let text = b"thread a\n  store x 1\n  store x 2\n  r0 = load x\nthread b\n  r0 = load x\n";
    let shown = "\
execution: schedule 00 00 00 10 01 10, does not fail
#0   a  store x = 1, pending                             2 | store x 1
#1   a  store x = 2, pending                             3 | store x 2
#2   a  load x -> r0 = 2            a store #1, pending  4 | r0 = load x
#0   a  store x = 1 reaches memory                       2 | store x 1
#0   b  load x -> r0 = 1            a store #0           6 | r0 = load x
#1   a  store x = 2 reaches memory                       3 | store x 2
";
    let (_, out) = under_tso(&["show", "-", "000000100110"], text);
    assert!(out.starts_with(shown), "{out}");
    let (_, out) = under_tso(&["show", "-", "000000100110", "--by", "thread"], text);
    assert!(out.contains("#1   a  store x = 2 reaches memory                       3 | store x 2\n#0   b  load x"), "{out}");
}

/// The classic tests, asked as a user does: 1 where it can happen.
#[test]
fn can_this_happen() {
    let tests = [
        ("thread\n store x 1\n r0 = load y\nthread\n store y 1\n r0 = load x\n", "T0.r0=0 & T1.r0=0", [0, 1]),
        (
            "thread\n store x 1\n r1 = fetch_add z 0\n r0 = load y\nthread\n store y 1\n r1 = fetch_add z 0\n r0 = load x\n",
            "T0.r0=0 & T1.r0=0",
            [0, 0],
        ),
        ("thread\n store x 1\n store y 1\nthread\n r0 = load y\n r1 = load x\n", "T1.r0=1 & T1.r1=0", [0, 0]),
        ("thread\n r0 = load x\n store y 1\nthread\n r0 = load y\n store x 1\n", "T0.r0=1 & T1.r0=1", [0, 0]),
        ("thread\n store x 1\n store y 1\nthread\n store y 2\n r0 = load x\n", "y=2 & T1.r0=0", [0, 1]),
        ("thread\n store x 2\n store y 1\nthread\n r0 = load y\n store x 1\n", "T1.r0=1 & x=2", [0, 0]),
        ("thread\n store x 1\n store y 2\nthread\n store y 1\n store x 2\n", "x=1 & y=1", [0, 0]),
    ];
    for (program, condition, can) in tests {
        for (model, can) in ["sc", "tso"].iter().zip(can) {
            let ran = run_with(&["outcomes", "-", "--where", condition, "--model", model], program.as_bytes());
            assert_eq!(ran.status, can, "{model} {condition}: {program}");
        }
    }
}

/// What is refused only in this listing, and schedules that are.
#[test]
fn refusals() {
    let err = |words: &[&str]| {
        let ran = run(&[words, &["--model", "tso"]].concat());
        assert_eq!(ran.status, 2, "{words:?}");
        ran.err
    };
    let long = "examples/accesses-24.hex";
    for words in [
        &["list", long][..],
        &["count", long],
        &["violation", long],
        &["show", long],
        &["outcomes", long],
        &["graph", long, "00"],
    ] {
        assert!(
            err(words).contains("refusal 41: the file has 24 accesses; under total store order a program has at most 16"),
            "{words:?}"
        );
    }
    assert_eq!(under_tso(&["list", long], b"").1, "52290000\n");
    assert!(err(&["graph", PAIR, "10"]).contains("refusal 20 at step 0: thread 0 has no pending store by then"));
    assert!(err(&["graph", PAIR, "12"]).contains("refusal 20 at step 0: there is no thread 2; the program has 2"));
    assert!(err(&["graph", PAIR, "20"]).contains("refusal 20 at step 0: there is no thread 32"));
    assert!(err(&["show", PAIR, "0000010110"])
        .contains("refusal 21 at step 5: the schedule ends too early: stores are pending of threads 1"));
    assert!(err(&["show", PAIR, "00"]).contains("not ended yet are threads 0, 1; stores are pending of threads 0"));
    let add = run_with(&["graph", "-", "0000", "--model", "tso"], &lines("01 10000000000001 1200010000000001"));
    assert!(add
        .err
        .contains("refusal 20 at step 1: thread 0 has pending stores by then, and its next access needs an empty queue"));
    assert!(run(&["list", PAIR, "--model", "arm"]).err.contains("--model takes the word sc or tso, not arm"));
    assert!(err(&["list", PAIR, "--after", "12"]).contains("--after: there is no thread 12"));
    assert!(run(&["list", PAIR, "--after", "10"]).err.contains("--after: there is no thread 10"));
}

/// A schedule is shown under its own model or not at all, and what knows one model only says so.
#[test]
fn schedules_of_the_other_model() {
    let listed = run(&["list", PAIR, "--model", "tso"]).out;
    for line in listed.lines().filter(|line| line.starts_with("50")) {
        let ran = run(&["show", PAIR, &line[4..]]);
        assert_eq!((ran.status, ran.out.as_str()), (2, ""), "{line}");
        assert!(ran.err.contains("none is pending; this is a schedule under --model tso\n"), "{}", ran.err);
    }
    let ran = run(&["list", PAIR, "--after", "10"]);
    assert!(ran.err.contains("; steps from 10 to 15 stand in schedules under --model tso\n"), "{}", ran.err);
    let ran = run(&["show", PAIR, "00000101", "--model", "tso"]);
    assert!(
        ran.status == 2 && ran.err.contains("; it has no step from 10 to 15, as schedules without --model tso\n"),
        "{}",
        ran.err
    );
    let said = "judge, force, sample and users stay with sequential consistency, and covers takes --under";
    let force = &["force", PAIR, "--hostile", "0"];
    for words in [&["judge", PAIR, "-"][..], &["covers", PAIR, PAIR], force, &["sample", PAIR, "1"]] {
        let ran = run(&[words, &["--model", "tso"]].concat());
        assert_eq!((ran.status, ran.out.as_str()), (2, ""), "{words:?}");
        assert!(ran.err.contains(said), "{words:?}: {}", ran.err);
    }
    let long = run(&["check", "examples/accesses-24.hex", "--model", "tso"]);
    assert!(long.status == 2 && long.err.contains("refusal 41: "), "{}", long.err);
}

/// Small enough for the oracle.
const SIZES: [Size; 3] = [
    Size { threads: 3, instructions: 4, accesses: 7, ..SMALL },
    Size { threads: 2, instructions: 6, accesses: 9, ..SMALL },
    Size { threads: 6, instructions: 2, accesses: 7, ..SMALL },
];

/// Lists, counts and violations of random programs, by one job and by more, and pieces; every execution can be shown.
#[test]
fn random_programs() {
    let mut random = Random::new(0x7455);
    let mut all = 0;
    for k in 0..share::of(120) {
        let file = text(&tso::frames(&mut random, SIZES[k % SIZES.len()]));
        let Some(list) = list_within(&accepted(&file).unwrap(), 3_000) else { continue };
        let failing = list.iter().filter(|listed| listed.fails).count();
        let rows = list.iter().map(|listed| line(&[&[0x50, listed.fails as u8], &listed.schedule[..]].concat()));
        let counts = [&[0x51][..], &(list.len() as u64).to_be_bytes(), &(failing as u64).to_be_bytes()].concat();
        let wanted = (
            if failing > 0 { 1 } else { 0 },
            String::from_utf8([rows.collect::<Vec<_>>().concat(), line(&counts)].concat()).unwrap(),
        );
        assert_eq!(under_tso(&["list", "-"], &file), wanted);
        assert_eq!(under_tso(&["list", "-", "--jobs", "3"], &file), wanted);
        let said = format!("{} listed, {failing} failing\n", list.len());
        assert_eq!(under_tso(&["count", "-"], &file).1, said);
        assert_eq!(under_tso(&["count", "-", "--jobs", "2"], &file).1, said);
        let first =
            list.iter().find(|listed| listed.fails).map(|listed| listed.schedule.iter().map(|b| format!("{b:02x}")).collect());
        assert_eq!(under_tso(&["violation", "-"], &file).1, first.unwrap_or("none".to_string()) + "\n");
        let shown = under_tso(&["show", "-"], &file);
        assert_eq!((shown.0, shown.1.matches("execution ").count()), (wanted.0, list.len()));
        let counted = under_tso(&["outcomes", "-", "--count"], &file).1;
        assert!(counted.contains(&format!(" {} listed, {failing} failing", list.len())), "{counted}");
        all += list.len();
    }
    assert!(!share::whole() || all > 500, "{all}");
    assert_eq!(ROW, tarczolin_sys::tso::ROW);
}

/// On a page every arrow points down: coherence and from reads go to where a store reaches memory.
#[test]
fn arrows_point_down() {
    let mut random = Random::new(0x7456);
    let mut arrows = 0;
    for k in 0..share::of(30) {
        let file = text(&tso::frames(&mut random, SIZES[k % SIZES.len()]));
        if list_within(&accepted(&file).unwrap(), 2_000).is_none() {
            continue;
        }
        let (_, page) = under_tso(&["show", "-", "--html", "-"], &file);
        assert!(page.contains("Under total store order a store is pending"));
        for path in page.split("<path class=\"").skip(1).filter(|path| ["rf\"", "co\"", "fr\""].contains(&&path[..3])) {
            let d = path.split("d=\"M").nth(1).unwrap().split('"').next().unwrap();
            let y = |text: &str| text.split(['H', 'V', 'Q', ' ']).next().unwrap().parse::<f64>().unwrap();
            let (from, to) = (y(d.split_once(' ').unwrap().1), y(d.split('V').nth(1).unwrap()));
            assert!(from < to, "{path}");
            arrows += 1;
        }
    }
    assert!(!share::whole() || arrows > 1_000, "{arrows}");
}
