//! robust: what it prints of a robust program and of one that is not, which it explains by a circle; and what it refuses.
mod common;

use common::{run, run_with};

const PAIR: &str = "examples/store-load-pair.hex";

const CIRCLE: &str = "\
these go in a circle (explained by plain Rust, which is not proved; the answer is):
  T0 #0 (store x0 1) before T0 #1 (r0 = load x1): program order
  T0 #1 (r0 = load x1) before T1 #0 (store x1 1): from reads
  T1 #0 (store x1 1) before T1 #1 (r0 = load x0): program order
  T1 #1 (r0 = load x0) before T0 #0 (store x0 1): from reads
";

#[test]
fn robust_or_the_first_that_is_not() {
    let ran = run(&["robust", "examples/message-passing.asm"]);
    assert_eq!(
        (ran.status, ran.out.as_str()),
        (0, "robust: every execution under total store order is one of sequential consistency\n")
    );
    let ran = run(&["robust", PAIR]);
    assert_eq!(ran.status, 1, "{}", ran.err);
    assert!(ran.out.starts_with("not robust: this execution under total store order is none of sequential consistency\n\n"));
    assert!(ran.out.ends_with(CIRCLE), "{}", ran.out);
    // what show prints of that schedule stands between
    let shown = run(&["show", PAIR, "000001011011", "--model", "tso"]).out;
    let lines: Vec<&str> = shown.lines().filter(|line| line.contains("store") || line.contains("load")).collect();
    assert!(!lines.is_empty() && lines.iter().all(|line| ran.out.contains(line)), "{}\n{shown}", ran.out);
}

/// A fence in each thread makes the pair robust; one is not enough.
#[test]
fn fences_make_it_robust() {
    let pair = |first: &str, second: &str| {
        format!("thread\n  store x 1\n{first}  r = load y\nthread\n  store y 1\n{second}  r = load x\n")
    };
    let status = |first, second| run_with(&["robust", "-"], pair(first, second).as_bytes()).status;
    assert_eq!(status("  fence\n", "  fence\n"), 0);
    assert_eq!(status("  fence\n", ""), 1);
    assert_eq!(status("", "  fence\n"), 1);
}

#[test]
fn refused() {
    let many = format!("01\n{}01\n{}", "110000\n".repeat(9), "110000\n".repeat(8));
    for (file, number) in [("01\n110400\n", "4"), (many.as_str(), "41")] {
        let ran = run_with(&["robust", "-"], file.as_bytes());
        assert_eq!((ran.status, ran.out.as_str()), (2, ""), "{number}");
        assert!(ran.err.contains(number), "{}", ran.err);
    }
}
