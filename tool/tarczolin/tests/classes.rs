//! How many executions the listed ones stand for: count --classes, show and outcomes.
mod common;

use common::{run, run_with};

const WHOLE: &str = "examples/whole.hex";
const APART: &str = "examples/whole-without-02.hex";

#[test]
fn count_classes() {
    let told = "3 listed, 0 failing, 4 in all\n  2 classes of 1\n  1 class of 2\n";
    for words in [vec!["count", "--classes", WHOLE], vec!["count", WHOLE, "--classes", "--jobs", "3"]] {
        let ran = run(&words);
        assert_eq!((ran.status, ran.out.as_str()), (0, told), "{}", ran.err);
    }
    let piece = run(&["count", "--classes", WHOLE, "--after", "000102"]);
    assert_eq!(piece.out, "2 listed, 0 failing, 3 in all\n  1 class of 1\n  1 class of 2\n");
    let json = run(&["count", "--classes", "--json", WHOLE]).out;
    let fields = "\"listed\":3,\"failing\":0,\"interrupted\":false,\"executions\":4,\
                  \"classes\":[{\"size\":1,\"listed\":2},{\"size\":2,\"listed\":1}]}\n";
    assert!(json.ends_with(fields), "{json}");
    assert_eq!(run(&["count", "--classes", APART]).out, "4 listed, 0 failing, 4 in all\n  4 classes of 1\n");
}

#[test]
fn show_and_outcomes() {
    let shown = run(&["show", WHOLE]).out;
    let standing: Vec<&str> = shown.lines().filter(|line| line.contains("stands for")).collect();
    assert_eq!(
        standing,
        [
            "execution 1: schedule 00 01 02, does not fail, stands for 1 execution",
            "execution 2: schedule 01 00 02, does not fail, stands for 2 executions",
            "execution 3: schedule 01 02 00, does not fail, stands for 1 execution",
        ]
    );
    // a schedule that is not listed stands for as many as the one that is
    assert!(run(&["show", WHOLE, "020001"]).out.starts_with("execution: schedule 02 00 01, does not fail, stands for 2"));
    assert!(!run(&["show", APART]).out.contains("stands for"));
    let outcomes = run(&["outcomes", WHOLE, "--registers"]).out;
    assert!(outcomes.contains("outcome 2: 1 listed, 2 in all, first 010002\n"), "{outcomes}");
    assert!(outcomes.contains("\n3 outcomes, 3 listed, 0 failing, 4 in all\n"), "{outcomes}");
    let counted = run(&["outcomes", WHOLE, "--count"]).out;
    assert!(counted.contains("outcome 1: 3 listed, 4 in all, first 000102\n"), "{counted}");
}

/// Where the list is long the sum is the count of the file without its `02` lines, and the sizes are told where they are asked for.
#[test]
fn classes_of_a_long_list() {
    let thread = "01\n1200000000000001\n1200000000000001\n1200000000000001\n".repeat(4);
    let ran = run_with(&["count", "--classes", "-"], format!("{thread}0200010203\n").as_bytes());
    let apart = run_with(&["count", "-"], thread.as_bytes());
    assert_eq!(apart.out, "369600 listed, 0 failing\n");
    assert_eq!(ran.out, "15400 listed, 0 failing, 369600 in all\n  15400 classes of 24\n");
    let alike = format!("{thread}020001\n");
    let ran = run_with(&["count", "--classes", "-"], alike.as_bytes());
    let note = "  (--by size walks the list for how many stand for so many each)\n";
    assert_eq!((ran.status, ran.out), (0, format!("184800 listed, 0 failing, 369600 in all\n{note}")));
    let json = run_with(&["count", "--classes", "--json", "-"], alike.as_bytes()).out;
    assert!(
        json.ends_with("\"listed\":184800,\"failing\":0,\"interrupted\":false,\"executions\":369600,\"classes\":null}\n"),
        "{json}"
    );
    let sizes = run_with(&["count", "--classes", "--by", "size", "-"], alike.as_bytes());
    assert_eq!(sizes.out, "184800 listed, 0 failing, 369600 in all\n  184800 classes of 2\n");
    let wrong = run_with(&["count", "--by", "size", "-"], alike.as_bytes());
    assert!(wrong.status == 2 && wrong.err.contains("--by size stands beside --classes"), "{}", wrong.err);
}

/// The answer does not depend on how much memory is lent.
#[test]
fn memory_changes_no_answer() {
    for file in ["examples/queue-broken.asm", "examples/whole.hex", "tests/programs/000-ttaslock-3-alike.hex"] {
        let [count, violation] = ["count", "violation"].map(|command| run(&[command, file]));
        for bytes in ["0", "8", "200", "100000", "40000000"] {
            assert_eq!(run(&["count", file, "--memory", bytes]), count, "{file} with {bytes} bytes");
            assert_eq!(run(&["violation", file, "--memory", bytes]), violation, "{file} with {bytes} bytes");
        }
        assert_eq!(run(&["count", file, "--jobs", "3"]).out, count.out);
    }
    let wrong = run(&["count", WHOLE, "--memory", "much"]);
    assert!(wrong.status == 2 && wrong.err.contains("--memory takes a number of bytes, 0 for none, not much"), "{}", wrong.err);
}
