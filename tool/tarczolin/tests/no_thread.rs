//! The program without a thread, by every command: one execution of no steps, which does not fail.
mod common;

use common::{folder, run, run_with, Ran};

const FILE: &str = "examples/no-thread.hex";
const LIST: &str = "5000\n5100000000000000010000000000000000\n";

fn answered(ran: Ran, out: &str) {
    assert_eq!(ran, Ran { status: 0, out: out.to_string(), err: String::new() });
}

/// Where a person reads it, an empty schedule is written out; it can be given back so.
#[test]
fn the_empty_schedule_in_words() {
    let failing = b"01\n23000000000001\n";
    assert_eq!(run_with(&["violation", "-"], failing).out, "(no step)\n");
    assert!(run_with(&["violation", "-", "--json"], failing).out.contains("\"violation\":\"\""));
    assert_eq!(run_with(&["judge", FILE, "-"], b"").out, "yes (no step)\n");
    for words in [&["(no step)"][..], &["(no", "step)"], &[""]] {
        let ran = run_with(&[&["show", "-"], words].concat(), failing);
        assert!(ran.status == 1 && ran.out.starts_with("execution: schedule (no step), fails\n"), "{words:?}: {}", ran.out);
    }
    let drawn = folder("no_thread-drawn");
    let ran = run_with(&["show", "-", "(no step)", "--svg", &drawn.display().to_string()], failing);
    assert!(ran.status == 1 && drawn.join("no-step-fails.svg").exists(), "{}{}", ran.out, ran.err);
}

#[test]
fn answers() {
    assert!(run(&["check", FILE]).is_accepted());
    answered(run(&["list", FILE]), LIST);
    answered(run_with(&["list", "-"], b""), LIST);
    answered(run(&["count", FILE]), "1 listed, 0 failing\n");
    answered(run(&["violation", FILE]), "none\n");
    answered(run(&["graph", FILE, ""]), "");
    answered(run_with(&["judge", FILE, "-"], b""), "yes (no step)\n");
    let ran = run(&["graph", FILE, "00"]);
    assert!(ran.status == 2 && ran.err.contains("refusal 20 at step 0"), "{ran:?}");
    let ran = run_with(&["judge", FILE, "-"], b"400000ffff\n");
    assert!(ran.status == 2 && ran.err.contains("refusal 32 at line 1"), "{ran:?}");
}

#[test]
fn jobs_and_pieces() {
    for jobs in ["1", "2", "5"] {
        answered(run(&["list", FILE, "--jobs", jobs]), LIST);
        answered(run(&["count", FILE, "--jobs", jobs]), "1 listed, 0 failing\n");
        answered(run(&["violation", FILE, "--jobs", jobs]), "none\n");
    }
    let cuts = run(&["cuts", FILE, "3"]);
    assert_eq!((cuts.status, cuts.err.as_str()), (0, ""), "{cuts:?}");
    let piece = folder("no_thread").join("piece");
    std::fs::write(&piece, run(&["list", FILE]).out).unwrap();
    answered(run(&["join", &piece.display().to_string()]), LIST);
}

#[test]
fn shown() {
    let ran = run(&["show", FILE]);
    assert_eq!((ran.status, ran.err.as_str()), (0, ""), "{ran:?}");
    assert!(ran.out.starts_with("execution 1: schedule (no step), does not fail\n"), "{}", ran.out);
    let page = run(&["show", FILE, "--html", "-"]);
    assert!(page.status == 0 && page.out.contains("<svg class=\"graph\"") && page.out.ends_with("</html>\n"), "{page:?}");
    let ran = run(&["outcomes", FILE]);
    assert_eq!(ran.status, 0, "{ran:?}");
}

/// A text without a thread, and back.
#[test]
fn text_form() {
    let at = folder("no_thread").join("nothing.asm");
    std::fs::write(&at, "# every thread was filtered out\n").unwrap();
    let name = at.display().to_string();
    answered(run(&["asm", &name]), "");
    answered(run(&["list", &name]), LIST);
    answered(run(&["disasm", FILE]), "");
    let ran = run(&["export-litmus", FILE]);
    assert!(ran.status == 2 && ran.err.contains("at least one thread"), "{ran:?}");
}
