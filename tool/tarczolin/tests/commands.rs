//! The commands as a user runs them: what they print, and how they end.
mod common;

use common::{run, run_with, Ran};
use tarczolin_tests::files::{lines, path, read};
use tarczolin_tests::oracle;

const PAIR: &str = "01 10000000000001 110001 01 10010000000001 110000";

fn answered(ran: Ran, status: i32, out: &str) {
    assert_eq!(ran, Ran { status, out: out.to_string(), err: String::new() });
}

/// Refused or bad usage: nothing on standard output, and all of these words on standard error.
fn turned_away(ran: Ran, words: &[&str]) {
    assert_eq!((ran.status, ran.out.as_str()), (2, ""), "{}", ran.err);
    assert!(words.iter().all(|word| ran.err.contains(word)), "{words:?} in {}", ran.err);
}

#[test]
fn list_of_the_whole_case() {
    let whole = "5000000102\n5000010002\n5000010200\n5100000000000000030000000000000000\n";
    answered(run(&["list", "examples/whole.hex"]), 0, whole);
    answered(run_with(&["list", "-"], &read("examples/whole.hex")), 0, whole);
    answered(run(&["count", "examples/whole.hex"]), 0, "3 listed, 0 failing\n");
    answered(run(&["violation", "examples/whole.hex"]), 0, "none\n");
    assert!(run(&["check", "examples/whole.hex"]).is_accepted());
}

#[test]
fn a_violation_gives_status_1() {
    let name = "examples/load-assert-beside-store.hex";
    answered(run(&["list", name]), 1, "50000001\n50010100\n5100000000000000020000000000000001\n");
    answered(run(&["count", name]), 1, "2 listed, 1 failing\n");
    answered(run(&["violation", name]), 1, "0100\n");
    assert!(run(&["check", name]).is_accepted());
}

/// What is used of what there is.
#[test]
fn check_tells_what_is_used() {
    let wanted = "accepted: 3 of 6 threads, 8 of 16 instructions in the longest, 9 of 24 accesses (16 under --model tso), \
                  3 of 8 locations, 2 of 4 registers\n";
    answered(run(&["check", "examples/queue-broken.asm"]), 0, wanted);
    let json = run(&["check", "--json", "examples/queue-broken.asm"]).out;
    let used = "\"used\":{\"threads\":3,\"instructions\":8,\"accesses\":9,\"locations\":3,\"registers\":2},\"made\":[]}\n";
    assert!(json.ends_with(used), "{json}");
    assert!(run_with(&["check", "-"], b"").out.starts_with("accepted: 0 of 6 threads, 0 of 16 instructions"));
}

/// Every example and every program of the papers that the brute-force lister walks in a moment.
#[test]
fn list_prints_what_the_oracle_prints() {
    let mut compared = 0;
    for folder in ["examples", "tests/programs"] {
        for entry in std::fs::read_dir(path(folder)).unwrap() {
            let at = entry.unwrap().path();
            let name = at.file_name().unwrap().to_string_lossy().into_owned();
            // brute force would walk millions of schedules of the one with 24 loads
            if !name.ends_with(".hex") || name == "accesses-24.hex" {
                continue;
            }
            let ran = run(&["list", &at.display().to_string()]);
            assert_eq!(ran.out.as_bytes(), oracle::calls::report(&std::fs::read(&at).unwrap()), "{name}");
            compared += 1;
        }
    }
    assert!(compared >= 80, "{compared} lists compared");
}

#[test]
fn graphs_and_the_judge() {
    let graph = "400001ffff\n4001010000\n41000000\n41010100\n";
    let pair = "examples/store-load-pair.hex";
    assert_eq!(read(pair), lines(PAIR));
    answered(run(&["graph", pair, "00000101"]), 0, graph);
    answered(run(&["graph", pair, "00", "00", "01", "01"]), 0, graph);
    answered(run_with(&["graph", pair, "-"], b"00 00 01 01\n"), 0, graph);
    answered(run_with(&["judge", pair, "-"], graph.as_bytes()), 0, "yes 00000101\n");
    let no = run_with(&["judge", pair, "-"], b"400001ffff\n400101ffff\n41000000\n41010100\n");
    assert_eq!((no.status, no.out.lines().next(), no.err.as_str()), (1, Some("no"), ""));
    answered(run(&["graph", "examples/empty-thread.hex", ""]), 0, "");
}

#[test]
fn refusals_have_number_place_line_and_a_sentence() {
    let check = |text: &str| run_with(&["check", "-"], text.as_bytes());
    turned_away(check("01\n110400\n"), &["refusal 4 at line 2", "110400", "no register 04"]);
    turned_away(check("01\n1104\n"), &["refusal 3 at line 2", "1104", "a load and takes 3 bytes; this line has 2"]);
    turned_away(check("01\n99\n"), &["refusal 3 at line 2", "first byte 99 is not known"]);
    turned_away(check("01\n11 00\n"), &["refusal 2 at line 2", "11 00", "column 3 has a space"]);
    turned_away(check("01\r\n"), &["refusal 2 at line 1", "carriage return"]);
    turned_away(check("01\n110000"), &["refusal 2 at line 2", "not ended by a newline"]);
    turned_away(check("01\n\n"), &["refusal 2 at line 2", "empty"]);
    turned_away(check("110000\n"), &["refusal 5 at line 1", "in front of the first thread"]);
    turned_away(check("01\n01\n020001\n01\n"), &["refusal 5 at line 4", "02"]);
    turned_away(check(&"01\n".repeat(7)), &["refusal 6 at line 7", "thread number 7; a program has at most 6"]);
    turned_away(check("01\n2200000000000003\n110000\n"), &["refusal 7 at line 2", "skips 3 instructions, and only 1 follow"]);
    turned_away(check("01\n110000\n01\n110100\n020001\n"), &["refusal 8 at line 5", "differ in their code"]);
    turned_away(check("01\n020005\n"), &["refusal 8 at line 2", "no thread 5"]);
    turned_away(check("020001\n"), &["refusal 8 at line 1", "no thread 0; the file has 0"]);
    turned_away(check(&"0".repeat(5000)), &["refusal 1", "longer than 4096 bytes"]);
    let pair = "examples/store-load-pair.hex";
    turned_away(run(&["graph", pair, "000000"]), &["refusal 20 at step 2", "00 00 [00]", "thread 0 has ended"]);
    turned_away(run(&["graph", pair, "0007"]), &["refusal 20 at step 1", "00 [07]", "no thread 7"]);
    turned_away(run(&["graph", pair, "0000"]), &["refusal 21 at step 2", "00 00 []", "too early", "threads 1"]);
    let judge = |text: &str| run_with(&["judge", pair, "-"], text.as_bytes());
    turned_away(judge("400101ffff\n400001ffff\n"), &["refusal 33 at line 2", "400001ffff", "not come after the one above"]);
    turned_away(judge("400200ffff\n"), &["refusal 32 at line 1", "no thread 02"]);
    turned_away(judge("40000\n"), &["refusal 30 at line 1", "odd"]);
    turned_away(judge("4100\n"), &["refusal 31 at line 1", "41 takes"]);
    turned_away(judge("41000000\n410100000100\n"), &["refusal 33 at line 2", "one place in coherence"]);
}

/// list says a refusal twice: as the listing program does, and in words.
#[test]
fn list_refuses_as_the_listing_program() {
    let ran = run(&["list", "examples/accesses-25-refused.hex"]);
    assert_eq!((ran.status, ran.out.as_str()), (2, "5206001b\n"));
    assert!(ran.err.contains("refusal 6 at line 27") && ran.err.contains("access number 25"), "{}", ran.err);
}

#[test]
fn bad_usage() {
    turned_away(run(&[]), &["usage"]);
    turned_away(run(&["frob"]), &["no command frob"]);
    turned_away(run(&["list"]), &["usage: tarczolin list FILE.. [--jobs N]"]);
    turned_away(run(&["judge", "examples/whole.hex"]), &["usage: tarczolin judge FILE GRAPH"]);
    turned_away(run(&["judge", "-", "-"]), &["only once"]);
    turned_away(run(&["list", "examples/whole.hex", "--jobs", "0"]), &["--jobs takes a number from 1 to 256, not 0"]);
    turned_away(run(&["list", "examples/whole.hex", "--jobs"]), &["--jobs needs a value"]);
    turned_away(run(&["list", "examples/whole.hex", "--only", "failing"]), &["no option --only"]);
    turned_away(run(&["show", "examples/whole.hex", "--only", "good"]), &["--only takes the word failing"]);
    turned_away(run(&["check", "no/such/file"]), &["no/such/file"]);
    turned_away(run(&["graph", "examples/whole.hex", "0x"]), &["no schedule"]);
    let help = run(&["help"]);
    assert!(help.status == 0 && help.out.contains("show FILE [SCHEDULE]"));
}
