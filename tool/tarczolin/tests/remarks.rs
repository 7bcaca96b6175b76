//! Request b in the command: remarks and capitals in program files and graph texts, and names and remark lines that go from the text form to a
//! program file and back.
mod common;

use common::{run, run_with};
use tarczolin::asm::assemble;

const FORM: &str = "\
# a lock, and who holds it
thread first
  old = cas lock 0 1
  # only the winner writes
  if old != 0 skip 1
  store owner 1
thread second
  got = load owner
# the end
";

/// The program file of the text, with its names and remark lines.
const FILE: &str = "\
# name x0 lock
# name x1 owner
# name T0 first
# name T0 r0 old
# name T1 second
# name T1 r0 got
# a lock, and who holds it
01
13000000000000000000000001
# only the winner writes
2200000000000001
10010000000001
01
110001
# the end
";

#[test]
fn names_and_remarks_go_round() {
    let file = run_with(&["asm", "--remarks", "-"], FORM.as_bytes()).out;
    assert_eq!(file, FILE);
    let form = run_with(&["disasm", "-"], file.as_bytes()).out;
    for line in [
        "thread first\n",
        "  old = cas lock 0 1\n",
        "# only the winner writes\n  if old != 0 skip 1\n",
        "  got = load owner\n# the end\n",
    ] {
        assert!(form.contains(line), "{line} in {form}");
    }
    assert_eq!(run_with(&["asm", "--remarks", "-"], form.as_bytes()).out, file, "{form}");
    let bare: String = file.lines().filter(|line| !line.starts_with('#')).map(|line| format!("{line}\n")).collect();
    assert_eq!(run_with(&["asm", "-"], FORM.as_bytes()).out, bare);
    assert_eq!(run_with(&["asm", "-"], form.as_bytes()).out, bare, "name lines keep the numbers");
    // the names are shown wherever a program is
    assert!(
        run_with(&["show", "-"], file.as_bytes()).out.contains("first   cas lock 0 1 -> old = 0"),
        "{}",
        run_with(&["show", "-"], file.as_bytes()).out
    );
}

/// Numbers that first use would not give.
#[test]
fn name_lines_keep_numbers() {
    let file = "# name x5 tail\n# name T1 r3 seen\n# name T1 reader\n01\n10050000000001\n10010000000002\n01\n110305\n10000100000003\n020001\n";
    let refused = run_with(&["check", "-"], file.as_bytes());
    assert!(refused.err.contains("refusal 8 at line 10"), "{}", refused.err);
    let file = file.replace("020001\n", "");
    let form = run_with(&["disasm", "-"], file.as_bytes()).out;
    assert!(form.contains("thread reader\n  seen = load tail\n  store x0 seen\n"), "{form}");
    assert_eq!(run_with(&["asm", "--remarks", "-"], form.as_bytes()).out, file);
    // two names for one location, a name twice, and lines that name nothing
    for line in [
        "# name x5 head",
        "# name T0 r0 tail",
        "# name x4 tail",
        "# name x9 far",
        "# name T7 far",
        "# name x1 store",
        "# name x1",
        "# names x1 a",
        "#name x1 a",
    ] {
        let more = file.replacen("01\n", &format!("{line}\n01\n"), 1);
        let form = run_with(&["disasm", "-"], more.as_bytes()).out;
        assert!(form.contains(line) && form.contains("store tail 1\n  store x1 2\n"), "{line}: {form}");
        assert_eq!(run_with(&["asm", "--remarks", "-"], form.as_bytes()).out, more);
    }
}

/// What would be too long with its remarks is written without them.
#[test]
fn too_long_with_remarks() {
    let form = format!("{}thread\n  r0 = load x0\n", format!("# {}\n", "x".repeat(500)).repeat(9));
    assert_eq!(run_with(&["asm", "--remarks", "-"], form.as_bytes()).out, "01\n110000\n");
    let made = assemble(form.as_bytes()).unwrap();
    assert_eq!(made.remarks.0.len(), 9);
}

#[test]
fn refusals_behind_remarks() {
    let file = b"# one\n01\n# two\nff\n";
    assert_eq!(run_with(&["list", "-"], file).out, "52030004\n");
    let told = |file: &[u8]| run_with(&["check", "-"], file).err;
    assert!(told(b"01\n# open").contains("a remark, is not ended by a newline"), "{}", told(b"01\n# open"));
    assert!(told(b"01\n0G\n").contains("column 2 has the character G"), "{}", told(b"01\n0G\n"));
    assert!(
        told(b"01\n2200000000000003\n# a\n110000\n").contains("only 1 follow"),
        "{}",
        told(b"01\n2200000000000003\n# a\n110000\n")
    );
    let judged = |text: &[u8]| run_with(&["judge", "examples/store-load-pair.hex", "-"], text);
    let told = judged(b"400101ffff\n# between\n400001ffff\n").err;
    assert!(told.contains("does not come after the one above it"), "{told}");
    assert_eq!(judged(b"# the second\n400001FFFF\n4001010000\n# writes\n41000000\n41010100\n#\n").out, "yes 00000101\n");
    assert!(judged(b"# the first\n400001FFFF\n400101ffff\n41000000\n41010100\n").out.starts_with("no"), "and why");
}

#[test]
fn the_example_with_remarks() {
    let quiet = run(&["list", "examples/whole.hex"]);
    assert_eq!(run(&["list", "examples/whole-with-remarks.hex"]), quiet);
    let form = run(&["disasm", "examples/whole-with-remarks.hex"]).out;
    assert!(form.starts_with("# The whole case of the contract") && form.ends_with("# 3 executions\n"), "{form}");
    let loud =
        std::fs::read_to_string(concat!(env!("CARGO_MANIFEST_DIR"), "/../../examples/queue-broken.hex")).unwrap().to_uppercase();
    assert_eq!(run_with(&["list", "-"], loud.as_bytes()).out, run(&["list", "examples/queue-broken.hex"]).out);
}

/// Nothing but remarks: the program of no thread, in both forms.
#[test]
fn only_remarks() {
    let remarks = "# nothing yet\n# name x0 lock\n";
    let of = |words: &[&str]| run_with(words, remarks.as_bytes());
    assert_eq!(of(&["list", "-"]), run_with(&["list", "-"], b""));
    assert_eq!(of(&["disasm", "-"]).out, remarks);
    assert_eq!(of(&["asm", "--remarks", "-"]).out, remarks);
    assert_eq!((of(&["asm", "-"]).status, of(&["asm", "-"]).out.as_str()), (0, ""));
    assert_eq!(of(&["show", "-"]).status, 0);
}
