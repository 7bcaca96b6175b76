//! Starting values by every command: text form, page, columns, outcomes, litmus tests, and refusal 40 in words.
mod common;

use common::{run, run_with, Ran};

/// A queue's tail behind its sentinel, in the text form.
const FORM: &str =
    "const FIRST = 1\ninit tail FIRST\ninit x3 -1\nthread\n  mine = fetch_add tail 1\n  left = load x3\n  store other 5\n";
const FILE: &str = "030000000001\n0303ffffffff\n01\n1200000000000001\n110103\n10010000000005\n";

fn answered(ran: Ran, out: &str) {
    assert_eq!(ran, Ran { status: 0, out: out.to_string(), err: String::new() });
}

#[test]
fn there_and_back() {
    answered(run_with(&["asm", "-"], FORM.as_bytes()), FILE);
    let text = "init x0 1\ninit x3 0xffffffff\nthread  # 0\n  r0 = fetch_add x0 1\n  r1 = load x3\n  store x1 5\n";
    answered(run_with(&["disasm", "-"], FILE.as_bytes()), text);
    answered(run_with(&["asm", "-"], text.as_bytes()), FILE);
    let named = run_with(&["asm", "-", "--remarks"], FORM.as_bytes());
    let back = run_with(&["disasm", "-"], named.out.as_bytes()).out;
    assert!(back.contains("\ninit tail 1\ninit x3 0xffffffff\n"), "{back}");
}

#[test]
fn shown() {
    let ran = run_with(&["show", "-"], FORM.as_bytes());
    assert!(ran.out.contains("fetch_add tail 1 -> mine = 1, tail = 2  initial  5 | mine = fetch_add tail 1\n"), "{}", ran.out);
    assert!(ran.out.contains("memory     tail = 2, other = 5, x3 = 0xffffffff\n"), "{}", ran.out);
    let page = run_with(&["show", "-", "--html", "-"], FORM.as_bytes());
    assert!(page.out.contains(">initial: tail is 1, x3 is 0xffffffff, all else is 0</text>"), "{page:?}");
    let plain = run(&["show", "examples/whole.hex", "--html", "-"]);
    assert!(plain.out.contains(">initial: every location is 0</text>"), "{plain:?}");
    let queue = run(&["show", "examples/queue-broken.asm", "--html", "-"]);
    assert!(queue.out.contains(">initial: tail is 1, all else is 0</text>"));
    let ends = run_with(&["outcomes", "-", "--where", "tail = 2 & x3 = -1"], FORM.as_bytes());
    assert_eq!(ends.status, 1, "{ends:?}");
}

/// A location that is given a value and never written is no slip.
#[test]
fn no_warning() {
    assert!(run_with(&["check", "-"], b"init x 1\nthread\n  n = load x\n").is_accepted());
}

#[test]
fn refusal_40_in_words() {
    let said = |file: &str| run_with(&["check", "-"], file.as_bytes());
    let ran = said("01\n030000000000\n");
    assert!(ran.status == 2 && ran.err.contains("refusal 40 at line 2: starting values (03) must stand in front"), "{ran:?}");
    let ran = said("030100000000\n# again\n030100000000\n");
    assert!(ran.status == 2 && ran.err.contains("refusal 40 at line 3: location 01 has a starting value already"), "{ran:?}");
    let ran = said("0300\n");
    assert!(ran.err.contains("03 is a starting value and takes 6 bytes; this line has 2"), "{ran:?}");
    let ran = said("030800000000\n");
    assert!(ran.err.contains("there is no location 08"), "{ran:?}");
    for command in [&["graph", "-", "00"][..], &["show", "-", "00"], &["judge", "-", "examples/whole.hex"]] {
        let ran = run_with(command, b"01\n030000000000\n");
        assert!(ran.status == 2 && ran.err.contains("refusal 40 at line 2"), "{ran:?}");
    }
    let ran = run_with(&["list", "-"], b"01\n030000000000\n");
    assert_eq!((ran.status, ran.out.as_str()), (2, "52280002\n"));
}

#[test]
fn litmus_tests() {
    let test = "X86 init\n{ x=2; int y=0; [z]=0x10; 0:EAX=0; }\n P0          ;\n MOV EAX,[x] ;\nexists (0:EAX=2)\n";
    let form = "# init\n# exists (P0.eax=2) under tso\ninit x 2\ninit z 0x10\nthread P0\n  eax = load x\n";
    answered(run_with(&["import-litmus", "-"], test.as_bytes()), form);
    let back = run_with(&["export-litmus", "-"], form.as_bytes());
    assert!(back.out.starts_with("X86 exported\n{ x=2; z=16; }\n"), "{back:?}");
    let ran = run_with(&["import-litmus", "-"], test.replace("0:EAX=0", "0:EAX=1").as_bytes());
    answered(ran, &form.replace("thread P0\n", "thread P0\n  eax = 1\n"));
    let ran = run_with(&["import-litmus", "-"], test.replace("x=2", "x=y").as_bytes());
    assert!(ran.status == 2 && ran.err.contains("no number"), "{ran:?}");
}

/// Why the judge says no: the initial write carries the starting value.
#[test]
fn why_not() {
    let at = common::folder("starts").join("swap.hex");
    std::fs::write(&at, "030000000001\n01\n13000000000000010000000002\n").unwrap();
    let file = at.display().to_string();
    let ran = run_with(&["judge", &file, "-"], b"400000ffff\n");
    assert!(ran.out.contains("T0 #0 writes x0, and no 41 line of x0 names it") || ran.err.contains("no 41 line"), "{ran:?}");
    let ran = run_with(&["judge", &file, "-"], b"400000ffff\n41000000\n");
    assert_eq!(ran.out, "yes 00\n");
}
