//! Litmus tests: the classic ones by the answers that herd gives under sequential consistency, and there and back.
mod common;

use common::{run, run_with};
use tarczolin::asm::assemble;
use tarczolin::litmus::import;
use tarczolin_tests::random::Random;
use tarczolin_tests::share;

/// A test as diy writes it: its rows, its condition.
fn test(name: &str, rows: &str, condition: &str) -> String {
    let rows: String = rows.split(';').map(|row| format!(" {} ;\n", row.trim())).collect();
    format!(
        "X86 {name}\n\"made by hand\"\nGenerator=diyone7 (version 7.57)\nCom=Fr Fr\nOrig=PodWR Fre PodWR Fre\n\
         {{ x=0; [y]=0; uint64_t z=0; 0:EAX=0; }}\n{rows}locations [x; y;]\n(* asked for *)\n{condition}\n"
    )
}

/// The text form of a test, and its condition.
fn imported(litmus: &str) -> (String, String) {
    let form = run_with(&["import-litmus", "-"], litmus.as_bytes());
    assert_eq!((form.status, form.err.as_str()), (0, ""), "{litmus}");
    let expected = form.out.lines().find_map(|line| line.strip_prefix("# ")?.strip_suffix(" under tso")).unwrap();
    let condition = match expected.split_once(' ').unwrap() {
        ("exists" | "forbid", condition) => condition.to_string(),
        ("forall", condition) => format!("!({condition})"),
        other => panic!("{other:?}"),
    };
    (form.out, condition)
}

/// Can what the condition asks for happen, and how many different ends are there?
fn answer(litmus: &str) -> (bool, usize) {
    let (form, condition) = imported(litmus);
    let ran = run_with(&["outcomes", "-", "--where", &condition], form.as_bytes());
    assert!(ran.status < 2, "{form}{}", ran.err);
    let all = run_with(&["outcomes", "-", "--registers"], form.as_bytes()).out;
    let sums = all.lines().find(|line| line.contains(" listed, ") && !line.starts_with("outcome ")).unwrap();
    let number = sums.split(' ').next().unwrap().parse().unwrap();
    (ran.status == 1, number)
}

/// Name, rows, what the test asks for, and how many states sequential consistency has. Each of these is known to be impossible
/// under it: `herd7 -model sc.cat` says No and as many states. (Names, shapes and answers: Owens, Sarkar, Sewell, A better x86
/// memory model: x86-TSO; Alglave, Maranget, Tautschnig, Herding cats. x86 itself allows SB, R and RWC.)
const NEVER: [(&str, &str, &str, usize); 19] = [
    ("SB", "P0|P1; MOV [x],$1|MOV [y],$1; MOV EAX,[y]|MOV EAX,[x]", "0:EAX=0 /\\ 1:EAX=0", 3),
    ("SB+mfences", "P0|P1; MOV [x],$1|MOV [y],$1; MFENCE|MFENCE; MOV EAX,[y]|MOV EAX,[x]", "0:EAX=0 /\\ 1:EAX=0", 3),
    ("MP", "P0|P1; MOV [x],$1|MOV EAX,[y]; MOV [y],$1|MOV EBX,[x]", "1:EAX=1 /\\ 1:EBX=0", 3),
    ("LB", "P0|P1; MOV EAX,[x]|MOV EAX,[y]; MOV [y],$1|MOV [x],$1", "0:EAX=1 /\\ 1:EAX=1", 3),
    ("R", "P0|P1; MOV [x],$1|MOV [y],$2; MOV [y],$1|MOV EAX,[x]", "y=2 /\\ 1:EAX=0", 3),
    ("S", "P0|P1; MOV [x],$2|MOV EAX,[y]; MOV [y],$1|MOV [x],$1", "x=2 /\\ 1:EAX=1", 3),
    ("2+2W", "P0|P1; MOV [x],$1|MOV [y],$1; MOV [y],$2|MOV [x],$2", "x=1 /\\ y=1", 3),
    (
        "IRIW",
        "P0|P1|P2|P3; MOV [x],$1|MOV EAX,[x]|MOV [y],$1|MOV EAX,[y]; |MOV EBX,[y]||MOV EBX,[x]",
        "1:EAX=1 /\\ 1:EBX=0 /\\ 3:EAX=1 /\\ 3:EBX=0",
        15,
    ),
    ("WRC", "P0|P1|P2; MOV [x],$1|MOV EAX,[x]|MOV EAX,[y]; |MOV [y],$1|MOV EBX,[x]", "1:EAX=1 /\\ 2:EAX=1 /\\ 2:EBX=0", 7),
    ("RWC", "P0|P1|P2; MOV [x],$1|MOV EAX,[x]|MOV [y],$1; |MOV EBX,[y]|MOV EAX,[x]", "1:EAX=1 /\\ 1:EBX=0 /\\ 2:EAX=0", 7),
    (
        "ISA2",
        "P0|P1|P2; MOV [x],$1|MOV EAX,[y]|MOV EAX,[z]; MOV [y],$1|MOV [z],$1|MOV EBX,[x]",
        "1:EAX=1 /\\ 2:EAX=1 /\\ 2:EBX=0",
        7,
    ),
    ("CoWW", "P0; MOV [x],$1; MOV [x],$2", "x=1", 1),
    ("CoWR", "P0|P1; MOV [x],$1|MOV [x],$2; MOV EAX,[x]|", "0:EAX=0 \\/ (0:EAX=2 /\\ x=1)", 3),
    ("CoRW1", "P0; MOV EAX,[x]; MOV [x],$1", "0:EAX=1", 1),
    ("CoRW2", "P0|P1; MOV EAX,[x]|MOV [x],$2; MOV [x],$1|", "0:EAX=2 /\\ x=2", 3),
    ("CoRR", "P0|P1; MOV [x],$1|MOV EAX,[x]; |MOV EBX,[x]", "1:EAX=1 /\\ 1:EBX=0", 3),
    (
        "CoRR2",
        "P0|P1|P2|P3; MOV [x],$1|MOV [x],$2|MOV EAX,[x]|MOV EAX,[x]; ||MOV EBX,[x]|MOV EBX,[x]",
        "2:EAX=1 /\\ 2:EBX=2 /\\ 3:EAX=2 /\\ 3:EBX=1",
        72,
    ),
    ("XADD", "P0|P1; MOV EAX,$1|MOV EAX,$1; LOCK XADD [x],EAX|LOCK XADD [x],EAX", "0:EAX=1:EAX", 2),
    ("CMPXCHG", "P0|P1; MOV EBX,$1|MOV EBX,$2; LOCK CMPXCHG [x],EBX|LOCK CMPXCHG [x],EBX", "0:EAX=0 /\\ 1:EAX=0", 2),
];

#[test]
fn what_is_known_to_be_impossible() {
    for (name, rows, asked, states) in NEVER {
        for condition in ["exists", "~exists"].map(|word| format!("{word} ({asked})")) {
            assert_eq!(answer(&test(name, rows, &condition)), (false, states), "{name}");
        }
    }
}

/// What is known to happen, and what always does.
#[test]
fn what_is_known_to_be_possible() {
    let rows = |name: &str| NEVER.iter().find(|test| test.0 == name).unwrap().1;
    for (name, condition) in [
        ("SB", "exists (0:EAX=1 /\\ 1:EAX=1)"),
        ("SB", "exists (0:EAX=0 /\\ 1:EAX=1)"),
        ("MP", "exists (1:EAX=0 /\\ 1:EBX=1)"),
        ("LB", "exists (0:EAX=1 \\/ 1:EAX=1)"),
        ("IRIW", "exists (1:EAX=1 /\\ 1:EBX=0 /\\ 3:EAX=1 /\\ 3:EBX=1)"),
        ("CoRR", "exists (not (1:EAX=0 \\/ 1:EBX=0))"),
        ("XADD", "exists (x=2 /\\ 0:EAX=0 /\\ 1:EAX=1)"),
        ("CMPXCHG", "exists (x=2 /\\ P0:EAX=2)"),
        ("CoRR", "forall (1:EAX=0)"),
        ("SB", "exists (true)"),
    ] {
        assert!(answer(&test(name, rows(name), condition)).0, "{name}: {condition}");
    }
    assert!(!answer(&test("SB", rows("SB"), "forall (~(0:EAX=0 /\\ 1:EAX=0))")).0, "always so");
}

/// What has no place, where, and in which words.
const UNFIT: [(&str, &str); 21] = [
    ("MOV EAX,[store]", "4:2: a location (x0 to x7, or a name) is expected here, not store"),
    ("XCHG [x],EAX", "4:2: XCHG has no instruction here"),
    ("LOCK XCHG [x],EAX", "4:7: XCHG has no instruction here"),
    ("XADD [x],EAX", "4:2: XADD [x],EAX without LOCK is a load and a store of its own"),
    ("ADD [x],$1", "4:2: ADD [x],$1 without LOCK is a load and a store of its own"),
    ("LOCK SUB [x],EAX", "4:2: LOCK SUB [x],EAX is not of the part of x86 that fits"),
    ("movl $1,(x)", "4:2: this is AT&T's syntax, and Intel's is taken: MOV [x],$1"),
    ("mov %eax,[x]", "4:6: this is AT&T's syntax"),
    ("MOV RAX,[x]", "4:6: RAX has not 32 bits"),
    ("MOV QWORD PTR [x],1", "4:6: QWORD PTR: every value has 32 bits here"),
    ("MOV EAX,x", "4:10: x is no register; a location stands in brackets: [x]"),
    ("MOV EAX,[x+4]", "4:11: a location is a name by itself, not x+4"),
    ("MOV [EBX],$1", "4:7: EBX is a register; an address in a register has no place here"),
    ("MOV [x],$4294967296", "4:10: 4294967296 is no number of 32 bits"),
    ("MOV [x],[y]", "4:2: MOV [x],[y] is not of the part"),
    ("NOP", "4:2: NOP is not of the part"),
    ("CMP EAX,$1", "4:2: right behind CMP stands the JE or JNE"),
    ("JE L; L:", "4:2: JE and JNE stand right behind the CMP"),
    ("JMP L", "4:2: there is no label L in this thread"),
    ("L: MOV EAX,[x]; JMP L", "4:18: L stands above, in line 4: jumps go forward only"),
    ("MOV EAX,[x]; MOV EBX,[x]; MOV ECX,[x]; MOV EDX,[x]; LOCK INC [x]", "4:54: LOCK INC [x] takes a register for the old value"),
];

/// What is wrong with the other parts of a test.
const WRONG: [(&str, &str); 23] = [
    ("", "1:1: the first line of a litmus test names X86 and the test"),
    ("ARM SB\n{}\n P0 ;\n", "1:1: the first line of a litmus test names X86"),
    ("X86\n{}\n P0 ;\n", "1:1: the first line of a litmus test names X86"),
    ("X86 A B\n{}\n P0 ;\n", "1:5: the name of a test is one word"),
    ("X86 A\n P0 ;\n", "1:1: the initial values stand in braces"),
    ("X86 A\n{ x=0;\n P0 ;\n", "2:1: the brace is not closed"),
    ("X86 A\n(* open\n{ }\n", "2:1: this remark is not closed"),
    ("X86 A\n{ 0:EAX=x; }\n P0 ;\n MOV [x],$1 ;\nexists (x=1)\n", "2:9: 0:EAX begins with x, which is no number of 32 bits"),
    ("X86 A\n{ x=5,y=6; }\n P0 ;\n MOV [x],$1 ;\nexists (x=1)\n", "2:5: x begins with 5,y=6, which is no number"),
    ("X86 A\n{ x:5; }\n P0 ;\n MOV [x],$1 ;\nexists (x=1)\n", "2:3: a start is written x=5 or 0:EAX=5, not x:5"),
    ("X86 A\n{ x=5; [x]=6; }\n P0 ;\n MOV [x],$1 ;\nexists (x=1)\n", "2:8: this has a starting value already, in line 2"),
    ("X86 A\n{ 1:EAX=5; }\n P0 ;\n MOV [x],$1 ;\nexists (x=1)\n", "2:3: there is no thread 1; the test has 1"),
    ("X86 A\n{ }\n P1 ;\n MOV [x],$1 ;\nexists (x=1)\n", "3:2: the first row of the code names the threads P0, P1 and so on"),
    ("X86 A\n{ }\n P0|P1 ;\n MOV [x],$1 ;\nexists (x=1)\n", "4:2: cells in this row: 1, and threads: 2"),
    ("X86 A\n{ }\n P0 ;\n MOV [x],$1 | MOV [x],$2 ;\nexists (x=1)\n", "4:2: cells in this row: 2, and threads: 1"),
    ("X86 A\n{ }\n P0|P1|P2|P3|P4|P5|P6 ;\n |||||| MOV [x],$1 ;\nexists (x=1)\n", "3:20: this is thread number 7"),
    ("X86 A\n{ }\n P0 ;\n MOV [x],$1 ;\n", "a condition stands behind the code, behind exists"),
    ("X86 A\n{ }\n P0 ;\n MOV [x],$1 ;\nfilter (x=1)\n", "5:1: the condition begins with exists, ~exists or forall, not filter"),
    ("X86 A\n{ }\n P0 ;\n MOV [x],$1 ;\nexists (X=1)\n", "5:9: there is no location X in the code"),
    ("X86 A\n{ }\n P0 ;\n MOV [x],$1 ;\nexists (x1=1)\n", "5:9: there is no location x1 in the code"),
    ("X86 A\n{ }\n P0 ;\n MOV EAX,[x] ;\nexists (0:EAX=x)\n", "5:15: the address of x has no place here"),
    ("X86 A\n{ }\n P0 ;\n MOV EAX,[x] ;\nexists (0:EBX=1)\n", "5:8: there is no register ebx; is it eax?"),
    ("X86 A\n{ }\n P0 ;\n MOV EAX,[x] ;\nexists (x=1 => x=2)\n", "5:8: the character > has no meaning here"),
];

/// Nothing is written of a test of which a part has no place, and every error has its line and column.
#[test]
fn what_does_not_fit() {
    let cell = |cell: &str| format!("X86 A\n{{ }}\n P0 ;\n {cell} ;\nexists (true)\n");
    let unfit = UNFIT.iter().map(|(text, words)| (cell(text), words));
    for (text, words) in unfit.chain(WRONG.iter().map(|(text, words)| (text.to_string(), words))) {
        let ran = run_with(&["import-litmus", "-"], text.as_bytes());
        assert!(ran.status == 2 && ran.out.is_empty() && ran.err.contains(words), "{text}: {words}\n{}", ran.err);
        assert!(ran.err.starts_with("tarczolin: standard input:"), "{}", ran.err);
    }
    let five = cell("MOV EAX,[x]; MOV EBX,[x]; MOV ECX,[x]; MOV EDX,[x]; MOV ESI,[x]");
    let ran = run_with(&["import-litmus", "-"], five.as_bytes());
    assert!(ran.status == 2 && ran.err.contains(":4:54: esi is one register too many; a thread has 4"), "{}", ran.err);
    let queue = run(&["export-litmus", "examples/queue-broken.asm"]);
    assert!(queue.status == 2 && queue.err.contains("has no place in a litmus test"), "{}", queue.err);
}

/// A test of many of the instructions that fit, and its text form.
const MUCH: &str = "\
X86 much
{ 0:EBX=1; x=5; int z; }
 P0                   | P1            ;
 lock add [x],$1      | MOV EAX,[x]   ;
 MFENCE               | CMP EAX,$6    ;
 SFENCE               | JNE LC00      ;
 MOV DWORD PTR [y],2  | LOCK DEC [y]  ;
 MOV [y],EBX          | LFENCE        ;
 LOCK SUB [x],2       | LC00:         ;
 SUB EBX,$1           | MOV [w],ECX   ;
exists 1:EAX=6 /\\ z=0 /\\ (y=0 \\/ not 0:EBX=0)
";
const FORM: &str = "\
# much
# exists P1.eax=6 & z=0 & (y=0 | ! P0.ebx=0) under tso
init x 5
init z 0
thread P0
  ebx = 1
  old = fetch_add x 1
  fence
  # SFENCE is left out: x86 keeps the order of stores without it
  store y 2
  store y ebx
  old = fetch_add x 4294967294
  ebx += 4294967295
thread P1
  ecx = 0
  eax = load x
  if eax != 6 goto LC00
  old = fetch_add y -1
  # LFENCE is left out: x86 keeps the order of loads without it
LC00:
  store w ecx
";

#[test]
fn more_of_x86() {
    let (form, condition) = imported(MUCH);
    assert_eq!(form, FORM);
    for model in ["sc", "tso"] {
        let ran = run_with(&["outcomes", "-", "--where", &condition, "--model", model], form.as_bytes());
        assert_eq!(ran.status, 1, "{}{}", ran.out, ran.err);
    }
    let turned = |words: &str| imported(&test("A", "P0; MOV EAX,[x]", words)).1;
    assert_eq!(turned("forall (x=0) \\/ (0:EAX=1)"), "!((x=0) | (P0.eax=1))", "the whole of it is turned");
    assert_eq!(turned("forall (x=0 /\\ 0:EAX=0)"), "!((x=0 & P0.eax=0))");
    assert_eq!(turned("~exists ~ (x=0) /\\ [x]=1"), "! (x=0) & x=1");
}

/// Damaged tests: each is a program of which every condition can be asked, or has errors with places in the text.
#[test]
fn any_text() {
    const SIGNS: [&str; 16] =
        ["|", ";", "{", "}", "(*", "*)", ":", "=", "[", "\u{e9}", "MFENCE ;", "JE L", "L:", "CMP EAX,$0 ;", "\n", " $9 "];
    let mut random = Random::new(0x117);
    let (mut taken, mut refused) = (0, 0);
    for k in 0..share::of(20_000) {
        let mut text: Vec<char> =
            if k % 2 == 0 { MUCH.to_string() } else { test("SB", NEVER[1].1, "exists (x=1)") }.chars().collect();
        for _ in 0..random.between(1, 4) {
            let at = random.below(text.len());
            let end = text.len().min(at + random.below(6));
            let put: Vec<char> = if random.one_in(2) { random.pick(&SIGNS).chars().collect() } else { Vec::new() };
            text.splice(at..end, put);
        }
        let text: String = text.into_iter().collect();
        match import(&text).map(|imported| imported.form) {
            Ok(form) => {
                assert!(assemble(form.as_bytes()).is_ok(), "{text}\n{form}");
                taken += 1;
            }
            Err(marks) => {
                let lines: Vec<&str> = text.split('\n').collect();
                let inside = |line: usize, column: usize| (1..=lines[line - 1].chars().count() + 1).contains(&column);
                assert!(!marks.is_empty() && marks.iter().all(|mark| inside(mark.line, mark.column)), "{text}\n{marks:?}");
                refused += 1;
            }
        }
    }
    assert!(!share::whole() || (taken > 1_000 && refused > 1_000), "{taken} {refused}");
    let long = format!("X86 A\n{{ }}\n P0 ;\n{}exists (true)\n", " JE L ;\n".repeat(100_000));
    assert!(import(&long).is_err_and(|marks| marks.iter().any(|mark| mark.message.contains("at most 16 instructions"))));
}

/// A condition of many brackets, or of many `~`, is an error with its place.
#[test]
fn deep_conditions() {
    for [open, close] in [["(", ")"], ["~(", ")"], ["~", ""]] {
        let condition = format!("exists {}x=1{}", open.repeat(20_000), close.repeat(20_000));
        let ran = run_with(&["import-litmus", "-"], test("A", "P0; MOV [x],$1", &condition).as_bytes());
        assert_eq!((ran.status, ran.out.as_str()), (2, ""), "{}", ran.err.len());
        assert!(ran.err.starts_with("tarczolin: standard input:11:8: more than 100 "), "{}", &ran.err[..ran.err.len().min(200)]);
    }
    let condition = format!("exists {}x=1{}", "(".repeat(90), ")".repeat(90));
    assert_eq!(run_with(&["import-litmus", "-"], test("A", "P0; MOV [x],$1", &condition).as_bytes()).status, 0);
}

/// Exported and imported, a program has the same list.
#[test]
fn there_and_back() {
    for name in ["store-load-pair", "whole-without-02", "load-add-store", "fetch-and-add-3", "six-stores"] {
        let name = format!("examples/{name}.hex");
        let test = run(&["export-litmus", &name]).out;
        let form = run_with(&["import-litmus", "-"], test.as_bytes()).out;
        assert_eq!(run_with(&["list", "-"], form.as_bytes()).out, run(&["list", &name]).out, "{test}{form}");
    }
    // and the other way round, with capital letters and a compare and swap
    let (form, _) = imported(&test("A", "P0|P1; MOV EBX,$1|MOV [X],$3; LOCK CMPXCHG [X],EBX|MOV EAX,[x]", "exists (X=1)"));
    let again = imported(&run_with(&["export-litmus", "-"], form.as_bytes()).out).0;
    assert_eq!(run_with(&["asm", "-"], again.as_bytes()).out, run_with(&["asm", "-"], form.as_bytes()).out);
    assert!(form.contains("  eax = cas X eax ebx\n") && form.contains("  eax = load x\n"), "{form}");
}
