//! The text form in a table, for the help and the manual page: the statements up to the label are a program, in this order.
pub const STATEMENTS: [(&str, &str); 26] = [
    ("# remark", "up to the end of the line; # name x3 lock gives a name, in a program file too"),
    ("const FULL = 0x10", "a named number: decimal, hexadecimal or negative"),
    ("init tail FULL", "what a location starts with, in front of all threads; else 0"),
    ("thread producer", "opens a thread; its name may be left out"),
    ("store tail 1", "tail becomes 1, or what a register holds"),
    ("n = load tail", "n becomes what tail holds"),
    ("n = fetch_add tail 1", "n becomes what tail holds, and tail one more"),
    ("n = cas tail 0 1", "n becomes what tail holds; where that is 0, tail becomes 1"),
    ("fence", "MFENCE: stores above it in its thread reach memory before anything behind it steps"),
    ("n = 1", "a register becomes a number, or what another one holds"),
    ("n += -1", "a number or a register is added to a register"),
    ("if n != 1 skip 2", "where n is not 1 the next two statements are left out; also ==, <=, >, < and >="),
    ("if n == 1 goto done", "a jump on a condition, forward only"),
    ("goto done", "a jump that is always taken"),
    ("assert n <= 7", "the thread fails and ends where that does not hold; also the other comparisons"),
    ("fail", "the thread fails and ends"),
    ("done:", "a label, alone or in front of a statement"),
    ("alike first second", "threads of the same code that may be exchanged; behind all threads"),
    ("thread worker * 3 alike", "three threads of the same code, worker0 to worker2; without alike they may not be exchanged"),
    ("repeat 2 {", "the lines up to a line with } twice, each time with labels of its own"),
    (
        "def push(node) {",
        "lines of a name up to a line with }; push(3) stands for them with 3 for node, and with labels of its own",
    ),
    ("const next[0..3]", "an array of four locations, next[0] to next[3]; an index is a number or a constant"),
    ("exists x = 1", "expected: some execution ends so; a condition as behind outcomes --where, of final memory and registers"),
    ("forbid x = 1", "expected: no execution ends so; in a program file these four are remarks: # forbid x3 = 1"),
    ("forall x = 1", "expected: all executions end so; under sc or under tso behind any of these: under that model alone"),
    ("expect none", "expected: no assertion fails; expect violation: some does"),
];

/// What words of a statement may be.
pub const WORDS: &str =
    "Locations are x0 to x7 or names, threads T0 to T5 or names, registers r0 to r3 or names, which are known from where \
they are given a value, in their thread. <=, >, < and >= read 32 bits as two's complement.";
