//! Small programs that would be counted wrongly by states if a part of the key were left out, and how a small program is made longer without
//! another list: those of at most eight accesses are counted without keys.

/// Under sequential consistency: the part, the program, how many are listed and how many fail.
pub const SC: [(&str, &str, (u64, u64)); 7] = [
    ("late set", "01 10010000000001 10000000000002 01 10010000000001 10000000000002", (4, 0)),
    (
        "nearness",
        "01 13000100000000010000000001 100100fffffffd 01 13000100000000010000000001 100100fffffffd 01 13000100000000010000000001 \
         100100fffffffd 02000102",
        (6, 0),
    ),
    ("what is left", "01 10010000000000 01 10010000000000 10010000000000", (3, 0)),
    ("a live register", "01 10000000000001 01 13000001000000010000000001 10010000000002 23000000000000", (2, 1)),
    (
        "the second live register",
        "030100000001 01 1201010000000001 25010100000000 01 1201010000000000 10010100000001 01 10010100000000",
        (12, 7),
    ),
    ("memory", "01 130000000000000000fffffffe 130000000000000000fffffffe 01 10000100000001 130000000000000000fffffffe", (5, 0)),
    (
        "another location",
        "01 13010100000000010100000001 01 13010100000000010100000001 01 10010000000001 13010100000000010100000001",
        (8, 0),
    ),
];

/// The same under total store order.
pub const TSO: [(&str, &str, (u64, u64)); 8] = [
    ("late accesses", "01 13010001000000000100000000 110001 01 110100 10010100000001", (4, 0)),
    ("late moves", "01 10000000000002 10010000000001 01 10000000000002 10010000000001", (4, 0)),
    ("far", "01 10000000000000 110101 01 10010000000002 10010100000001 01 10000000000000 110101 020002", (9, 0)),
    ("nearness", "01 110000 10000000000001 01 110000 10000000000001 01 10000100000001 020001", (11, 0)),
    ("registers", "01 1200000000000002 130100010000000000ffffffff 01 10000000000002 10000000000002 110100", (8, 0)),
    ("memory", "01 13010001000000000000000002 01 10000000000002 01 10000000000000 13010001000000000000000002", (11, 0)),
    ("pending values", "01 10010080000000 110101 2400010000000101 110100 01 110001 10010100000000 10000000000000", (6, 0)),
    (
        "pending locations",
        "01 13010000000000000000000002 110100 10000000000002 2201000000000201 10010000000002 01 13000000000000020000000000 \
         1200010000000001",
        (7, 0),
    ),
];

/// The program with one thread more, in front of what is declared of threads: nine loads of a location that nobody else uses.
pub fn lengthened(file: &[u8]) -> Vec<u8> {
    let lines: Vec<&[u8]> = file.split_inclusive(|byte| *byte == b'\n').collect();
    let declared = lines.iter().position(|line| line.starts_with(b"02")).unwrap_or(lines.len());
    let thread = [b"01\n".as_slice(), &b"110007\n".repeat(9)].concat();
    [lines[..declared].concat(), thread, lines[declared..].concat()].concat()
}
