//! Total store order: known programs. The classic tests are allowed or forbidden as published, lists have the published numbers, and
//! the walk over states agrees with the walk over every schedule.
use std::collections::BTreeSet;
use tarczolin_tests::files::{lines, text};
use tarczolin_tests::oracle::decode::decode;
use tarczolin_tests::oracle::graph::Graph;
use tarczolin_tests::oracle::listing::Listed;
use tarczolin_tests::oracle::machine::{every_full, Machine as Sequential};
use tarczolin_tests::oracle::tso::listing::{list, list_by_walk, list_within};
use tarczolin_tests::oracle::tso::machine::run_full;
use tarczolin_tests::random::program::{frames_parted, Size, SMALL};
use tarczolin_tests::random::{tso, Random};
use tarczolin_tests::search::tso::Search;
use tarczolin_tests::share;

/// Threads of words: `W0=1` stores 1 at location 0, `R0` loads it into the thread's next register, `A0` adds 1 to it into that
/// register, `F` is a fence: a fetch and add of nothing at location 7.
fn program(threads: &[&str]) -> Vec<u8> {
    let mut all = String::new();
    for thread in threads {
        all += "01 ";
        let mut register = 0;
        for word in thread.split_whitespace() {
            let l = word[1..].split('=').next().unwrap();
            all += &match &word[..1] {
                "W" => format!("100{l}00{:08x} ", word.split('=').nth(1).unwrap().parse::<u32>().unwrap()),
                "R" => format!("110{register}0{l} "),
                "A" => format!("120{register}0{l}0000000001 "),
                "F" => "1203070000000000 ".to_string(),
                other => panic!("{other}"),
            };
            register = (register + (word.starts_with('R') || word.starts_with('A')) as usize) % 4;
        }
    }
    lines(&all)
}

/// The different ends of all full schedules: registers of each thread, and memory.
fn ends(file: &[u8]) -> BTreeSet<(Vec<[u32; 4]>, [u32; 8])> {
    let program = decode(file).unwrap();
    let end = |schedule: &[u8]| {
        let machine = run_full(&program, schedule).unwrap();
        (machine.threads.iter().map(|thread| thread.registers).collect(), machine.memory)
    };
    list(&program).iter().map(|listed| end(&listed.schedule)).collect()
}

/// Can it end with these values? `1.0=2` is thread 1's register 0, `x0=1` location 0.
fn allowed(threads: &[&str], wanted: &str) -> bool {
    let holds = |(registers, memory): &(Vec<[u32; 4]>, [u32; 8])| {
        wanted.split_whitespace().all(|one| {
            let (what, value) = one.split_once('=').unwrap();
            let found = match what.strip_prefix('x') {
                Some(l) => memory[l.parse::<usize>().unwrap()],
                None => {
                    let (t, r) = what.split_once('.').unwrap();
                    registers[t.parse::<usize>().unwrap()][r.parse::<usize>().unwrap()]
                }
            };
            found == value.parse().unwrap()
        })
    };
    ends(&program(threads)).iter().any(holds)
}

/// The classic tests, as Owens, Sarkar and Sewell, and Alglave, Maranget and Tautschnig, have them for x86.
#[test]
fn classic_tests() {
    let tests: [(&str, &[&str], &str, bool); 21] = [
        ("SB", &["W0=1 R1", "W1=1 R0"], "0.0=0 1.0=0", true),
        ("SB with fences", &["W0=1 F R1", "W1=1 F R0"], "0.0=0 1.0=0", false),
        ("SB with one fence", &["W0=1 F R1", "W1=1 R0"], "0.0=0 1.0=0", true),
        ("SB with locked adds", &["A0 R1", "A1 R0"], "0.1=0 1.1=0", false),
        ("SB with own reads (n6's cause)", &["W0=1 R0 R1", "W1=1 R1 R0"], "0.0=1 0.1=0 1.0=1 1.1=0", true),
        ("MP", &["W0=1 W1=1", "R1 R0"], "1.0=1 1.1=0", false),
        ("LB", &["R0 W1=1", "R1 W0=1"], "0.0=1 1.0=1", false),
        ("IRIW", &["W0=1", "W1=1", "R0 R1", "R1 R0"], "2.0=1 2.1=0 3.0=1 3.1=0", false),
        ("WRC", &["W0=1", "R0 W1=1", "R1 R0"], "1.0=1 2.0=1 2.1=0", false),
        ("RWC", &["W0=1", "R0 R1", "W1=1 R0"], "1.0=1 1.1=0 2.0=0", true),
        ("R", &["W0=1 W1=1", "W1=2 R0"], "x1=2 1.0=0", true),
        ("R with fences", &["W0=1 F W1=1", "W1=2 F R0"], "x1=2 1.0=0", false),
        ("S", &["W0=2 W1=1", "R1 W0=1"], "1.0=1 x0=2", false),
        ("2+2W", &["W0=1 W1=2", "W1=1 W0=2"], "x0=1 x1=1", false),
        ("CoRR", &["W0=1", "R0 R0"], "1.0=1 1.1=0", false),
        ("CoWR", &["W0=1 R0", "W0=2"], "0.0=0", false),
        ("CoWR, the other's", &["W0=1 R0", "W0=2"], "0.0=2 x0=1", false),
        ("CoRW1", &["R0 W0=1"], "0.0=1", false),
        ("CoWW", &["W0=1 W0=2"], "x0=1", false),
        ("CoRW2", &["R0 W0=1", "W0=2"], "0.0=2 x0=2", false),
        ("n6", &["W0=1 R0 R1", "W1=2 W0=2"], "0.0=1 0.1=0 x0=1", true),
    ];
    for (name, threads, wanted, published) in tests {
        assert_eq!(allowed(threads, wanted), published, "{name}");
    }
    // what SC allows is allowed too
    assert!(allowed(&["W0=1 W1=1", "R1 R0"], "1.0=1 1.1=1") && allowed(&["W0=1 R1", "W1=1 R0"], "0.0=1 1.0=1"));
}

/// So many are listed.
fn listed(file: &[u8]) -> usize {
    list(&decode(file).unwrap()).len()
}

/// Store to the own location, load the next one's, in a ring of so many threads.
fn ring(threads: usize, times: usize) -> Vec<String> {
    (0..threads).map(|t| format!("W{t}=1 R{} ", (t + 1) % threads).repeat(times)).collect()
}

fn of(threads: &[String]) -> Vec<u8> {
    program(&threads.iter().map(String::as_str).collect::<Vec<_>>())
}

/// With all of its threads declared alike, or some.
fn alike(file: Vec<u8>, members: &str) -> Vec<u8> {
    [file, format!("02{members}\n").into_bytes()].concat()
}

/// The numbers of the last column of the table by which the algorithm was worked out.
#[test]
fn published_numbers() {
    assert_eq!(listed(&lines("01 10000000000001 110001 01 10010000000001 110000")), 4, "the store and load pair");
    for (threads, number) in [(2, 4), (3, 8), (4, 16), (5, 32), (6, 64)] {
        assert_eq!(listed(&of(&ring(threads, 1))), number, "a ring of {threads}");
    }
    assert_eq!(listed(&program(&["W0=1 W1=1", "R1 R0"])), 3, "message passing");
    assert_eq!(listed(&program(&["W0=1", "W1=1", "R0 R1", "R1 R0"])), 15, "IRIW");
    assert_eq!(
        listed(&program(&["W0=1 W0=1 W0=1 W0=1", "W1=1 W1=1 W1=1 W1=1", "W2=1 W2=1 W2=1 W2=1", "W3=1 W3=1 W3=1 W3=1"])),
        1
    );
    // stores beside loads: each load between any two stores
    let (stores, loads) = ("W0=1 ".repeat(8), "R0 ".repeat(4));
    assert_eq!(listed(&program(&[&stores, &loads])), 495);
    let same = vec!["W0=1 W0=1".to_string(); 6];
    if share::whole() {
        assert_eq!(listed(&alike(of(&same[..3]), "000102")), 15, "six stores, two of each of three alike: 6!/(2!2!2!)/3!");
    }
    // a program on which the rules R1 and R2 alone are not exact
    let inexact = program(&["W0=1 R1", "W1=1 W1=2", "W0=1 R1"]);
    assert_eq!(listed(&alike(inexact, "0002")), 9);
}

/// More of them, of which some take a while.
#[test]
fn published_numbers_of_longer_lists() {
    let pairs = program(&["W0=1 R1", "W0=1 R1", "W1=1 R0", "W1=1 R0"]);
    assert_eq!(listed(&pairs), 324, "store buffering, each thread twice");
    assert_eq!(listed(&alike(alike(pairs, "0001"), "0203")), 81);
    let readers = program(&["W0=1", "W1=1", "R0 R1", "R0 R1", "R1 R0", "R1 R0"]);
    assert_eq!(listed(&alike(alike(readers, "0203"), "0405")), 84, "IRIW, each reader twice");
    for threads in [["W0=1 ".repeat(8), "W1=1 ".repeat(8)], ["W0=1 ".repeat(16), String::new()]] {
        assert_eq!(listed(&of(&threads)), 1, "stores that nobody reads");
    }
    assert_eq!(listed(&alike(program(&["W0=1 W0=1"; 4]), "00010203")), 105);
    if share::whole() {
        let increments = "01 110000 21000000000001 10000100000000 ".repeat(5);
        assert_eq!(listed(&lines(&increments)), 14_400, "five threads that load, add 1 and store");
        assert_eq!(listed(&lines(&format!("{increments} 020001020304"))), 120);
        assert_eq!(listed(&program(&[&"W0=1 ".repeat(8), &"R0 ".repeat(8)])), 12_870, "eight stores beside eight loads");
    }
}

/// Small enough to walk every schedule.
const SIZES: [Size; 4] = [
    Size { threads: 3, instructions: 4, accesses: 5, ..SMALL },
    Size { threads: 2, instructions: 5, accesses: 6, ..SMALL },
    Size { threads: 3, instructions: 2, accesses: 5, locations: 1, ..SMALL },
    Size { threads: 4, instructions: 2, accesses: 5, ..SMALL },
];

/// The walk over states lists what the walk over every schedule does.
#[test]
fn by_states_and_by_schedules() {
    let mut random = Random::new(0x7450);
    let mut walked = 0;
    for k in 0..share::of(4_000) {
        let size = SIZES[k % SIZES.len()];
        let frames = if k % 3 == 0 { frames_parted(&mut random, size) } else { tso::frames(&mut random, size) };
        let program = decode(&text(&frames)).unwrap();
        let Some(all) = list_by_walk(&program, 200_000) else { continue };
        assert_eq!(list_within(&program, u64::MAX), Some(all));
        walked += 1;
    }
    println!("{walked} programs");
    assert!(!share::whole() || walked > 3_500);
}

/// Larger: stores and loads of two threads cross.
const CROSSING: [Size; 3] = [
    Size { threads: 2, instructions: 4, accesses: 8, ..SMALL },
    Size { threads: 3, instructions: 3, accesses: 8, ..SMALL },
    Size { threads: 3, instructions: 3, accesses: 9, locations: 3, ..SMALL },
];

/// What a search by rules finds, and how many beginnings it enters.
fn searched(file: &[u8]) -> (Vec<Listed>, u64) {
    let program = decode(file).unwrap();
    let (mut search, mut found) = (Search::new(&program), Vec::new());
    search.list(&mut |schedule, fails| found.push(Listed { schedule: schedule.to_vec(), fails }));
    assert_eq!(search.refused, 0, "the rules are exact");
    (found, search.prefixes)
}

/// A search by rules, in plain Rust, lists what the walk does.
#[test]
fn by_rules() {
    let mut random = Random::new(0x7457);
    let mut all = 0;
    for k in 0..share::of(6_000) {
        let sizes = [&SIZES[..], &CROSSING].concat();
        let size = sizes[k % sizes.len()];
        let frames = if k % 3 == 0 { frames_parted(&mut random, size) } else { tso::frames(&mut random, size) };
        let file = text(&frames);
        let Some(list) = list_within(&decode(&file).unwrap(), 10_000) else { continue };
        assert_eq!(searched(&file).0, list, "{}", file.escape_ascii());
        all += list.len();
    }
    println!("{all} listed");
    assert!(!share::whole() || all > 20_000, "{all}");
}

/// The beginnings that it enters are those of the table by which the algorithm was worked out.
#[test]
fn published_beginnings() {
    for (threads, listed, prefixes) in [(2, 4, 22), (3, 8, 72), (4, 16, 226), (5, 32, 696), (6, 64, 2_122)] {
        let (found, entered) = searched(&of(&ring(threads, 1)));
        assert_eq!((found.len(), entered), (listed, prefixes), "a ring of {threads}");
    }
    let pairs = program(&["W0=1 R1", "W0=1 R1", "W1=1 R0", "W1=1 R0"]);
    let readers = program(&["W0=1", "W1=1", "R0 R1", "R0 R1", "R1 R0", "R1 R0"]);
    for (name, file, listed, prefixes) in [
        ("mp", program(&["W0=1 W1=1", "R1 R0"]), 3, 14),
        ("iriw", program(&["W0=1", "W1=1", "R0 R1", "R1 R0"]), 15, 76),
        ("iriw-alike", alike(alike(readers, "0203"), "0405"), 84, 544),
        ("sb-2x2", pairs.clone(), 324, 1_759),
        ("sb-2x2-alike", alike(alike(pairs, "0001"), "0203"), 81, 485),
        ("own-1x16", program(&[&"W0=1 ".repeat(16)]), 1, 33),
        ("stores8-loads8", program(&[&"W0=1 ".repeat(8), &"R0 ".repeat(8)]), 12_870, 48_627),
        ("inexact-6", alike(program(&["W0=1 R1", "W1=1 W1=2", "W0=1 R1"]), "0002"), 9, 69),
    ] {
        let (found, entered) = searched(&file);
        assert_eq!((found.len(), entered), (listed, prefixes), "{name}");
    }
}

/// Every SC graph of a program that this listing accepts is a graph of some full schedule here.
#[test]
fn every_sequential_graph_is_one_here() {
    let mut random = Random::new(0x7451);
    let (mut graphs, mut more) = (0, 0);
    for k in 0..share::of(1_500) {
        let frames = tso::frames(&mut random, CROSSING[k % CROSSING.len()]).into_iter();
        let frames: Vec<Vec<u8>> = frames.filter(|frame| frame[0] != 2).collect();
        let program = decode(&text(&frames)).unwrap();
        let here = list(&program);
        let here: BTreeSet<Graph> = here.iter().map(|l| run_full(&program, &l.schedule).unwrap().graph).collect();
        let mut there = BTreeSet::new();
        every_full(&Sequential::new(&program), &mut Vec::new(), &mut |_, machine| {
            there.insert(Graph::of(machine));
            false
        });
        assert!(there.is_subset(&here), "{:?}", program);
        graphs += there.len();
        more += (here.len() > there.len()) as usize;
    }
    println!("{graphs} graphs; {more} programs have more here");
    assert!(!share::whole() || (graphs > 5_000 && more > 50));
}
