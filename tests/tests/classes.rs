//! How large each class is: the call against the oracle, by the definition, on random programs; the numbers of document 02; and
//! the sums over lists against the counts of the same files with their `02` lines taken out.
use std::collections::BTreeMap;
use tarczolin_tests::calls::{self, Answer, ROW};
use tarczolin_tests::files::{lines, path, read, text};
use tarczolin_tests::oracle::calls::class;
use tarczolin_tests::oracle::decode::decode;
use tarczolin_tests::oracle::graph::Graph;
use tarczolin_tests::oracle::listing;
use tarczolin_tests::oracle::machine::run_full;
use tarczolin_tests::oracle::Refusal;
use tarczolin_tests::papers;
use tarczolin_tests::random::program::{frames_parted, Size, SMALL};
use tarczolin_tests::random::{damage, remarks, schedule, Random};
use tarczolin_tests::share;

const PROGRAMS: usize = 5_000;

const SIZES: [Size; 4] = [
    SMALL,
    Size { threads: 4, instructions: 3, accesses: 7, ..SMALL },
    Size { threads: 5, instructions: 3, accesses: 6, locations: 3, ..SMALL },
    Size { threads: 6, instructions: 2, accesses: 6, ..SMALL },
];

fn answer(found: &Result<u64, Refusal>) -> Answer {
    match found {
        Ok(size) => Answer::Answered(*size),
        Err(refusal) => Answer::Refused(refusal.number, refusal.place),
    }
}

/// The call on copies, which it must leave as they were, held to the oracle.
fn held(file: &[u8], schedule: &[u8]) -> Result<u64, Refusal> {
    let found = class(file, schedule);
    let lent = (file.to_vec(), schedule.to_vec());
    let told = calls::class(&lent.0, &lent.1);
    assert_eq!(told, answer(&found), "{} {schedule:02x?}", file.escape_ascii());
    assert_eq!((lent.0.as_slice(), lent.1.as_slice()), (file, schedule), "what is lent is only read");
    found
}

/// The library's list, with the library's size of each class.
fn sizes(file: &[u8]) -> Vec<(Vec<u8>, u64)> {
    let mut rows = vec![0; 1_000 * ROW];
    let mut all: Vec<(Vec<u8>, u64)> = Vec::new();
    loop {
        let told = match all.last() {
            None => calls::rows(file, &mut rows),
            Some((last, _)) => calls::rows_after(file, last, &mut rows),
        };
        let Answer::Answered(written) = told else { panic!("{told:?}") };
        for row in rows.chunks_exact(ROW).take(written as usize) {
            let schedule = row[2..2 + row[0] as usize].to_vec();
            let Answer::Answered(size) = calls::class(file, &schedule) else { panic!("refused") };
            all.push((schedule, size));
        }
        if written < 1_000 {
            return all;
        }
    }
}

fn counted(file: &[u8]) -> u64 {
    let (mut listed, mut failing) = (0, 0);
    assert_eq!(calls::count(file, &mut listed, &mut failing), Answer::Answered(0), "{}", file.escape_ascii());
    listed
}

/// The file without the lines that spell a frame whose first byte is 02.
fn without_alike(file: &[u8]) -> Vec<u8> {
    file.split_inclusive(|c| *c == b'\n').filter(|line| !line.starts_with(b"02")).flatten().copied().collect()
}

/// The sizes over the list sum to the count without `02` lines; says whether anything was folded.
fn summed(file: &[u8], name: &str) -> bool {
    let sizes = sizes(file);
    let sum: u64 = sizes.iter().map(|(_, size)| size).sum();
    assert_eq!(sum, counted(&without_alike(file)), "{name}");
    assert_eq!(sizes.len() as u64, counted(file), "{name}");
    sizes.iter().any(|(_, size)| *size > 1)
}

/// Document 02: the whole case of document 01 has 1, 2, 1, sum 4.
#[test]
fn whole_case() {
    let whole = read("examples/whole.hex");
    let sizes: Vec<u64> = sizes(&whole).iter().map(|(_, size)| *size).collect();
    assert_eq!(sizes, [1, 2, 1]);
    assert_eq!(counted(&without_alike(&whole)), 4);
    // listed or not: 02 00 01 is alike to 01 00 02
    assert_eq!(calls::class(&whole, &[2, 0, 1]), Answer::Answered(2));
    // without `02` every class has one graph
    assert_eq!(calls::class(&without_alike(&whole), &[1, 0, 2]), Answer::Answered(1));
    // six that add on one location: every order is a graph of its own, and all are alike
    let adds = lines(&format!("{}02000102030405", "01 1200000000000001 ".repeat(6)));
    assert_eq!(calls::class(&adds, &[5, 4, 3, 2, 1, 0]), Answer::Answered(720));
}

/// The refusals in their order: the program's, 20, 21; never 22.
#[test]
fn refusals() {
    let whole = read("examples/whole.hex");
    assert_eq!(calls::class(b"0x\n", &[9]), Answer::Refused(2, 1));
    assert_eq!(calls::class(&whole, &[0, 3, 1]), Answer::Refused(20, 1));
    assert_eq!(calls::class(&whole, &[0, 1, 1]), Answer::Refused(20, 2));
    assert_eq!(calls::class(&whole, &[0, 1]), Answer::Refused(21, 2));
    assert_eq!(calls::class(&whole, &[0, 1, 2, 0]), Answer::Refused(20, 3));
    assert_eq!(calls::class(b"", &[]), Answer::Answered(1));
}

#[test]
fn sums_of_examples_and_papers() {
    let mut folded = 0;
    let mut files: Vec<_> = std::fs::read_dir(path("examples")).unwrap().map(|entry| entry.unwrap().path()).collect();
    files.sort();
    for file in files.iter().filter(|file| file.extension().is_some_and(|end| end == "hex")) {
        let bytes = std::fs::read(file).unwrap();
        if calls::check(&bytes) == Answer::Answered(0) {
            folded += summed(&bytes, &file.display().to_string()) as usize;
        }
    }
    for paper in papers::all() {
        if paper.listed <= share::of(100_000) as u64 {
            folded += summed(&paper.file, &paper.name) as usize;
        }
    }
    println!("{folded} programs with a class of more than one graph");
    assert!(!share::whole() || folded >= 20, "{folded}");
}

/// Random programs: listed and other full schedules, damaged ones, damaged files; the times law; the sums.
#[test]
fn random_programs() {
    let random = &mut Random::new(0x1c1a55e5);
    let (mut folded, mut partly, mut refused) = (0, 0, BTreeMap::new());
    for k in 0..share::of(PROGRAMS) {
        let mut file = text(&frames_parted(random, SIZES[k % SIZES.len()]));
        if random.one_in(3) {
            remarks::noise(random, &mut file);
        }
        let program = decode(&file).unwrap();
        let permitted = listing::permitted(&program);
        for (listed, size) in sizes(&file).iter().take(20) {
            assert_eq!(held(&file, listed), Ok(*size));
        }
        for _ in 0..3 {
            let schedule = schedule::full(random, &program);
            let size = held(&file, &schedule).unwrap();
            let graph = Graph::of(&run_full(&program, &schedule).unwrap());
            let leaving = permitted.iter().filter(|to| graph.exchanged(to) == graph).count();
            assert_eq!(size as usize * leaving, permitted.len());
            folded += (size > 1) as usize;
            partly += (size > 1 && leaving > 1) as usize;
        }
        let kind = random.pick(&schedule::ALL);
        let other = schedule::schedule(random, &program, kind);
        if let Err(refusal) = held(&file, &other) {
            *refused.entry(refusal.number).or_insert(0) += 1;
        }
        summed(&file, "random");
        let kind = random.pick(&damage::ALL);
        let damaged = damage::file(random, kind);
        if let Err(refusal) = held(&damaged, &other) {
            *refused.entry(refusal.number).or_insert(0) += 1;
        }
    }
    println!("{folded} classes of more than one graph, {partly} of them left by some permutations, refused {refused:?}");
    assert!(!share::whole() || (folded > 1_000 && partly > 50 && [2, 3, 20, 21].iter().all(|n| refused.contains_key(n))));
}
