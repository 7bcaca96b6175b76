//! What the bench measures the calls by states against answers rightly: plain Rust's count and violation by states, under both models, beside
//! the brute-force listers and beside plain Rust's searches, with tables of few slots and of many. A check of the measures and of the keys,
//! without the library.
use tarczolin_tests::files::{lines, text};
use tarczolin_tests::oracle::decode::decode;
use tarczolin_tests::oracle::{listing, tso};
use tarczolin_tests::papers;
use tarczolin_tests::parts;
use tarczolin_tests::random::program::{frames_parted, Size, SMALL};
use tarczolin_tests::random::{schedule, tso as random_tso, Random};
use tarczolin_tests::search::states::{Model, Numbers, Sc, States, Table, Tso};
use tarczolin_tests::search::walk::orders;
use tarczolin_tests::search::{store_order, Search};
use tarczolin_tests::share;

/// Six threads: nearness and the late set matter.
const SIX: Size = Size { threads: 6, instructions: 2, accesses: 6, ..SMALL };
/// Two or three longer threads: registers matter.
const LONG: Size = Size { threads: 3, instructions: 8, accesses: 10, registers: 3, ..SMALL };
/// Too many schedules for a walk over all, not for a search by the rules.
const LARGER: Size = Size { threads: 5, instructions: 6, accesses: 14, locations: 3, ..SMALL };

/// Tables of 0, 1, 5, 64 and 2^16 slots.
fn tables() -> [Table; 5] {
    [0, 1, 5, 64, 1 << 16].map(Table::new)
}

fn counted(list: &[listing::Listed]) -> Numbers {
    let (listed, failing) = listing::count(list);
    Numbers { listed, failing }
}

/// The same numbers and the same first failing schedule with every table; says how many prefixes a table knew.
fn held<M: Model>(
    states: &mut States<M>,
    tables: &mut [Table],
    numbers: Numbers,
    first: Option<Option<Vec<u8>>>,
    file: &[u8],
) -> u64 {
    // with a key at every prefix, however short what is left
    states.few = 0;
    for table in tables.iter_mut() {
        assert_eq!(states.count(table), numbers, "{}", file.escape_ascii());
        if let Some(first) = &first {
            assert_eq!(&states.violation(table), first, "{}", file.escape_ascii());
        }
    }
    states.known
}

#[test]
fn sequential_consistency() {
    let (mut random, mut tables, mut known, mut failing) = (Random::new(71), tables(), 0, 0);
    for k in 0..share::of(6_000) {
        let file = text(&frames_parted(&mut random, [SMALL, SIX, LONG][k % 3]));
        let program = decode(&file).unwrap();
        if orders(&program) > 20_000 {
            continue;
        }
        let list = listing::list(&program);
        let first = listing::violation(&list);
        failing += first.is_some() as u64;
        known += held(&mut States::new(Sc::new(&program)), &mut tables, counted(&list), Some(first), &file);
    }
    assert!(!share::whole() || (known >= 10_000 && failing >= 700), "{known} prefixes known, {failing} programs fail");
}

#[test]
fn beside_the_search() {
    let (mut random, mut known) = (Random::new(72), 0);
    let mut tables = [3, 100, 1 << 12].map(Table::new);
    for _ in 0..share::of(1_500) {
        let file = text(&frames_parted(&mut random, LARGER));
        let program = decode(&file).unwrap();
        let mut first = None;
        let mut numbers = Numbers::default();
        Search::new(&program).list(None, &mut |schedule, fails| {
            numbers.listed += 1;
            numbers.failing += fails as u64;
            if fails && first.is_none() {
                first = Some(schedule.to_vec());
            }
            numbers.listed == 100_000
        });
        if numbers.listed < 100_000 {
            known += held(&mut States::new(Sc::new(&program)), &mut tables, numbers, Some(first), &file);
        }
    }
    assert!(!share::whole() || known >= 50_000, "{known} prefixes known");
}

#[test]
fn total_store_order() {
    let (mut random, mut tables, mut known, mut failing) = (Random::new(73), tables(), 0, 0);
    let sizes = [SMALL, SIX, Size { threads: 4, instructions: 4, accesses: 9, ..SMALL }];
    for k in 0..share::of(4_000) {
        let size = sizes[k % 3];
        let frames = if k % 2 == 0 { frames_parted(&mut random, size) } else { random_tso::frames(&mut random, size) };
        let file = text(&frames);
        let program = decode(&file).unwrap();
        let Some(list) = tso::listing::list_within(&program, 20_000) else { continue };
        let first = listing::violation(&list);
        failing += first.is_some() as u64;
        known += held(&mut States::new(Tso::new(&program)), &mut tables, counted(&list), Some(first), &file);
    }
    assert!(!share::whole() || (known >= 20_000 && failing >= 200), "{known} prefixes known, {failing} programs fail");
}

/// As brute force counted them; under total store order as the search by the rules counts the shorter ones.
#[test]
fn papers_by_states() {
    let mut tables = [64, 1 << 12].map(Table::new);
    for paper in papers::all() {
        let program = decode(&paper.file).unwrap();
        let numbers = Numbers { listed: paper.listed, failing: paper.failing };
        held(&mut States::new(Sc::new(&program)), &mut tables, numbers, None, &paper.file);
        if program.threads.iter().flatten().filter(|instruction| instruction.is_access()).count() <= 10 {
            let (listed, failing) = store_order::Search::new(&program).count();
            held(&mut States::new(Tso::new(&program)), &mut tables, Numbers { listed, failing }, None, &paper.file);
        }
    }
}

/// Lists that nobody walks: 24 accesses in six threads, one and the same location, every order another list member.
#[test]
fn beyond_every_walk() {
    let adds = "1200000000000001 ".repeat(4);
    let file = lines(&format!("01 {adds}").repeat(6));
    let program = decode(&file).unwrap();
    let mut states = States::new(Sc::new(&program));
    let numbers = states.count(&mut Table::new(1 << 16));
    assert_eq!(numbers, Numbers { listed: 3_246_670_537_110_000, failing: 0 });
    // six threads of load, add 1, store, load: every load but the first of each thread is only looked at by an assertion that holds
    let sums = "01 110000 21000000000001 10000100000000 110100 2501007fffffff ";
    let program = decode(&lines(&sums.repeat(6))).unwrap();
    let mut states = States::new(Sc::new(&program));
    assert_eq!(states.count(&mut Table::new(1 << 16)), Numbers { listed: 373_248_000, failing: 0 });
    assert_eq!(states.violation(&mut Table::new(1 << 16)), None);
}

/// The member of each number, no more behind the last, and the number of each full schedule, listed or not.
#[test]
fn numbered() {
    let (mut random, mut table) = (Random::new(74), Table::new(300));
    for k in 0..share::of(400) {
        let file = text(&frames_parted(&mut random, [SMALL, SIX][k % 2]));
        let program = decode(&file).unwrap();
        let list = listing::list(&program);
        let mut states = States::new(Sc::new(&program));
        for (number, listed) in list.iter().enumerate().take(40) {
            assert_eq!(states.kth(&mut table, number as u64).as_ref(), Some(&listed.schedule), "{}", file.escape_ascii());
        }
        assert_eq!(states.kth(&mut table, list.len() as u64), None);
        let given = schedule::full(&mut random, &program);
        let smaller = list.iter().filter(|listed| listed.schedule < given).count() as u64;
        assert_eq!(states.rank(&mut table, &given), smaller, "{} {given:02x?}", file.escape_ascii());
        let Some(list) = tso::listing::list_within(&program, 3_000) else { continue };
        let mut states = States::new(Tso::new(&program));
        let number = random.below(list.len());
        assert_eq!(states.kth(&mut table, number as u64).as_ref(), Some(&list[number].schedule), "{}", file.escape_ascii());
        let given = random_tso::full(&mut random, &program);
        let smaller = list.iter().filter(|listed| listed.schedule < given).count() as u64;
        assert_eq!(states.rank(&mut table, &given), smaller, "{} {given:02x?}", file.escape_ascii());
    }
}

#[test]
fn each_part_of_the_key() {
    for (parts, tso) in [(&parts::SC[..], false), (&parts::TSO[..], true)] {
        for (part, words, (listed, failing)) in parts {
            let program = decode(&lines(words)).unwrap();
            let list = if tso { tso::listing::list(&program) } else { listing::list(&program) };
            assert_eq!(listing::count(&list), (*listed, *failing), "{part}");
            let mut table = Table::new(1 << 12);
            let (tables, numbers) = (std::slice::from_mut(&mut table), Numbers { listed: *listed, failing: *failing });
            match tso {
                true => held(&mut States::new(Tso::new(&program)), tables, numbers, None, words.as_bytes()),
                false => held(&mut States::new(Sc::new(&program)), tables, numbers, None, words.as_bytes()),
            };
        }
    }
}
