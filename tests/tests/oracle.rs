//! The oracle against what document 01 and the literature say: a check of the oracle itself, without the library.
use tarczolin_tests::files::{lines, path, read};
use tarczolin_tests::oracle::calls::{class, continue_from, count, graph, judge, report, start, violation};
use tarczolin_tests::oracle::decode::{decode, Program};
use tarczolin_tests::oracle::graph::Graph;
use tarczolin_tests::oracle::judge::{consistent, least_by_sorting, least_by_walk, parse};
use tarczolin_tests::oracle::machine::{every_full, Event, Machine, INITIAL};
use tarczolin_tests::oracle::{listing, Refusal};
use tarczolin_tests::random::program::{frames, SMALL};
use tarczolin_tests::random::Random;
use tarczolin_tests::share;

const PAIR: &str = "01 10000000000001 110001 01 10010000000001 110000";

fn example(name: &str) -> Vec<u8> {
    read(&format!("examples/{name}.hex"))
}

fn refusal<T>(number: u8, place: u64) -> Result<T, Refusal> {
    Err(Refusal { number, place })
}

/// What the listing program prints for an example.
fn printed(name: &str) -> Vec<u8> {
    report(&example(name))
}

#[test]
fn known_lists() {
    let counts = |all: u64, failing: u64| format!("51{all:016x}{failing:016x}");
    let table = [
        ("empty-thread", format!("5000 {}", counts(1, 0))),
        ("no-thread", format!("5000 {}", counts(1, 0))),
        ("whole", format!("5000000102 5000010002 5000010200 {}", counts(3, 0))),
        ("whole-without-02", format!("5000000102 5000010002 5000010200 5000020001 {}", counts(4, 0))),
        ("load-add-store-alike", format!("500000000101 500000010001 {}", counts(2, 0))),
        ("compare-and-swap-3-alike", format!("5000000102 {}", counts(1, 0))),
        ("fetch-and-add-3-alike", format!("5000000102 {}", counts(1, 0))),
        ("load-assert-beside-store", format!("50000001 50010100 {}", counts(2, 1))),
        ("six-stores", format!("5000000102030405 {}", counts(1, 0))),
        ("accesses-25-refused", "5206001b".to_string()),
    ];
    for (name, words) in table {
        assert_eq!(String::from_utf8(printed(name)), String::from_utf8(lines(&words)), "{name}");
    }
    for (name, all) in
        [("load-add-store", 4), ("compare-and-swap-3", 3), ("fetch-and-add-3", 6), ("store-load-pair", 3), ("add-wraps", 1)]
    {
        assert_eq!(count(&example(name)), Ok((all, 0)), "{name}");
    }
}

/// Document 02: the whole case has 1, 2, 1, sum 4.
#[test]
fn known_classes() {
    let whole = example("whole");
    let sizes: Vec<u64> = [[0, 1, 2], [1, 0, 2], [1, 2, 0]].iter().map(|s| class(&whole, s).unwrap()).collect();
    assert_eq!(sizes, [1, 2, 1]);
    assert_eq!(count(&example("whole-without-02")), Ok((4, 0)));
    assert_eq!(class(&whole, &[2, 0, 1]), Ok(2));
    assert_eq!(class(&example("fetch-and-add-3-alike"), &[2, 1, 0]), Ok(6));
    assert_eq!(class(&example("whole-without-02"), &[2, 0, 1]), Ok(1));
    assert_eq!(class(&whole, &[0, 1]), refusal(21, 2));
    assert_eq!(class(&whole, &[0, 0]), refusal(20, 1));
}

#[test]
fn known_graphs() {
    let pair = lines(PAIR);
    let no = lines("400001ffff 400101ffff 41000000 41010100");
    let yes = lines("400001ffff 4001010000 41000000 41010100");
    assert_eq!(judge(&pair, &no, 24), Ok(None));
    assert_eq!(judge(&pair, &yes, 24), Ok(Some(vec![0, 0, 1, 1])));
    assert_eq!(graph(&pair, &[0, 0, 1, 1], 512), Ok(yes));
}

/// The decided readings on steps, schedules, outputs and graph texts, by their numbers.
#[test]
fn decided_readings() {
    let pair = lines(PAIR);
    // 13, 14, 15
    assert_eq!(report(&lines("01 23000000000001")), lines("5001 5100000000000000010000000000000001"));
    let skipped = lines("01 110000 2200000000000001 10010000000001 10020000000001 01 10000000000001");
    assert_eq!(graph(&skipped, &[1, 0, 0], 512), Ok(lines("4000000100 41000100 41020001")));
    assert_eq!(count(&lines("01 13000000000000000000000000 01 13000000000000000000000000")), Ok((2, 0)));
    // 16, 17, 18
    assert_eq!(continue_from(&pair, &[0, 0, 1, 1, 0], 24), refusal(20, 4));
    assert_eq!(continue_from(&pair, &[1, 2], 24), refusal(20, 1));
    assert_eq!(continue_from(&pair, &[1, 0], 24), refusal(21, 2));
    assert_eq!(continue_from(&example("whole-without-02"), &[2, 1, 0], 24), Ok(None));
    // 20
    assert_eq!(continue_from(&pair, &[9], 23), refusal(22, 0));
    assert_eq!(violation(&pair, 23), refusal(22, 0));
    assert_eq!(start(&lines("0x"), 0), refusal(2, 1));
    // 22 to 31
    let many = format!("4100{}", (0..26).map(|k| format!("{:02x}{:02x}", k / 13, k % 13)).collect::<String>());
    let table = [
        ("400001ffff 400001ffff", refusal(33, 2)),
        ("41000000 41000100", refusal(33, 2)),
        ("400101ffff 400001ffff", refusal(33, 2)),
        ("400101ffff 400001ffff 0", refusal(33, 2)),
        ("41000000 400001ffff", refusal(33, 2)),
        ("41000000 41010000", refusal(33, 2)),
        ("410000000000", refusal(33, 1)),
        ("400200ffff", refusal(32, 1)),
        ("4000010001 400101ffff 41000000 41010100", Ok(None)),
        ("400001ff00", refusal(32, 1)),
        ("40000100ff", refusal(32, 1)),
        ("4100ffff", refusal(32, 1)),
        ("41080000", refusal(32, 1)),
        ("400010ffff", refusal(32, 1)),
        ("4100", refusal(31, 1)),
        ("410000", refusal(31, 1)),
        ("420000", refusal(31, 1)),
        ("40000", refusal(30, 1)),
        (&many, Ok(None)),
        ("", Ok(None)),
    ];
    for (words, answer) in table {
        assert_eq!(judge(&pair, &lines(words), 24), answer, "{words}");
    }
    assert_eq!(judge(&pair, b"400001ffff", 24), refusal(30, 1));
    assert_eq!(judge(&lines("01"), b"", 24), Ok(Some(vec![])));
    let circle = lines("01 110000 10010100000000 01 110001 10000100000000");
    assert_eq!(judge(&circle, &lines("4000000101 4001000001 41000101 41010001"), 24), Ok(None));
}

/// A number, and the number in brackets behind it or 0: `108 (72), ok 36` is 108 and 72; a dash is none.
fn recount(cell: &str) -> Option<(u64, u64)> {
    let mut numbers = cell.split([' ', '(', ')', ',']).filter(|w| !w.is_empty());
    let all = numbers.next()?.parse().ok()?;
    let failing = if cell.contains('(') { numbers.next()?.parse().ok()? } else { 0 };
    Some((all, failing))
}

/// The counts that tests/programs/INDEX.md gives.
#[test]
fn programs_of_the_literature() {
    let index = String::from_utf8(read("tests/programs/INDEX.md")).unwrap();
    let mut counted = 0;
    for row in index.lines().filter(|l| l.starts_with("| 0")) {
        let cells: Vec<&str> = row.split('|').map(str::trim).collect();
        for (suffix, cell) in [("", cells[4]), ("-alike", cells[5])] {
            if let Some(counts) = recount(cell) {
                let name = format!("{}{suffix}", cells[1]);
                assert_eq!(count(&read(&format!("tests/programs/{name}.hex"))), Ok(counts), "{name}");
                counted += 1;
            }
        }
    }
    let files = std::fs::read_dir(path("tests/programs")).unwrap().count() - 1;
    assert_eq!(counted, files, "every program has a count");
}

/// A graph with one thing changed; a program without threads has no event to change.
fn changed(random: &mut Random, program: &Program, graph: &Graph) -> Graph {
    let mut changed = graph.clone();
    if program.threads.is_empty() {
        return changed;
    }
    let event = |random: &mut Random| Event { t: random.below(program.threads.len()) as u8, i: random.below(4) as u8 };
    let reads: Vec<Event> = graph.reads.keys().copied().collect();
    let locations: Vec<u8> = graph.writes.keys().copied().collect();
    match random.below(4) {
        0 | 1 if !reads.is_empty() => {
            let source = if random.one_in(3) { INITIAL } else { event(random) };
            changed.reads.insert(random.pick(&reads), source);
        }
        2 if !locations.is_empty() => {
            let l = random.pick(&locations);
            random.shuffle(changed.writes.get_mut(&l).unwrap());
        }
        _ => {
            changed.reads.insert(event(random), INITIAL);
        }
    }
    changed
}

/// On small programs: consistent is the same as made by some full schedule, both ways to the least schedule agree,
/// and a graph's text reads back as the graph.
#[test]
fn definition_and_walk_agree() {
    let mut random = Random::new(3);
    let (mut yes, mut no) = (0, 0);
    for _ in 0..share::of(600) {
        let file = tarczolin_tests::files::text(&frames(&mut random, SMALL));
        let program = decode(&file).unwrap();
        let mut graphs = Vec::new();
        every_full(&Machine::new(&program), &mut Vec::new(), &mut |_, machine| {
            graphs.push(Graph::of(machine));
            graphs.len() == 5_000
        });
        if graphs.len() == 5_000 {
            continue;
        }
        for _ in 0..4 {
            let mut graph = graphs[random.below(graphs.len())].clone();
            for _ in 0..random.below(3) {
                graph = changed(&mut random, &program, &graph);
            }
            assert_eq!(parse(&program, &graph.text()).as_ref(), Ok(&graph));
            let least = least_by_walk(&program, &graph);
            assert_eq!(consistent(&program, &graph), least.is_some(), "{graph:?}");
            assert_eq!(least_by_sorting(&program, &graph), least, "{graph:?}");
            *(if least.is_some() { &mut yes } else { &mut no }) += 1;
        }
    }
    println!("{yes} consistent, {no} not");
    assert!(!share::whole() || (yes > 200 && no > 200));
}

/// On small programs: continue from the schedule answered last gives the list, and every full schedule is alike to
/// exactly one listed one, which is no larger.
#[test]
fn listing_holds_one_of_each_class() {
    let mut random = Random::new(4);
    for _ in 0..share::of(150) {
        let file = tarczolin_tests::files::text(&frames(&mut random, SMALL));
        let program = decode(&file).unwrap();
        let list = listing::list(&program);
        if list.len() > 200 {
            continue;
        }
        let graph_of = |schedule: &[u8]| Graph::of(&tarczolin_tests::oracle::machine::run_full(&program, schedule).unwrap());
        let graphs: Vec<Graph> = list.iter().map(|l| graph_of(&l.schedule)).collect();
        let permitted = listing::permitted(&program);
        let mut met = 0;
        every_full(&Machine::new(&program), &mut Vec::new(), &mut |schedule, machine| {
            let graph = Graph::of(machine);
            let alike: Vec<usize> =
                (0..list.len()).filter(|&k| permitted.iter().any(|to| graphs[k].exchanged(to) == graph)).collect();
            assert_eq!(alike.len(), 1);
            assert!(list[alike[0]].schedule.as_slice() <= schedule);
            assert_eq!(list[alike[0]].fails, machine.fails());
            met += 1;
            met == 300
        });
        for pair in list.windows(2) {
            assert_eq!(listing::after(&list, &pair[0].schedule).as_ref(), Some(&pair[1].schedule));
        }
        assert_eq!(listing::after(&list, &list[list.len() - 1].schedule), None);
    }
}
