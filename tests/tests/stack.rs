//! Every call needs no more stack than `include/tarczolin.h` says: each runs on a painted stack, with programs at the limits and random ones.
use std::collections::BTreeMap;
use tarczolin_tests::calls::across::{covers_models, Under, SC, TSO};
use tarczolin_tests::calls::users::{self, Shared as Lent};
use tarczolin_tests::calls::{self, tso, Caller, GRAPH, OUTCOME, ROW, SCHEDULE};
use tarczolin_tests::files::{lines, read, text};
use tarczolin_tests::oracle::decode::{decode, Program};
use tarczolin_tests::oracle::tso::calls::accepted;
use tarczolin_tests::oracle::users::{Call, Shared};
use tarczolin_tests::painted::Stack;
use tarczolin_tests::random::program::{frames_parted, straight, Size, ANY, SMALL};
use tarczolin_tests::random::{damage, graph, schedule, tso as random_tso, users as random_users, Random};
use tarczolin_tests::share;
use tarczolin_tests::users::lent;

/// The most that each call was seen to need.
#[derive(Default)]
struct Most {
    stack: Stack,
    bytes: BTreeMap<&'static str, usize>,
}

impl Most {
    fn of(&mut self, name: &'static str, mut call: impl FnMut()) {
        let used = self.stack.used(&mut call);
        let most = self.bytes.entry(name).or_default();
        *most = used.max(*most);
    }
}

/// The bytes that the header tells for each call: its lines of a number and the calls that it is of.
fn told() -> BTreeMap<String, usize> {
    let header = String::from_utf8(read("include/tarczolin.h")).expect("text");
    let mut told = BTreeMap::new();
    for line in header.lines() {
        let words: Vec<&str> = line.trim_start_matches([' ', '*']).split([' ', ',']).filter(|word| !word.is_empty()).collect();
        if let [bytes, names @ ..] = words.as_slice() {
            let bytes: Option<usize> = bytes.parse().ok();
            let known = !names.is_empty() && names.iter().all(|name| name.starts_with("tarczolin_"));
            if let (Some(bytes), true) = (bytes, known) {
                told.extend(names.iter().map(|name| (name.to_string(), bytes)));
            }
        }
    }
    told
}

/// Threads of so many accesses, each at a location of its own: as many steps, and one schedule is listed.
fn private(sizes: &[usize], access: fn(usize) -> String) -> Vec<u8> {
    let thread = |(t, size): (usize, &usize)| format!("01 {}", access(t).repeat(*size));
    lines(&sizes.iter().enumerate().map(thread).collect::<String>())
}

/// Accesses of every kind at a location: each writes but the load.
const ACCESSES: [fn(usize) -> String; 4] = [
    |t| format!("100{t}0000000001 "),
    |t| format!("11000{t} "),
    |t| format!("12000{t}0000000001 "),
    |t| format!("13000{t}00000000000000000000 "),
];

/// Programs whose schedules have 24 steps and whose lists are short, with a last thread of many accesses and of few.
fn deepest() -> Vec<Vec<u8>> {
    let sizes: [&[usize]; 6] = [&[4; 6], &[5, 5, 5, 5, 3, 1], &[16, 7, 1], &[1, 7, 16], &[12, 12], &[1, 1, 1, 1, 4, 16]];
    let alike = format!("{} 02000102030405", format!("01 {}", "110000 ".repeat(4)).repeat(6));
    let fails: String = (0..6).map(|t| format!("01 {}23000000000001 ", ACCESSES[1](t).repeat(4))).collect();
    let long: String = (0..6).map(|t| format!("01 {}{}", ACCESSES[0](t).repeat(4), "21000000000001 ".repeat(12))).collect();
    // the last steps meet at one location, so that there is a next one
    let meet: String = (0..6).map(|t| format!("01 {}1200070000000001 ", ACCESSES[0](t).repeat(3))).collect();
    let beside = format!("01 {} 01 {}", "10000000000001 ".repeat(5), "110000 ".repeat(5));
    let mixed = sizes.iter().flat_map(|sizes| ACCESSES.map(|access| private(sizes, access)));
    mixed.chain([alike, fails, long, meet, beside].iter().map(|words| lines(words))).collect()
}

/// The same for total store order: sixteen accesses, and thirty-two steps where all are stores.
fn deepest_in_store_order() -> Vec<Vec<u8>> {
    let sizes: [&[usize]; 6] = [&[4; 4], &[8, 8], &[15, 1], &[1, 15], &[16], &[3, 3, 3, 3, 3, 1]];
    let fails: String =
        (0..4).map(|t| format!("01 {}23000000000001 ", format!("100{t}0000000001 11000{t} ").repeat(2))).collect();
    let alike = format!("{} 0200010203", "01 10000000000001 110000 ".repeat(4));
    let mixed = sizes.iter().flat_map(|sizes| ACCESSES.map(|access| private(sizes, access)));
    mixed.chain([fails, alike].iter().map(|words| lines(words))).collect()
}

fn accesses(program: &Program) -> usize {
    program.threads.iter().flatten().filter(|instruction| instruction.is_access()).count()
}

/// The calls on one file, its lists apart.
fn of_file(most: &mut Most, random: &mut Random, file: &[u8]) {
    most.of("tarczolin_check", || _ = calls::check(file));
    let Ok(program) = decode(file) else { return };
    let steps = schedule::full(random, &program);
    let change = random.pick(&graph::ALL);
    let text = graph::text(random, &program, change).1;
    most.of("tarczolin_graph", || _ = calls::graph(file, &steps, &mut [0; GRAPH]));
    most.of("tarczolin_class", || _ = calls::class(file, &steps));
    most.of("tarczolin_judge", || _ = calls::judge(file, &text, &mut [0; SCHEDULE]));
    let steps = if accesses(&program) <= 16 { random_tso::full(random, &program) } else { steps };
    most.of("tarczolin_tso_graph", || _ = tso::graph(file, &steps, &mut [0; GRAPH]));
    most.of("tarczolin_tso_class", || _ = tso::class(file, &steps));
}

/// The calls on its list, which is short.
fn of_list(most: &mut Most, random: &mut Random, file: &[u8], other: &[u8]) {
    let Ok(program) = decode(file) else { return };
    let steps = schedule::full(random, &program);
    most.of("tarczolin_start", || _ = calls::start(file, &mut [0; SCHEDULE]));
    most.of("tarczolin_continue", || _ = calls::continue_from(file, &steps, &mut [0; SCHEDULE]));
    most.of("tarczolin_violation", || _ = calls::violation(file, &mut [0; SCHEDULE]));
    most.of("tarczolin_count", || _ = calls::count(file, &mut 0, &mut 0));
    let mut scratch = vec![7; 5_000];
    most.of("tarczolin_violation_with", || _ = calls::violation_with(file, &mut [0; SCHEDULE], &mut scratch));
    most.of("tarczolin_count_with", || _ = calls::count_with(file, &mut 0, &mut 0, &mut scratch));
    let number = random.below(9) as u64;
    most.of("tarczolin_kth", || _ = calls::kth(file, number, &mut [0; SCHEDULE], &mut scratch));
    most.of("tarczolin_rank", || _ = calls::rank(file, &steps, &mut 0, &mut scratch));
    let mut rows = vec![0; 9 * ROW];
    most.of("tarczolin_rows", || _ = calls::rows(file, &mut rows));
    most.of("tarczolin_rows_after", || _ = calls::rows_after(file, &steps, &mut rows));
    most.of("tarczolin_covers", || _ = calls::covers(file, other, &mut [0; SCHEDULE]));
    most.of("tarczolin_covers", || _ = calls::covers(other, file, &mut [0; SCHEDULE]));
    let mut scratch = vec![7; 5_000];
    most.of("tarczolin_covers_with", || _ = calls::covers_with(file, other, &mut [0; SCHEDULE], &mut scratch));
    most.of("tarczolin_covers_with", || _ = calls::covers_with(other, file, &mut [0; SCHEDULE], &mut scratch));
    let mut rows = vec![0; 9 * OUTCOME];
    most.of("tarczolin_outcomes", || _ = calls::outcomes(file, 0, &mut rows, &mut scratch));
    across(most, [file, other], [SC, SC]);
    across(most, [other, file], [SC, SC]);
}

/// Two files under two models.
fn across(most: &mut Most, files: [&[u8]; 2], models: [u8; 2]) {
    let mut scratch = vec![7; 5_000];
    let [one, other] = [0, 1].map(|k| Under { model: models[k], file: files[k] });
    most.of("tarczolin_covers_models", || _ = covers_models(one, other, &mut [0; tso::SCHEDULE], &mut scratch));
}

fn of_store_order(most: &mut Most, random: &mut Random, file: &[u8]) {
    let Ok(program) = accepted(file) else { return };
    let steps = random_tso::full(random, &program);
    most.of("tarczolin_tso_start", || _ = tso::start(file, &mut [0; tso::SCHEDULE]));
    most.of("tarczolin_tso_continue", || _ = tso::continue_from(file, &steps, &mut [0; tso::SCHEDULE]));
    most.of("tarczolin_tso_violation", || _ = tso::violation(file, &mut [0; tso::SCHEDULE]));
    most.of("tarczolin_tso_count", || _ = tso::count(file, &mut 0, &mut 0));
    let mut scratch = vec![7; 5_000];
    most.of("tarczolin_tso_violation_with", || _ = tso::violation_with(file, &mut [0; tso::SCHEDULE], &mut scratch));
    most.of("tarczolin_robust", || _ = calls::across::robust(file, &mut [0; tso::SCHEDULE]));
    most.of("tarczolin_tso_count_with", || _ = tso::count_with(file, &mut 0, &mut 0, &mut scratch));
    let mut rows = vec![0; 9 * tso::ROW];
    let mut ends = vec![0; 9 * tso::OUTCOME];
    most.of("tarczolin_tso_outcomes", || _ = tso::outcomes(file, 0, &mut ends, &mut scratch));
    for models in [[SC, TSO], [TSO, SC], [TSO, TSO]] {
        across(most, [file, file], models);
    }
    most.of("tarczolin_tso_rows", || _ = tso::rows(file, &mut rows));
    most.of("tarczolin_tso_rows_after", || _ = tso::rows_after(file, &steps, &mut rows));
}

/// Calls on records, some damaged.
fn of_users(most: &mut Most, random: &mut Random, files: &[Vec<u8>], rounds: usize) {
    let mut shared = Shared::fresh();
    let (mut callers, mut last): (Vec<Caller>, u64) = (shared.records.iter().map(lent).collect(), 3);
    for round in 0..rounds {
        let call = random_users::call(random, files);
        let mut out = [0; 40];
        let name = match &call {
            Call::Open(..) => "tarczolin_open",
            Call::Ask(_) => "tarczolin_ask",
            Call::Serve(_) => "tarczolin_serve",
            Call::Close(_) => "tarczolin_close",
            Call::Set(..) => "tarczolin_set",
            Call::Return(..) => "tarczolin_return",
            Call::Forget(..) => "tarczolin_forget",
        };
        most.of(name, || {
            let given = Lent { callers: &mut callers, last: &mut last };
            match &call {
                Call::Open(caller, file) => _ = users::open(given, *caller, file),
                Call::Ask(caller) => _ = users::ask(given, *caller),
                Call::Serve(output) => _ = users::serve(given, &mut out[..(*output).min(40)]),
                Call::Close(caller) => _ = users::close(given, *caller),
                Call::Set(caller, name) => _ = users::set(given, *caller, name),
                Call::Return(caller, name) => _ = users::return_to(given, *caller, name),
                Call::Forget(caller, name) => _ = users::forget(given, *caller, name),
            }
        });
        if round % 50 == 49 {
            random_users::damage(random, files, &mut shared);
            callers[round / 50 % 4] = lent(&shared.records[round / 50 % 4]);
        }
    }
}

/// Two sides of one thread each step in turn: one play. Where all threads are on one side, that side steps and the other passes.
fn of_force(most: &mut Most) {
    let mut scratch = vec![7; 5_000];
    for words in [
        format!("01 {} 23000000000001 01 {}", "110000 ".repeat(12), "10010000000001 ".repeat(12)),
        format!("01 {} 23000000000001", "110000 ".repeat(15)),
        format!("01 {} 23000000000000", "110000 ".repeat(15)),
    ] {
        let file = lines(&words);
        for set in 0..1 << decode(&file).expect("accepted").threads.len() {
            most.of("tarczolin_force", || _ = calls::force(&file, set));
            most.of("tarczolin_force_with", || _ = calls::force_with(&file, set, &mut scratch));
        }
    }
}

#[test]
fn no_call_needs_more_than_the_header_says() {
    let (mut most, mut random) = (Most::default(), Random::new(81));
    let (deep, small) = (deepest(), Size { threads: 4, accesses: 7, ..SMALL });
    let mut other = lines("01 10000000000001 01 110000");
    for file in &deep {
        of_file(&mut most, &mut random, file);
        of_list(&mut most, &mut random, file, &other);
        other = file.clone();
    }
    for file in &deepest_in_store_order() {
        of_file(&mut most, &mut random, file);
        of_store_order(&mut most, &mut random, file);
    }
    of_force(&mut most);
    for k in 0..share::of(600) {
        let file = match k % 3 {
            0 => text(&straight(&mut random, 3)),
            1 => text(&frames_parted(&mut random, ANY)),
            _ => {
                let damage = random.pick(&damage::ALL);
                damage::file(&mut random, damage)
            }
        };
        of_file(&mut most, &mut random, &file);
        let file = text(&frames_parted(&mut random, small));
        of_list(&mut most, &mut random, &file, &other);
        of_store_order(&mut most, &mut random, &file);
        let set = random.byte();
        let mut scratch = vec![7; 5_000];
        most.of("tarczolin_force", || _ = calls::force(&file, set));
        most.of("tarczolin_force_with", || _ = calls::force_with(&file, set, &mut scratch));
    }
    of_users(&mut most, &mut random, &deep, share::of(6_000));
    let told = told();
    most.bytes.iter().for_each(|(name, bytes)| println!("{bytes:>7}  {name}, told {:?}", told.get(*name)));
    assert_eq!(most.bytes.len(), told.len(), "the header has a line for each call");
    for (name, bytes) in &most.bytes {
        let told = told.get(*name).copied().unwrap_or(0);
        assert!(*bytes <= told, "{name} needs {bytes} bytes of stack, and the header says {told}");
    }
}
