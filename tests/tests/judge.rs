//! `tarczolin_judge` and the oracle agree on random graph texts: real ones, and ones changed in every way.
use std::collections::{BTreeMap, BTreeSet, HashMap};
use tarczolin_tests::calls;
use tarczolin_tests::files::text;
use tarczolin_tests::lent::held;
use tarczolin_tests::oracle::calls::{judge, Found, SCHEDULE};
use tarczolin_tests::oracle::decode::{decode, Program};
use tarczolin_tests::oracle::graph::Graph;
use tarczolin_tests::oracle::judge::{made, parse};
use tarczolin_tests::oracle::machine::{every_full, Machine};
use tarczolin_tests::random::graph::{self, Change};
use tarczolin_tests::random::program::{frames, straight, Size, ANY, SMALL};
use tarczolin_tests::random::{damage, Random};
use tarczolin_tests::share;

const PROGRAMS: usize = 15_000;
const TEXTS: usize = 8;
const WALKED: usize = 4_000;

/// Programs of middle size whose accesses meet often.
const CROWDED: Size = Size { threads: 4, accesses: 12, locations: 2, registers: 2, constants: 3, ..ANY };

/// What the texts reached.
#[derive(Default)]
struct Seen {
    texts: usize,
    yes: usize,
    no: usize,
    /// Graphs that the program makes and that have a cycle.
    cycles: usize,
    /// Graphs of a schedule that is not the least.
    not_least: usize,
    /// Changed graphs that are still consistent.
    changed_yes: usize,
    of_24: usize,
    refused: BTreeMap<u8, usize>,
    places: BTreeMap<u8, BTreeSet<u64>>,
    by_change: BTreeMap<(Change, Option<u8>), usize>,
    /// How often an accepted program met an output of each length.
    outputs: BTreeMap<usize, usize>,
    /// Outputs too short for a text that is also refused.
    short_and_refused: usize,
    refused_files: [usize; 2],
}

/// Holds the library to what was found.
fn hold(random: &mut Random, file: &[u8], text: &[u8], output: usize, found: &Found) {
    held(random, [file, text], output, found, |[file, text], out| calls::judge(file, text, out));
}

impl Seen {
    fn note(&mut self, found: &Found) {
        self.texts += 1;
        match found {
            Ok(Some(_)) => self.yes += 1,
            Ok(None) => self.no += 1,
            Err(refusal) => {
                *self.refused.entry(refusal.number).or_default() += 1;
                self.places.entry(refusal.number).or_default().insert(refusal.place);
            }
        }
    }

    /// One changed text of a program.
    fn ask(&mut self, random: &mut Random, file: &[u8], program: &Program, change: Change, output: usize) {
        let (schedule, text) = graph::text(random, program, change);
        let found = judge(file, &text, output);
        hold(random, file, &text, output, &found);
        self.note(&found);
        *self.outputs.entry(output).or_default() += 1;
        *self.by_change.entry((change, found.as_ref().err().map(|r| r.number))).or_default() += 1;
        match found {
            Ok(Some(least)) => {
                self.changed_yes += (change != Change::Nothing) as usize;
                self.of_24 += (least.len() == 24) as usize;
                if change == Change::Nothing {
                    assert!(least <= schedule, "a schedule that makes the graph is no smaller than the least");
                    self.not_least += (least < schedule) as usize;
                }
            }
            Ok(None) => self.cycles += made(program, &parse(program, &text).unwrap()).is_some() as usize,
            Err(refusal) if refusal.number == 22 => self.short_and_refused += parse(program, &text).is_err() as usize,
            Err(_) => {}
        }
    }

    fn of(&self, change: Change, number: Option<u8>) -> usize {
        self.by_change.get(&(change, number)).copied().unwrap_or(0)
    }
}

/// An output of 24 bytes or a few more in two of three cases, else of any length up to 30.
fn output(random: &mut Random, k: usize) -> usize {
    if k.is_multiple_of(3) {
        k / 3 % 31
    } else {
        random.between(SCHEDULE, 30)
    }
}

fn program_file(random: &mut Random, k: usize) -> Vec<u8> {
    match k % 20 {
        0 => text(&straight(random, 2)),
        1..=3 => text(&frames(random, ANY)),
        4..=10 => text(&frames(random, SMALL)),
        _ => text(&frames(random, CROWDED)),
    }
}

#[test]
fn library_and_oracle_agree() {
    let mut random = Random::new(21);
    let mut seen = Seen::default();
    for k in 0..share::of(PROGRAMS) {
        let file = program_file(&mut random, k);
        let program = decode(&file).unwrap();
        for n in 0..TEXTS {
            let at = TEXTS * k + n;
            // of four texts one is real, one has other sources or another coherence, and two have any change
            let change = match at % 4 {
                0 => Change::Nothing,
                1 => random.pick(&[Change::Source, Change::Coherence, Change::AnyOrders]),
                _ => graph::ALL[at / 2 % graph::ALL.len()],
            };
            let output = output(&mut random, at);
            seen.ask(&mut random, &file, &program, change, output);
        }
        if k % 4 == 0 {
            refused_file(&mut random, &mut seen, &program);
        }
    }
    println!("{} texts: {} yes, {} no, refused by number {:?}", seen.texts, seen.yes, seen.no, seen.refused);
    for (number, places) in seen.places.iter().filter(|(number, _)| **number >= 30) {
        println!("refusal {number} at {} places, up to {}", places.len(), places.last().unwrap());
    }
    println!(
        "{} made and with a cycle; {} real ones of a schedule that is not the least; {} changed ones consistent; {} of 24 events",
        seen.cycles, seen.not_least, seen.changed_yes, seen.of_24
    );
    println!(
        "{:?} refused files with a short and a long output, {} short outputs beside a refused text",
        seen.refused_files, seen.short_and_refused
    );
    reached(&seen);
}

/// A damaged file, with a text of some program and an output of any length: the program's refusals come first.
fn refused_file(random: &mut Random, seen: &mut Seen, program: &Program) {
    let damage = random.pick(&damage::ALL);
    let file = damage::file(random, damage);
    let change = random.pick(&graph::ALL);
    let (_, text) = graph::text(random, program, change);
    let output = random.below(2 * SCHEDULE);
    let found = judge(&file, &text, output);
    hold(random, &file, &text, output, &found);
    seen.note(&found);
    if found.is_err_and(|r| r.number <= 8) {
        seen.refused_files[(output >= SCHEDULE) as usize] += 1;
    }
}

fn reached(seen: &Seen) {
    if !share::whole() {
        return;
    }
    assert!(seen.texts >= 100_000 && seen.yes >= 20_000 && seen.no >= 20_000);
    assert!(seen.cycles >= 2_000 && seen.not_least >= 5_000 && seen.changed_yes >= 2_000 && seen.of_24 >= 300);
    for number in 1..=8 {
        assert!(seen.refused[&number] >= 30, "refusal {number}");
    }
    assert!(seen.refused[&22] >= 20_000 && seen.short_and_refused >= 5_000 && seen.refused_files.iter().all(|n| *n >= 1_000));
    for number in 30..=33 {
        assert!(seen.refused[&number] >= 2_000, "refusal {number}");
        assert!(seen.places[&number].len() >= 15, "places of refusal {number}");
    }
    assert!((0..=30).all(|length| seen.outputs.get(&length).is_some_and(|n| *n >= 500)), "outputs of every length");
    changes_do_what_they_say(seen);
}

/// Each change reached the refusal it aims at; a graph is never refused, whatever was done to it.
fn changes_do_what_they_say(seen: &Seen) {
    use Change::*;
    for change in graph::OF_THE_GRAPH {
        assert!((30..=33).all(|number| seen.of(change, Some(number)) == 0), "{change:?} keeps the right form");
        assert!(seen.of(change, None) >= 1_000, "{change:?}");
    }
    let aims = [
        (Field, 32),
        (NearField, 32),
        (NearField, 33),
        (HalfInitial, 32),
        (FirstByte, 31),
        (Length, 31),
        (EventTwice, 33),
        (LongWrites, 32),
        (LongWrites, 33),
        (SwappedLines, 33),
        (TwiceLine, 33),
        (MovedLine, 33),
        (LocationTwice, 33),
        (AnyByte, 30),
        (Capital, 30),
        (OddLine, 30),
        (EmptyLine, 30),
        (LostLastNewline, 30),
        (LongLine, 30),
        (LongLine, 31),
        (LongLine, 33),
        (OpenRemark, 30),
        (LateRemark, 30),
        (AnyBytes, 30),
    ];
    for (change, number) in aims {
        assert!(seen.of(change, Some(number)) >= 30, "{change:?} reached {number} {} times", seen.of(change, Some(number)));
    }
    for change in [NearField, LongWrites, Capital, Empty] {
        assert!(seen.of(change, None) >= 100, "{change:?} was judged {} times", seen.of(change, None));
    }
}

/// On small programs, by a walk over all full schedules: a graph is consistent exactly when some full schedule has it,
/// and the answer is the least of these.
#[test]
fn least_by_enumeration() {
    let mut random = Random::new(22);
    let (mut programs, mut yes, mut no) = (0, 0, 0);
    while programs < share::of(WALKED) {
        let file = text(&frames(&mut random, SMALL));
        let program = decode(&file).unwrap();
        let mut least: HashMap<Graph, Vec<u8>> = HashMap::new();
        let mut walked = 0;
        let stopped = every_full(&Machine::new(&program), &mut Vec::new(), &mut |schedule, machine| {
            least.entry(Graph::of(machine)).or_insert_with(|| schedule.to_vec());
            walked += 1;
            walked == 300
        });
        if stopped {
            continue;
        }
        programs += 1;
        for change in
            [Change::Nothing, Change::Source, Change::Coherence, Change::AnyOrders, Change::AnyOrders, random.pick(&graph::ALL)]
        {
            let (_, text) = graph::text(&mut random, &program, change);
            let found = parse(&program, &text).map(|graph| least.get(&graph).cloned());
            hold(&mut random, &file, &text, SCHEDULE, &found);
            assert_eq!(judge(&file, &text, SCHEDULE), found, "the oracle by the definition");
            yes += matches!(found, Ok(Some(_))) as usize;
            no += matches!(found, Ok(None)) as usize;
        }
    }
    println!("{programs} programs walked: {yes} yes, {no} no");
    assert!(!share::whole() || (yes >= 5_000 && no >= 1_000));
}
