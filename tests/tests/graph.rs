//! `tarczolin_graph` and the oracle agree on random programs, schedules and outputs.
use std::collections::{BTreeMap, BTreeSet};
use tarczolin_tests::calls;
use tarczolin_tests::files::text;
use tarczolin_tests::lent::held;
use tarczolin_tests::oracle::calls::{graph, Found, GRAPH};
use tarczolin_tests::oracle::decode::{decode, Instruction, Operand, Program};
use tarczolin_tests::oracle::machine::Machine;
use tarczolin_tests::oracle::Refusal;
use tarczolin_tests::random::program::{frames, straight, Size, ANY, SMALL};
use tarczolin_tests::random::schedule::{self, Kind};
use tarczolin_tests::random::{damage, Random};
use tarczolin_tests::share;

const PROGRAMS: usize = 30_000;
const SCHEDULES: usize = 5;

/// Any program, but its accesses meet often.
const CROWDED: Size = Size { locations: 2, registers: 2, constants: 3, ..ANY };

/// What the inputs reached.
#[derive(Default)]
struct Seen {
    pairs: usize,
    refused: BTreeMap<u8, usize>,
    places: BTreeMap<u8, BTreeSet<u64>>,
    by_kind: BTreeMap<(Kind, Option<u8>), usize>,
    /// How often an accepted program met an output of each length.
    outputs: BTreeMap<usize, usize>,
    texts: usize,
    lengths: BTreeSet<usize>,
    /// Refused files with an output that is too short, and with one that is long enough.
    refused_files: [usize; 2],
    /// Outputs too short for a schedule that is also refused.
    short_and_refused: usize,
    runs: Runs,
}

/// What the steps of full schedules did.
#[derive(Default)]
struct Runs {
    steps: usize,
    of_24: usize,
    failing: usize,
    failing_at_once: usize,
    swaps: usize,
    failed_swaps: usize,
    swaps_that_change_nothing: usize,
    wrapped_sums: usize,
    own_operands: usize,
}

impl Runs {
    /// Runs a full schedule once more and notes what its steps do.
    fn note(&mut self, program: &Program, schedule: &[u8]) {
        let mut machine = Machine::new(program);
        self.failing_at_once += machine.fails() as usize;
        for &t in schedule {
            let instruction = program.threads[t as usize][machine.threads[t as usize].next];
            machine.step(t);
            let effect = machine.done[machine.done.len() - 1].1;
            match instruction {
                Instruction::CompareSwap { r, e, v, .. } => {
                    self.swaps += effect.written.is_some() as usize;
                    self.failed_swaps += effect.written.is_none() as usize;
                    self.swaps_that_change_nothing += (effect.read == effect.written) as usize;
                    self.own_operands += [e, v].contains(&own(r)) as usize;
                }
                Instruction::FetchAdd { r, p, .. } => {
                    self.wrapped_sums += (effect.written < effect.read) as usize;
                    self.own_operands += (p == own(r)) as usize;
                }
                _ => {}
            }
        }
        self.steps += schedule.len();
        self.of_24 += (schedule.len() == 24) as usize;
        self.failing += machine.fails() as usize;
    }
}

/// The operand that is this register.
fn own(r: u8) -> Operand {
    Operand::Register(r)
}

impl Seen {
    /// Holds the library to the oracle, and notes what was found.
    fn ask(&mut self, random: &mut Random, file: &[u8], schedule: &[u8], output: usize) -> Found {
        let found = graph(file, schedule, output).map(Some);
        held(random, [file, schedule], output, &found, |[file, schedule], out| calls::graph(file, schedule, out));
        self.pairs += 1;
        let number = match &found {
            Ok(text) => {
                self.texts += 1;
                self.lengths.insert(text.as_ref().unwrap().len());
                None
            }
            Err(refusal) => {
                *self.refused.entry(refusal.number).or_default() += 1;
                self.places.entry(refusal.number).or_default().insert(refusal.place);
                Some(refusal.number)
            }
        };
        if number.is_none_or(|n| n > 8) {
            *self.outputs.entry(output).or_default() += 1;
        }
        found
    }

    fn of(&self, kind: Kind, number: Option<u8>) -> usize {
        self.by_kind.get(&(kind, number)).copied().unwrap_or(0)
    }
}

/// An output of 512 bytes or a few more in two of three cases, else of any length up to 520.
fn output(random: &mut Random, k: usize) -> usize {
    match k % 3 {
        0 => k / 3 % 521,
        1 => GRAPH,
        _ => random.between(GRAPH, 520),
    }
}

fn program_file(random: &mut Random, k: usize) -> Vec<u8> {
    match k % 5 {
        0 => text(&frames(random, ANY)),
        1 => text(&frames(random, SMALL)),
        2 => {
            let locations = random.between(1, 8);
            text(&straight(random, locations))
        }
        _ => text(&frames(random, CROWDED)),
    }
}

#[test]
fn library_and_oracle_agree() {
    let mut random = Random::new(11);
    let mut seen = Seen::default();
    for k in 0..share::of(PROGRAMS) {
        let file = program_file(&mut random, k);
        let program = decode(&file).unwrap();
        for n in 0..SCHEDULES {
            // every second schedule is full
            let at = SCHEDULES * k + n;
            let kind = if at.is_multiple_of(2) { Kind::Full } else { schedule::ALL[at / 2 % schedule::ALL.len()] };
            let schedule = schedule::schedule(&mut random, &program, kind);
            let output = output(&mut random, at);
            let found = seen.ask(&mut random, &file, &schedule, output);
            *seen.by_kind.entry((kind, found.as_ref().err().map(|r| r.number))).or_default() += 1;
            match found {
                Ok(_) => seen.runs.note(&program, &schedule),
                Err(Refusal { number: 22, .. }) => seen.short_and_refused += graph(&file, &schedule, GRAPH).is_err() as usize,
                Err(_) => {}
            }
        }
        if k % 3 == 0 {
            refused_file(&mut random, &mut seen, &program);
        }
    }
    show(&seen);
    reached(&seen);
}

/// A damaged file, with a schedule of some program and an output of any length: the program's refusals come first.
fn refused_file(random: &mut Random, seen: &mut Seen, program: &Program) {
    let damage = random.pick(&damage::ALL);
    let file = damage::file(random, damage);
    let kind = random.pick(&schedule::ALL);
    let schedule = schedule::schedule(random, program, kind);
    let output = random.below(2 * GRAPH);
    let found = seen.ask(random, &file, &schedule, output);
    if found.is_err_and(|r| r.number <= 8) {
        seen.refused_files[(output >= GRAPH) as usize] += 1;
    }
}

fn show(seen: &Seen) {
    println!("{} pairs, {} texts, refused by number {:?}", seen.pairs, seen.texts, seen.refused);
    println!("texts of {} lengths, the longest {:?}", seen.lengths.len(), seen.lengths.last());
    for (number, places) in seen.places.iter().filter(|(number, _)| **number >= 20) {
        println!("refusal {number} at {} places, up to {}", places.len(), places.last().unwrap());
    }
    let runs = &seen.runs;
    println!(
        "{} steps of full schedules, {} of 24 steps, {} failing, {} at once",
        runs.steps, runs.of_24, runs.failing, runs.failing_at_once
    );
    println!(
        "compare and swaps: {} write, {} of these the value found, {} only read; {} sums wrap; {} operands are the register that changes",
        runs.swaps, runs.swaps_that_change_nothing, runs.failed_swaps, runs.wrapped_sums, runs.own_operands
    );
    println!(
        "{:?} refused files with a short and a long output, {} short outputs beside a refused schedule",
        seen.refused_files, seen.short_and_refused
    );
}

fn reached(seen: &Seen) {
    if !share::whole() {
        return;
    }
    assert!(seen.pairs >= 150_000 && seen.texts >= 40_000 && seen.lengths.len() >= 200);
    assert!(seen.lengths.first() == Some(&0) && seen.lengths.last() >= Some(&350), "texts of no bytes and of almost 400");
    for number in 1..=8 {
        assert!(seen.refused[&number] >= 100, "refusal {number}");
    }
    for (number, least, places) in [(20, 10_000, 25), (21, 3_000, 24), (22, 20_000, 1)] {
        assert!(seen.refused[&number] >= least, "refusal {number}");
        assert!(seen.places[&number].len() >= places, "places of refusal {number}");
    }
    // 20 behind a full schedule of 24 steps; 21 one step before its end
    assert!(seen.places[&20].last() == Some(&24) && seen.places[&21].last() == Some(&23));
    assert!((0..=520).all(|length| seen.outputs.get(&length).is_some_and(|n| *n >= 50)), "outputs of every length");
    assert!(seen.refused_files.iter().all(|n| *n >= 3_000) && seen.short_and_refused >= 5_000);
    kinds_do_what_they_say(seen);
    let runs = &seen.runs;
    assert!(runs.of_24 >= 5_000 && runs.failing >= 5_000 && runs.failing_at_once >= 1_000);
    assert!(runs.swaps >= 10_000 && runs.failed_swaps >= 10_000 && runs.swaps_that_change_nothing >= 1_000);
    assert!(runs.wrapped_sums >= 1_000 && runs.own_operands >= 5_000);
}

/// Each kind of schedule reached the refusal it aims at, and those that need not be refused were also answered.
fn kinds_do_what_they_say(seen: &Seen) {
    use Kind::*;
    assert!(seen.of(Full, Some(20)) == 0 && seen.of(Full, Some(21)) == 0, "a full schedule is only refused by 22");
    assert!([Longer, MuchLonger, Foreign].iter().all(|kind| seen.of(*kind, None) == 0 && seen.of(*kind, Some(21)) == 0));
    for kind in [Longer, MuchLonger, Foreign, Swapped, Lost, PutIn, Names, AnyBytes] {
        assert!(seen.of(kind, Some(20)) >= 300, "{kind:?} reached 20 {} times", seen.of(kind, Some(20)));
    }
    for kind in [Cut, Lost, Names] {
        assert!(seen.of(kind, Some(21)) >= 300, "{kind:?} reached 21 {} times", seen.of(kind, Some(21)));
    }
    for kind in [Cut, Swapped] {
        assert!(seen.of(kind, None) >= 100, "{kind:?} was answered {} times", seen.of(kind, None));
    }
}
