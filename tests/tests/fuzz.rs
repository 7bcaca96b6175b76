//! Every call of the safe wrapper on inputs of all kinds: random bytes, damaged files, real programs, schedules and graph
//! texts, parts of one buffer that overlap, outputs of any length. Whatever is asked, the call answers, its answer is one
//! that it may give, and no byte changes that it may not change. What the answer must be, the other tests say.
use std::time::{Duration, Instant};
use tarczolin_tests::calls::across::{covers_models, Under};
use tarczolin_tests::calls::{self, tso, Answer, GRAPH, ROW, SCHEDULE};
use tarczolin_tests::files::text;
use tarczolin_tests::lent;
use tarczolin_tests::oracle::calls::Found;
use tarczolin_tests::oracle::covers::Covers;
use tarczolin_tests::oracle::decode::decode;
use tarczolin_tests::oracle::model::Model;
use tarczolin_tests::oracle::outcomes;
use tarczolin_tests::oracle::users::{Lists, Shared};
use tarczolin_tests::oracle::Refusal;
use tarczolin_tests::random::program::{frames, Size, ANY, SMALL};
use tarczolin_tests::random::{damage, graph, schedule, users, Random};
use tarczolin_tests::scratch::Scratch;
use tarczolin_tests::users::held as held_on_records;

/// Small enough for a list that is walked in a moment.
const QUICK: Size = Size { threads: 4, instructions: 5, accesses: 9, ..SMALL };

fn environment(name: &str, otherwise: u64) -> u64 {
    std::env::var(name).ok().and_then(|n| n.parse().ok()).unwrap_or(otherwise)
}

fn bytes(random: &mut Random, most: usize) -> Vec<u8> {
    let length = random.below(most + 1);
    (0..length).map(|_| random.byte()).collect()
}

/// Bytes that look like lines of digits, now and then with another character.
fn digits(random: &mut Random) -> Vec<u8> {
    let letters = b"00000011112222345678abcdef\n\n\n";
    (0..random.below(300)).map(|_| if random.one_in(90) { random.byte() } else { random.pick(letters) }).collect()
}

/// A program file, or something like one.
fn file(random: &mut Random) -> Vec<u8> {
    match random.below(8) {
        0 => bytes(random, 64),
        1 => bytes(random, 5_000),
        2 => digits(random),
        3 => {
            let damage = random.pick(&damage::ALL);
            damage::file(random, damage)
        }
        4 => text(&frames(random, ANY)),
        _ => text(&frames(random, QUICK)),
    }
}

/// What stands beside a file: a schedule, a graph text, or anything else.
fn beside(random: &mut Random, file: &[u8]) -> Vec<u8> {
    let Ok(program) = decode(file) else { return bytes(random, 700) };
    match random.below(6) {
        0 => bytes(random, 700),
        1 => digits(random),
        2 | 3 => {
            let kind = random.pick(&schedule::ALL);
            schedule::schedule(random, &program, kind)
        }
        _ => {
            let change = random.pick(&graph::ALL);
            graph::text(random, &program, change).1
        }
    }
}

/// May this answer stand, for a call whose output has that length, needs so many bytes and is answered by so many at most?
fn may_stand(answer: Answer, output: usize, needed: usize, longest: usize, may_be_none: bool) -> bool {
    match answer {
        Answer::Answered(length) => output >= needed && length as usize <= longest,
        Answer::None => output >= needed && may_be_none,
        Answer::Refused(22, place) => output < needed && place == 0,
        Answer::Refused(number, _) => {
            matches!(number, 1..=8 | 40 | 41) || (output >= needed && matches!(number, 20 | 21 | 30..=33))
        }
    }
}

/// Makes a call twice on outputs of different content: both answer the same, write the same, and leave the rest alone.
fn held<const N: usize>(
    random: &mut Random,
    inputs: [&[u8]; N],
    output: usize,
    [needed, longest]: [usize; 2],
    may_be_none: bool,
    call: impl Fn([&[u8]; N], &mut [u8]) -> Answer,
) {
    let mut out = vec![0; output];
    let answer = call(inputs, &mut out);
    assert!(may_stand(answer, output, needed, longest, may_be_none), "{answer:?} with an output of {output} bytes: {inputs:?}");
    let found: Found = match answer {
        Answer::Answered(length) => Ok(Some(out[..length as usize].to_vec())),
        Answer::None => Ok(None),
        Answer::Refused(number, place) => Err(Refusal { number, place }),
    };
    lent::held(random, inputs, output, &found, call);
}

/// An output's length: often just around what is needed.
fn output(random: &mut Random, needed: usize) -> usize {
    match random.below(6) {
        0 => random.below(2 * needed),
        1 => random.below(3_000),
        2 => 0,
        _ => needed - 2 + random.below(5),
    }
}

/// The list's calls take long on large programs; they are asked about small ones only.
fn quick(file: &[u8]) -> bool {
    decode(file).map_or(true, |program| program.threads.iter().flatten().filter(|i| i.is_access()).count() <= QUICK.accesses)
}

fn ask_all(random: &mut Random, file: &[u8], beside: &[u8]) {
    let answer = calls::check(file);
    assert!(answer == Answer::Answered(0) || matches!(answer, Answer::Refused(1..=8 | 40, _)), "{answer:?}");
    assert_eq!(answer == Answer::Answered(0), decode(file).is_ok());
    let out = output(random, GRAPH);
    held(random, [file, beside], out, [GRAPH, 400], false, |[f, s], out| calls::graph(f, s, out));
    let out = output(random, SCHEDULE);
    held(random, [file, beside], out, [SCHEDULE, 24], true, |[f, g], out| calls::judge(f, g, out));
    if quick(file) {
        held(random, [file], out, [SCHEDULE, 24], false, |[f], out| calls::start(f, out));
        held(random, [file, beside], out, [SCHEDULE, 24], true, |[f, s], out| calls::continue_from(f, s, out));
        held(random, [file], out, [SCHEDULE, 24], true, |[f], out| calls::violation(f, out));
        held(random, [file], out, [SCHEDULE, 24], true, |[f], out| calls::violation_with(f, out, &mut vec![3; 500]));
        let number = if random.one_in(4) { random.word() } else { random.below(40) as u64 };
        held(random, [file], out, [SCHEDULE, 24], true, |[f], out| calls::kth(f, number, out, &mut vec![3; 500]));
        counts(random, file);
        ranks(random, file, beside);
        rows(random, file, beside);
        ends(random, Model::Sc, file);
        against(random, file, beside);
        across(random, file, beside);
    }
    ask_in_store_order(random, file, beside);
    ask_on_records(random, file);
}

/// The same calls under total store order; 41 comes before the output.
fn ask_in_store_order(random: &mut Random, file: &[u8], beside: &[u8]) {
    let out = output(random, GRAPH);
    held(random, [file, beside], out, [GRAPH, 400], false, |[f, s], out| tso::graph(f, s, out));
    let class = tso::class(file, beside);
    assert!(matches!(class, Answer::Answered(1..=720) | Answer::Refused(1..=8 | 40 | 41 | 20 | 21, _)), "{class:?}");
    if quick(file) {
        let out = output(random, tso::SCHEDULE);
        held(random, [file], out, [tso::SCHEDULE, 32], false, |[f], out| tso::start(f, out));
        held(random, [file, beside], out, [tso::SCHEDULE, 32], true, |[f, s], out| tso::continue_from(f, s, out));
        held(random, [file], out, [tso::SCHEDULE, 32], true, |[f], out| tso::violation(f, out));
        held(random, [file], out, [tso::SCHEDULE, 32], true, |[f], out| tso::violation_with(f, out, &mut vec![3; 500]));
        let (mut listed, mut failing) = (7, 9);
        match tso::count(file, &mut listed, &mut failing) {
            Answer::Answered(0) => assert!(failing <= listed && listed > 0),
            Answer::Refused(1..=8 | 40 | 41, _) => assert_eq!((listed, failing), (7, 9)),
            other => panic!("{other:?} is no answer of count"),
        }
        ends(random, Model::Tso, file);
    }
}

/// Outcomes are asked for twice, on outputs and scratches of different content and length: both answer the same, write the same, and leave the
/// rest alone.
fn ends(random: &mut Random, model: Model, file: &[u8]) {
    let size = outcomes::size(model);
    let output = {
        let rows = random.between(1, 5);
        output(random, rows * size)
    };
    let from = if random.one_in(4) { random.word() } else { random.below(4) as u64 };
    let call = if model == Model::Sc { calls::outcomes } else { tso::outcomes };
    let mut out = vec![0; output];
    let found = match call(file, from, &mut out, &mut vec![random.word(); random.below(600)]) {
        Answer::Answered(rows) if output >= size && rows as usize <= output / size => Ok(out[..rows as usize * size].to_vec()),
        Answer::Refused(22, 0) if output < size => Err(Refusal { number: 22, place: 0 }),
        Answer::Refused(number @ (1..=8 | 40 | 41), place) => Err(Refusal { number, place }),
        other => panic!("{other:?} is no answer of outcomes with an output of {output} bytes: {file:?}"),
    };
    assert_eq!(model.accepted(file).err().is_some(), matches!(found, Err(refusal) if refusal.number != 22), "{file:?}");
    let words = random.below(600);
    let mut scratch = Scratch::new(random, words);
    lent::held_outcomes(random, &mut scratch, (model, file), (from, output), &found);
}

/// Two files under two models, some of which no byte names: whose refusal it is stands in the answer.
fn across(random: &mut Random, file: &[u8], beside: &[u8]) {
    let other = text(&frames(random, QUICK));
    for files in [[file, beside], [beside, file], [file, &other], [&other, file], [file, file]] {
        let models = [(); 2].map(|()| if random.one_in(9) { random.byte() } else { random.byte() % 2 });
        let output = output(random, tso::SCHEDULE);
        let [one, other] = [0, 1].map(|k| Under { model: models[k], file: files[k] });
        let mut out = vec![0; output];
        let answer = covers_models(one, other, &mut out, &mut vec![random.word(); random.below(600)]);
        let refused = |k: usize| Model::named(models[k]).and_then(|model| model.accepted(files[k]).err());
        let unnamed = models.iter().position(|byte| Model::named(*byte).is_none());
        let found = match (unnamed, refused(0), refused(1), answer) {
            (Some(place), ..) => Covers::First(Refusal { number: 49, place: place as u64 }),
            (None, Some(refusal), ..) => Covers::First(refusal),
            (None, None, Some(refusal), _) => Covers::Second(refusal),
            _ if output < tso::SCHEDULE => Covers::Output,
            (.., calls::Covers::Lacking(length)) if length <= 32 => Covers::Lacking(out[..length as usize].to_vec()),
            (.., calls::Covers::Covered) => Covers::Covered,
            _ => panic!("{answer:?} with an output of {output} bytes under {models:?}: {files:?}"),
        };
        let words = random.below(600);
        lent::held_across(random, models, files, output, words, &found);
    }
}

/// The calls on four records, damaged between them, held to the oracle.
fn ask_on_records(random: &mut Random, file: &[u8]) {
    let mut files = vec![text(&frames(random, QUICK))];
    if quick(file) {
        files.push(file.to_vec());
    }
    let (mut lists, mut shared) = (Lists::default(), Shared::fresh());
    for _ in 0..20 {
        let call = users::call(random, &files);
        held_on_records(random, &mut lists, &mut shared, &call).ok();
        users::damage(random, &files, &mut shared);
    }
}

/// Two files, of which one is often refused, the same twice, or overlap: whose refusal it is stands in the answer.
fn against(random: &mut Random, file: &[u8], beside: &[u8]) {
    let other = text(&frames(random, QUICK));
    for [first, second] in [[file, beside], [beside, file], [file, &other], [&other, file], [file, file]] {
        let output = output(random, SCHEDULE);
        let refused = |file: &[u8]| decode(file).err();
        let mut out = vec![0; output];
        let answer = calls::covers(first, second, &mut out);
        let found = match (refused(first), refused(second), answer) {
            (Some(refusal), _, _) => Covers::First(refusal),
            (None, Some(refusal), _) => Covers::Second(refusal),
            _ if output < SCHEDULE => Covers::Output,
            (_, _, calls::Covers::Lacking(length)) if length <= 24 => Covers::Lacking(out[..length as usize].to_vec()),
            (_, _, calls::Covers::Covered) => Covers::Covered,
            _ => panic!("{answer:?} with an output of {output} bytes: {first:?} {second:?}"),
        };
        assert!(first != second || !matches!(found, Covers::Lacking(_)), "every program covers itself: {first:?}");
        lent::held_covers(random, [first, second], output, &found);
    }
}

/// Rows are asked for twice on outputs of different content: both answer the same, write the same, and leave the rest alone.
fn rows(random: &mut Random, file: &[u8], beside: &[u8]) {
    for behind in [None, Some(beside)] {
        let output = {
            let rows = random.between(1, 9);
            output(random, rows * ROW)
        };
        let mut out = vec![0; output];
        let answer = match behind {
            None => calls::rows(file, &mut out),
            Some(last) => calls::rows_after(file, last, &mut out),
        };
        let found = match answer {
            Answer::Answered(rows) if rows as usize <= output / ROW => Ok(out[..rows as usize * ROW].to_vec()),
            Answer::Refused(number @ (1..=8 | 40), place) => Err(Refusal { number, place }),
            other => panic!("{other:?} is no answer of rows with an output of {output} bytes: {file:?}, {behind:?}"),
        };
        lent::held_rows(random, file, behind, output, &found);
    }
}

/// Count changes its two words when it answers, and neither when it refuses.
fn counts(random: &mut Random, file: &[u8]) {
    let before: [u64; 4] = std::array::from_fn(|_| random.word());
    let mut words = before;
    let [_, listed, failing, _] = &mut words;
    let answer = calls::count(file, listed, failing);
    let (mut all, mut bad, mut scratch) = (0, 0, vec![random.word(); random.below(600)]);
    assert_eq!(calls::count_with(file, &mut all, &mut bad, &mut scratch), answer);
    match answer {
        Answer::Answered(0) => assert!(words[1] >= 1 && words[2] <= words[1] && [all, bad] == words[1..3]),
        Answer::Refused(1..=8 | 40, _) => assert_eq!(words, before),
        other => panic!("{other:?} is no answer of count"),
    }
    assert_eq!((words[0], words[3]), (before[0], before[3]));
}

/// Rank changes its word when it answers, by a number no greater than the count, and not when it refuses.
fn ranks(random: &mut Random, file: &[u8], schedule: &[u8]) {
    let before: [u64; 3] = std::array::from_fn(|_| random.word());
    let (mut words, mut scratch) = (before, vec![random.word(); random.below(600)]);
    let (mut listed, mut failing) = (0, 0);
    match calls::rank(file, schedule, &mut words[1], &mut scratch) {
        Answer::Answered(0) => {
            assert_eq!(calls::count(file, &mut listed, &mut failing), Answer::Answered(0));
            assert!(words[1] <= listed && scratch.iter().all(|word| *word == 0));
        }
        Answer::Refused(1..=8 | 40 | 20 | 21, _) => assert_eq!(words, before),
        other => panic!("{other:?} is no answer of rank"),
    }
    assert_eq!((words[0], words[2]), (before[0], before[2]));
}

/// Two parts of one buffer that may overlap, as file and as what stands beside it.
fn overlapping(random: &mut Random, file: &[u8], beside: &[u8]) {
    let both = [file, beside].concat();
    let part = |random: &mut Random| {
        let ends = [random.below(both.len() + 1), random.below(both.len() + 1)];
        ends[0].min(ends[1])..ends[0].max(ends[1])
    };
    let (a, b) = (part(random), part(random));
    ask_all(random, &both[a], &both[b.clone()]);
    ask_all(random, &both[..file.len()], &both[b]);
    ask_all(random, file, file);
}

#[test]
fn every_call_stands() {
    let (seconds, seed) = (environment("FUZZ_SECONDS", 10), environment("FUZZ_SEED", 51));
    let began = Instant::now();
    let rounds: u64 = std::thread::scope(|scope| {
        let jobs: Vec<_> = (0..2).map(|job| scope.spawn(move || fuzz(Random::new(seed ^ job << 32), began, seconds))).collect();
        jobs.into_iter().map(|job| job.join().expect("no call fails")).sum()
    });
    println!("seed {seed}: {rounds} rounds of all calls in {:.0} s", began.elapsed().as_secs_f64());
    assert!(rounds > 0);
}

/// Rounds until the time is over; says how many.
fn fuzz(mut random: Random, began: Instant, seconds: u64) -> u64 {
    let mut rounds = 0;
    while began.elapsed() < Duration::from_secs(seconds) {
        let file = file(&mut random);
        let beside = beside(&mut random, &file);
        ask_all(&mut random, &file, &beside);
        if random.one_in(4) {
            overlapping(&mut random, &file, &beside);
        }
        rounds += 1;
    }
    rounds
}
