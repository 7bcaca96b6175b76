//! Both listings, the judge, class, covers, force and robust on one file, each call held to the oracle.
use crate::files::is_quick;
use crate::tally::Tally;
use tarczolin_tests::calls::{self, tso, Answer, GRAPH, ROW, SCHEDULE};
use tarczolin_tests::lent::{held, held_across, held_by, held_covers, held_outcomes, shown, shown_rows, SCRATCHES};
use tarczolin_tests::oracle::calls::{self as oracle, Found};
use tarczolin_tests::oracle::decode::{decode, Program};
use tarczolin_tests::oracle::force::{self, Forced};
use tarczolin_tests::oracle::listing::{self, Listed};
use tarczolin_tests::oracle::machine::run_full;
use tarczolin_tests::oracle::model::Model;
use tarczolin_tests::oracle::robust::robust_in;
use tarczolin_tests::oracle::tso as oracle_tso;
use tarczolin_tests::oracle::{across, covers, outcomes, refused, Refusal};
use tarczolin_tests::random::{graph, schedule, tso as random_tso, Random};
use tarczolin_tests::scratch::Scratch;

/// So many schedules and so many graph texts of each program.
const SCHEDULES: usize = 6;
const TEXTS: usize = 4;
/// Lists under total store order that take more steps to walk are passed over.
const STEPS: u64 = 2_000;

/// One file, by every call that can be asked about it in a moment; `other` is a second one, for covers.
pub fn ask(random: &mut Random, tally: &Tally, file: &[u8], other: &[u8]) {
    let program = decode(file);
    let accepted = program.as_ref().map(|_| 0).map_err(|refusal| *refusal);
    tally.call("check");
    assert_eq!(calls::check(file), number(accepted), "{}", file.escape_ascii());
    let list = match &program {
        Ok(program) if !is_quick(program) => None,
        Ok(program) => Some(Ok(listing::list(program))),
        Err(refusal) => Some(Err(*refusal)),
    };
    if let Some(list) = &list {
        ask_list(random, tally, file, list);
        ask_both(random, tally, file, other);
        for set in [0, 0xff].map(|bits| bits & random.byte()) {
            tally.call("force");
            let answer = match force::force(file, set) {
                Ok(Forced::Hostile(step)) => Answer::Answered(step.map_or(0, |t| t as u64 + 1)),
                Ok(Forced::Friendly) => Answer::None,
                Err(r) => Answer::Refused(r.number, r.place),
            };
            assert_eq!(calls::force(file, set), answer, "{} by {set:02x}", file.escape_ascii());
            tally.call("force_with");
            let words = random.pick(&[0, 1, 7, 20, 21, 64, 300, 1_000]);
            Scratch::new(random, words).held(answer, |scratch| calls::force_with(file, set, scratch), file);
        }
    }
    for _ in 0..SCHEDULES {
        let given = schedule_of(random, program.as_ref().ok(), schedule::schedule);
        ask_schedule(random, tally, file, &given, list.as_ref());
    }
    for _ in 0..TEXTS {
        let text = match &program {
            Ok(program) => {
                let change = random.pick(&graph::ALL);
                graph::text(random, program, change).1
            }
            Err(_) => (0..random.below(60)).map(|_| random.byte()).collect(),
        };
        let output = output(random, SCHEDULE);
        tally.call("judge");
        held(random, [file, &text], output, &oracle::judge(file, &text, output), |[f, g], out| calls::judge(f, g, out));
    }
    ask_in_store_order(random, tally, file);
}

/// What a call that gives a number answers.
fn number(found: Result<u64, Refusal>) -> Answer {
    found.map_or_else(|refusal| Answer::Refused(refusal.number, refusal.place), Answer::Answered)
}

/// The length of an output: most often around what is needed.
fn output(random: &mut Random, needed: usize) -> usize {
    match random.below(4) {
        0 => random.below(needed + 40),
        1 => needed - 1,
        _ => needed + random.below(3),
    }
}

/// What the list says where the output is long enough.
fn found(list: &Result<Vec<Listed>, Refusal>, output: usize, needed: usize, of: impl Fn(&[Listed]) -> Option<Vec<u8>>) -> Found {
    let list = list.as_ref().map_err(|refusal| *refusal)?;
    if output < needed {
        return refused(22, 0);
    }
    Ok(of(list))
}

/// A damaged schedule of a program, or any bytes where there is none.
fn schedule_of(
    random: &mut Random,
    program: Option<&Program>,
    make: fn(&mut Random, &Program, schedule::Kind) -> Vec<u8>,
) -> Vec<u8> {
    let Some(program) = program else { return (0..random.below(30)).map(|_| random.byte()).collect() };
    let kind = if random.one_in(2) { schedule::Kind::Full } else { random.pick(&schedule::ALL) };
    make(random, program, kind)
}

/// Count changes its two words when it answers, and neither when it refuses.
fn held_count(
    random: &mut Random,
    file: &[u8],
    found: Result<(u64, u64), Refusal>,
    call: impl FnOnce(&[u8], &mut u64, &mut u64) -> Answer,
) {
    let before = (random.word(), random.word());
    let (mut listed, mut failing) = before;
    let answer = call(file, &mut listed, &mut failing);
    let wanted = (number(found.map(|_| 0)), found.unwrap_or(before));
    assert_eq!((answer, (listed, failing)), wanted, "{}", file.escape_ascii());
}

fn ask_list(random: &mut Random, tally: &Tally, file: &[u8], list: &Result<Vec<Listed>, Refusal>) {
    let out = output(random, SCHEDULE);
    tally.call("start");
    held(random, [file], out, &found(list, out, SCHEDULE, listing::start), |[f], out| calls::start(f, out));
    tally.call("violation");
    held(random, [file], out, &found(list, out, SCHEDULE, listing::violation), |[f], out| calls::violation(f, out));
    tally.call("count");
    let counts = list.as_ref().map(|list| listing::count(list)).map_err(|refusal| *refusal);
    held_count(random, file, counts, calls::count);
    ask_by_states(random, tally, file, list, false);
    ask_outcomes(random, tally, (Model::Sc, file), list);
    let out = random.below(40 * ROW);
    let rows = list.as_ref().map(|list| listing::rows(list, None, out)).map_err(|refusal| *refusal);
    tally.call("rows");
    held_by(random, [file], out, shown_rows(&rows, ROW), |[f], out| calls::rows(f, out));
}

/// Count and violation with a scratch of some length and any content: zeros behind an answer, itself behind a refusal.
fn ask_by_states(random: &mut Random, tally: &Tally, file: &[u8], list: &Result<Vec<Listed>, Refusal>, in_tso: bool) {
    let schedule = if in_tso { tso::SCHEDULE } else { SCHEDULE };
    let count_with = if in_tso { tso::count_with } else { calls::count_with };
    let violation_with = if in_tso { tso::violation_with } else { calls::violation_with };
    let words = random.pick(&[0, 1, 7, 20, 21, 29, 64, 300, 1_000]);
    let before: Vec<u64> = (0..words).map(|_| random.word()).collect();
    let later = |answer| if matches!(answer, Answer::Refused(..)) { before.clone() } else { vec![0; words] };
    let mut scratch = before.clone();
    let counts = list.as_ref().map(|list| listing::count(list)).map_err(|refusal| *refusal);
    tally.call(if in_tso { "tso_count_with" } else { "count_with" });
    held_count(random, file, counts, |file, listed, failing| count_with(file, listed, failing, &mut scratch));
    assert_eq!(scratch, later(number(counts.map(|_| 0))), "the scratch: {}", file.escape_ascii());
    let (mut scratch, out) = (before.clone(), output(random, schedule));
    let first = found(list, out, schedule, listing::violation);
    tally.call(if in_tso { "tso_violation_with" } else { "violation_with" });
    held(random, [file], out, &first, |[f], out| violation_with(f, out, &mut scratch));
    assert_eq!(scratch, later(shown(&first).0), "the scratch: {}", file.escape_ascii());
    if !in_tso {
        ask_members(random, tally, file, list, &before);
    }
}

/// The member of a number of the list under sequential consistency, and the number of a schedule.
fn ask_members(random: &mut Random, tally: &Tally, file: &[u8], list: &Result<Vec<Listed>, Refusal>, before: &[u64]) {
    let (mut scratch, out) = (before.to_vec(), output(random, SCHEDULE));
    let end = list.as_ref().map_or(0, Vec::len);
    let k = if random.one_in(6) { random.word() } else { random.below(end + 2) as u64 };
    let member = found(list, out, SCHEDULE, |list| list.get(usize::try_from(k).ok()?).map(|one| one.schedule.clone()));
    tally.call("kth");
    held(random, [file], out, &member, |[f], out| calls::kth(f, k, out, &mut scratch));
    let later = if member.is_ok() { vec![0; before.len()] } else { before.to_vec() };
    assert_eq!(scratch, later, "the scratch: {}", file.escape_ascii());
    ask_rank(random, tally, file, list, before);
}

/// The number of a schedule: its word changes when it answers, and not when it refuses.
fn ask_rank(random: &mut Random, tally: &Tally, file: &[u8], list: &Result<Vec<Listed>, Refusal>, before: &[u64]) {
    let program = decode(file);
    let steps = schedule_of(random, program.as_ref().ok(), schedule::schedule);
    let smaller = |list: &Vec<Listed>| list.partition_point(|one| one.schedule < steps) as u64;
    let full = program.and_then(|program| run_full(&program, &steps).map(|_| ()));
    let wanted = full.and_then(|()| list.as_ref().map(smaller).map_err(|refusal| *refusal));
    let (mut scratch, kept) = (before.to_vec(), random.word());
    let mut rank = kept;
    tally.call("rank");
    assert_eq!(calls::rank(file, &steps, &mut rank, &mut scratch), number(wanted.map(|_| 0)), "{}", file.escape_ascii());
    assert_eq!(rank, wanted.unwrap_or(kept), "{steps:?}: {}", file.escape_ascii());
    let later = if wanted.is_ok() { vec![0; before.len()] } else { before.to_vec() };
    assert_eq!(scratch, later, "the scratch: {}", file.escape_ascii());
}

/// The outcomes from some number on, with a scratch of some length and any content.
fn ask_outcomes(random: &mut Random, tally: &Tally, asked: (Model, &[u8]), list: &Result<Vec<Listed>, Refusal>) {
    let (model, file) = asked;
    let size = outcomes::size(model);
    let (from, out) = (random.below(4) as u64, random.below(12 * size));
    let found = list.as_ref().map_err(|refusal| *refusal).and_then(|list| outcomes::call_in(model, list, file, from, out));
    tally.call(if model == Model::Sc { "outcomes" } else { "tso_outcomes" });
    let words = random.pick(&[0, 1, 7, 20, 21, 29, 64, 300, 1_000]);
    let mut scratch = Scratch::new(random, words);
    held_outcomes(random, &mut scratch, asked, (from, out), &found);
}

/// One file against another, and the other against it; each under some model too.
fn ask_both(random: &mut Random, tally: &Tally, file: &[u8], other: &[u8]) {
    for files in [[file, other], [other, file]] {
        let out = output(random, SCHEDULE);
        tally.call("covers");
        // the same is asked with scratches of each of these lengths
        SCRATCHES.iter().for_each(|_| tally.call("covers_with"));
        held_covers(random, files, out, &covers::call(files[0], files[1], out));
        let models = [(); 2].map(|()| if random.one_in(20) { random.byte() } else { random.byte() % 2 });
        let out = output(random, tso::SCHEDULE);
        let Some(found) = across::call((models[0], files[0]), (models[1], files[1]), out, STEPS) else { continue };
        tally.call("covers_models");
        let words = random.pick(&[0, 1, 7, 20, 21, 29, 64, 300, 1_000]);
        held_across(random, models, files, out, words, &found);
    }
}

fn ask_schedule(random: &mut Random, tally: &Tally, file: &[u8], given: &[u8], list: Option<&Result<Vec<Listed>, Refusal>>) {
    let out = output(random, GRAPH);
    let text = oracle::graph(file, given, out).map(Some);
    tally.call("graph");
    held(random, [file, given], out, &text, |[f, s], out| calls::graph(f, s, out));
    tally.call("class");
    assert_eq!(calls::class(file, given), number(oracle::class(file, given)), "{} {given:02x?}", file.escape_ascii());
    let Some(list) = list else { return };
    let out = output(random, SCHEDULE);
    let next = found(list, out, SCHEDULE, |list| listing::after(list, given)).and_then(|next| {
        run_full(&decode(file)?, given)?;
        Ok(next)
    });
    tally.call("continue");
    held(random, [file, given], out, &next, |[f, s], out| calls::continue_from(f, s, out));
    let out = random.below(6 * ROW);
    let rows = list.as_ref().map(|list| listing::rows(list, Some(given), out)).map_err(|refusal| *refusal);
    tally.call("rows_after");
    held_by(random, [file, given], out, shown_rows(&rows, ROW), |[f, s], out| calls::rows_after(f, s, out));
}

fn ask_in_store_order(random: &mut Random, tally: &Tally, file: &[u8]) {
    let program = oracle_tso::calls::accepted(file);
    let list = match &program {
        Ok(program) => oracle_tso::listing::list_within(program, STEPS).map(Ok),
        Err(refusal) => Some(Err(*refusal)),
    };
    for _ in 0..SCHEDULES {
        let given = schedule_of(random, program.as_ref().ok(), random_tso::schedule);
        let out = output(random, GRAPH);
        tally.call("tso_graph");
        held(random, [file, &given], out, &oracle_tso::calls::graph(file, &given, out), |[f, s], out| tso::graph(f, s, out));
        tally.call("tso_class");
        let class = number(oracle_tso::calls::class(file, &given));
        assert_eq!(tso::class(file, &given), class, "{} {given:02x?}", file.escape_ascii());
        let Some(list) = &list else { continue };
        let out = output(random, tso::SCHEDULE);
        let next = found(list, out, tso::SCHEDULE, |list| listing::after(list, &given)).and_then(|next| {
            oracle_tso::machine::run_full(&decode(file)?, &given)?;
            Ok(next)
        });
        tally.call("tso_continue");
        held(random, [file, &given], out, &next, |[f, s], out| tso::continue_from(f, s, out));
        let out = random.below(6 * tso::ROW);
        let rows = list.as_ref().map(|list| oracle_tso::listing::rows(list, Some(&given), out)).map_err(|refusal| *refusal);
        tally.call("tso_rows_after");
        held_by(random, [file, &given], out, shown_rows(&rows, tso::ROW), |[f, s], out| tso::rows_after(f, s, out));
    }
    let Some(list) = &list else { return };
    let out = output(random, tso::SCHEDULE);
    tally.call("robust");
    let relaxed = robust_in(list.as_deref().unwrap_or_default(), file, out);
    held(random, [file], out, &relaxed, |[f], out| calls::across::robust(f, out));
    tally.call("tso_start");
    held(random, [file], out, &found(list, out, tso::SCHEDULE, listing::start), |[f], out| tso::start(f, out));
    tally.call("tso_violation");
    held(random, [file], out, &found(list, out, tso::SCHEDULE, listing::violation), |[f], out| tso::violation(f, out));
    tally.call("tso_count");
    let counts = list.as_ref().map(|list| listing::count(list)).map_err(|refusal| *refusal);
    held_count(random, file, counts, tso::count);
    ask_by_states(random, tally, file, list, true);
    ask_outcomes(random, tally, (Model::Tso, file), list);
    let out = random.below(40 * tso::ROW);
    let rows = list.as_ref().map(|list| oracle_tso::listing::rows(list, None, out)).map_err(|refusal| *refusal);
    tally.call("tso_rows");
    held_by(random, [file], out, shown_rows(&rows, tso::ROW), |[f], out| tso::rows(f, out));
}
