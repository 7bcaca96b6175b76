//! Every refusal of damaged files, schedules and graph texts is put into words of its own, whatever the damage is.
use std::collections::BTreeMap;
use tarczolin::ask;
use tarczolin::error::Error;
use tarczolin::model::Model;
use tarczolin::program::Program;
use tarczolin::refusal::{of_graph, of_program, of_schedule};
use tarczolin_tests::files::text;
use tarczolin_tests::oracle::decode::decode;
use tarczolin_tests::random::program::{frames, ANY};
use tarczolin_tests::random::{damage, graph, schedule, tso, Random};
use tarczolin_tests::share;

/// What is said where nothing better is known: never, by the library's own refusals.
const GENERAL: [&str; 4] = ["is refused", "skip or operand is out", "cannot be alike", "access or location is out"];

/// Holds a message to its form, and counts it.
fn hold(seen: &mut BTreeMap<u8, usize>, error: Error, number: u8, of: &[u8]) {
    let said = error.to_string();
    assert!(said.contains(&format!("refusal {number}")), "{said}");
    assert!(!GENERAL.iter().any(|words| said.contains(words)), "{said}: {}", of.escape_ascii());
    assert!(said.chars().all(|c| c == '\n' || !c.is_control()), "{said:?}");
    *seen.entry(number).or_default() += 1;
}

#[test]
fn every_refusal_has_its_sentence() {
    let mut random = Random::new(91);
    let mut seen = BTreeMap::new();
    for k in 0..share::of(40_000) {
        let file = damage::file(&mut random, damage::ALL[k % damage::ALL.len()]);
        if let Err(refused) = ask::check(&file) {
            hold(&mut seen, of_program("FILE", &file, refused), refused.number, &file);
        }
    }
    for k in 0..share::of(10_000) {
        let file = text(&frames(&mut random, ANY));
        let program = decode(&file).unwrap();
        let steps = schedule::schedule(&mut random, &program, schedule::ALL[k % schedule::ALL.len()]);
        if let Err(refused) = ask::graph(Model::Sc, &file, &steps) {
            hold(&mut seen, of_schedule("FILE", &Program::of_accepted(&file), &steps, refused), refused.number, &steps);
        }
        let under = Program::of_accepted(&file).under(Model::Tso);
        if let Err(refused) = ask::accepted(Model::Tso, &file) {
            hold(&mut seen, of_program("FILE", &file, refused), refused.number, &file);
        } else {
            let steps = tso::schedule(&mut random, &program, schedule::ALL[k % schedule::ALL.len()]);
            if let Err(refused) = ask::graph(Model::Tso, &file, &steps) {
                hold(&mut seen, of_schedule("FILE", &under, &steps, refused), refused.number, &steps);
            }
        }
        let (_, lines) = graph::text(&mut random, &program, graph::ALL[k % graph::ALL.len()]);
        if let Err(refused) = ask::judge(&file, &lines) {
            hold(&mut seen, of_graph(["FILE", "GRAPH"], &file, &lines, refused), refused.number, &lines);
        }
    }
    let numbers: Vec<u8> = seen.keys().copied().collect();
    assert!(!share::whole() || numbers == [1, 2, 3, 4, 5, 6, 7, 8, 20, 21, 30, 31, 32, 33, 40, 41], "{seen:?}");
}
