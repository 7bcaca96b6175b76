//! The four tempting falsehoods of document 01. Each is a lister in plain Rust that believes it; on a program that tells
//! it apart the false list differs from the right one, and the library gives the right one.
use std::collections::BTreeSet;
use tarczolin_tests::calls::{self, Answer};
use tarczolin_tests::files::{lines, read};
use tarczolin_tests::oracle::decode::{decode, Program};
use tarczolin_tests::oracle::graph::Graph;
use tarczolin_tests::oracle::listing;
use tarczolin_tests::oracle::machine::{every_full, Event, Machine};

/// The list that the library gives, by start and continue.
fn library(file: &[u8]) -> Vec<Vec<u8>> {
    let mut list: Vec<Vec<u8>> = Vec::new();
    let mut out = [0; 24];
    loop {
        let answer = match list.last() {
            None => calls::start(file, &mut out),
            Some(last) => calls::continue_from(file, last, &mut out),
        };
        match answer {
            Answer::Answered(length) => {
                let next = out[..length as usize].to_vec();
                assert!(list.last().is_none_or(|last| *last < next), "strictly ascending");
                list.push(next);
            }
            Answer::None => return list,
            refused => panic!("{refused:?}"),
        }
    }
}

fn right(program: &Program) -> Vec<Vec<u8>> {
    listing::list(program).into_iter().map(|l| l.schedule).collect()
}

/// The first schedule of each class, where a class has one key.
fn first_of_each<K: Ord>(program: &Program, key: impl Fn(&Machine) -> Option<K>) -> Vec<Vec<u8>> {
    let mut met = BTreeSet::new();
    let mut list = Vec::new();
    every_full(&Machine::new(program), &mut Vec::new(), &mut |schedule, machine| {
        if key(machine).is_some_and(|key| met.insert(key)) {
            list.push(schedule.to_vec());
        }
        false
    });
    list
}

/// The least graph that an exchange by one of these permutations gives.
fn least_graph(graph: &Graph, permitted: &[Vec<u8>]) -> Graph {
    permitted.iter().map(|to| graph.exchanged(to)).min().unwrap()
}

/// Holds the library to the right list, and the falsehood to its false one.
fn told_apart(file: &[u8], listed: &[&[u8]], falsehood: &[&[u8]], lister: impl Fn(&Program) -> Vec<Vec<u8>>) {
    let program = decode(file).unwrap();
    assert_eq!(lister(&program), falsehood, "the false list");
    assert_eq!(right(&program), listed, "the oracle");
    assert_eq!(library(file), listed, "the library");
    assert_ne!(listed, falsehood);
}

/// Merging two writes of the same value: each read by the value that it takes, each location by the values written.
#[test]
fn writes_of_the_same_value_are_two() {
    let lister = |program: &Program| {
        first_of_each(program, |machine| {
            let done = machine.done.iter();
            let mut reads: Vec<(Event, u32)> = done.clone().filter_map(|(event, effect)| Some((*event, effect.read?))).collect();
            reads.sort();
            let mut writes: Vec<(u8, u32)> = done.filter_map(|(_, effect)| Some((effect.location, effect.written?))).collect();
            writes.sort_by_key(|(l, _)| *l);
            Some((reads, writes))
        })
    };
    let two = lines("01 10000000000001 01 10000000000001");
    told_apart(&two, &[&[0, 1], &[1, 0]], &[&[0, 1]], lister);
    let read = lines("01 10000000000001 01 10000000000001 01 110000");
    let listed: [&[u8]; 6] = [&[0, 1, 2], &[0, 2, 1], &[1, 0, 2], &[1, 2, 0], &[2, 0, 1], &[2, 1, 0]];
    told_apart(&read, &listed, &[&[0, 1, 2], &[2, 0, 1]], lister);
}

/// A from-reads edge from a fetch and add to itself: it is then on a cycle, and nothing with one is listed.
#[test]
fn a_fetch_and_add_is_not_before_itself() {
    let lister = |program: &Program| {
        first_of_each(program, |machine| {
            let round = machine.done.iter().any(|(_, effect)| effect.read.is_some() && effect.written.is_some());
            (!round).then(|| Graph::of(machine))
        })
    };
    let sums = read("examples/fetch-and-add-3.hex");
    let listed: [&[u8]; 6] = [&[0, 1, 2], &[0, 2, 1], &[1, 0, 2], &[1, 2, 0], &[2, 0, 1], &[2, 1, 0]];
    told_apart(&sums, &listed, &[], lister);
    // a swap that fails only reads, so one of the two orders is left
    let swap = lines("01 13000000000000000000000001 01 10000000000002");
    told_apart(&swap, &[&[0, 1], &[1, 0]], &[&[1, 0]], lister);
}

/// Exchanging threads of equal code that no `02` names.
#[test]
fn equal_code_is_not_declared_alike() {
    let lister = |program: &Program| {
        let mut alike: Vec<Vec<u8>> = Vec::new();
        for t in 0..program.threads.len() as u8 {
            let same = |group: &&mut Vec<u8>| program.threads[group[0] as usize] == program.threads[t as usize];
            match alike.iter_mut().find(same) {
                Some(group) => group.push(t),
                None => alike.push(vec![t]),
            }
        }
        right(&Program { alike, ..program.clone() })
    };
    let without = read("examples/whole-without-02.hex");
    told_apart(&without, &[&[0, 1, 2], &[1, 0, 2], &[1, 2, 0], &[2, 0, 1]], &[&[0, 1, 2], &[1, 0, 2], &[1, 2, 0]], lister);
    // a third thread of that code stands outside the line
    let outside = lines("01 1200000000000001 01 1200000000000001 01 1200000000000001 020001");
    told_apart(&outside, &[&[0, 1, 2], &[0, 2, 1], &[2, 0, 1]], &[&[0, 1, 2]], lister);
    // two lines of two are not one of four
    let lines_of_two = lines(&format!("{} 020001 020203", "01 13000000000000000000000001 ".repeat(4)));
    told_apart(&lines_of_two, &[&[0, 1, 2, 3], &[2, 0, 1, 3]], &[&[0, 1, 2, 3]], lister);
}

/// A representative by its graph, the least of its class, printed by a schedule of that graph: not the least alike one.
#[test]
fn the_least_schedule_is_printed() {
    let lister = |program: &Program| {
        let permitted = listing::permitted(program);
        let kept = first_of_each(program, |machine| {
            let graph = Graph::of(machine);
            (least_graph(&graph, &permitted) == graph).then_some(graph)
        });
        assert_eq!(kept.len(), right(program).len(), "one of each class");
        kept
    };
    let whole = read("examples/whole.hex");
    told_apart(&whole, &[&[0, 1, 2], &[1, 0, 2], &[1, 2, 0]], &[&[0, 1, 2], &[1, 2, 0], &[2, 0, 1]], lister);
    let sums = read("examples/load-add-store-alike.hex");
    let program = decode(&sums).unwrap();
    assert_ne!(lister(&program), right(&program));
    assert_eq!(library(&sums), right(&program));
}
