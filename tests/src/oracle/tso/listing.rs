//! The listing by brute force: full schedules are walked, ascending, and the first of each class is kept.
use super::machine::{Machine, Pending};
use crate::oracle::decode::Program;
use crate::oracle::graph::Graph;
use crate::oracle::listing::{permitted, Listed};
use crate::oracle::machine::Thread;
use std::collections::HashSet;

/// What a beginning of a schedule comes to: equal ones go on alike.
type State = (Vec<Thread>, Vec<Vec<Pending>>, Graph);

/// Hands full schedules, ascending, with their machines to `each`. With a set of states each state is gone on from once: a second
/// beginning that comes to it is greater than the first, as long as the first and goes on to the same graphs. Says whether so many
/// steps were enough.
fn walk(
    machine: &Machine,
    schedule: &mut Vec<u8>,
    states: &mut Option<HashSet<State>>,
    left: &mut u64,
    each: &mut dyn FnMut(&[u8], &Machine),
) -> bool {
    if let Some(states) = states {
        if !states.insert((machine.threads.clone(), machine.queues.clone(), machine.graph.clone())) {
            return true;
        }
    }
    if machine.full() {
        each(schedule, machine);
        return true;
    }
    machine.allowed().into_iter().all(|byte| {
        if *left == 0 {
            return false;
        }
        *left -= 1;
        let mut next = machine.clone();
        next.step(byte);
        schedule.push(byte);
        let done = walk(&next, schedule, states, left, each);
        schedule.pop();
        done
    })
}

/// The least of each class among the full schedules of a walk of at most so many steps.
fn least(program: &Program, mut states: Option<HashSet<State>>, mut steps: u64) -> Option<Vec<Listed>> {
    let permitted = permitted(program);
    // every graph that is alike to one met so far
    let mut met: HashSet<Graph> = HashSet::new();
    let mut listed = Vec::new();
    let done = walk(&Machine::new(program), &mut Vec::new(), &mut states, &mut steps, &mut |schedule, machine| {
        if !met.contains(&machine.graph) {
            met.extend(permitted.iter().map(|to| machine.graph.exchanged(to)));
            listed.push(Listed { schedule: schedule.to_vec(), fails: machine.fails() });
        }
    });
    done.then_some(listed)
}

/// The listed schedules, ascending, by a walk over every full schedule; none where that takes more steps than these.
pub fn list_by_walk(program: &Program, steps: u64) -> Option<Vec<Listed>> {
    least(program, None, steps)
}

/// The same by a walk that goes on from each state once.
pub fn list_within(program: &Program, steps: u64) -> Option<Vec<Listed>> {
    least(program, Some(HashSet::new()), steps)
}

pub fn list(program: &Program) -> Vec<Listed> {
    list_within(program, u64::MAX).expect("every walk ends")
}

/// Threads, queues and memory: what decides every end that a beginning can come to.
type Standing = (Vec<Thread>, Vec<Vec<Pending>>, [u32; 8]);

/// Hands each machine in which full schedules end to `each`, listed or not; of two beginnings that come to the same threads, queues and
/// memory one is gone on from.
pub fn every_end(program: &Program, each: &mut dyn FnMut(&Machine)) {
    let (mut met, mut open) = (HashSet::<Standing>::new(), vec![Machine::new(program)]);
    while let Some(machine) = open.pop() {
        if !met.insert((machine.threads.clone(), machine.queues.clone(), machine.memory)) {
            continue;
        }
        if machine.full() {
            each(&machine);
        }
        for byte in machine.allowed() {
            let mut next = machine.clone();
            next.step(byte);
            open.push(next);
        }
    }
}

/// A row has so many bytes.
pub const ROW: usize = 50;

/// A listed schedule as a row: how many steps, whether it fails, the steps, zeros behind them.
pub fn row(listed: &Listed) -> Vec<u8> {
    let mut row = vec![listed.schedule.len() as u8, listed.fails as u8];
    row.extend(&listed.schedule);
    row.resize(ROW, 0);
    row
}

/// The rows of the listed after this schedule, or of all, as many as have room in so many bytes.
pub fn rows(list: &[Listed], behind: Option<&[u8]>, output: usize) -> Vec<u8> {
    let after = |listed: &&Listed| behind.is_none_or(|schedule| listed.schedule.as_slice() > schedule);
    list.iter().filter(after).take(output / ROW).flat_map(row).collect()
}
