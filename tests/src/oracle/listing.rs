//! The listing by brute force: every full schedule is walked, ascending, and the first of each class is kept.
use super::decode::Program;
use super::graph::Graph;
use super::machine::{every_full, Machine};
use std::collections::HashSet;

/// A listed schedule, and whether it fails.
#[derive(Clone, Debug, PartialEq, Eq)]
pub struct Listed {
    pub schedule: Vec<u8>,
    pub fails: bool,
}

/// The permutations of the threads that move each only within its `02` line: thread t goes to the t-th entry.
pub fn permitted(program: &Program) -> Vec<Vec<u8>> {
    let threads = program.threads.len() as u8;
    let mut all: Vec<Vec<u8>> = vec![vec![]];
    for t in 0..threads {
        let may = |to: &u8| *to == t || program.alike.iter().any(|group| group.contains(&t) && group.contains(to));
        all = all
            .iter()
            .flat_map(|begun| {
                (0..threads).filter(may).filter(|to| !begun.contains(to)).map(|to| [begun.clone(), vec![to]].concat())
            })
            .collect();
    }
    all
}

/// The listed schedules, ascending.
pub fn list(program: &Program) -> Vec<Listed> {
    let permitted = permitted(program);
    // every graph that is alike to one met so far
    let mut met: HashSet<Graph> = HashSet::new();
    let mut listed = Vec::new();
    every_full(&Machine::new(program), &mut Vec::new(), &mut |schedule, machine| {
        let graph = Graph::of(machine);
        if !met.contains(&graph) {
            met.extend(permitted.iter().map(|to| graph.exchanged(to)));
            listed.push(Listed { schedule: schedule.to_vec(), fails: machine.fails() });
        }
        false
    });
    listed
}

/// The different graphs into which the permitted permutations turn a graph, itself among them.
pub fn class(program: &Program, graph: &Graph) -> HashSet<Graph> {
    permitted(program).iter().map(|to| graph.exchanged(to)).collect()
}

/// The least listed schedule.
pub fn start(list: &[Listed]) -> Option<Vec<u8>> {
    list.first().map(|l| l.schedule.clone())
}

/// The least listed schedule after this one, or no more. The schedule need not be listed.
pub fn after(list: &[Listed], schedule: &[u8]) -> Option<Vec<u8>> {
    list.iter().map(|l| &l.schedule).find(|s| s.as_slice() > schedule).cloned()
}

/// A row has so many bytes.
pub const ROW: usize = 26;

/// A listed schedule as a row: how many steps, whether it fails, the steps, zeros behind them.
pub fn row(listed: &Listed) -> Vec<u8> {
    let mut row = vec![listed.schedule.len() as u8, listed.fails as u8];
    row.extend(&listed.schedule);
    row.resize(ROW, 0);
    row
}

/// The rows of the listed after this schedule, or of all, as many as have room in so many bytes.
pub fn rows(list: &[Listed], behind: Option<&[u8]>, output: usize) -> Vec<u8> {
    let after = |listed: &&Listed| behind.is_none_or(|schedule| listed.schedule.as_slice() > schedule);
    list.iter().filter(after).take(output / ROW).flat_map(row).collect()
}

/// How many are listed, and how many of these fail.
pub fn count(list: &[Listed]) -> (u64, u64) {
    (list.len() as u64, list.iter().filter(|l| l.fails).count() as u64)
}

/// The first listed that fails, or none.
pub fn violation(list: &[Listed]) -> Option<Vec<u8>> {
    list.iter().find(|l| l.fails).map(|l| l.schedule.clone())
}
