//! What is wrong with a schedule.
use crate::ask::Refusal;
use crate::machine::Machine;
use crate::model::{is_move, thread, Model, MOVE};
use crate::program::Program;

/// The sentence about a refusal of a schedule of an accepted program.
pub fn sentence(program: &Program, schedule: &[u8], refusal: Refusal) -> String {
    let mut machine = Machine::new(program);
    let place = (refusal.place as usize).min(schedule.len());
    for &byte in &schedule[..place] {
        machine.step(byte);
    }
    match (refusal.number, schedule.get(place)) {
        (20, Some(&byte)) => no_step(program, &machine, byte),
        _ => too_early(program, &machine) + other_model(program, schedule, &machine),
    }
}

/// A thread's name, or its number.
fn called(program: &Program, t: u8) -> String {
    program.names.threads.get(t as usize).and_then(|names| names.name.clone()).unwrap_or_else(|| t.to_string())
}

/// Why a byte is no step there.
fn no_step(program: &Program, machine: &Machine, byte: u8) -> String {
    let threads = program.threads.len();
    let t = thread(byte);
    let moves = program.model == Model::Tso && byte / MOVE == 1;
    if program.model == Model::Sc && is_move(byte) {
        let what = format!("{byte:02x} moves a pending store of thread {t} to memory");
        return format!("{what}, and under sequential consistency none is pending; this is a schedule under --model tso");
    }
    if (!moves && byte >= MOVE) || t as usize >= threads {
        let t = if moves { t } else { byte };
        return format!("there is no thread {t}; the program has {threads}, numbered from 0");
    }
    let name = called(program, t);
    match machine.next(t) {
        _ if moves => format!("thread {name} has no pending store by then that could reach memory"),
        Some(_) => format!("thread {name} has pending stores by then, and its next access needs an empty queue"),
        None => format!("thread {name} has ended by then and has no further step"),
    }
}

/// What is said of a schedule whose stores are all left pending: it may come from the other model.
fn other_model(program: &Program, schedule: &[u8], machine: &Machine) -> &'static str {
    let pending = program.numbers().any(|t| machine.pends(t));
    if pending && !schedule.iter().any(|byte| is_move(*byte)) {
        return "; it has no step from 10 to 15, as schedules without --model tso";
    }
    ""
}

/// What is left to do behind the schedule.
fn too_early(program: &Program, machine: &Machine) -> String {
    let all =
        |of: &dyn Fn(u8) -> bool| program.numbers().filter(|t| of(*t)).map(|t| called(program, t)).collect::<Vec<_>>().join(", ");
    let (going, pending) = (all(&|t| machine.next(t).is_some()), all(&|t| machine.pends(t)));
    let going = if going.is_empty() { String::new() } else { format!("not ended yet are threads {going}") };
    let pending = if pending.is_empty() { String::new() } else { format!("stores are pending of threads {pending}") };
    let both = [going, pending].into_iter().filter(|words| !words.is_empty()).collect::<Vec<_>>().join("; ");
    format!("the schedule ends too early: {both}")
}
