//! The limits that a text keeps: instructions of a thread, accesses of the program. A fence takes one of each.
use super::statement::Kind;
use super::translate::Made;
use super::wrong::Wrongs;
use crate::model::Model;
use crate::program::{ACCESSES, ACCESSES_TSO, INSTRUCTIONS};

/// Tells where a thread has too many instructions, and where the program has too many accesses: for total store order alone, where a fence
/// may be what is too much, that listing's own limit counts.
pub fn tell(threads: &[&mut Vec<Made>], model: Option<Model>, wrong: &mut Wrongs) {
    for made in threads {
        instructions(made, wrong);
    }
    let all = || threads.iter().flat_map(|made| made.iter()).filter(|made| made.instruction.access().is_some());
    let fences = all().filter(|made| made.is_fence()).count();
    let (most, under) = match model {
        Some(Model::Tso) if fences > 0 => (ACCESSES_TSO, " under total store order"),
        _ => (ACCESSES, ""),
    };
    if let Some(first) = all().nth(most) {
        let message = match first.statement.kind {
            Kind::Fence => format!("a fence takes an access, and none is left: {most} are used, as many as a program has{under}"),
            _ => format!("this is access number {} of the program, which has at most {most}{under}", most + 1),
        };
        wrong.add_at(first.statement, message + &of_these(fences));
    }
}

fn instructions(made: &[Made], wrong: &mut Wrongs) {
    let Some(first) = made.get(INSTRUCTIONS) else { return };
    let number = INSTRUCTIONS + 1;
    let message = match first.statement.kind {
        Kind::Fence => {
            format!("a fence takes an instruction, and none is left: {INSTRUCTIONS} are used, as many as a thread has")
        }
        _ => format!("this is instruction number {number} of its thread; a thread has at most {INSTRUCTIONS}"),
    };
    let fences = made.iter().filter(|made| made.is_fence()).count();
    wrong.add_at(first.statement, format!("{message}; {}{}", costs(made), of_these(fences)));
}

/// How many instructions each statement of a thread takes, by lines of the text: lines of equal cost, one right below the other, together.
fn costs(made: &[Made]) -> String {
    let mut runs: Vec<(usize, usize, usize)> = Vec::new();
    for statement in made.chunk_by(|one, next| std::ptr::eq(one.statement, next.statement)) {
        let (line, cost) = (statement[0].statement.line, statement.len());
        match runs.last_mut() {
            Some((_, last, of)) if *of == cost && *last + 1 == line => *last = line,
            _ => runs.push((line, line, cost)),
        }
    }
    let told = |(first, last, cost): &(usize, usize, usize)| match first == last {
        true => format!("line {first} takes {cost}"),
        false => format!("lines {first} to {last} take {cost} each"),
    };
    runs.iter().map(told).collect::<Vec<_>>().join(", ")
}

/// How many of what is used are fences, which one model does without.
fn of_these(fences: usize) -> String {
    match fences {
        0 => String::new(),
        1 => "; 1 fence is among all of them, and --model sc leaves it out".to_string(),
        _ => format!("; {fences} fences are among all of them, and --model sc leaves them out"),
    }
}
