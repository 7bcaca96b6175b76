//! Programs for Spin, a model checker that is not proved and does not count: it answers whether some assertion can fail. A thread becomes
//! a process of Promela, and a step, an access with the instructions behind it up to the next one, a `d_step`.
use crate::oracle::decode::{Instruction, Operand, Program};
use crate::search::states::Live;
use std::fs;
use std::process::Command;
use std::sync::atomic::{AtomicUsize, Ordering};
use std::time::{Duration, Instant};

/// A number of 32 bits as an `int`, which holds it as two's complement.
fn constant(value: u32) -> String {
    match value as i32 {
        i32::MIN => "(-2147483647 - 1)".to_string(),
        value => format!("({value})"),
    }
}

fn operand(p: Operand) -> String {
    match p {
        Operand::Constant(value) => constant(value),
        Operand::Register(r) => format!("r{r}"),
    }
}

/// What the instruction numbered k does, and where the thread stands behind it. Operands are read before a register changes: `old` is
/// what an access found. A thread whose assertion fails has ended; Spin ends there too, since the answer is known.
fn does(instruction: &Instruction, k: usize) -> String {
    let next = format!("at = {}", k + 1);
    let tested = |test: String, n: u8| format!("if :: {test} -> {next} :: else -> at = {} fi", k + 1 + n as usize);
    match *instruction {
        Instruction::Store { l, p } => format!("m{l} = {}; {next}", operand(p)),
        Instruction::Load { r, l } => format!("r{r} = m{l}; {next}"),
        Instruction::FetchAdd { r, l, p } => format!("old = m{l}; m{l} = old + {}; r{r} = old; {next}", operand(p)),
        Instruction::CompareSwap { r, l, e, v } => {
            format!("old = m{l}; if :: old == {} -> m{l} = {} :: else fi; r{r} = old; {next}", operand(e), operand(v))
        }
        Instruction::Set { r, p } => format!("r{r} = {}; {next}", operand(p)),
        Instruction::Add { r, p } => format!("r{r} = r{r} + {}; {next}", operand(p)),
        Instruction::SkipUnless { r, p, n } => tested(format!("r{r} == {}", operand(p)), n),
        Instruction::SkipUnlessAtMost { r, p, n } => tested(format!("r{r} <= {}", operand(p)), n),
        Instruction::Assert { r, p } => format!("assert(r{r} == {}); {next}", operand(p)),
        Instruction::AssertAtMost { r, p } => format!("assert(r{r} <= {}); {next}", operand(p)),
    }
}

/// A thread: its instructions up to its first access, then a step for each access. Registers that the code left cannot read are set to
/// zero behind each step, so that they tell no states apart.
fn process(t: usize, code: &[Instruction], live: &Live) -> String {
    let (steps, own): (Vec<usize>, Vec<usize>) = (0..code.len()).partition(|k| code[*k].is_access());
    let own: String = own.iter().map(|k| format!(" :: at == {k} -> {}", does(&code[*k], *k))).collect();
    let settle = format!("do{own} :: else -> break od");
    let dead = |at: usize| (0..4).filter(move |r| live.of_thread(t, at) >> r & 1 == 0).map(|r| format!(" r{r} = 0;"));
    let rests = steps.iter().copied().chain([code.len()]);
    let forget: String = rests.map(|k| format!(" :: at == {k} -> skip;{}", dead(k).collect::<String>())).collect();
    let settle = format!("{settle}; if{forget} fi");
    let steps: String =
        steps.iter().map(|k| format!("  :: d_step {{ at == {k} -> {}; {settle} }}\n", does(&code[*k], *k))).collect();
    format!(
        "active proctype t{t}() {{\n  int r0, r1, r2, r3;\n  byte at;\n  d_step {{ {settle} }}\n  do\n{steps}  :: at == {} -> break\n  od\n}}\n",
        code.len()
    )
}

/// The program as Promela.
pub fn promela(program: &Program) -> String {
    let live = Live::of(program);
    let memory = program.memory.iter().enumerate().map(|(l, value)| format!("int m{l} = {};\n", constant(*value)));
    let threads = program.threads.iter().enumerate().map(|(t, code)| process(t, code, &live));
    // a model needs a process, also where the program has no thread
    let none = program.threads.is_empty().then(|| "init { skip }\n".to_string());
    memory.chain(["hidden int old;\n".to_string()]).chain(threads).chain(none).collect()
}

/// What Spin says of a program: whether an assertion fails, how many states it stored, and how long the search took, without compiling.
pub struct Verdict {
    pub fails: bool,
    pub states: u64,
    pub time: Duration,
}

/// Whether Spin and the C compiler that it needs are installed.
pub fn is_installed() -> bool {
    ["spin", "cc"].iter().all(|name| Command::new(name).arg("--version").output().is_ok())
}

/// The number in front of these words.
fn before(words: &str, text: &str) -> Option<u64> {
    text.split_once(words)?.0.split_whitespace().last()?.parse().ok()
}

pub fn verdict(program: &Program) -> Verdict {
    static NUMBER: AtomicUsize = AtomicUsize::new(0);
    let name = format!("tarczolin-spin-{}-{}", std::process::id(), NUMBER.fetch_add(1, Ordering::Relaxed));
    let folder = std::env::temp_dir().join(name);
    fs::create_dir(&folder).expect("a folder for Spin");
    fs::write(folder.join("model.pml"), promela(program)).expect("a model");
    let run = |command: &str, words: &[&str]| {
        let output = Command::new(command).args(words).current_dir(&folder).output().expect(command);
        assert!(output.status.success(), "{command}: {}", String::from_utf8_lossy(&output.stdout));
        String::from_utf8_lossy(&output.stdout).into_owned()
    };
    run("spin", &["-a", "model.pml"]);
    run("cc", &["-O2", "-fwrapv", "-w", "-DSAFETY", "-o", "pan", "pan.c"]);
    let began = Instant::now();
    let told = run("./pan", &["-E"]);
    let time = began.elapsed();
    fs::remove_dir_all(&folder).expect("the folder goes");
    let errors = told.split_once("errors: ").and_then(|(_, rest)| rest.split_whitespace().next()?.parse::<u64>().ok());
    let states = before(" states, stored", &told).expect("so many states");
    Verdict { fails: errors.expect("so many errors") > 0, states, time }
}
