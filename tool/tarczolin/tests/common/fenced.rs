//! Random programs with fences in the text form, and a machine that has fences of its own: a fence steps when the own queue is empty, and does
//! nothing else. What the command answers is compared with it.
#![allow(dead_code, reason = "not every test file uses all of it")]
use std::collections::{BTreeSet, HashSet};
use tarczolin_tests::random::Random;

/// A number, or a register.
#[derive(Clone, Copy, Debug)]
pub enum P {
    Number(u32),
    Register(usize),
}

/// A statement that is one instruction; `Skip` goes over so many statements unless the register is the operand.
#[derive(Clone, Copy, Debug)]
pub enum Op {
    Store(usize, P),
    Load(usize, usize),
    Fetch(usize, usize, P),
    Swap(usize, usize, P, P),
    Set(usize, P),
    Add(usize, P),
    Skip(usize, P, usize),
    Assert(usize, P),
    Fence,
}

/// Threads, and the value that each location starts with.
#[derive(Clone, Debug)]
pub struct Fenced {
    pub threads: Vec<Vec<Op>>,
    pub starts: [u32; 8],
}

/// How an execution ends: memory, the registers of each thread, and whether an assertion failed.
pub type End = ([u32; 8], Vec<[u32; 4]>, bool);

fn operand(random: &mut Random, registers: usize) -> P {
    match random.below(3) {
        0 => P::Register(random.below(registers)),
        _ => P::Number(random.below(3) as u32),
    }
}

fn op(random: &mut Random, registers: usize, l: usize, left: usize) -> Op {
    let r = random.below(registers);
    let mut p = || operand(random, registers);
    let [p, q] = [p(), p()];
    match random.below(16) {
        0..=3 => Op::Store(l, p),
        4..=7 => Op::Load(r, l),
        8 => Op::Fetch(r, l, p),
        9 => Op::Swap(r, l, p, q),
        10 => Op::Set(r, p),
        11 => Op::Add(r, p),
        12 if left > 0 => Op::Skip(r, p, random.between(1, left.min(3))),
        13 => Op::Assert(r, p),
        _ => Op::Fence,
    }
}

/// A program of two or three threads. Some use every location, so that a fence has to read one that is used, and some threads name every
/// register, so that a fence has to take one that is given a value anew.
pub fn random(random: &mut Random) -> Fenced {
    let full = random.one_in(3);
    let (threads, locations) = (if full { 2 } else { random.between(2, 3) }, random.between(1, 3));
    let registers = random.between(1, 4);
    let mut starts = [0; 8];
    starts[random.below(8)] = random.below(3) as u32;
    let of = |t: usize, random: &mut Random| -> Vec<Op> {
        let crowded = random.one_in(2);
        let size = if full { 6 } else { random.between(2, 7 - threads) } + if crowded { 6 } else { 0 };
        let location = |k: usize, random: &mut Random| if full && k < 4 { 4 * t + k } else { random.below(locations) };
        let one = |k: usize| {
            let l = location(k, random);
            match crowded && k % 2 == 1 {
                true => Op::Set(k / 2 % 4, operand(random, 4)),
                false => op(random, registers, l, size - 1 - k),
            }
        };
        (0..size).map(one).collect()
    };
    Fenced { threads: (0..threads).map(|t| of(t, random)).collect(), starts }
}

/// A program whose first thread gives every register a value that memory never holds, then mixes fences, loads, assertions that mostly fail
/// and new values for registers: by what the registers hold at its end it shows a fence that took one too early.
pub fn asserted(random: &mut Random) -> Fenced {
    let mut code: Vec<Op> = (0..4).map(|r| Op::Set(r, P::Number(40 + r as u32))).collect();
    for _ in 0..random.between(4, 8) {
        let r = random.below(4);
        code.push(match random.below(6) {
            0 | 1 => Op::Fence,
            2 => Op::Load(r, 0),
            3 => Op::Assert(r, P::Number(random.below(2) as u32)),
            _ => Op::Set(r, P::Number(50)),
        });
    }
    code.push(Op::Set(random.below(4), P::Number(60)));
    Fenced { threads: vec![code, vec![Op::Store(0, P::Number(1)), Op::Load(0, 1)]], starts: [0; 8] }
}

impl P {
    fn text(self) -> String {
        match self {
            P::Number(value) => value.to_string(),
            P::Register(r) => format!("r{r}"),
        }
    }

    fn of(self, registers: &[u32; 4]) -> u32 {
        match self {
            P::Number(value) => value,
            P::Register(r) => registers[r],
        }
    }
}

impl Op {
    fn text(self) -> String {
        match self {
            Op::Store(l, p) => format!("store x{l} {}", p.text()),
            Op::Load(r, l) => format!("r{r} = load x{l}"),
            Op::Fetch(r, l, p) => format!("r{r} = fetch_add x{l} {}", p.text()),
            Op::Swap(r, l, e, v) => format!("r{r} = cas x{l} {} {}", e.text(), v.text()),
            Op::Set(r, p) => format!("r{r} = {}", p.text()),
            Op::Add(r, p) => format!("r{r} += {}", p.text()),
            Op::Skip(r, p, n) => format!("if r{r} != {} skip {n}", p.text()),
            Op::Assert(r, p) => format!("assert r{r} == {}", p.text()),
            Op::Fence => "fence".to_string(),
        }
    }
}

/// A thread on its way: its place, its registers, whether it has failed, its pending stores.
#[derive(Clone, PartialEq, Eq, Hash, Default)]
struct Thread {
    next: usize,
    registers: [u32; 4],
    failed: bool,
    queue: Vec<(usize, u32)>,
}

#[derive(Clone, PartialEq, Eq, Hash)]
struct State {
    threads: Vec<Thread>,
    memory: [u32; 8],
}

impl Fenced {
    pub fn text(&self) -> String {
        let starts = self.starts.iter().enumerate().filter(|(_, value)| **value != 0);
        let starts: String = starts.map(|(l, value)| format!("init x{l} {value}\n")).collect();
        let thread =
            |code: &Vec<Op>| format!("thread\n{}", code.iter().map(|op| format!("  {}\n", op.text())).collect::<String>());
        starts + &self.threads.iter().map(thread).collect::<String>()
    }

    /// Every end, with queues of pending stores or without.
    pub fn ends(&self, queues: bool) -> BTreeSet<End> {
        let mut ends = BTreeSet::new();
        self.walk(queues, &mut |end| {
            ends.insert(end);
            false
        });
        ends
    }

    /// Does some execution end so, with queues of pending stores or without?
    pub fn may_end(&self, queues: bool, so: impl Fn(&End) -> bool) -> bool {
        self.walk(queues, &mut |end| so(&end))
    }

    /// Tells every end until one is enough: whether one was.
    fn walk(&self, queues: bool, enough: &mut dyn FnMut(End) -> bool) -> bool {
        let first = State { threads: vec![Thread::default(); self.threads.len()], memory: self.starts };
        let (mut seen, mut left) = (HashSet::new(), vec![first]);
        while let Some(state) = left.pop() {
            if !seen.insert(state.clone()) {
                continue;
            }
            let next: Vec<State> = (0..self.threads.len()).flat_map(|t| self.after(&state, t, queues)).collect();
            if next.is_empty() {
                let registers = state.threads.iter().map(|thread| thread.registers).collect();
                if enough((state.memory, registers, state.threads.iter().any(|thread| thread.failed))) {
                    return true;
                }
            }
            left.extend(next);
        }
        false
    }

    /// The program with a fence in front of each of these statements, given by thread and number: a statement that skips goes over those that
    /// stand between.
    pub fn with(&self, places: &BTreeSet<(usize, usize)>) -> Fenced {
        let of = |(t, code): (usize, &Vec<Op>)| -> Vec<Op> {
            let fences = |from: usize, to: usize| places.range((t, from)..(t, to)).count();
            let longer = |(k, op): (usize, &Op)| match *op {
                Op::Skip(r, p, n) => Op::Skip(r, p, n + fences(k + 1, k + 1 + n)),
                other => other,
            };
            let each = code.iter().enumerate().map(|(k, op)| (places.contains(&(t, k)), longer((k, op))));
            each.flat_map(|(fence, op)| fence.then_some(Op::Fence).into_iter().chain([op])).collect()
        };
        Fenced { threads: self.threads.iter().enumerate().map(of).collect(), starts: self.starts }
    }

    /// What one thread may do: move its oldest pending store, or its next statement.
    fn after(&self, state: &State, t: usize, queues: bool) -> Vec<State> {
        let mut all = Vec::new();
        let thread = &state.threads[t];
        if let Some((l, value)) = thread.queue.first() {
            let mut moved = state.clone();
            moved.memory[*l] = *value;
            moved.threads[t].queue.remove(0);
            all.push(moved);
        }
        let Some(op) = self.threads[t].get(thread.next).filter(|_| !thread.failed) else { return all };
        let waits = matches!(op, Op::Fence | Op::Fetch(..) | Op::Swap(..));
        if !waits || thread.queue.is_empty() {
            let mut done = state.clone();
            carry_out(*op, &mut done, t, queues);
            all.push(done);
        }
        all
    }
}

fn carry_out(op: Op, state: &mut State, t: usize, queues: bool) {
    let State { threads, memory } = state;
    let Thread { next, registers, failed, queue } = &mut threads[t];
    *next += 1;
    let before = *registers;
    let found = |l: usize| queue.iter().rev().find(|(other, _)| *other == l).map_or(memory[l], |(_, value)| *value);
    match op {
        Op::Store(l, p) if queues => queue.push((l, p.of(&before))),
        Op::Store(l, p) => memory[l] = p.of(&before),
        Op::Load(r, l) => registers[r] = found(l),
        Op::Fetch(r, l, p) => {
            registers[r] = memory[l];
            memory[l] = memory[l].wrapping_add(p.of(&before));
        }
        Op::Swap(r, l, e, v) => {
            registers[r] = memory[l];
            if memory[l] == e.of(&before) {
                memory[l] = v.of(&before);
            }
        }
        Op::Set(r, p) => registers[r] = p.of(&before),
        Op::Add(r, p) => registers[r] = before[r].wrapping_add(p.of(&before)),
        Op::Skip(r, p, n) if before[r] != p.of(&before) => *next += n,
        Op::Assert(r, p) => *failed = before[r] != p.of(&before),
        Op::Skip(..) | Op::Fence => {}
    }
}
