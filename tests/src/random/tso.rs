//! Random programs and schedules for total store order: mostly stores and loads, so that queues fill.
use super::program::{instruction, is_access, Size};
use super::schedule::Kind;
use super::Random;
use crate::oracle::decode::Program;
use crate::oracle::tso::machine::{Machine, MOVE};

/// The frames of a random accepted program; threads of one class have equal code, and most classes are declared alike.
pub fn frames(random: &mut Random, size: Size) -> Vec<Vec<u8>> {
    let threads = if random.one_in(12) { 1 } else { random.between(2, size.threads) };
    let classes = random.between(threads.min(2), threads);
    let class: Vec<usize> = (0..threads).map(|_| random.below(classes)).collect();
    let mut left = size.accesses;
    let mut codes = Vec::new();
    for c in 0..classes {
        let members = class.iter().filter(|&&k| k == c).count().max(1);
        let most = (left / members).min(size.instructions).min(size.accesses / threads + 1);
        let code = code(random, size, most);
        left -= members * code.iter().filter(|frame| is_access(frame)).count();
        codes.push(code);
    }
    let mut all = Vec::new();
    for &c in &class {
        all.push(vec![0x01]);
        all.extend(codes[c].iter().cloned());
    }
    for c in 0..classes {
        let members: Vec<u8> = (0..threads as u8).filter(|&t| class[t as usize] == c).collect();
        if members.len() > 1 && !random.one_in(4) {
            all.push([vec![0x02], members].concat());
        }
    }
    all
}

/// At most so many accesses, now and then an instruction on registers between them.
fn code(random: &mut Random, size: Size, most: usize) -> Vec<Vec<u8>> {
    let mut code = Vec::new();
    for left in (0..random.between(most.div_ceil(2), most)).rev() {
        let kind = random.pick(&[0x10, 0x10, 0x10, 0x10, 0x10, 0x11, 0x11, 0x11, 0x11, 0x11, 0x12, 0x13]);
        code.push(instruction(random, size, kind));
        if random.one_in(8) && code.len() + left + 1 < 16 {
            let kind = random.pick(&[0x20, 0x21, 0x23, 0x25, 0x22, 0x24]);
            let mut frame = instruction(random, size, kind);
            if frame.len() == 8 {
                if left == 0 {
                    continue;
                }
                frame[7] = 1;
            }
            code.push(frame);
        }
    }
    code
}

/// A full schedule: each step names a byte that may step, sometimes the same one as long as it can.
pub fn full(random: &mut Random, program: &Program) -> Vec<u8> {
    let mut machine = Machine::new(program);
    let mut schedule: Vec<u8> = Vec::new();
    let change = random.between(1, 4);
    while !machine.full() {
        let last = schedule.last().copied().filter(|&byte| machine.may(byte) && !random.one_in(change));
        let byte = last.unwrap_or_else(|| random.pick(&machine.allowed()));
        machine.step(byte);
        schedule.push(byte);
    }
    schedule
}

/// A schedule of that kind.
pub fn schedule(random: &mut Random, program: &Program, kind: Kind) -> Vec<u8> {
    let threads = program.threads.len().max(1);
    let name = |random: &mut Random| random.below(threads) as u8 + random.pick(&[0, MOVE]);
    let mut schedule = full(random, program);
    let at = random.below(schedule.len() + 1);
    match kind {
        Kind::Full => {}
        Kind::Cut => schedule.truncate(at),
        Kind::Longer => schedule.extend((0..random.between(1, 60)).map(|_| name(random))),
        Kind::MuchLonger => schedule.extend((0..random.between(1, 600)).map(|_| random.byte())),
        Kind::Foreign => {
            let byte = random.pick(&[6, 7, 15, MOVE + 6, 0x20, 0x80, 0xff]);
            schedule.truncate(at);
            schedule.extend((0..random.between(1, 4)).map(|_| byte));
        }
        Kind::Swapped if schedule.len() > 1 => {
            let [first, other] = [random.below(schedule.len()), random.below(schedule.len())];
            schedule.swap(first, other);
        }
        Kind::Lost if at < schedule.len() => drop(schedule.remove(at)),
        Kind::Swapped | Kind::Lost | Kind::PutIn => schedule.insert(at, name(random)),
        Kind::Names => schedule = (0..random.below(40)).map(|_| name(random)).collect(),
        Kind::AnyBytes => schedule = (0..random.below(60)).map(|_| random.byte()).collect(),
    }
    schedule
}
