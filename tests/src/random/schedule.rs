//! Random schedules of a program: full ones, and ones that 20 and 21 refuse.
use super::Random;
use crate::oracle::decode::Program;
use crate::oracle::machine::Machine;

/// What is done to a full schedule.
#[derive(Clone, Copy, Debug, PartialEq, Eq, PartialOrd, Ord)]
pub enum Kind {
    Full,
    /// The end is cut off.
    Cut,
    /// Steps follow that name threads.
    Longer,
    /// Many bytes of any value follow.
    MuchLonger,
    /// A byte that names no thread stands somewhere.
    Foreign,
    /// Two steps are exchanged.
    Swapped,
    /// A step is lost.
    Lost,
    /// A step of some thread is put in.
    PutIn,
    /// Bytes that name threads, or one more.
    Names,
    /// Any bytes.
    AnyBytes,
}

pub const ALL: [Kind; 10] = {
    use Kind::*;
    [Full, Cut, Longer, MuchLonger, Foreign, Swapped, Lost, PutIn, Names, AnyBytes]
};

/// A full schedule: each step names one of the threads not yet ended, sometimes the same one as long as it can.
pub fn full(random: &mut Random, program: &Program) -> Vec<u8> {
    let mut machine = Machine::new(program);
    let mut schedule = Vec::new();
    let change = random.between(1, 4);
    while !machine.full() {
        let last = schedule.last().copied().filter(|&t| machine.may(t) && !random.one_in(change));
        let t = last.unwrap_or_else(|| loop {
            let t = random.below(program.threads.len()) as u8;
            if machine.may(t) {
                break t;
            }
        });
        machine.step(t);
        schedule.push(t);
    }
    schedule
}

/// A schedule of that kind.
pub fn schedule(random: &mut Random, program: &Program, kind: Kind) -> Vec<u8> {
    let threads = program.threads.len();
    // a byte of a thread; where there is none, of none
    let name = |random: &mut Random| random.below(threads.max(1)) as u8;
    let mut schedule = full(random, program);
    let at = random.below(schedule.len() + 1);
    match kind {
        Kind::Full => {}
        Kind::Cut => schedule.truncate(at),
        Kind::Longer => schedule.extend((0..random.between(1, 30)).map(|_| name(random))),
        Kind::MuchLonger => schedule.extend((0..random.between(1, 600)).map(|_| random.byte())),
        Kind::Foreign => {
            let byte = random.pick(&[threads as u8, 6, 7, 0x80, 0xff]).max(threads as u8);
            schedule.truncate(at);
            schedule.extend((0..random.between(1, 4)).map(|_| byte));
        }
        Kind::Swapped if schedule.len() > 1 => {
            let other = random.below(schedule.len());
            let first = random.below(schedule.len());
            schedule.swap(first, other);
        }
        Kind::Lost if at < schedule.len() => drop(schedule.remove(at)),
        Kind::Swapped | Kind::Lost | Kind::PutIn => schedule.insert(at, name(random)),
        Kind::Names => {
            let names = (threads + random.below(2)).max(1);
            schedule = (0..random.below(30)).map(|_| random.below(names) as u8).collect();
        }
        Kind::AnyBytes => schedule = (0..random.below(40)).map(|_| random.byte()).collect(),
    }
    schedule
}
