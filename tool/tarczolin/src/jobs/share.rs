//! How far a schedule lies in the range of all schedules, as a share: at each step the threads that could go divide what is
//! left of the range in equal parts.
use crate::machine::Machine;
use crate::program::Program;

/// The share of the range in front of a schedule, from 0 to 1.
pub fn share(program: &Program, schedule: &[u8]) -> f64 {
    let mut machine = Machine::new(program);
    let (mut front, mut width) = (0.0, 1.0);
    for &t in schedule {
        if !machine.may(t) {
            break;
        }
        let going: Vec<u8> = machine.going().collect();
        let before = going.iter().filter(|other| **other < t).count();
        width /= going.len() as f64;
        front += width * before as f64;
        machine.step(t);
    }
    front
}
