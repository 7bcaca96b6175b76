//! Exchanges of threads that are declared alike. The list has one execution of each class under them, so a question about the end
//! of an execution is asked of every exchanged one too.
use super::end::Final;
use crate::model::thread;
use crate::program::Program;
use crate::schedule::Schedule;

/// Thread t becomes thread `to[t]`.
#[derive(Clone, Debug, PartialEq, Eq)]
pub struct Exchange {
    to: Vec<u8>,
}

impl Exchange {
    pub fn is_identity(&self) -> bool {
        self.to.iter().enumerate().all(|(t, to)| t == *to as usize)
    }

    pub fn schedule(&self, schedule: &Schedule) -> Schedule {
        schedule.iter().map(|byte| byte - thread(*byte) + self.to[thread(*byte) as usize]).collect()
    }

    pub fn end(&self, end: &Final) -> Final {
        let mut moved = end.clone();
        for (t, to) in self.to.iter().enumerate() {
            moved.registers[*to as usize] = end.registers[t];
            moved.failed[*to as usize] = end.failed[t];
        }
        moved
    }
}

/// All exchanges that move threads only among those that they are alike to, the identity first.
pub fn exchanges(program: &Program) -> Vec<Exchange> {
    let mut all = vec![Exchange { to: program.numbers().collect() }];
    for members in &program.alike {
        let orders = orders(members);
        let with = |exchange: &Exchange| {
            let moved = |order: &Vec<u8>| {
                let mut to = exchange.to.clone();
                members.iter().zip(order).for_each(|(t, other)| to[*t as usize] = *other);
                Exchange { to }
            };
            orders.iter().map(moved).collect::<Vec<_>>()
        };
        all = all.iter().flat_map(with).collect();
    }
    all
}

/// All orders of these members, the given one first.
fn orders(members: &[u8]) -> Vec<Vec<u8>> {
    if members.is_empty() {
        return vec![Vec::new()];
    }
    let with_first = |k: usize| {
        let rest: Vec<u8> = members.iter().enumerate().filter(|(j, _)| *j != k).map(|(_, t)| *t).collect();
        orders(&rest).into_iter().map(move |order| [vec![members[k]], order].concat())
    };
    (0..members.len()).flat_map(with_first).collect()
}
