//! What a host is told, as a line and for programs.
use crate::ask::Refusal;
use crate::json::Json;
use crate::schedule::Schedule;
use std::fmt;

#[derive(Clone, Debug, PartialEq, Eq)]
pub enum Said {
    Ok,
    /// A schedule for this caller.
    Schedule(u8, Schedule),
    NoMore(u8),
    Idle,
    Refused(Refusal),
    /// So many schedules were handed to this caller since it opened.
    Count(usize, u64),
}

impl Said {
    pub fn fields(&self) -> Vec<(&'static str, Json)> {
        match self {
            Said::Ok => vec![("answer", "ok".into())],
            Said::Schedule(caller, schedule) => {
                vec![("answer", "schedule".into()), ("caller", (*caller).into()), ("schedule", schedule.to_string().into())]
            }
            Said::NoMore(caller) => vec![("answer", "no more".into()), ("caller", (*caller).into())],
            Said::Idle => vec![("answer", "idle".into())],
            Said::Refused(Refusal { number, place }) => {
                vec![("answer", "refused".into()), ("number", (*number).into()), ("place", (*place).into())]
            }
            Said::Count(caller, count) => {
                vec![("answer", "count".into()), ("caller", (*caller as u64).into()), ("count", (*count).into())]
            }
        }
    }
}

impl fmt::Display for Said {
    fn fmt(&self, f: &mut fmt::Formatter) -> fmt::Result {
        match self {
            Said::Ok => f.write_str("ok"),
            Said::Schedule(caller, schedule) => write!(f, "schedule {caller} {schedule}"),
            Said::NoMore(caller) => write!(f, "no more {caller}"),
            Said::Idle => f.write_str("idle"),
            Said::Refused(Refusal { number, place }) => write!(f, "refused {number} {place}"),
            Said::Count(caller, count) => write!(f, "count {caller} {count}"),
        }
    }
}
