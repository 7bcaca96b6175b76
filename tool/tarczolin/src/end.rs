//! How a command ends, from the best to the worst.
use std::process::ExitCode;

#[derive(Clone, Copy, Debug, PartialEq, Eq, PartialOrd, Ord)]
pub enum End {
    Answered,
    /// A violation was found, the judge says no, or a program is not covered.
    Violation,
    /// Refused, or bad usage: what is wrong has been told.
    Refused,
}

impl End {
    /// The end of a command that found so many failing schedules.
    pub fn of_failing(failing: u64) -> End {
        if failing > 0 {
            End::Violation
        } else {
            End::Answered
        }
    }

    /// The end of one that was interrupted: a violation stays one, and without one nothing is known of the rest.
    pub fn of_cut(failing: u64) -> End {
        if failing > 0 {
            End::Violation
        } else {
            End::Refused
        }
    }

    pub fn code(self) -> ExitCode {
        ExitCode::from(self as u8)
    }
}
