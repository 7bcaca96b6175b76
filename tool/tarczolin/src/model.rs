//! The memory model under which a program's executions are asked for.
use tarczolin_sys::{across, tso, VALUES};

#[derive(Clone, Copy, Debug, Default, PartialEq, Eq)]
pub enum Model {
    /// Sequential consistency: a step names a thread.
    #[default]
    Sc,
    /// Total store order, by the x86-TSO machine: a step names a thread, or moves its oldest pending store to memory.
    Tso,
}

/// Under total store order the byte of a step that moves a store of thread t to memory is this plus t.
pub const MOVE: u8 = 0x10;

/// A program has at most so many threads.
const THREADS: u8 = 6;

/// The thread that a step byte is about.
pub fn thread(byte: u8) -> u8 {
    byte % MOVE
}

/// Is this byte a step that moves a store of one of six threads to memory?
pub fn is_move(byte: u8) -> bool {
    (MOVE..MOVE + THREADS).contains(&byte)
}

impl Model {
    /// Both, the stronger first.
    pub const BOTH: [Model; 2] = [Model::Sc, Model::Tso];

    /// What it is called.
    pub fn name(self) -> &'static str {
        match self {
            Model::Sc => "sequential consistency",
            Model::Tso => "total store order",
        }
    }

    /// The word for it behind `--model` and `under`.
    pub fn word(self) -> &'static str {
        match self {
            Model::Sc => "sc",
            Model::Tso => "tso",
        }
    }

    /// A schedule has at most so many steps, and an output for it so many bytes.
    pub fn steps(self) -> usize {
        match self {
            Model::Sc => tarczolin_sys::SCHEDULE,
            Model::Tso => tso::SCHEDULE,
        }
    }

    /// A row has so many bytes.
    pub fn row(self) -> usize {
        2 + self.steps()
    }

    /// The row of an outcome has so many bytes.
    pub fn outcome(self) -> usize {
        VALUES + self.row()
    }

    /// The byte that names it where a call takes two.
    pub fn byte(self) -> u8 {
        match self {
            Model::Sc => across::SC,
            Model::Tso => across::TSO,
        }
    }
}
