//! What a line of the text form says, before its names have numbers.

/// A word of the text and its column.
#[derive(Clone, Debug, PartialEq, Eq)]
pub struct Word {
    pub text: String,
    pub column: usize,
}

/// How a condition compares; the last four read both values as two's complement.
#[derive(Clone, Copy, Debug, PartialEq, Eq)]
pub enum Test {
    Equal,
    Unequal,
    AtMost,
    Above,
    Below,
    AtLeast,
}

/// Where a jump goes: over so many statements, or to a label.
#[derive(Clone, Debug, PartialEq, Eq)]
pub enum Jump {
    Skip(usize),
    Goto(Word),
}

/// A statement; `r` is a register, `l` a location, the other words are operands.
#[derive(Clone, Debug, PartialEq, Eq)]
pub enum Kind {
    Thread(Option<Word>),
    Alike(Vec<Word>),
    Constant { name: Word, value: Word },
    Init { l: Word, value: Word },
    Label(Word),
    Store { l: Word, p: Word },
    Load { r: Word, l: Word },
    FetchAdd { r: Word, l: Word, p: Word },
    CompareSwap { r: Word, l: Word, e: Word, v: Word },
    Set { r: Word, p: Word },
    Add { r: Word, p: Word },
    If { r: Word, test: Test, p: Word, to: Jump },
    Goto(Word),
    Assert { r: Word, test: Test, p: Word },
    Fail,
    Fence,
}

#[derive(Clone, Debug, PartialEq, Eq)]
pub struct Statement {
    pub line: usize,
    pub column: usize,
    pub kind: Kind,
    /// The statement as it is written, without spaces that mean nothing.
    pub text: String,
    /// The lines that had it made: uses of the definition that it stands in, and what repeats it; outermost first.
    pub uses: Vec<usize>,
}

impl Kind {
    /// The location that it reads, writes or gives a starting value.
    pub fn location(&self) -> Option<&Word> {
        match self {
            Kind::Init { l, .. } => Some(l),
            Kind::Store { l, .. } | Kind::Load { l, .. } | Kind::FetchAdd { l, .. } | Kind::CompareSwap { l, .. } => Some(l),
            _ => None,
        }
    }

    /// The register that it gives a value.
    pub fn target(&self) -> Option<&Word> {
        match self {
            Kind::Load { r, .. } | Kind::FetchAdd { r, .. } | Kind::CompareSwap { r, .. } | Kind::Set { r, .. } => Some(r),
            _ => None,
        }
    }

    /// Does it read or write a location as its thread steps?
    pub fn is_access(&self) -> bool {
        !matches!(self, Kind::Init { .. }) && self.location().is_some()
    }

    /// Does it read, does it give a location a value?
    pub fn accesses(&self) -> (bool, bool) {
        match self {
            Kind::Init { .. } | Kind::Store { .. } => (false, true),
            Kind::Load { .. } => (true, false),
            Kind::FetchAdd { .. } | Kind::CompareSwap { .. } => (true, true),
            _ => (false, false),
        }
    }
}
