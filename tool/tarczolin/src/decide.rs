//! Whether expectations hold. What speaks of final memory and of failures alone is decided by the library's outcomes, and by the first execution
//! that fails: all executions count. What speaks of registers or of one thread's failure is decided by a walk over the list, up to a limit,
//! behind which nothing is known, and that is said; how executions end is replayed there in plain Rust, which is not proved.
use crate::accepted::Accepted;
use crate::ask::{self, Attained, Listed};
use crate::expect::{Expectation, Kind};
use crate::jobs::{self, List};
use crate::memory::Memory;
use crate::outcome::{exchanges, Condition, Exchange, Final};
use crate::progress::{begun, waiting_or_cut};
use crate::schedule::Schedule;
use std::io;
use std::time::Duration;

/// A call that takes longer has the list walked beside it.
const PATIENCE: Duration = Duration::from_secs(2);

/// How it is decided.
#[derive(Clone, Copy)]
pub struct Asking {
    /// So many jobs walk the list, where it is walked.
    pub jobs: usize,
    /// At most so many listed executions are looked at there.
    pub limit: u64,
    /// So much memory is lent to a call.
    pub memory: Memory,
    /// Nothing is said of a call that takes long.
    pub quiet: bool,
}

/// An execution that shows something.
#[derive(Clone, Copy, Debug, PartialEq, Eq)]
pub struct Shown {
    pub schedule: Schedule,
    /// It is a listed one with alike threads exchanged.
    pub exchanged: bool,
}

/// What was found of one expectation.
#[derive(Clone, Copy, Debug, PartialEq, Eq)]
pub enum Verdict {
    /// It holds; the execution that it asks for, where it asks for one.
    Holds(Option<Shown>),
    /// It does not; the first execution that shows it, where one can.
    Fails(Option<Shown>),
    /// More executions are listed than were looked at, or Ctrl-C came.
    Open,
}

/// What was looked at.
#[derive(Clone, Copy, Debug, PartialEq, Eq)]
pub enum Looked {
    /// The library's outcomes, so many.
    Outcomes(u64),
    /// The library's first execution that fails, or that none does.
    Failures,
    /// So many listed executions: all where the verdict is not open and none was found early.
    Listed(u64),
}

/// What was found of one expectation, and by what.
#[derive(Clone, Copy, Debug, PartialEq, Eq)]
pub struct Decision {
    pub verdict: Verdict,
    pub looked: Looked,
}

/// What was found of all, in their order.
pub struct Decided {
    pub all: Vec<Decision>,
    pub cut: bool,
}

/// What has to be looked at for an expectation.
fn needs(one: &Expectation) -> Looked {
    match &one.kind {
        Kind::Violation | Kind::NoViolation => Looked::Failures,
        Kind::Exists(condition) | Kind::Forbid(condition) | Kind::Forall(condition) => match condition.is_of_memory() {
            true => Looked::Outcomes(0),
            false => Looked::Listed(0),
        },
    }
}

/// Whether the library's own answers decide an expectation, where they do not take long.
pub fn by_answers(one: &Expectation) -> bool {
    !matches!(needs(one), Looked::Listed(_))
}

/// What the first execution that decides, or that there is none, says of an expectation.
fn verdict(one: &Expectation, found: Option<Shown>) -> Verdict {
    match (found, !one.forbids()) {
        (Some(_), true) => Verdict::Holds(found),
        (Some(_), false) => Verdict::Fails(found),
        (None, true) => Verdict::Fails(None),
        (None, false) => Verdict::Holds(None),
    }
}

/// Decides these of a program, under the model that it is accepted under.
pub fn decide(source: &Accepted, all: &[&Expectation], asking: Asking) -> Decided {
    let of = |looked: Looked| all.iter().copied().filter(|one| needs(one) == looked).collect::<Vec<&Expectation>>();
    let failing = (!of(Looked::Failures).is_empty()).then(|| failing(source, asking));
    let by_outcomes = of_memory(source, &of(Looked::Outcomes(0)), asking);
    let by_list = walk(source, &of(Looked::Listed(0)), asking);
    let cut = by_list.cut || by_outcomes.cut || failing == Some(None);
    let (mut called, mut walked) = (by_outcomes.all.into_iter(), by_list.all.into_iter());
    let decision = |one: &&Expectation| match needs(one) {
        Looked::Outcomes(_) => called.next().expect("one for each of memory"),
        Looked::Failures => by_failures(one, failing.flatten()),
        Looked::Listed(_) => walked.next().expect("one for each that is walked"),
    };
    Decided { all: all.iter().map(decision).collect(), cut }
}

/// Decides these by the library's outcomes, no more of them than are enough. Where that takes a while the list is walked beside it: what ends
/// first decides, and behind the limit the call is waited for.
fn of_memory(source: &Accepted, all: &[&Expectation], asking: Asking) -> Decided {
    if all.is_empty() {
        return Decided { all: Vec::new(), cut: false };
    }
    let (model, file) = (source.program.model, source.file.clone());
    let scratch = asking.memory.for_outcomes(model, &source.program);
    let asked: Vec<Kind> = all.iter().map(|one| one.kind.clone()).collect();
    let enough = move |all: &[Attained]| asked.iter().all(|kind| all.iter().any(|attained| decides(kind, attained)));
    let wait = begun(move || ask::outcomes_until(model, &file, &scratch, enough));
    let found = match wait.recv_timeout(PATIENCE) {
        Ok(found) => Some(found),
        Err(_) => {
            let walked = walk(source, all, asking);
            if walked.cut || walked.all.iter().all(|one| one.verdict != Verdict::Open) {
                return walked;
            }
            waiting_or_cut(asking.quiet, &wait)
        }
    };
    let outcomes = found.map(|found| found.expect("the file is accepted"));
    Decided { all: all.iter().map(|one| by_outcomes(one, outcomes.as_deref())).collect(), cut: outcomes.is_none() }
}

/// Is an outcome one that decides what speaks of memory and failures alone?
fn decides(kind: &Kind, attained: &Attained) -> bool {
    match kind {
        Kind::Exists(condition) | Kind::Forbid(condition) => condition.holds_of(&attained.outcome),
        Kind::Forall(condition) => !condition.holds_of(&attained.outcome),
        Kind::Violation | Kind::NoViolation => attained.outcome.fails,
    }
}

/// The first execution that fails, or that none does; nothing where Ctrl-C came first.
fn failing(source: &Accepted, asking: Asking) -> Option<Option<Schedule>> {
    let (model, file) = (source.program.model, source.file.clone());
    let scratch = asking.memory.looked_at(model, &source.program);
    let wait = begun(move || ask::violation_in(model, &file, &scratch));
    waiting_or_cut(asking.quiet, &wait).map(|first| first.expect("the file is accepted"))
}

fn by_outcomes(one: &Expectation, outcomes: Option<&[Attained]>) -> Decision {
    let Some(outcomes) = outcomes else { return Decision { verdict: Verdict::Open, looked: Looked::Outcomes(0) } };
    let first = outcomes.iter().find(|attained| decides(&one.kind, attained));
    let first = first.map(|attained| Shown { schedule: attained.first, exchanged: false });
    Decision { verdict: verdict(one, first), looked: Looked::Outcomes(outcomes.len() as u64) }
}

fn by_failures(one: &Expectation, first: Option<Option<Schedule>>) -> Decision {
    let shown = |first: Option<Schedule>| first.map(|schedule| Shown { schedule, exchanged: false });
    Decision { verdict: first.map_or(Verdict::Open, |first| verdict(one, shown(first))), looked: Looked::Failures }
}

/// The first exchange with which this listed execution is one that decides.
fn deciding<'e>(kind: &Kind, listed: &Listed, end: &Final, exchanges: &'e [Exchange]) -> Option<&'e Exchange> {
    let first =
        |condition: &Condition, wanted: bool| exchanges.iter().find(|exchange| condition.holds(&exchange.end(end)) == wanted);
    match kind {
        Kind::Exists(condition) | Kind::Forbid(condition) => first(condition, true),
        Kind::Forall(condition) => first(condition, false),
        Kind::Violation | Kind::NoViolation => exchanges.first().filter(|_| listed.fails),
    }
}

/// Decides these by a walk over the list, of which at most so many are looked at.
fn walk(source: &Accepted, all: &[&Expectation], asking: Asking) -> Decided {
    if all.is_empty() {
        return Decided { all: Vec::new(), cut: false };
    }
    let exchanges = exchanges(&source.program);
    let mut found: Vec<Option<Shown>> = vec![None; all.len()];
    let (mut walked, mut over, mut cut) = (0, false, false);
    let mut each = |listed: &Listed| {
        if walked == asking.limit {
            over = true;
            return false;
        }
        walked += 1;
        let end = Final::of(&source.program, &listed.schedule);
        assert_eq!(end.fails(), listed.fails, "the replay fails exactly where the library says so");
        for (one, found) in all.iter().zip(&mut found).filter(|(_, found)| found.is_none()) {
            let exchange = deciding(&one.kind, listed, &end, &exchanges);
            *found = exchange
                .map(|exchange| Shown { schedule: exchange.schedule(&listed.schedule), exchanged: !exchange.is_identity() });
        }
        found.iter().any(Option::is_none)
    };
    let _ = jobs::parts(&List::of(source, true), asking.jobs, |part| {
        cut = part.cut;
        match part.listed.iter().all(&mut each) {
            true => Ok(()),
            false => Err(io::Error::other("decided, or behind the limit")),
        }
    });
    let decision = |(one, found): (&&Expectation, Option<Shown>)| {
        let open = found.is_none() && (over || cut);
        Decision { verdict: if open { Verdict::Open } else { verdict(one, found) }, looked: Looked::Listed(walked) }
    };
    Decided { all: all.iter().zip(found).map(decision).collect(), cut }
}
