//! Least sets of fences: by asking for sets of places in order of what they cost. That some execution fails with a set, or that none does, is
//! the library's word; which sets are asked for is plain Rust, which is not proved.
use crate::accepted::Accepted;
use crate::asm::{fenced, places, Group, Place};
use crate::decide::{decide, Asking, Verdict};
use crate::error::Error;
use crate::expect::{Expectation, Kind};
use crate::input::Content;
use crate::model::Model;
use crate::program::{Program, ACCESSES_TSO};
use crate::schedule::Schedule;

/// A set of places that does it: the text with its fences, and how many accesses that has.
pub struct Set {
    pub places: Vec<Place>,
    pub text: Vec<u8>,
    pub fences: usize,
    pub accesses: usize,
}

/// What was found.
pub enum Least {
    /// These, all of the least cost; a set of no place where no fence is needed. So many sets of as few fences or fewer do not fit the program.
    Sets(Vec<Set>, usize),
    /// Fences cannot help: under sequential consistency, where they mean nothing, this execution is wrong too.
    None(Schedule),
}

/// A question about fences: a text in the text form, and how it is decided for each set.
pub struct Search<'a> {
    pub name: &'a str,
    pub text: &'a [u8],
    pub asking: Asking,
}

/// What is to be met, asked under a model: what the file forbids under total store order, and that no assertion fails.
fn goals(source: &Accepted, model: Model) -> Result<Vec<Expectation>, Error> {
    let all = source.expectations()?.into_iter().filter(|one| one.speaks_of(Model::Tso));
    let mut goals: Vec<Expectation> = all.filter(Expectation::forbids).collect();
    if !goals.iter().any(|one| one.kind == Kind::NoViolation) {
        goals.push(Expectation { kind: Kind::NoViolation, model: None, text: "expect none".to_string(), line: 0 });
    }
    goals.iter_mut().for_each(|one| one.model = Some(model));
    Ok(goals)
}

/// Is there anything that an execution could do wrong?
fn asserts(program: &Program) -> bool {
    program.threads.iter().flatten().any(|instruction| instruction.is_assertion())
}

impl Search<'_> {
    fn unfit(&self, message: String) -> Error {
        Error::Unfit { name: self.name.to_string(), message }
    }

    /// The program of a text under a model.
    fn accepted(&self, text: &[u8], model: Model) -> Result<Accepted, Error> {
        Accepted::of(&Content::of_text(self.name, text), Some(model))
    }

    /// The first execution that is wrong under this model, or none.
    fn wrong(&self, source: &Accepted, goals: &[Expectation]) -> Result<Option<Schedule>, Error> {
        let decided = decide(source, &goals.iter().collect::<Vec<_>>(), self.asking);
        let shown = decided.all.iter().find_map(|one| match one.verdict {
            Verdict::Fails(Some(shown)) => Some(shown.schedule),
            _ => None,
        });
        if shown.is_none() && decided.all.iter().any(|one| one.verdict == Verdict::Open) {
            let listed = format!("more than {} are listed; a greater number behind --limit looks at more", self.asking.limit);
            let why = if decided.cut { "interrupted".to_string() } else { listed };
            return Err(self.unfit(format!("not decided: {why}")));
        }
        Ok(shown)
    }

    /// The least sets of places.
    pub fn least(&self) -> Result<Least, Error> {
        let bare = self.accepted(self.text, Model::Tso)?;
        let goals_tso = goals(&bare, Model::Tso)?;
        if !asserts(&bare.program) && goals_tso.iter().all(|one| one.kind == Kind::NoViolation) {
            return Err(
                self.unfit("there is nothing to keep: the program asserts nothing, and the file forbids nothing".to_string())
            );
        }
        if self.wrong(&bare, &goals_tso)?.is_none() {
            return Ok(Least::Sets(vec![self.set(&[], self.text.to_vec(), &bare, &bare)], 0));
        }
        let strong = self.accepted(self.text, Model::Sc)?;
        if let Some(schedule) = self.wrong(&strong, &goals(&strong, Model::Sc)?)? {
            return Ok(Least::None(schedule));
        }
        self.by_cost(&bare, &goals_tso)
    }

    fn set(&self, places: &[&Place], text: Vec<u8>, source: &Accepted, bare: &Accepted) -> Set {
        let accesses = |source: &Accepted| source.program.used().accesses;
        let places = places.iter().map(|place| (*place).clone()).collect();
        Set { places, text, fences: accesses(source) - accesses(bare), accesses: accesses(source) }
    }

    /// The sets that do it, of the least cost.
    fn by_cost(&self, bare: &Accepted, goals: &[Expectation]) -> Result<Least, Error> {
        let groups = places(self.text, &bare.program.alike);
        if groups.len() > MOST {
            let message = format!("there are {} places for fences, and at most {MOST} are tried", groups.len());
            return Err(self.unfit(message));
        }
        let room = ACCESSES_TSO - bare.program.used().accesses;
        let (mut found, mut unfit): (Vec<Set>, usize) = (Vec::new(), 0);
        for chosen in by_size(&groups) {
            if found.first().is_some_and(|best| cost(&chosen) > best.fences) {
                break;
            }
            let places: Vec<&Place> = chosen.into_iter().flatten().collect();
            let made = fenced(self.text, &places).and_then(|text| Some((self.accepted(&text, Model::Tso).ok()?, text)));
            let Some((source, text)) = made else {
                unfit += 1;
                continue;
            };
            if self.wrong(&source, goals)?.is_none() {
                found.push(self.set(&places, text, &source, bare));
            }
        }
        if found.is_empty() {
            return Err(self.unfit(format!(
                "not found: under sequential consistency nothing is wrong, so fences at enough places would do it, but {unfit} sets of places do \
                 not fit the program, which has room for {room} more accesses of {ACCESSES_TSO}"
            )));
        }
        Ok(Least::Sets(found, unfit))
    }
}

/// So many places are tried at most: there are more sets of them than anybody waits for.
const MOST: usize = 16;

/// So many fences stand at these places.
fn cost(set: &[&Group]) -> usize {
    set.iter().flat_map(|group| group.iter()).map(|place| place.times).sum()
}

/// All sets of groups but the empty one, those of fewer fences first.
fn by_size(groups: &[Group]) -> Vec<Vec<&Group>> {
    let members = |bits: u32| (0..groups.len()).filter(move |k| bits >> k & 1 == 1).map(|k| &groups[k]).collect::<Vec<&Group>>();
    let mut all: Vec<Vec<&Group>> = (1u32..1 << groups.len()).map(members).collect();
    all.sort_by_key(|set| (cost(set), set.iter().map(|group| group[0].line).collect::<Vec<_>>()));
    all
}
