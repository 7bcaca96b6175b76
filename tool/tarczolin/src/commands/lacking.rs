//! An execution of one program whose outcome another lacks: by the library, each program under its own model.
use super::record;
use crate::accepted::Accepted;
use crate::ask::{self, Outcome};
use crate::error::Error;
use crate::execution::Execution;
use crate::json::{list as json_list, object, Json};
use crate::matching::matched;
use crate::memory::Memory;
use crate::program::Names;
use crate::progress::waiting;
use crate::schedule::Schedule;
use crate::show::{columns, By};
use std::collections::BTreeSet;

/// Two programs by the same names, locations of the same name at the same number; or why it is not known which are the same.
pub fn comparable(first: &Accepted, second: &Accepted, by_number: bool) -> Result<[Accepted; 2], Error> {
    let matched = matched(first, second, by_number);
    let matched = matched.map_err(|message| Error::Unfit { name: second.name.clone(), message })?;
    Ok([first.moved(&|l| l, &matched.names), second.moved(&|l| matched.to[l as usize], &matched.names)])
}

/// The first listed schedule of the second with an outcome that the first lacks, or none where each is one of the first.
pub fn lacking(programs: &[Accepted; 2], memory: Memory) -> Option<Schedule> {
    let [first, second] = programs.each_ref().map(|one| (one.program.model, one.file.as_slice()));
    let lent = programs.iter().map(|one| memory.outcome_words(one.program.model, &one.program));
    let mut scratch = Memory::had(lent.max().unwrap_or(0));
    waiting(|| ask::covers(first, second, &mut scratch)).expect("both files are accepted")
}

/// What is told of an outcome that one program has and the other lacks.
pub struct Lack<'a> {
    pub old: &'a Accepted,
    pub new: &'a Accepted,
    execution: Execution<'a>,
    /// The outcomes of the old one, ascending.
    outcomes: BTreeSet<Outcome>,
    /// The locations that one of the two uses.
    used: BTreeSet<u8>,
}

impl<'a> Lack<'a> {
    pub fn of([old, new]: &'a [Accepted; 2], schedule: &Schedule, memory: Memory) -> Lack<'a> {
        let execution = Execution::replayed(&new.file, &new.program, schedule).expect("a listed schedule is full");
        let model = old.program.model;
        let scratch = memory.for_outcomes(model, &old.program);
        let all = waiting(|| ask::outcomes(model, &old.file, &scratch)).expect("the file is accepted");
        let used = old.program.locations().into_iter().chain(new.program.locations()).collect();
        Lack { old, new, execution, outcomes: all.iter().map(|attained| attained.outcome).collect(), used }
    }

    pub fn schedule(&self) -> Schedule {
        self.execution.schedule
    }

    fn outcome(&self) -> Outcome {
        Outcome { memory: self.execution.memory, fails: self.execution.fails }
    }

    /// In two columns, with its outcome and those of the old one, which are said to be whose they are.
    pub fn told(&self, whose: &str) -> String {
        let outcome = self.words(&self.outcome());
        let others: String = self.outcomes.iter().map(|one| format!("  {}\n", self.words(one))).collect();
        format!("{}outcome    {outcome}\n\noutcomes {whose}:\n{others}", columns(&self.execution, By::Time))
    }

    /// The fields of the execution, its outcome and those of the old one among them.
    pub fn json(&self) -> [(&'static str, Json); 8] {
        let [_, schedule, fails, _, steps, at_once, memory, registers] = record::execution(&self.execution);
        let outcomes = json_list(self.outcomes.iter().map(|one| self.object(one)));
        let outcome = ("outcome", self.object(&self.outcome()));
        [schedule, fails, outcome, ("outcomes", outcomes), steps, at_once, memory, registers]
    }

    fn names(&self) -> &Names {
        &self.new.program.names
    }

    /// An outcome by names, of the locations that one of the two programs uses.
    fn words(&self, Outcome { memory, fails }: &Outcome) -> String {
        let values = self.used.iter().map(|l| format!("{}={}", self.names().location(*l), memory[*l as usize]));
        let all: Vec<String> = values.chain(fails.then(|| "fails".to_string())).collect();
        if all.is_empty() {
            "no location is used, and nothing fails".to_string()
        } else {
            all.join(", ")
        }
    }

    fn object(&self, Outcome { memory, fails }: &Outcome) -> Json {
        let memory = self.used.iter().map(|l| (self.names().location(*l), memory[*l as usize].into())).collect();
        object([("memory", Json::Object(memory)), ("fails", (*fails).into())])
    }
}
