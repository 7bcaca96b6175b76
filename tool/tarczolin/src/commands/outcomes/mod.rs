//! outcomes: each different end of the executions. Final memory and whether it fails are the library's outcomes; with registers, or with how many
//! end so, the list is walked.
mod called;
mod walked;

use super::arguments::Arguments;
use super::expected::{self, asking};
use super::opt::Opt;
use super::piece::Piece;
use super::reply::each;
use crate::end::End;
use crate::error::Error;
use crate::note::Note;
use crate::outcome::Condition;
use walked::Apart;

pub const REGISTERS: Opt = Opt {
    name: "--registers",
    value: None,
    about: "ends that differ in registers are told apart, with what fails and how many listed executions end so: by a walk over the list",
};
pub const COUNT: Opt = Opt {
    name: "--count",
    value: None,
    about: "also how many listed executions end so, and how many they stand for: by a walk over the list",
};

pub fn run(arguments: &Arguments) -> Result<End, Error> {
    let piece = Piece::of(arguments)?;
    let condition = arguments.option("--where")?;
    let [registers, count] = [REGISTERS, COUNT].map(|option| arguments.flag(option.name));
    let asking = asking(arguments, piece.jobs)?;
    each("outcomes", arguments, |question| {
        let source = question.source_under(piece.model)?;
        let expectations = source.expectations()?;
        expected::note_others(question, &source, &expectations, piece.model)?;
        let condition = condition.map(|text| Condition::of(text, &source.program)).transpose();
        let condition = condition.map_err(|message| Error::Condition { name: source.name.clone(), message })?;
        let needed = condition.as_ref().is_some_and(|condition| !condition.is_of_memory());
        if needed && !registers {
            let words = "the condition speaks of registers or of one thread's failure: as with --registers, the list is walked";
            question.noted(&source.name, &[Note::Note(words.to_string())])?;
        }
        let end = match (registers || needed, count) {
            (true, _) => walked::ends(question, &source, &piece, condition.as_ref(), Apart::ByRegisters),
            (false, true) => walked::ends(question, &source, &piece, condition.as_ref(), Apart::ByMemory),
            (false, false) => called::outcomes(question, &source, &piece, condition.as_ref()),
        }?;
        Ok(end.max(expected::tell(question, &source, &expectations, asking)?))
    })
}
