//! robust: has total store order an execution that is none of sequential consistency? A no is explained by its circle.
use super::arguments::Arguments;
use super::relaxed::{first, Relaxed};
use super::reply::each;
use crate::end::End;
use crate::error::Error;
use crate::model::Model;

pub fn run(arguments: &Arguments) -> Result<End, Error> {
    each("robust", arguments, |question| {
        let source = question.source_under(Model::Tso)?;
        let Some(schedule) = first(&source) else {
            let words = "robust: every execution under total store order is one of sequential consistency";
            return question.answer(words, [("robust", true.into())], End::Answered);
        };
        let Relaxed { columns, circle, fields } = Relaxed::of(&source, &schedule);
        let [schedule, fails, steps, at_once, memory, registers, why] = fields;
        let fields = [("robust", false.into()), schedule, fails, steps, at_once, memory, registers, why];
        let front = "not robust: this execution under total store order is none of sequential consistency";
        question.answer_text(format!("{front}\n\n{columns}{circle}"), fields, End::Violation)
    })
}
