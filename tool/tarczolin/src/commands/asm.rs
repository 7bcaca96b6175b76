//! asm: from the text form to a program file.
use super::arguments::Arguments;
use super::models::only_model;
use super::reply::{each, Question};
use crate::called::called;
use crate::end::End;
use crate::error::Error;
use crate::model::Model;
use crate::program::Program;
use crate::{ask, asm, expect, input, program, refusal};

pub fn run(arguments: &Arguments) -> Result<End, Error> {
    let (remarks, model) = (arguments.flag("--remarks"), only_model(arguments)?);
    each("asm", arguments, |question| assembled(question, remarks, model))
}

/// The program file for one memory model or for both, with the text's names and remark lines if they are wanted.
fn assembled(question: &Question, remarks: bool, model: Option<Model>) -> Result<End, Error> {
    let text = input::text(question.file)?;
    let name = called(question.file);
    if ask::check(&text).is_ok() && program::frames(&text).is_some_and(|frames| !frames.is_empty()) {
        let message = "this is a program file already; disasm makes a text of it".to_string();
        return Err(Error::Unfit { name, message });
    }
    let made = asm::assemble_for(&text, model).map_err(|marks| Error::Text { name: name.clone(), marks })?;
    let accepted = ask::accepted(model.unwrap_or_default(), &made.file);
    accepted.map_err(|refused| refusal::of_program(&name, &made.file, refused))?;
    let wrong = expect::wrong_statements(&made.said, &Program::of_accepted(&made.file).named(&made.names));
    if !wrong.is_empty() {
        return Err(Error::Text { name, marks: wrong });
    }
    question.noted(&name, &input::notes(made.warnings, made.left_out))?;
    let mut file = made.file;
    if remarks {
        let frames = program::frames(&file).expect("frames only");
        file = asm::remarked(&frames, &made.names, &made.remarks);
        if asm::said(&file, false).len() < made.said.len() {
            let message =
                "with its remark lines the program file would be longer than 4096 bytes, and what is expected stands in them";
            return Err(Error::Unfit { name, message: message.to_string() });
        }
    }
    let file = String::from_utf8(file).expect("digits, and remarks of a text");
    question.answer_text(file.clone(), [("text", file.into())], End::Answered)
}
