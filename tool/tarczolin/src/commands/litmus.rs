//! import-litmus and export-litmus: the part of x86 litmus tests that fits.
use super::arguments::Arguments;
use super::reply::{each, Question};
use crate::called::called;
use crate::end::End;
use crate::error::Error;
use crate::note::Note;
use crate::{input, litmus};

/// What is told where a program that expects something is exported.
const LEFT_OUT: &str = "what is expected of the program is left out: the test has the condition exists (true)";

/// What does not fit.
fn unfit(question: &Question, message: String) -> Error {
    Error::Unfit { name: called(question.file), message }
}

pub fn import(arguments: &Arguments) -> Result<End, Error> {
    each("import-litmus", arguments, |question| {
        let text = input::text(question.file)?;
        let name = called(question.file).to_string();
        let form = litmus::import(&String::from_utf8_lossy(&text)).map_err(|marks| Error::Text { name, marks })?.form;
        question.answer_text(form.clone(), [("text", form.into())], End::Answered)
    })
}

pub fn export(arguments: &Arguments) -> Result<End, Error> {
    each("export-litmus", arguments, |question| {
        let source = question.whole_source()?;
        let test = litmus::export("exported", &source.program).map_err(|message| unfit(question, message))?;
        if !source.said.is_empty() {
            question.noted(&source.name, &[Note::Note(LEFT_OUT.to_string())])?;
        }
        question.answer_text(test.clone(), [("text", test.into())], End::Answered)
    })
}
