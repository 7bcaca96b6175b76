//! disasm: from a program file to the text form.
use super::arguments::Arguments;
use super::reply::each;
use crate::end::End;
use crate::error::Error;
use crate::{asm, program};

pub fn run(arguments: &Arguments) -> Result<End, Error> {
    each("disasm", arguments, |question| {
        let source = question.whole_source()?;
        let frames = program::frames(&source.file).expect("an accepted file has frames only");
        let names = &source.program.names;
        let text = asm::text(&frames, names, &source.remarks.with(names));
        question.answer_text(text.clone(), [("text", text.into())], End::Answered)
    })
}
