//! list: the lines of the listing program.
use super::arguments::Arguments;
use super::piece::{self, Found, Piece};
use super::reply::{each, Question};
use crate::ask::{Counts, Listed};
use crate::end::End;
use crate::error::{Error, Refused, Subject};
use crate::jobs::List;
use crate::{hex, output};
use std::io::{self, Write};

pub fn run(arguments: &Arguments) -> Result<End, Error> {
    let piece = Piece::of(arguments)?;
    each("list", arguments, |question| listed(question, &piece))
}

fn listed(question: &Question, piece: &Piece) -> Result<End, Error> {
    let source = question.source_under(piece.model).inspect_err(|error| refused(question, error))?;
    let list = piece.list(List::of(&source, true))?;
    let mut out = output::standard();
    let headed = if question.json { Ok(()) } else { out.write_all(question.heading().as_bytes()) };
    let mut lines = Vec::new();
    let found = piece::walk(&list, piece.jobs, piece.memory, |part| {
        lines.clear();
        part.listed.iter().for_each(|listed| put_line(question, listed, &mut lines));
        out.write_all(&lines)
    });
    let Found { counts, cut, .. } = found;
    let written = headed.and(found.written.as_ref().map_or(Ok(()), |error| Err(io::Error::from(error.kind()))));
    let written = written.and_then(|()| match cut {
        true => out.flush(),
        false => out.write_all(last_line(question, counts).as_bytes()).and_then(|()| out.flush()),
    });
    piece::tell_cut(&found);
    output::ended(written, if cut { End::of_cut(counts.failing) } else { End::of_failing(counts.failing) })
}

/// A refused file gets the line of the listing program too.
fn refused(question: &Question, error: &Error) {
    if let (Error::Refused(Refused { subject: Subject::File(_), refusal, .. }), false) = (error, question.json) {
        let place = (refusal.place as u16).to_be_bytes();
        // a pipe that is closed changes nothing: the refusal is told on standard error
        let line = hex::line(&[0x52, refusal.number, place[0], place[1]]);
        let _ = output::answer(question.heading() + &line, End::Refused);
    }
}

/// Puts the line of a listed schedule behind others.
fn put_line(question: &Question, listed: &Listed, lines: &mut Vec<u8>) {
    if question.json {
        let object = question.object([("schedule", listed.schedule.to_string().into()), ("fails", listed.fails.into())]);
        lines.extend(object.as_bytes());
        return;
    }
    hex::put(lines, &[0x50, listed.fails as u8]);
    hex::put(lines, &listed.schedule);
    lines.push(b'\n');
}

/// The line of the counts.
fn last_line(question: &Question, counts: Counts) -> String {
    if question.json {
        return question.object([("listed", counts.listed.into()), ("failing", counts.failing.into())]);
    }
    hex::line(&[&[0x51], &counts.listed.to_be_bytes()[..], &counts.failing.to_be_bytes()].concat())
}
