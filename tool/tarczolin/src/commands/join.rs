//! join: pieces of a list, each as `list --after A --until B` printed it, put together to the whole list. Nothing is written before all
//! pieces were read and fit.
use super::arguments::Arguments;
use super::spool::Spool;
use crate::ask::Counts;
use crate::called::called;
use crate::end::End;
use crate::error::Error;
use crate::json::object;
use crate::progress::Progress;
use crate::{hex, output};
use std::ffi::OsStr;
use std::io::{self, BufRead, Read, Write};

/// A line has at most so many characters: two bytes, 48 steps, the end of the line.
const LONGEST: usize = 2 * (2 + tarczolin_sys::tso::SCHEDULE) + 1;

pub fn run(arguments: &Arguments) -> Result<End, Error> {
    let names = arguments.names()?;
    let mut progress = Progress::default();
    let mut seen = Joined::default();
    let mut pieces = Vec::new();
    for name in &names {
        let (mut spool, mut reader) = Spool::of(name).map_err(|cause| unread(name, cause))?;
        let read = seen.piece(name, &mut *reader, &mut |line, counts| {
            progress.tell(counts, || None);
            spool.keep(&line.text)
        });
        read?.map_err(|cause| unread(name, cause))?;
        pieces.push((*name, spool));
    }
    progress.hide();
    let failing = seen.counts.failing;
    output::ended(copied(pieces, arguments.flag("--json"))?, End::of_failing(failing))
}

/// Copies the lines of all pieces, and their counts. The inner result is that of writing.
fn copied(pieces: Vec<(&OsStr, Spool)>, json: bool) -> Result<io::Result<()>, Error> {
    let mut out = output::standard();
    let mut joined = Joined::default();
    for (name, spool) in pieces {
        let mut reader = spool.again().map_err(|cause| unread(name, cause))?;
        let written = joined.piece(name, &mut *reader, &mut |line, _| match line.listed() {
            true => out.write_all(line.told(json).as_bytes()),
            false => Ok(()),
        });
        match written? {
            Ok(()) => {}
            stopped => return Ok(stopped),
        }
    }
    Ok(out.write_all(joined.last_line(json).as_bytes()).and_then(|()| out.flush()))
}

fn unread(name: &OsStr, cause: io::Error) -> Error {
    Error::File { name: called(name), cause }
}

/// A line of a piece, and its bytes.
struct Line {
    text: String,
    bytes: Vec<u8>,
}

/// What was joined so far.
#[derive(Default)]
struct Joined {
    counts: Counts,
    last: Option<Vec<u8>>,
}

impl Joined {
    /// Reads a piece, whose schedules must go on behind those before and which must end with their counts, and hands on each line with
    /// the counts so far. The inner result is that of handing on.
    fn piece(
        &mut self,
        name: &OsStr,
        reader: &mut dyn BufRead,
        each: &mut dyn FnMut(&Line, Counts) -> io::Result<()>,
    ) -> Result<io::Result<()>, Error> {
        let wrong = |message: String| Error::usage(format!("{}: {message}", called(name)));
        let mut piece = Counts::default();
        let mut ended = false;
        while let Some(line) = next_line(reader).map_err(|cause| unread(name, cause))? {
            match line.bytes.as_slice() {
                [0x50, fails @ 0..=1, steps @ ..] if !ended && self.last.as_deref() < Some(steps) => {
                    piece.add(*fails == 1);
                    self.last = Some(steps.to_vec());
                }
                [0x51, counts @ ..] if !ended && counts == bytes(piece) => ended = true,
                _ => return Err(wrong(format!("this line does not go on with the list: {}", line.text))),
            }
            if let Err(error) = each(&line, self.counts + piece) {
                return Ok(Err(error));
            }
        }
        self.counts += piece;
        match ended {
            true => Ok(Ok(())),
            false => Err(wrong("the piece is cut short: it has no line of counts".to_string())),
        }
    }

    fn last_line(&self, json: bool) -> String {
        let Counts { listed, failing } = self.counts;
        match json {
            true => format!("{}\n", object([("command", "join".into()), ("listed", listed.into()), ("failing", failing.into())])),
            false => hex::line(&[&[0x51], &bytes(self.counts)[..]].concat()),
        }
    }
}

impl Line {
    /// Is it the line of a schedule, not that of a piece's counts?
    fn listed(&self) -> bool {
        self.bytes.first() == Some(&0x50)
    }

    fn told(&self, json: bool) -> String {
        match (json, self.bytes.as_slice()) {
            (true, [_, fails, steps @ ..]) => {
                let fields = [("schedule", hex::digits(steps).into()), ("fails", (*fails == 1).into())];
                format!("{}\n", object([("command", "join".into()), fields[0].clone(), fields[1].clone()]))
            }
            _ => format!("{}\n", self.text),
        }
    }
}

/// The next line, for the eye and its bytes, none of which there are where it is no line of digits; of a line that is too long for a list
/// only the front.
fn next_line(reader: &mut dyn BufRead) -> io::Result<Option<Line>> {
    let mut line = Vec::new();
    reader.take(LONGEST as u64).read_until(b'\n', &mut line)?;
    if line.is_empty() {
        return Ok(None);
    }
    let line = line.strip_suffix(b"\n").unwrap_or(&line);
    let text = String::from_utf8_lossy(line).chars().map(|c| if c.is_control() { '?' } else { c }).collect();
    Ok(Some(Line { text, bytes: hex::bytes(line).unwrap_or_default() }))
}

/// The two counts, eight bytes each.
fn bytes(counts: Counts) -> Vec<u8> {
    [counts.listed.to_be_bytes(), counts.failing.to_be_bytes()].concat()
}
