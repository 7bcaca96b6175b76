//! users: a host of four callers, driven by lines on standard input, each answered by a line.
use super::arguments::Arguments;
use crate::called::{called, visible};
use crate::end::End;
use crate::error::Error;
use crate::input;
use crate::json::Json;
use crate::note::{self, Note};
use crate::output;
use crate::users::{Call, Host, Said};
use std::ffi::OsStr;
use std::io::{self, BufRead, Read, Write};

/// Of a line no more is read than a file's bytes as digits, and some words.
const LONGEST: u64 = 16384;

pub fn run(arguments: &Arguments) -> Result<End, Error> {
    if arguments.at_most_one()?.is_some() {
        return Err(Error::Words);
    }
    let (mut host, mut end, json) = (Host::default(), End::Answered, arguments.flag("--json"));
    let unread = |cause| Error::File { name: called(OsStr::new("-")), cause };
    let (mut input, mut out) = (input::standard().map_err(unread)?.lock(), io::stdout().lock());
    for place in 1u64.. {
        let mut line = Vec::new();
        let read = (&mut input).take(LONGEST).read_until(b'\n', &mut line);
        if read.map_err(unread)? == 0 {
            break;
        }
        let said = match Call::of_line(&String::from_utf8_lossy(&line)) {
            Ok(None) => continue,
            Ok(Some(call)) => host.call(&call).map_err(|error| error.to_string()),
            Err(message) => Err(message),
        };
        if said.is_err() {
            end = End::Refused;
        }
        let text = noted(json, place, &host.notes()) + &told(json, place, &said);
        let written = out.write_all(text.as_bytes()).and_then(|()| out.flush());
        if written.is_err() {
            return output::ended(written, end);
        }
    }
    Ok(end)
}

/// The line that answers a line; an error is one line too.
fn told(json: bool, place: u64, said: &Result<Said, String>) -> String {
    if !json {
        return match said {
            Ok(said) => format!("{said}\n"),
            Err(message) => format!("error: {}\n", visible(message).replace('\n', "; ")),
        };
    }
    let fields = match said {
        Ok(said) => said.fields(),
        Err(message) => vec![("error", message.as_str().into())],
    };
    object(place, fields)
}

/// What has to be known of how a file was read, which words tell on standard error only.
fn noted(json: bool, place: u64, notes: &[Note]) -> String {
    match json && !notes.is_empty() {
        true => object(place, vec![note::field(notes)]),
        false => String::new(),
    }
}

/// An object of these fields about a line.
fn object(place: u64, fields: Vec<(&str, Json)>) -> String {
    let front = [("command", Json::from("users")), ("line", place.into())];
    let fields = front.into_iter().chain(fields).map(|(name, value)| (name.to_string(), value));
    format!("{}\n", Json::Object(fields.collect()))
}
