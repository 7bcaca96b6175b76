//! What has to be known of how a file was read, in words and as JSON under one name: notes.
use crate::error::Mark;
use crate::json::{list, object, Json};

#[derive(Clone, Debug, PartialEq, Eq)]
pub enum Note {
    /// What is allowed and looks like a slip, at its place in the text.
    Warning(Mark),
    /// What was done that the text alone does not tell.
    Note(String),
}

impl Note {
    /// For the eye, with the file's name.
    pub fn told(&self, name: &str) -> String {
        match self {
            Note::Warning(mark) => Mark { message: format!("warning: {}", mark.message), ..mark.clone() }.told(name),
            Note::Note(message) => format!("{name}: {message}"),
        }
    }

    fn json(&self) -> Json {
        let (kind, place, message) = match self {
            Note::Warning(mark) => ("warning", Some([mark.line as u64, mark.column as u64]), &mark.message),
            Note::Note(message) => ("note", None, message),
        };
        let [line, column] = [0, 1].map(|k| place.map(|place| place[k]).into());
        object([("kind", kind.into()), ("line", line), ("column", column), ("message", message.as_str().into())])
    }
}

/// The field that all of them are.
pub fn field(notes: &[Note]) -> (&'static str, Json) {
    ("notes", list(notes.iter().map(Note::json)))
}
