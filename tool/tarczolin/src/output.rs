//! Standard output: line by line for a terminal, in larger pieces for a file or a pipe.
use crate::called::visible;
use crate::end::End;
use crate::error::Error;
use std::io::{self, BufWriter, ErrorKind, IsTerminal, Write};

pub fn standard() -> Box<dyn Write> {
    let out = io::stdout();
    if out.is_terminal() {
        Box::new(out)
    } else {
        Box::new(BufWriter::with_capacity(1 << 16, out))
    }
}

/// How a command ends that found so much and wrote it so far. Whoever closes a pipe early (`| head`) has read enough: what was
/// found until then counts. Any other failure to write is told.
pub fn ended(written: io::Result<()>, found: End) -> Result<End, Error> {
    match written {
        Err(error) if error.kind() != ErrorKind::BrokenPipe => Err(Error::Output(error)),
        _ => Ok(found),
    }
}

/// Writes a whole answer to standard output, and ends by what was found. A terminal gets it with control characters written out, since
/// remark lines of a file may hold any; a file or a pipe gets it as it is.
pub fn answer(text: impl AsRef<str>, found: End) -> Result<End, Error> {
    let mut out = io::stdout().lock();
    let text = if out.is_terminal() { visible(text.as_ref()) } else { text.as_ref().to_string() };
    ended(out.write_all(text.as_bytes()).and_then(|()| out.flush()), found)
}

/// Tells on standard error, in one line or a few, what the one who asked has to know.
pub fn tell(text: &str) {
    eprintln!("tarczolin: {}", visible(text));
}
