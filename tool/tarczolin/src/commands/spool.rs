//! A file that is read twice: by its name, or, where it can be read only once as standard input and pipes can, from a copy.
use crate::input;
use std::ffi::OsStr;
use std::fs::{self, File};
use std::io::{self, BufRead, BufReader, BufWriter, ErrorKind, Seek, Write};
use std::os::unix::fs::OpenOptionsExt;

pub struct Spool<'a> {
    name: &'a OsStr,
    copy: Option<BufWriter<File>>,
}

impl<'a> Spool<'a> {
    /// The file, and its reader for the first time.
    pub fn of(name: &'a OsStr) -> io::Result<(Spool<'a>, Box<dyn BufRead>)> {
        if name == "-" {
            let input = input::standard()?;
            return Ok((Spool { name, copy: Some(unnamed()?) }, Box::new(BufReader::new(input))));
        }
        let file = File::open(name)?;
        let copy = if file.metadata()?.is_file() { None } else { Some(unnamed()?) };
        Ok((Spool { name, copy }, Box::new(BufReader::new(file))))
    }

    /// Keeps a line for the second time, where the file itself cannot be read again.
    pub fn keep(&mut self, line: &str) -> io::Result<()> {
        self.copy.as_mut().map_or(Ok(()), |copy| writeln!(copy, "{line}"))
    }

    /// The reader for the second time.
    pub fn again(self) -> io::Result<Box<dyn BufRead>> {
        let mut file = match self.copy {
            Some(copy) => copy.into_inner().map_err(|error| error.into_error())?,
            None => File::open(self.name)?,
        };
        file.rewind()?;
        Ok(Box::new(BufReader::new(file)))
    }
}

/// A file for what is written to it and read back; nobody else can open it, and it is gone with the command.
fn unnamed() -> io::Result<BufWriter<File>> {
    let folder = std::env::temp_dir();
    let created = |number: u32| {
        let path = folder.join(format!("tarczolin-join-{}-{number}", std::process::id()));
        let file = File::options().read(true).write(true).create_new(true).mode(0o600).open(&path)?;
        fs::remove_file(&path)?;
        Ok(BufWriter::new(file))
    };
    // a name may be taken by what another command left behind
    let is_taken = |made: &io::Result<_>| made.as_ref().is_err_and(|error: &io::Error| error.kind() == ErrorKind::AlreadyExists);
    let made = (0..99).map(created).find(|made| !is_taken(made)).unwrap_or_else(|| created(99));
    made.map_err(|cause| io::Error::new(cause.kind(), format!("no copy of it can be kept in {}: {cause}", folder.display())))
}
