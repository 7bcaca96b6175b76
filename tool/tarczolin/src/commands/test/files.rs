//! The files of a suite: those named, and those below folders named, in order of their names.
use crate::error::Error;
use std::collections::BTreeSet;
use std::ffi::{OsStr, OsString};
use std::fs;
use std::io;
use std::os::unix::ffi::OsStrExt;
use std::os::unix::fs::MetadataExt;
use std::path::{Path, PathBuf};

/// A file of a folder is taken where its name ends so.
const ENDS: [&[u8]; 3] = [b".asm", b".hex", b".litmus"];

/// A file to be tested, or a path of which none can be told.
pub type Named = Result<OsString, Error>;

/// The files of these paths. A file that is named is taken whatever its name is; of a folder those whose names end as programs' do.
pub fn files(paths: &[&OsStr]) -> Vec<Named> {
    let mut all = Vec::new();
    for path in paths {
        match *path != "-" && Path::new(path).is_dir() {
            true => folder(Path::new(path), &mut BTreeSet::new(), &mut all),
            false => all.push(Ok(path.to_os_string())),
        }
    }
    all
}

fn unread(path: &Path, cause: io::Error) -> Named {
    Err(Error::File { name: crate::called::called(path.as_os_str()), cause })
}

/// The files below a folder; a folder that links lead back to is taken once.
fn folder(path: &Path, seen: &mut BTreeSet<(u64, u64)>, all: &mut Vec<Named>) {
    let entries = fs::metadata(path).and_then(|at| match seen.insert((at.dev(), at.ino())) {
        true => fs::read_dir(path)?.map(|entry| Ok(entry?.path())).collect::<io::Result<Vec<PathBuf>>>(),
        false => Ok(Vec::new()),
    });
    let mut entries = match entries {
        Ok(entries) => entries,
        Err(cause) => return all.push(unread(path, cause)),
    };
    entries.sort();
    for entry in entries {
        let taken = ENDS.iter().any(|end| entry.as_os_str().as_bytes().ends_with(end));
        match fs::metadata(&entry) {
            Ok(at) if at.is_dir() => folder(&entry, seen, all),
            Ok(at) if at.is_file() && taken => all.push(Ok(entry.into_os_string())),
            Err(cause) if taken => all.push(unread(&entry, cause)),
            _ => {}
        }
    }
}
