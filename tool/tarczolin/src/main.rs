//! tarczolin COMMAND ..: see `tarczolin help`.
use std::ffi::OsString;
use std::process::ExitCode;

fn main() -> ExitCode {
    let words: Vec<OsString> = std::env::args_os().skip(1).collect();
    tarczolin::commands::run(&words)
}
