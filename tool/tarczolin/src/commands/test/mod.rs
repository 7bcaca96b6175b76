//! test: files and folders, each file under the models that its expectations speak of; a line each, and one exit status.
mod files;
mod junit;
mod report;

use super::arguments::Arguments;
use super::expected::{asking, notes, LIMIT};
use super::opt::Opt;
use super::piece::JOBS;
use super::reply::JSON;
use crate::called::called;
use crate::decide::Asking;
use crate::end::End;
use crate::error::Error;
use crate::json::{object, Json};
use crate::{input, output};
use files::Named;
use report::{Ended, Report};
use std::ffi::OsStr;
use std::sync::atomic::{AtomicUsize, Ordering};
use std::sync::mpsc::channel;
use std::time::Instant;

pub const OPTIONS: &[Opt] = &[
    Opt { name: "--jobs", value: Some("N"), about: "so many files at a time" },
    Opt { name: "--filter", value: Some("TEXT"), about: "only files whose path holds this text" },
    Opt { name: "--junit", value: Some("OUT"), about: "the report as JUnit writes it, into this file too" },
    LIMIT,
    JSON,
];

/// What is told, and how.
struct Telling {
    json: bool,
    reports: Vec<Report>,
    end: End,
}

pub fn run(arguments: &Arguments) -> Result<End, Error> {
    let paths = arguments.names()?;
    let asking = Asking { quiet: true, ..asking(arguments, 1)? };
    let jobs = arguments.number("--jobs", JOBS)? as usize;
    let filter = arguments.option("--filter")?.unwrap_or("");
    let holds = |file: &Named| file.as_ref().map_or(true, |file| file.to_string_lossy().contains(filter));
    let files: Vec<Named> = files::files(&paths).into_iter().filter(holds).collect();
    let junit = arguments.path("--junit");
    if let Some(out) = junit {
        never_over_a_test(out, &files)?;
    }
    let began = Instant::now();
    let mut telling = Telling { json: arguments.flag("--json"), reports: Vec::new(), end: End::Answered };
    tested(&files, jobs, asking, &mut telling)?;
    if let Some(out) = junit {
        let written = std::fs::write(out, junit::xml(&telling.reports));
        written.map_err(|cause| Error::File { name: called(out), cause })?;
    }
    telling.summary(files.len(), began.elapsed().as_millis() as u64)
}

/// The report must not take the place of a test.
fn never_over_a_test(out: &OsStr, files: &[Named]) -> Result<(), Error> {
    if out == "-" {
        return Err(Error::usage("--junit takes the name of a file"));
    }
    match files.iter().flatten().find(|file| input::is_input(out, file)) {
        Some(file) => {
            let message = "the report would overwrite this test; name another file behind --junit".to_string();
            Err(Error::Unfit { name: called(file), message })
        }
        None => Ok(()),
    }
}

/// Tests the files, so many at a time; each is told as soon as all in front of it are.
fn tested(files: &[Named], jobs: usize, asking: Asking, telling: &mut Telling) -> Result<(), Error> {
    tarczolin_sys::note_interrupts();
    let next = AtomicUsize::new(0);
    let (done, reports) = channel();
    std::thread::scope(|scope| {
        for _ in 0..jobs.min(files.len()) {
            let (done, next) = (done.clone(), &next);
            scope.spawn(move || loop {
                let at = next.fetch_add(1, Ordering::Relaxed);
                let Some(file) = files.get(at).filter(|_| !tarczolin_sys::was_interrupted()) else { return };
                if done.send((at, Report::of(file, asking))).is_err() {
                    return;
                }
            });
        }
        drop(done);
        let mut waiting: Vec<Option<Report>> = files.iter().map(|_| None).collect();
        for (at, report) in reports {
            waiting[at] = Some(report);
            while let Some(report) = waiting.get_mut(telling.reports.len()).and_then(Option::take) {
                telling.tell(report)?;
            }
        }
        waiting.into_iter().flatten().try_for_each(|report| telling.tell(report))
    })
}

impl Telling {
    /// Tells a file.
    fn tell(&mut self, report: Report) -> Result<(), Error> {
        report.warnings.iter().for_each(|warning| output::tell(&warning.told(&report.name)));
        let text = match self.json {
            true => report.warned().into_iter().chain([report.json()]).map(|one| format!("{one}\n")).collect(),
            false => report.told(),
        };
        self.end = self.end.max(report.end());
        self.reports.push(report);
        output::answer(text, self.end).map(|_| ())
    }

    fn count(&self, ended: Ended) -> usize {
        self.reports.iter().filter(|report| report.ended() == ended).count()
    }

    /// Tells the sums, and says how all ended. Where nothing was tested that is no success, nor where some files were not begun.
    fn summary(self, files: usize, milliseconds: u64) -> Result<End, Error> {
        let [ok, failing, refused, without] =
            [Ended::Ok, Ended::Fails, Ended::Refused, Ended::NoExpectation].map(|ended| self.count(ended));
        let expectations: usize = self.reports.iter().map(Report::expectations).sum();
        let left = files - self.reports.len();
        let number = |number: usize| Json::from(number as u64);
        let text = match self.json {
            true => object([
                ("command", "test".into()),
                ("files", number(files)),
                ("ok", number(ok)),
                ("failing", number(failing)),
                ("refused", number(refused)),
                ("without", number(without)),
                ("left", number(left)),
                ("tested", number(expectations)),
                ("milliseconds", milliseconds.into()),
            ])
            .to_string(),
            false => {
                let word = if files == 1 { "file" } else { "files" };
                let asked = if expectations == 1 { "expectation" } else { "expectations" };
                let left = if left == 0 { String::new() } else { format!(", {left} not begun") };
                let counts = format!("{ok} ok, {failing} FAILS, {refused} refused, {without} without expectation{left}");
                let said = notes(self.reports.iter().flat_map(|report| &report.found));
                let said: String = said.iter().map(|note| format!("\n({note})")).collect();
                format!("{files} {word}: {counts}; {expectations} {asked} in {milliseconds} ms{said}")
            }
        };
        let end = if left > 0 { self.end.max(End::Refused) } else { self.end };
        let end = output::answer(text + "\n", end)?;
        if expectations == 0 {
            output::tell("nothing was tested: no file here expects anything");
            return Ok(End::Refused);
        }
        Ok(end)
    }
}
