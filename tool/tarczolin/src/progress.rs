//! Progress on standard error: listed so far, failing so far, how many a second, and the share that is done. On a
//! terminal one line that changes; else a line every few seconds; none where `TARCZOLIN_PROGRESS` is `off`.
use crate::ask::Counts;
use std::io::{stderr, stdout, IsTerminal, Write};
use std::sync::mpsc::{channel, Receiver, RecvTimeoutError};
use std::sync::Arc;
use std::time::{Duration, Instant};
use tarczolin_sys::{Scratch, Seen};

/// How often it is told, on a terminal and elsewhere.
const DRAWN: Duration = Duration::from_millis(200);
const SAID: Duration = Duration::from_secs(3);

pub struct Progress {
    began: Instant,
    told: Instant,
    /// How often it is told; none where it is off.
    every: Option<Duration>,
    terminal: bool,
    /// Standard output goes to a terminal too: its lines need the place.
    lines: bool,
    shown: bool,
    /// The memory of a call that goes on beside the walk.
    scratch: Option<Arc<Scratch>>,
}

impl Default for Progress {
    fn default() -> Progress {
        let now = Instant::now();
        Progress {
            began: now,
            told: now,
            every: every(),
            terminal: stderr().is_terminal(),
            lines: stdout().is_terminal(),
            shown: false,
            scratch: None,
        }
    }
}

/// How much is done, from 0 to 1.
#[derive(Clone, Copy, Debug, PartialEq)]
pub enum Share {
    /// Of the list, exactly: its members are counted.
    OfList(f64),
    /// Of the range of all schedules, in which the members do not lie evenly.
    OfRange(f64),
}

/// How often progress is told: `TARCZOLIN_PROGRESS` gives a number of milliseconds for where there is no terminal, or is off.
pub fn every() -> Option<Duration> {
    let given = std::env::var("TARCZOLIN_PROGRESS").ok();
    if given.as_deref() == Some("off") {
        return None;
    }
    if stderr().is_terminal() {
        return Some(DRAWN);
    }
    Some(given.and_then(|text| text.parse().ok()).map_or(SAID, Duration::from_millis))
}

/// The line of progress; the share stands there where it is known, and how full the memory of a call is where it remembers states.
fn line(counts: Counts, seconds: f64, share: Option<Share>, seen: Option<Seen>) -> String {
    let rate = counts.listed as f64 / seconds;
    let share = match share {
        None => String::new(),
        Some(Share::OfList(share)) => format!(", {:.1} % of the list", share * 100.0),
        Some(Share::OfRange(share)) => format!(", {:.1} % of the range", share * 100.0),
    };
    let states = seen.filter(|seen| seen.states > 0).map_or(String::new(), |seen| {
        let (visited, more) = seen.visited();
        let about = if more { "more than" } else { "about" };
        let Seen { states, share } = seen;
        format!("; {about} {visited} states visited, {states} states remembered, {:.1} % of the memory for them", share * 100.0)
    });
    format!("{} listed, {} failing, {rate:.0} a second{share}{states}", counts.listed, counts.failing)
}

impl Progress {
    /// Beside a call that remembers states in this memory.
    pub fn beside(scratch: Arc<Scratch>) -> Progress {
        Progress { scratch: Some(scratch), ..Progress::default() }
    }

    /// Tells how far the list is, now and then; the share is asked for only then.
    pub fn tell(&mut self, counts: Counts, share: impl FnOnce() -> Option<Share>) {
        let (began, scratch) = (self.began, self.scratch.clone());
        self.say(|| line(counts, began.elapsed().as_secs_f64(), share(), scratch.map(|scratch| scratch.seen())));
    }

    /// Says something now and then, which is asked for only then.
    pub fn say(&mut self, line: impl FnOnce() -> String) {
        if self.every.is_some_and(|every| self.told.elapsed() >= every) {
            self.write(&line());
        }
    }

    fn write(&mut self, line: &str) {
        self.told = Instant::now();
        if self.terminal {
            self.shown = true;
            eprint!("\r\x1b[K{line}");
            let _ = stderr().flush();
        } else {
            eprintln!("tarczolin: {line}");
        }
    }

    /// Makes place for lines of standard output.
    pub fn give_way(&mut self) {
        if self.lines {
            self.hide();
        }
    }

    /// Takes the line of progress away.
    pub fn hide(&mut self) {
        if self.shown {
            self.shown = false;
            eprint!("\r\x1b[K");
            let _ = stderr().flush();
        }
    }
}

/// A call on a thread of its own, which ends with the program at the latest.
pub fn begun<T: Send + 'static>(call: impl FnOnce() -> T + Send + 'static) -> Receiver<T> {
    let (done, wait) = channel();
    std::thread::spawn(move || done.send(call()));
    wait
}

/// Waits for a call that has begun, until Ctrl-C, behind which nothing is known. Nothing is said of a quiet one.
pub fn waiting_or_cut<T>(quiet: bool, wait: &Receiver<T>) -> Option<T> {
    const SOON: Duration = Duration::from_millis(50);
    let mut progress = Progress::default();
    let answer = loop {
        match wait.recv_timeout(SOON) {
            Ok(answer) => break Some(answer),
            Err(RecvTimeoutError::Timeout) if tarczolin_sys::was_interrupted() => break None,
            Err(RecvTimeoutError::Timeout) if quiet => {}
            Err(RecvTimeoutError::Timeout) => {
                let seconds = progress.began.elapsed().as_secs();
                progress.say(|| format!("one call of the library for {seconds} s"));
            }
            Err(RecvTimeoutError::Disconnected) => panic!("the call of the library has failed"),
        }
    };
    progress.hide();
    answer
}

/// Waits for a single call that tells nothing on its way, and says now and then that it goes on.
pub fn waiting<T: Send>(call: impl FnOnce() -> T + Send) -> T {
    let mut progress = Progress::default();
    let Some(every) = progress.every else { return call() };
    std::thread::scope(|scope| {
        let (done, wait) = channel();
        scope.spawn(move || done.send(call()));
        loop {
            match wait.recv_timeout(every) {
                Ok(answer) => {
                    progress.hide();
                    return answer;
                }
                Err(RecvTimeoutError::Timeout) => {
                    let seconds = progress.began.elapsed().as_secs();
                    progress.write(&format!("one call of the library for {seconds} s"));
                }
                Err(RecvTimeoutError::Disconnected) => panic!("the call of the library has failed"),
            }
        }
    })
}

#[cfg(test)]
mod tests {
    use super::*;

    #[test]
    fn listed_failing_rate_and_share() {
        let wanted = "3000 listed, 7 failing, 2000 a second";
        let told = |share, seen| line(Counts { listed: 3000, failing: 7 }, 1.5, share, seen);
        assert_eq!(told(Some(Share::OfRange(0.125)), None), format!("{wanted}, 12.5 % of the range"));
        assert_eq!(told(Some(Share::OfList(1.0)), None), format!("{wanted}, 100.0 % of the list"));
        assert_eq!(told(None, Some(Seen { states: 0, share: 0.0 })), wanted);
        let seen = Some(Seen { states: 12, share: 0.25 });
        let states = "about 14 states visited, 12 states remembered, 25.0 % of the memory for them";
        assert_eq!(told(None, seen), format!("{wanted}; {states}"));
        assert!(told(None, Some(Seen { states: 12, share: 1.0 }))
            .contains("; more than 47 states visited, 12 states remembered, 100.0 %"));
    }
}
