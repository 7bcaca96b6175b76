//! Every call for so many minutes on two cores, with random and damaged input, each held to the oracle: the answer, and every byte of every
//! lent buffer. A line a minute, the numbers of calls at the end. What differs ends the run, and the seed that it began with tells it again.
mod files;
mod listings;
mod tally;
mod users;

use std::process::ExitCode;
use std::time::{Duration, Instant, SystemTime, UNIX_EPOCH};
use tally::Tally;
use tarczolin_tests::random::Random;

/// A word of the command line, or else this number.
fn number(word: Option<String>, otherwise: u64) -> u64 {
    word.map_or(otherwise, |word| word.parse().expect("a number"))
}

fn main() -> ExitCode {
    let mut words = std::env::args().skip(1);
    let minutes = number(words.next(), 1);
    let now = SystemTime::now().duration_since(UNIX_EPOCH).map_or(1, |time| time.as_secs());
    let seed = number(words.next(), now);
    println!("seeds {seed} and {}, so many minutes: {minutes}", seed + 1);
    let (tally, began) = (Tally::default(), Instant::now());
    let end = began + Duration::from_secs(60 * minutes);
    let whole = std::thread::scope(|scope| {
        let tally = &tally;
        let jobs = [0, 1].map(|job| scope.spawn(move || round_by_round(Random::new(seed + job), tally, end)));
        for minute in 1..=minutes {
            while began.elapsed() < Duration::from_secs(60 * minute) && !jobs.iter().any(|job| job.is_finished()) {
                std::thread::sleep(Duration::from_millis(200));
            }
            println!("{:.0} s: {} calls, {} programs", began.elapsed().as_secs_f64(), tally.calls(), tally.programs());
        }
        jobs.map(|job| job.join().is_ok()) == [true, true]
    });
    print!("{}", tally.table());
    let word = if whole { "as the oracle says" } else { "until one differed" };
    println!("seeds {seed} and {}: {} calls in {:.0} s, {word}", seed + 1, tally.calls(), began.elapsed().as_secs_f64());
    if whole {
        ExitCode::SUCCESS
    } else {
        ExitCode::FAILURE
    }
}

/// Rounds until the time is over: a program by all calls of both listings, and calls on records.
fn round_by_round(mut random: Random, tally: &Tally, end: Instant) {
    let mut users = users::Users::new(&mut random);
    let mut other = Vec::new();
    while Instant::now() < end {
        let file = files::any(&mut random);
        listings::ask(&mut random, tally, &file, &other);
        users.ask(&mut random, tally);
        if files::is_small(&file) {
            other = file;
        }
        tally.program();
    }
}
