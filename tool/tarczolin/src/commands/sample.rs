//! sample: members drawn from the whole list, each as likely as any other, whatever its length.
use super::arguments::Arguments;
use super::lent::{memory, MEMORY};
use super::opt::Opt;
use super::pick::members;
use super::reply::{asked, Question, JSON};
use crate::ask::Listed;
use crate::end::End;
use crate::error::Error;
use crate::jobs::List;
use crate::memory::Memory;
use crate::output;
use crate::random::{any_seed, Random};

pub const OPTIONS: &[Opt] = &[
    Opt { name: "--seed", value: Some("S"), about: "the same seed draws the same members; where it is not given any is taken" },
    MEMORY,
    JSON,
];

/// At most so many are drawn.
const MOST: u64 = 100_000;

pub fn run(arguments: &Arguments) -> Result<End, Error> {
    let [name, number] = arguments.files()?;
    let number = number.to_string_lossy();
    let drawn = number.parse().ok().filter(|drawn| (1..=MOST).contains(drawn));
    let drawn = drawn.ok_or_else(|| Error::usage(format!("sample takes a number from 1 to {MOST}, not {number}")))?;
    let seed = match arguments.option("--seed")? {
        None => any_seed(),
        Some(seed) => seed.parse().map_err(|_| Error::usage(format!("--seed takes a number from 0 on, not {seed}")))?,
    };
    let memory = memory(arguments)?;
    asked(&Question::of("sample", arguments, name), |question| sampled(question, drawn, seed, memory))
}

/// Draws with replacement: every draw is from the whole list, and one member may come more than once.
fn sampled(question: &Question, drawn: u64, seed: u64, memory: Memory) -> Result<End, Error> {
    let source = question.source()?;
    let mut places = Vec::new();
    let (listed, found) = members(&List::of(&source, true), memory, |listed| {
        let mut random = Random::new(seed);
        places = (0..drawn).map(|_| 1 + random.below(listed)).collect();
        places.clone()
    })?;
    let failing = found.iter().filter(|one| one.fails).count() as u64;
    let mut text = match question.json {
        true => String::new(),
        false => format!("seed {seed}: {drawn} of {listed}, each drawn from all of them, so that one may come twice\n"),
    };
    text.extend(places.iter().zip(&found).map(|(place, one)| line(question, *place, one)));
    text += &match question.json {
        true => question.object([
            ("seed", seed.into()),
            ("drawn", drawn.into()),
            ("failing", failing.into()),
            ("listed", listed.into()),
        ]),
        false => format!("{drawn} drawn, {failing} failing\n"),
    };
    output::answer(text, End::of_failing(failing))
}

/// A member: its place, its schedule, and whether it fails.
fn line(question: &Question, place: u64, one: &Listed) -> String {
    if question.json {
        let schedule = one.schedule.to_string().into();
        return question.object([("position", place.into()), ("schedule", schedule), ("fails", one.fails.into())]);
    }
    format!("{place} {}{}\n", one.schedule.told(), if one.fails { " fails" } else { "" })
}
