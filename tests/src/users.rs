//! Calls on records held to the oracle: the answer, and every byte of the records, of the last caller and of the output.
use crate::calls::users::{self, Shared as Lent};
use crate::calls::{self, Answer, Caller, Served, SCHEDULE};
use crate::oracle::users::{Call, Lists, Mark, Record, Said, Shared};
use crate::oracle::Refusal;
use crate::random::Random;

/// So many bytes behind a lent output belong to somebody else.
const BEHIND: usize = 32;

/// The record as the library takes it.
pub fn lent(record: &Record) -> Caller {
    Caller {
        file: record.file.as_slice().try_into().expect("4,096 bytes"),
        length: record.length as usize,
        count: record.count,
        place: record.place,
        asking: record.asking,
        steps: record.steps,
        schedule: record.schedule,
        handed: record.handed,
        size: record.size,
        newest: record.newest,
        marks: record.marks.map(lent_mark),
        padding: record.padding,
    }
}

fn lent_mark(mark: Mark) -> calls::Mark {
    let Mark { name, length, place, steps, schedule } = mark;
    calls::Mark { name, length, place, steps, schedule }
}

/// What a call that gives no schedule answers.
fn done(answer: Answer) -> Result<Said, Refusal> {
    match answer {
        Answer::Answered(0) => Ok(Said::Done),
        Answer::Refused(number, place) => Err(Refusal { number, place }),
        other => panic!("{other:?} is no answer of a call on records"),
    }
}

/// Makes a call on copies of these records, and holds it to what the oracle says and leaves.
pub fn held(random: &mut Random, lists: &mut Lists, shared: &mut Shared, call: &Call) -> Result<Said, Refusal> {
    let mut callers: Vec<Caller> = shared.records.iter().map(lent).collect();
    let mut last = shared.last;
    let output = if let Call::Serve(output) = call { *output } else { 0 };
    let mut out: Vec<u8> = (0..output + BEHIND).map(|_| random.byte()).collect();
    let mut wanted = out.clone();
    let given = Lent { callers: &mut callers, last: &mut last };
    let said = match call {
        Call::Open(caller, file) => done(users::open(given, *caller, file)),
        Call::Ask(caller) => done(users::ask(given, *caller)),
        Call::Close(caller) => done(users::close(given, *caller)),
        Call::Set(caller, name) => done(users::set(given, *caller, name)),
        Call::Return(caller, name) => done(users::return_to(given, *caller, name)),
        Call::Forget(caller, name) => done(users::forget(given, *caller, name)),
        Call::Serve(_) => match users::serve(given, &mut out[..output]) {
            Served::Schedule(caller, length) => Ok(Said::Schedule(caller, out[..length as usize].to_vec())),
            Served::NoMore(caller) => Ok(Said::NoMore(caller)),
            Served::Idle => Ok(Said::Idle),
            Served::Refused(number, place) => Err(Refusal { number, place }),
        },
    };
    let before = shared.clone();
    let found = shared.call(lists, call);
    assert_eq!(said, found, "the answer to {call:?}");
    if let Ok(Said::Schedule(_, schedule)) = &found {
        assert!(schedule.len() <= SCHEDULE);
        wanted[..schedule.len()].copy_from_slice(schedule);
    }
    assert!(found.is_ok() || *shared == before, "a refusal changes nothing");
    assert_eq!(last, shared.last, "the last caller behind {call:?}");
    let later: Vec<Caller> = shared.records.iter().map(lent).collect();
    assert!(callers == later, "the records behind {call:?}");
    assert!(out == wanted, "the output behind {call:?}");
    found
}
