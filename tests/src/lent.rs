//! Calls held to the oracle: the answer, and every byte of every lent buffer.
use crate::calls::across::{self, Under};
use crate::calls::{self, tso, Answer, ROW};
use crate::oracle::calls::Found;
use crate::oracle::covers::Covers;
use crate::oracle::model::Model;
use crate::oracle::{outcomes, Refusal};
use crate::random::Random;
use crate::scratch::Scratch;

/// So many bytes on each side of a lent output belong to somebody else.
const AROUND: usize = 32;

/// So many words has a scratch of covers.
pub const SCRATCHES: [usize; 5] = [0, 1, 40, 400, 4_000];

/// The answer of a call, and the bytes that stand in front of its output, for what the oracle found.
pub fn shown(found: &Found) -> (Answer, &[u8]) {
    match found {
        Ok(Some(bytes)) => (Answer::Answered(bytes.len() as u64), bytes),
        Ok(None) => (Answer::None, &[]),
        Err(refusal) => (Answer::Refused(refusal.number, refusal.place), &[]),
    }
}

/// The same for a call that gives rows of so many bytes: its answer carries their number.
pub fn shown_rows(found: &Result<Vec<u8>, Refusal>, row: usize) -> (Answer, &[u8]) {
    match found {
        Ok(bytes) => (Answer::Answered((bytes.len() / row) as u64), bytes),
        Err(refusal) => (Answer::Refused(refusal.number, refusal.place), &[]),
    }
}

/// Makes a call on copies of these inputs and an output of that length and of random content. It must answer as the
/// oracle does, put the oracle's bytes in front of the output, and leave every other byte as it was: of the output, of
/// its surroundings and of the inputs.
pub fn held<const N: usize>(
    random: &mut Random,
    inputs: [&[u8]; N],
    output: usize,
    found: &Found,
    call: impl FnOnce([&[u8]; N], &mut [u8]) -> Answer,
) {
    held_by(random, inputs, output, shown(found), call);
}

/// The rows behind a schedule, or from the first one on, held to the oracle's in the same way.
pub fn held_rows(random: &mut Random, file: &[u8], behind: Option<&[u8]>, output: usize, found: &Result<Vec<u8>, Refusal>) {
    match behind {
        None => held_by(random, [file], output, shown_rows(found, ROW), |[file], out| calls::rows(file, out)),
        Some(last) => {
            held_by(random, [file, last], output, shown_rows(found, ROW), |[file, last], out| calls::rows_after(file, last, out))
        }
    }
}

/// The call that gives outcomes from a number on, with this scratch, held to the oracle's rows in the same way.
pub fn held_outcomes(
    random: &mut Random,
    scratch: &mut Scratch,
    (model, file): (Model, &[u8]),
    (from, output): (u64, usize),
    found: &Result<Vec<u8>, Refusal>,
) {
    let call = if model == Model::Sc { calls::outcomes } else { tso::outcomes };
    let (wanted, front) = shown_rows(found, outcomes::size(model));
    let asked = |words: &mut [u64]| {
        held_by(random, [file], output, (wanted, front), |[file], out| call(file, from, out, words));
        wanted
    };
    scratch.held(wanted, asked, file);
}

/// The call over two files under models of their own, with a scratch of so many words, held to the oracle's in the same way.
pub fn held_across(random: &mut Random, models: [u8; 2], files: [&[u8]; 2], output: usize, words: usize, found: &Covers) {
    let shown = shown_covers(found);
    let before: Vec<u64> = (0..words).map(|_| random.word()).collect();
    let mut scratch = before.clone();
    held_by(random, files, output, shown, |[first, second], out| {
        let [one, other] = [(models[0], first), (models[1], second)].map(|(model, file)| Under { model, file });
        across::covers_models(one, other, out, &mut scratch)
    });
    let later = if matches!(found, Covers::Covered | Covers::Lacking(_)) { vec![0; words] } else { before };
    let told = || files.map(|file| file.escape_ascii().to_string());
    assert!(scratch == later, "the scratch of {words} words behind {shown:?} under {models:?}: {:?}", told());
}

/// The answer over two files, and the bytes that stand in front of its output, for what the oracle found.
fn shown_covers(found: &Covers) -> (calls::Covers, &[u8]) {
    match found {
        Covers::Covered => (calls::Covers::Covered, &[]),
        Covers::Lacking(schedule) => (calls::Covers::Lacking(schedule.len() as u64), schedule),
        Covers::First(refusal) => (calls::Covers::Refused(refusal.number, refusal.place), &[]),
        Covers::Second(refusal) => (calls::Covers::SecondRefused(refusal.number, refusal.place), &[]),
        Covers::Output => (calls::Covers::Refused(22, 0), &[]),
    }
}

/// The call over two files, held to the oracle's in the same way.
pub fn held_covers(random: &mut Random, files: [&[u8]; 2], output: usize, found: &Covers) {
    let shown = shown_covers(found);
    held_by(random, files, output, shown, |[first, second], out| calls::covers(first, second, out));
    for words in SCRATCHES {
        let before: Vec<u64> = (0..words).map(|_| random.word()).collect();
        let mut scratch = before.clone();
        held_by(random, files, output, shown, |[first, second], out| calls::covers_with(first, second, out, &mut scratch));
        let answered = matches!(found, Covers::Covered | Covers::Lacking(_));
        let later = if answered { vec![0; words] } else { before };
        assert!(
            scratch == later,
            "the scratch of {words} words behind {shown:?}: {:?}",
            files.map(|f| f.escape_ascii().to_string())
        );
    }
}

/// The same with the answer, and the bytes in front of the output, given.
pub fn held_by<const N: usize, A: PartialEq + std::fmt::Debug>(
    random: &mut Random,
    inputs: [&[u8]; N],
    output: usize,
    (expected, front): (A, &[u8]),
    call: impl FnOnce([&[u8]; N], &mut [u8]) -> A,
) {
    let lent = inputs.map(<[u8]>::to_vec);
    let mut around = vec![0; output + 2 * AROUND];
    around.chunks_mut(8).for_each(|c| c.copy_from_slice(&random.word().to_le_bytes()[..c.len()]));
    let mut later = around.clone();
    let answer = call(lent.each_ref().map(Vec::as_slice), &mut later[AROUND..AROUND + output]);
    around[AROUND..AROUND + front.len()].copy_from_slice(front);
    let told = || inputs.map(|i| i.escape_ascii().to_string()).join(" | ");
    assert_eq!(answer, expected, "the answer, with an output of {output} bytes: {}", told());
    assert!(later == around, "the bytes in and around an output of {output} bytes: {}", told());
    assert!(lent.iter().zip(inputs).all(|(l, i)| l == i), "the bytes of the inputs: {}", told());
}
