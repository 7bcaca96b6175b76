//! What is wrong with a program file.
use super::fields;
use super::line::{self, line_at};
use crate::ask::Refusal;
use crate::hex;
use crate::program::{Frame, Instruction, ACCESSES, FILE_LIMIT, INSTRUCTIONS, THREADS};

/// The frames in front of a line.
fn before(file: &[u8], place: u64) -> Vec<Frame> {
    let lines = file.split(|&c| c == b'\n').take((place as usize).saturating_sub(1));
    lines.filter_map(|line| Frame::of_bytes(&hex::bytes(line)?)).collect()
}

/// The code of the threads that these frames open.
fn threads(frames: &[Frame]) -> Vec<Vec<Instruction>> {
    let mut threads: Vec<Vec<Instruction>> = Vec::new();
    for frame in frames {
        match frame {
            Frame::Thread => threads.push(Vec::new()),
            Frame::Instruction(i) => threads.iter_mut().last().into_iter().for_each(|code| code.push(*i)),
            Frame::Alike(_) | Frame::Start(..) => {}
        }
    }
    threads
}

/// What a file may be that is no program file by its first line.
fn other_form(file: &[u8]) -> &'static str {
    let first = line_at(file, 1).trim_ascii();
    match first {
        _ if first.starts_with(b"X86") => "; this is a litmus test: import-litmus makes a program of it",
        _ if first.eq_ignore_ascii_case(b"thread") => "; a program in the text form begins with thread, by small letters",
        _ => "",
    }
}

/// The sentence about a refusal of a program file.
pub fn sentence(file: &[u8], refusal: Refusal) -> String {
    let frame = hex::bytes(line_at(file, refusal.place)).unwrap_or_default();
    let before = before(file, refusal.place);
    match refusal.number {
        1 => format!("the file is longer than {FILE_LIMIT} bytes, the most that a program file may have"),
        2 => line::sentence(file, refusal.place) + other_form(file),
        3 => fields::kind(&frame),
        4 => fields::range(&frame),
        5 if before.iter().any(|f| matches!(f, Frame::Alike(_))) => {
            "threads and instructions must stand in front of the first declaration of alike threads (02)".to_string()
        }
        5 => "an instruction stands in front of the first thread; a thread (01) must be opened first".to_string(),
        6 => limit(&frame, &before),
        7 => skip(file, refusal.place, &frame),
        8 => alike(&frame[1.min(frame.len())..], &before),
        40 => start(&frame, &before),
        41 => {
            let accesses = threads(&self::before(file, u64::MAX)).iter().flatten().filter(|i| i.location().is_some()).count();
            format!("the file has {accesses} accesses; under total store order a program has at most 16")
        }
        _ => "the file is refused".to_string(),
    }
}

/// 6: the limit that is passed.
fn limit(frame: &[u8], before: &[Frame]) -> String {
    let threads = threads(before);
    if frame == [0x01] {
        return format!("this is thread number {}; a program has at most {THREADS}", threads.len() + 1);
    }
    if threads.last().is_some_and(|code| code.len() >= INSTRUCTIONS) {
        return format!("this is instruction number {} of its thread; a thread has at most {INSTRUCTIONS}", INSTRUCTIONS + 1);
    }
    format!("this is access number {} of the file; a program has at most {ACCESSES}", ACCESSES + 1)
}

/// 7: how far the skip goes, and how far it may.
fn skip(file: &[u8], place: u64, frame: &[u8]) -> String {
    let behind = file.split(|&c| c == b'\n').skip(place as usize).filter(|line| !line.starts_with(b"#"));
    let left = behind.take_while(|line| matches!(line.first(), Some(b'1' | b'2'))).count();
    let skipped = frame.last().copied().unwrap_or(0);
    format!("this skips {skipped} instructions, and only {left} follow in its thread")
}

/// 40: what stands in front of the line that should not.
fn start(frame: &[u8], before: &[Frame]) -> String {
    match (before.iter().all(|f| matches!(f, Frame::Start(..))), frame.get(1)) {
        (true, Some(l)) => format!("location {l:02x} has a starting value already; each has at most one 03 line"),
        _ => "starting values (03) must stand in front of the first thread".to_string(),
    }
}

/// 8: the first thing that is wrong with the members.
fn alike(members: &[u8], before: &[Frame]) -> String {
    let threads = threads(before);
    let code = |t: u8| threads.get(t as usize);
    let earlier = |t: u8| before.iter().any(|f| matches!(f, Frame::Alike(others) if others.contains(&t)));
    for (k, &t) in members.iter().enumerate() {
        if code(t).is_none() {
            return format!("there is no thread {t}; the file has {}", threads.len());
        }
        if k > 0 && members[k - 1] >= t {
            return format!("thread {t} follows thread {}; members must ascend", members[k - 1]);
        }
        if earlier(t) {
            return format!("thread {t} stands in an earlier declaration of alike threads");
        }
        if code(t) != code(members[0]) {
            return format!("threads {} and {t} differ in their code; alike threads have the same", members[0]);
        }
    }
    "the members cannot be alike".to_string()
}
