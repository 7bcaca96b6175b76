//! The text form of a program file.
use super::remarks::Remarks;
use crate::program::{number, Frame, Names};

/// The text of these frames, by these names, with these remark lines.
pub fn text(frames: &[Frame], names: &Names, remarks: &Remarks) -> String {
    let (mut thread, mut opened, mut place) = (0u8, 0u8, 0usize);
    let mut text = String::new();
    for (at, frame) in frames.iter().enumerate() {
        remarks.before(at).for_each(|line| text += &format!("{line}\n"));
        text += &match frame {
            Frame::Thread => {
                (thread, place) = (opened, 0);
                opened += 1;
                let name = names.threads.get(thread as usize).and_then(|names| names.name.as_ref());
                name.map_or(format!("thread  # {thread}\n"), |name| format!("thread {name}\n"))
            }
            Frame::Instruction(instruction) => {
                place += 1;
                format!("  {}\n", names.statement_at(thread, place - 1, instruction))
            }
            Frame::Start(l, value) => format!("init {} {}\n", names.location(*l), number(*value)),
            Frame::Alike(members) => {
                let named = |t: &u8| names.threads.get(*t as usize).and_then(|thread| thread.name.clone());
                let members: Vec<String> = members.iter().map(|t| named(t).unwrap_or_else(|| t.to_string())).collect();
                format!("alike {}\n", members.join(" "))
            }
        };
    }
    remarks.before(frames.len()).for_each(|line| text += &format!("{line}\n"));
    text
}
