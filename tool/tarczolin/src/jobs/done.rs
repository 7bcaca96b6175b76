//! How much of a list a walk has done.
use super::list::List;
use super::share::share;
use crate::members::Members;
use crate::memory::Memory;
use crate::model::Model;
use crate::progress::Share;
use crate::schedule::Schedule;
use std::sync::mpsc::{channel, Receiver, TryRecvError};

/// How many members a walk will hand on.
enum Size {
    /// Nobody has asked yet; it would be counted with so much memory.
    Unasked(Memory),
    /// It is being counted, beside the walk.
    Asked(Receiver<Option<u64>>),
    Known(u64),
    /// Nobody will know it.
    Unknown,
}

/// How much of a list a walk has done: exactly where the list is soon counted by states, else by the range of all schedules.
pub struct Done<'a> {
    list: &'a List<'a>,
    size: Size,
}

impl<'a> Done<'a> {
    /// Of a list whose members are counted beside the walk, as soon as it is asked how far that is. Under total store order, and where no
    /// memory is lent, counting takes as long as the walk.
    pub fn counted(list: &'a List<'a>, memory: Memory) -> Done<'a> {
        let quick = list.program.model == Model::Sc && !memory.is_none();
        Done { list, size: if quick { Size::Unasked(memory) } else { Size::Unknown } }
    }

    /// Of a list of so many members.
    pub fn of_size(list: &'a List<'a>, size: u64) -> Done<'a> {
        Done { list, size: Size::Known(size) }
    }

    /// By the range alone.
    pub fn by_range(list: &'a List<'a>) -> Done<'a> {
        Done { list, size: Size::Unknown }
    }

    /// The share behind so many members, of which this is the last. Nobody waits for the count.
    pub fn share(&mut self, walked: u64, last: &Schedule) -> Share {
        if let Size::Unasked(memory) = self.size {
            self.size = Size::Asked(asked(self.list, memory));
        }
        if let Size::Asked(answer) = &self.size {
            self.size = match answer.try_recv() {
                Ok(size) => size.map_or(Size::Unknown, Size::Known),
                Err(TryRecvError::Disconnected) => Size::Unknown,
                Err(TryRecvError::Empty) => return Share::OfRange(share(self.list.program, last)),
            };
        }
        match self.size {
            Size::Known(size) if size > 0 => Share::OfList(walked as f64 / size as f64),
            _ => Share::OfRange(share(self.list.program, last)),
        }
    }
}

/// Counts the members of a list on a thread of its own, where no other has to wait for it.
fn asked(list: &List, memory: Memory) -> Receiver<Option<u64>> {
    let (answer, wait) = channel();
    let (file, program, after, until) = (list.file.to_vec(), list.program.clone(), list.after, list.until);
    std::thread::spawn(move || {
        tarczolin_sys::only_when_idle();
        answer.send(Members::of(&file, &program, memory).between(after.as_ref(), until.as_ref()))
    });
    wait
}
