//! Threads that walk pieces, and the pieces put together in order.
use super::list::{List, Part};
use super::split::bounds;
use crate::schedule::Schedule;
use std::io;
use std::sync::mpsc::{sync_channel, Receiver, SyncSender};
use std::sync::Mutex;
use tarczolin_sys::was_interrupted;

/// So many pieces for each job: the pieces are of very different length.
const PIECES: usize = 32;
/// So many parts of a piece may wait to be taken.
const WAITING: usize = 64;

/// The pieces that no thread has taken yet: from `next` on. Each has a sender for its parts.
struct Pieces {
    next: usize,
    senders: Vec<Option<SyncSender<Part>>>,
}

impl Pieces {
    /// Takes the next piece.
    fn take(&mut self) -> Option<(usize, SyncSender<Part>)> {
        let piece = self.next;
        let sender = self.senders.get_mut(piece)?.take()?;
        self.next += 1;
        Some((piece, sender))
    }

    /// Leaves out the pieces in front of this one that are not taken: they hold nothing.
    fn leave_out(&mut self, before: usize) {
        while self.next < before {
            self.senders[self.next] = None;
            self.next += 1;
        }
    }
}

/// Walks one piece: behind the bound before it, up to its own. Says the first schedule behind it, none at the list's end,
/// or that nobody takes the parts any more.
fn walk(list: &List, bounds: &[Schedule], piece: usize, sender: &SyncSender<Part>) -> Result<Option<Schedule>, ()> {
    let mut part = Part::default();
    let mut open = true;
    let behind = piece.checked_sub(1).map_or(list.after, |before| Some(bounds[before]));
    let first = list.walk(behind, |listed| {
        if listed.schedule > bounds[piece] {
            return true;
        }
        if was_interrupted() {
            part.cut = true;
            return true;
        }
        part.add(list, listed);
        if part.is_large() {
            open = sender.send(std::mem::take(&mut part)).is_ok();
        }
        !open
    });
    let cut = part.cut;
    if !open || sender.send(part).is_err() || cut {
        return Err(());
    }
    Ok(first)
}

/// Takes pieces until none is left.
fn work(list: &List, bounds: &[Schedule], pieces: &Mutex<Pieces>) {
    let take = || pieces.lock().expect("no job fails").take();
    while let Some((piece, sender)) = take() {
        match walk(list, bounds, piece, &sender) {
            Err(()) => return,
            Ok(first) => {
                // the pieces up to the one of the schedule found behind this piece hold nothing
                let holds = first.map_or(bounds.len(), |first| bounds.partition_point(|bound| *bound < first));
                pieces.lock().expect("no job fails").leave_out(holds);
            }
        }
    }
}

/// The bounds of the pieces of a list: those inside it, and its end.
fn inside(list: &List, pieces: usize) -> Vec<Schedule> {
    let mut bounds = bounds(list.program, pieces);
    bounds.retain(|bound| list.after.is_none_or(|after| *bound > after) && list.until.is_none_or(|until| *bound < until));
    bounds.extend(list.until);
    bounds
}

/// Hands the parts of all pieces in order to `each`. A job waits when too many of its parts wait.
pub fn parts(list: &List, jobs: usize, each: &mut dyn FnMut(Part) -> io::Result<()>) -> io::Result<()> {
    let bounds = inside(list, PIECES * jobs);
    let (senders, receivers): (Vec<_>, Vec<Receiver<Part>>) = bounds.iter().map(|_| sync_channel(WAITING)).unzip();
    let pieces = Mutex::new(Pieces { next: 0, senders: senders.into_iter().map(Some).collect() });
    std::thread::scope(|scope| {
        for _ in 0..jobs {
            scope.spawn(|| work(list, &bounds, &pieces));
        }
        // moved in, so that a failed write closes every channel and the jobs end
        let receivers = receivers;
        for part in receivers.iter().flatten() {
            let cut = part.cut;
            each(part)?;
            if cut {
                break;
            }
        }
        Ok(())
    })
}
