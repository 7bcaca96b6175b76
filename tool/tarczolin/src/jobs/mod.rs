//! The list in pieces on threads. A piece is what lies behind one full schedule up to another; the library lists what is
//! behind any schedule, listed or not, so the pieces one after the other are the whole list.
mod done;
mod list;
mod pool;
mod share;
mod split;

use std::io;
use tarczolin_sys::was_interrupted;

pub use done::Done;
pub use list::{List, Part};
pub use split::{bounds, cuts};

/// Hands the list, part by part and in order, to `each`, worked out by so many jobs. Ctrl-C ends it behind the part at hand,
/// which is then marked as cut.
pub fn parts(list: &List, jobs: usize, mut each: impl FnMut(Part) -> io::Result<()>) -> io::Result<()> {
    if jobs > 1 {
        return pool::parts(list, jobs, &mut each);
    }
    let mut part = Part::default();
    let mut handed = Ok(());
    list.walk(list.after, |listed| {
        if list.is_past(&listed.schedule) {
            return true;
        }
        if was_interrupted() {
            part.cut = true;
            return true;
        }
        part.add(list, listed);
        if part.is_large() {
            handed = each(std::mem::take(&mut part));
        }
        handed.is_err()
    });
    handed.and_then(|()| each(part))
}
