//! Program files damaged in one named way.
mod frames;
mod limits;
mod lines;

use super::program::{self, ANY};
use super::{remarks, Random};
use crate::files::text;

/// A way to damage a program file. Not every damage spoils the file: some are at a limit and some past it.
#[derive(Clone, Copy, Debug, PartialEq, Eq, PartialOrd, Ord, Hash)]
pub enum Damage {
    Nothing,
    // of the text
    AnyByte,
    LostByte,
    MoreByte,
    LostLastNewline,
    /// A letter behind F, or a capital that is a digit.
    Capital,
    EmptyLine,
    OddLine,
    Padded,
    // of remarks: at a limit, without its 0a, behind a space
    FilledRemark,
    OpenRemark,
    LateRemark,
    // of a frame
    FirstByte,
    Field,
    Length,
    Operand,
    // of the order of lines
    SwappedLines,
    MovedLine,
    TwiceLine,
    LostLine,
    InstructionFirst,
    BehindAlike,
    // of the lines that give starting values: at any place and for location 0 to 9, a second one for its location
    StartAnywhere,
    StartTwice,
    // of the limits
    Threads,
    Instructions,
    Accesses,
    Skip,
    // of the lines that declare threads alike
    AlikeMember,
    AlikeLength,
    AlikeTwice,
    AlikeCode,
    // not from a program at all
    AnyBytes,
    AnyDigits,
    AnyFrames,
    Empty,
    /// Only the lines that declare threads alike or give starting values are left.
    Threadless,
}

use Damage::*;

pub const ALL: [Damage; 37] = [
    Nothing,
    AnyByte,
    LostByte,
    MoreByte,
    LostLastNewline,
    Capital,
    EmptyLine,
    OddLine,
    Padded,
    FilledRemark,
    OpenRemark,
    LateRemark,
    FirstByte,
    Field,
    Length,
    Operand,
    SwappedLines,
    MovedLine,
    TwiceLine,
    LostLine,
    InstructionFirst,
    BehindAlike,
    StartAnywhere,
    StartTwice,
    Threads,
    Instructions,
    Accesses,
    Skip,
    AlikeMember,
    AlikeLength,
    AlikeTwice,
    AlikeCode,
    AnyBytes,
    AnyDigits,
    AnyFrames,
    Empty,
    Threadless,
];

/// The damages of the text stand in front.
const OF_THE_TEXT: usize = 12;

/// A random program file with this damage, and sometimes with a second one, so that the order of refusals matters. One in three has remarks or capitals.
pub fn file(random: &mut Random, damage: Damage) -> Vec<u8> {
    let mut frames = program::frames(random, ANY);
    frames::damage(random, damage, &mut frames);
    if damage != Nothing && random.one_in(5) {
        let second = random.pick(&ALL);
        frames::damage(random, second, &mut frames);
    }
    let mut file = text(&frames);
    if random.one_in(3) {
        remarks::noise(random, &mut file);
    }
    lines::damage(random, damage, &mut file);
    if damage != Nothing && random.one_in(8) {
        let second = random.pick(&ALL[..OF_THE_TEXT]);
        lines::damage(random, second, &mut file);
    }
    file
}
