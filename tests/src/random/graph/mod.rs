//! Random graph texts: of a full schedule, or changed in one named way.
mod orders;
mod text;

use super::{schedule, Random};
use crate::oracle::decode::Program;
use crate::oracle::graph::Graph;
use crate::oracle::machine::run_full;

/// A way to change a graph or its text. Not every change makes the answer another one.
#[derive(Clone, Copy, Debug, PartialEq, Eq, PartialOrd, Ord)]
pub enum Change {
    Nothing,
    // of the graph: its text has the right form
    Source,
    OwnSource,
    InitialSource,
    Coherence,
    /// Sources and coherence as they may come, among the same events.
    AnyOrders,
    LostRead,
    MoreRead,
    LostWrite,
    MoreWrite,
    LostLocation,
    OtherLocation,
    MovedWrite,
    ExchangedThreads,
    // of a line
    Field,
    NearField,
    HalfInitial,
    FirstByte,
    Length,
    EventTwice,
    LongWrites,
    // of the order of lines
    SwappedLines,
    TwiceLine,
    MovedLine,
    LocationTwice,
    // of the text
    AnyByte,
    Capital,
    OddLine,
    EmptyLine,
    LostLastNewline,
    LongLine,
    OpenRemark,
    LateRemark,
    AnyBytes,
    Empty,
}

use Change::*;

pub const ALL: [Change; 35] = [
    Nothing,
    Source,
    OwnSource,
    InitialSource,
    Coherence,
    AnyOrders,
    LostRead,
    MoreRead,
    LostWrite,
    MoreWrite,
    LostLocation,
    OtherLocation,
    MovedWrite,
    ExchangedThreads,
    Field,
    NearField,
    HalfInitial,
    FirstByte,
    Length,
    EventTwice,
    LongWrites,
    SwappedLines,
    TwiceLine,
    MovedLine,
    LocationTwice,
    AnyByte,
    Capital,
    OddLine,
    EmptyLine,
    LostLastNewline,
    LongLine,
    OpenRemark,
    LateRemark,
    AnyBytes,
    Empty,
];

/// The changes after which the text still has the right form.
pub const OF_THE_GRAPH: [Change; 14] = {
    let mut some = [Nothing; 14];
    let mut k = 0;
    while k < 14 {
        some[k] = ALL[k];
        k += 1;
    }
    some
};

/// The graph of a random full schedule, that schedule, and the graph's text with this change, sometimes with a second one. One in
/// three has remarks or capitals.
pub fn text(random: &mut Random, program: &Program, change: Change) -> (Vec<u8>, Vec<u8>) {
    let schedule = schedule::full(random, program);
    let machine = run_full(program, &schedule).unwrap();
    let mut graph = Graph::of(&machine);
    orders::change(random, &machine, change, &mut graph);
    if change != Nothing && random.one_in(4) {
        let second = random.pick(&OF_THE_GRAPH);
        orders::change(random, &machine, second, &mut graph);
    }
    (schedule, text::changed(random, change, &graph))
}
