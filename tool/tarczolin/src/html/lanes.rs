//! How arrows run: out of a box along its row, which holds no other box, down the lane beside the target's column, and in.
use crate::graph::{Event, Order};
use std::collections::BTreeMap;

/// An arrow; one from none comes from the initial writes.
#[derive(Clone, Copy, Debug, PartialEq, Eq)]
pub struct Arrow {
    pub order: Order,
    pub from: Option<Event>,
    pub to: Event,
}

/// Arrows of one order from one source to one side of a column run down a lane together.
#[derive(Clone, Copy, Debug, PartialEq, Eq, PartialOrd, Ord)]
struct Bundle {
    from_the_right: bool,
    order: Order,
    from: Option<Event>,
}

/// The rows that a bundle passes, the first and the last.
type Span = (usize, usize);

/// The space between a box and the first track of a lane, between two tracks, and of a lane without tracks.
const BESIDE: f64 = 12.0;
const APART: f64 = 6.0;
const EMPTY: f64 = 16.0;

/// The lanes: number t stands left of thread t's column, and one more behind the last. Each has tracks that no two bundles share
/// in a row.
pub struct Lanes {
    tracks: Vec<BTreeMap<Bundle, usize>>,
}

impl Arrow {
    /// The lane that it runs down, on the side of the target's column from which it comes.
    pub fn lane(&self) -> usize {
        self.to.t as usize + self.comes_from_the_right() as usize
    }

    /// Does it come to its target from the right? So does one from the target's own thread.
    pub fn comes_from_the_right(&self) -> bool {
        self.from.is_some_and(|from| from.t >= self.to.t)
    }

    fn bundle(&self) -> Bundle {
        Bundle { from_the_right: self.comes_from_the_right(), order: self.order, from: self.from }
    }
}

impl Lanes {
    /// The lanes of so many columns, by the rows that an arrow leaves and reaches, counted from 1; the initial writes stand in row 0.
    pub fn of(arrows: &[Arrow], columns: usize, rows: impl Fn(&Arrow) -> (usize, usize)) -> Lanes {
        let mut spans: Vec<BTreeMap<Bundle, Span>> = vec![BTreeMap::new(); columns + 1];
        for arrow in arrows {
            let (first, last) = rows(arrow);
            let span = spans[arrow.lane()].entry(arrow.bundle()).or_insert((first, last));
            *span = (span.0.min(first), span.1.max(last));
        }
        Lanes { tracks: spans.into_iter().map(tracks).collect() }
    }

    pub fn width(&self, lane: usize) -> f64 {
        match self.tracks[lane].values().max() {
            None => EMPTY,
            Some(last) => 2.0 * BESIDE + APART * *last as f64,
        }
    }

    /// How far behind its lane's left edge an arrow runs down.
    pub fn place(&self, arrow: &Arrow) -> f64 {
        BESIDE + APART * self.tracks[arrow.lane()][&arrow.bundle()] as f64
    }
}

/// The first track for each bundle that no other holds in its rows.
fn tracks(spans: BTreeMap<Bundle, Span>) -> BTreeMap<Bundle, usize> {
    let mut spans: Vec<(Bundle, Span)> = spans.into_iter().collect();
    // arrows side by side to the right do not cross where the upper one turns last
    spans.sort_by_key(|(bundle, span)| (*span, if bundle.from_the_right { bundle.order as i8 } else { -(bundle.order as i8) }));
    let mut ends: Vec<usize> = Vec::new();
    let mut tracks = BTreeMap::new();
    for (bundle, (first, last)) in spans {
        let track = ends.iter().position(|end| *end < first).unwrap_or(ends.len());
        ends.resize(ends.len().max(track + 1), 0);
        ends[track] = last;
        tracks.insert(bundle, track);
    }
    tracks
}

#[cfg(test)]
mod tests {
    use super::*;

    fn event(t: u8, i: u8) -> Event {
        Event { t, i }
    }

    /// Two reads of one write share a track; arrows that pass the same rows do not; one that begins behind another takes its place.
    #[test]
    fn tracks_are_shared_only_by_what_belongs_together() {
        let arrow = |order, from, to| Arrow { order, from: Some(from), to };
        let arrows = [
            arrow(Order::ReadsFrom, event(0, 0), event(1, 1)),
            arrow(Order::ReadsFrom, event(0, 0), event(1, 2)),
            arrow(Order::Coherence, event(0, 1), event(1, 0)),
            arrow(Order::FromReads, event(0, 3), event(1, 4)),
            Arrow { order: Order::ReadsFrom, from: None, to: event(1, 3) },
        ];
        let rows = [(event(0, 0), 1), (event(0, 1), 2), (event(1, 0), 3), (event(1, 1), 4), (event(1, 2), 5), (event(0, 3), 7)];
        let rows: BTreeMap<Event, usize> = rows.into_iter().chain([(event(1, 3), 6), (event(1, 4), 8)]).collect();
        let lanes = Lanes::of(&arrows, 2, |arrow| (arrow.from.map_or(0, |from| rows[&from]), rows[&arrow.to]));
        let places = arrows.map(|arrow| (lanes.place(&arrow) - BESIDE) / APART);
        assert_eq!(places, [1.0, 1.0, 2.0, 0.0, 0.0]);
        assert_eq!([0, 1, 2].map(|lane| lanes.width(lane)), [EMPTY, 2.0 * BESIDE + 2.0 * APART, EMPTY]);
    }

    #[test]
    fn lanes_by_where_an_arrow_comes_from() {
        let lane = |from, to| Arrow { order: Order::ReadsFrom, from, to }.lane();
        assert_eq!(lane(None, event(2, 0)), 2);
        assert_eq!(lane(Some(event(0, 0)), event(2, 0)), 2);
        assert_eq!(lane(Some(event(2, 0)), event(2, 1)), 3);
        assert_eq!(lane(Some(event(5, 0)), event(2, 0)), 3);
    }
}
