//! Where things stand in a drawing.
use super::lanes::{Arrow, Lanes};
use super::rows::{words, Row};
use crate::graph::{Event, Order};
use crate::program::{Names, Program};
use std::collections::BTreeMap;

/// The height of a row and of the head above the rows, for the table and for the drawing, in pixels.
pub const ROW: usize = 46;
pub const HEAD: usize = 70;
/// The width of a character in a box, and the space beside the words.
const CHARACTER: f64 = 6.7;
const PADDING: f64 = 8.0;
/// A drawing is no wider, so that it fits a window of 1,280 pixels beside the columns; words that do not fit are cut.
const FIT: f64 = 768.0;

/// The boxes of a drawing: a column a thread, as wide as its longest words, and lanes for arrows beside them.
pub struct Layout {
    places: Places,
    /// The middle of each thread's column, and half the width of its boxes.
    columns: Vec<(f64, f64)>,
    lanes: Lanes,
    /// The left edge of each lane.
    edges: Vec<f64>,
    pub width: f64,
    pub height: f64,
}

/// The row of each event, and the row in which its write reaches memory: the same save for a store that was pending.
struct Places(BTreeMap<Event, [usize; 2]>);

impl Places {
    fn of(rows: &[Row]) -> Places {
        let mut places: BTreeMap<Event, [usize; 2]> = BTreeMap::new();
        for (k, row) in rows.iter().enumerate() {
            match row.event() {
                Some(event) if row.is_move() => places.entry(event).or_insert([k; 2])[1] = k,
                Some(event) => drop(places.insert(event, [k; 2])),
                None => {}
            }
        }
        Places(places)
    }

    fn access(&self, event: Event) -> usize {
        self.0[&event][0]
    }

    fn memory(&self, event: Event) -> usize {
        self.0[&event][1]
    }

    /// The rows that an arrow leaves and reaches, the first none for the initial writes. Coherence is the order of reaching memory, and a
    /// read from memory sees a write that has reached it; so every arrow points down.
    fn rows(&self, arrow: &Arrow) -> (Option<usize>, usize) {
        let Arrow { order, from, to } = *arrow;
        let reached = if order == Order::ReadsFrom { self.access(to) } else { self.memory(to) };
        let left = from.map(|from| match order {
            Order::ReadsFrom if self.memory(from) < reached => self.memory(from),
            Order::Coherence => self.memory(from),
            _ => self.access(from),
        });
        (left, reached)
    }
}

impl Layout {
    pub fn of(program: &Program, rows: &[Row], arrows: &[Arrow]) -> Layout {
        let places = Places::of(rows);
        let threads = program.threads.len();
        let lanes = Lanes::of(arrows, threads, |arrow| {
            let (from, to) = places.rows(arrow);
            (from.map_or(0, |row| row + 1), to + 1)
        });
        let free = FIT - (0..=threads).map(|lane| lanes.width(lane)).sum::<f64>();
        let widths = shared(longest(&program.names, threads, rows), free);
        let (mut columns, mut edges, mut width) = (Vec::new(), Vec::new(), 0.0);
        for (t, column) in widths.iter().enumerate() {
            edges.push(width);
            width += lanes.width(t);
            columns.push((width + column / 2.0, column / 2.0));
            width += column;
        }
        edges.push(width);
        width += lanes.width(threads);
        Layout { places, columns, lanes, edges, width, height: (HEAD + ROW * rows.len() + 6) as f64 }
    }

    /// The middle of a thread's column.
    pub fn x(&self, t: u8) -> f64 {
        self.columns[t as usize].0
    }

    /// Half the width of a thread's boxes.
    pub fn half(&self, t: u8) -> f64 {
        self.columns[t as usize].1
    }

    /// The right or the left side of a thread's boxes.
    pub fn side(&self, t: u8, right: bool) -> f64 {
        self.x(t) + if right { self.half(t) } else { -self.half(t) }
    }

    /// The middle of an event's row.
    pub fn y(&self, event: Event) -> f64 {
        middle(self.places.access(event))
    }

    /// The middles of the rows that an arrow leaves and reaches, the first none for the initial writes.
    pub fn ends(&self, arrow: &Arrow) -> (Option<f64>, f64) {
        let (from, to) = self.places.rows(arrow);
        (from.map(middle), middle(to))
    }

    /// Where an arrow runs down.
    pub fn track(&self, arrow: &Arrow) -> f64 {
        self.edges[arrow.lane()] + self.lanes.place(arrow)
    }

    /// Words as they fit a thread's column.
    pub fn fitted(&self, t: u8, words: &str) -> String {
        let room = ((2.0 * self.half(t) - PADDING) / CHARACTER) as usize;
        if words.chars().count() <= room {
            return words.to_string();
        }
        words.chars().take(room.saturating_sub(1)).chain(['…']).collect()
    }
}

/// The width that each thread's words take.
fn longest(names: &Names, threads: usize, rows: &[Row]) -> Vec<f64> {
    let mut longest: Vec<usize> = (0..threads as u8).map(|t| names.thread(t).chars().count().max(6)).collect();
    for row in rows {
        let most = words(names, row).map(|line| line.chars().count()).into_iter().max().unwrap_or(0);
        let of = &mut longest[row.thread() as usize];
        *of = most.max(*of);
    }
    longest.into_iter().map(|characters| (characters as f64 * CHARACTER + PADDING + 4.0).ceil()).collect()
}

/// The widths where they fit together; else each as it is where it is no more than its share of what the others leave.
fn shared(mut widths: Vec<f64>, free: f64) -> Vec<f64> {
    let mut open: Vec<usize> = (0..widths.len()).collect();
    let mut left = free;
    while !open.is_empty() {
        let share = left / open.len() as f64;
        let (small, large): (Vec<usize>, Vec<usize>) = open.iter().partition(|&&t| widths[t] <= share);
        if small.is_empty() {
            large.iter().for_each(|&t| widths[t] = share.floor());
            break;
        }
        left -= small.iter().map(|&t| widths[t]).sum::<f64>();
        open = large;
    }
    widths
}

/// The middle of a row.
pub fn middle(row: usize) -> f64 {
    (HEAD + ROW * row + ROW / 2) as f64
}
