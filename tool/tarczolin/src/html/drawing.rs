//! The graph drawn: threads as columns, a row a step, and the orders as arrows around the boxes.
use super::escape::escaped;
use super::lanes::Arrow;
use super::layout::{middle, Layout};
use super::rows::{words, Row};
use crate::execution::Execution;
use crate::graph::{Event, Order};
use crate::machine::Queue;
use crate::program::{Names, Program};
use std::fmt::Write;

/// The heads of arrows, once for the whole page, one for each colour.
pub fn arrow_heads() -> String {
    format!("<svg width=\"0\" height=\"0\" style=\"position:absolute\">{}</svg>\n", heads())
}

/// The heads themselves.
pub fn heads() -> String {
    let head = |class| {
        let size = "viewBox=\"0 0 8 8\" refX=\"7\" refY=\"4\" markerWidth=\"5\" markerHeight=\"5\"";
        format!("<marker id=\"{class}\" {size} orient=\"auto\"><path d=\"M0 0 8 4 0 8z\"/></marker>")
    };
    let heads = ["po", "rf", "co", "fr"].map(head).concat();
    format!("<defs>{heads}</defs>")
}

/// Half the height of a box, where the initial writes stand, and how round the corners of arrows are.
const BOX: f64 = 17.0;
const INITIAL: f64 = 50.0;
const CORNER: f64 = 5.0;

/// How an order is drawn: its class, its word, and where it leaves and reaches a box, below and above the middle.
fn drawn(order: Order) -> (&'static str, &'static str, [f64; 2]) {
    match order {
        Order::Program => ("po", "is followed by", [0.0, 0.0]),
        Order::ReadsFrom => ("rf", "is read by", [3.0, -13.0]),
        Order::Coherence => ("co", "comes before", [8.0, -8.0]),
        Order::FromReads => ("fr", "reads before", [13.0, -3.0]),
    }
}

pub fn svg(execution: &Execution, rows: &[Row]) -> String {
    let program = execution.program;
    let edges = execution.graph.edges(|event| execution.location(event));
    let arrows: Vec<Arrow> = edges.into_iter().map(|(order, from, to)| Arrow { order, from, to }).collect();
    let layout = Layout::of(program, rows, &arrows);
    let (width, height) = (layout.width, layout.height);
    let mut text = format!(
        "<svg class=\"graph\" width=\"{width:.0}\" height=\"{height:.0}\" viewBox=\"0 0 {width:.0} {height:.0}\" role=\"img\" \
         aria-label=\"graph of execution {}\">\n",
        execution.name()
    );
    text += &head(program, &layout);
    text += &program_order(execution, &layout);
    text += &arrows.iter().map(|arrow| drawn_arrow(&program.names, arrow, &layout)).collect::<String>();
    text += &boxes(&program.names, rows, &layout);
    text + "</svg>\n"
}

/// The threads' names, and below them the initial writes.
fn head(program: &Program, layout: &Layout) -> String {
    let mut text = String::new();
    for t in program.numbers() {
        let name = escaped(&layout.fitted(t, &program.names.thread(t)));
        writeln!(text, "<text class=\"name t{t}\" x=\"{:.1}\" y=\"22\">{name}</text>", layout.x(t)).expect("text grows");
    }
    let (left, right) = (4.0, layout.width - 4.0);
    let line = format!("<line class=\"initial\" x1=\"{left}\" x2=\"{right:.1}\" y1=\"{INITIAL}\" y2=\"{INITIAL}\"/>\n");
    let above = INITIAL - 6.0;
    let initial = escaped(&program.initial());
    text + &line + &format!("<text class=\"initial\" x=\"{left}\" y=\"{above}\">initial: {initial}</text>\n")
}

/// From each step of a thread to its next one, straight down.
fn program_order(execution: &Execution, layout: &Layout) -> String {
    let mut text = String::new();
    for step in &execution.steps {
        let Event { t, i } = step.done.event;
        if i > 0 && step.done.queue != Queue::Out {
            let (x, from, to) = (layout.x(t), layout.y(Event { t, i: i - 1 }) + BOX, layout.y(Event { t, i }) - BOX);
            let line = format!("<path class=\"po\" d=\"M{x:.1} {from:.1}V{to:.1}\" marker-end=\"url(#po)\"/>");
            writeln!(text, "{line}").expect("text grows");
        }
    }
    text
}

/// An arrow between two boxes, or from the initial writes, with its words.
fn drawn_arrow(names: &Names, arrow: &Arrow, layout: &Layout) -> String {
    let (class, word, _) = drawn(arrow.order);
    let event = |event: Event| escaped(&format!("{} #{}", names.thread(event.t), event.i));
    let title = format!("{} {word} {}", arrow.from.map_or("initial".to_string(), event), event(arrow.to));
    let path = path(arrow, layout);
    format!("<path class=\"{class}\" d=\"{path}\" marker-end=\"url(#{class})\"><title>{title}</title></path>\n")
}

/// Along the source's row to the track, down to the target's row, and to the target's side.
fn path(arrow: &Arrow, layout: &Layout) -> String {
    let (track, [out, into]) = (layout.track(arrow), drawn(arrow.order).2);
    let right = arrow.comes_from_the_right();
    let (leaves, reaches) = layout.ends(arrow);
    let (end, y2) = (layout.side(arrow.to.t, right), reaches + into);
    let turn = track + if right { -CORNER } else { CORNER };
    let last = format!("V{:.1}Q{track:.1} {y2:.1} {turn:.1} {y2:.1}H{end:.1}", y2 - CORNER);
    let (Some(from), Some(leaves)) = (arrow.from, leaves) else { return format!("M{track:.1} {INITIAL}{last}") };
    // from the side of the source that looks to the track: an arrow to its own thread leaves it on the right
    let start = layout.side(from.t, from.t <= arrow.to.t);
    let (y1, near) = (leaves + out, if start < track { track - CORNER } else { track + CORNER });
    format!("M{start:.1} {y1:.1}H{near:.1}Q{track:.1} {y1:.1} {track:.1} {:.1}{last}", y1 + CORNER)
}

/// The steps and the failed assertions.
fn boxes(names: &Names, rows: &[Row], layout: &Layout) -> String {
    let mut text = String::new();
    for (k, row) in rows.iter().enumerate() {
        let t = row.thread();
        let class = if row.event().is_some() { format!("step t{t}") } else { "failed".to_string() };
        let (x, y, half) = (layout.x(t), middle(k), layout.half(t));
        let (left, top, width, height) = (x - half, y - BOX, 2.0 * half, 2.0 * BOX);
        let rect = format!("<rect x=\"{left:.1}\" y=\"{top:.1}\" width=\"{width:.1}\" height=\"{height}\" rx=\"5\"/>");
        let words = words(names, row);
        let title = escaped(&words.join(" "));
        let line = |words: &str, off: f64| {
            format!("<tspan x=\"{x:.1}\" y=\"{:.1}\">{}</tspan>", y + off, escaped(&layout.fitted(t, words)))
        };
        let lines = line(&words[0], -3.0) + &line(&words[1], 11.0);
        let data = row.data();
        writeln!(text, "<g class=\"{class}\" {data}><title>{title}</title>{rect}<text>{lines}</text></g>").expect("text grows");
    }
    text
}
