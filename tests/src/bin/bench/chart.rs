//! A picture of times: charts side by side, the axis of times by powers of ten.

/// Times in microseconds at places of the axis below.
pub struct Line {
    pub name: String,
    pub values: Vec<(usize, f64)>,
}

pub struct Chart {
    pub title: String,
    pub axis: String,
    pub lines: Vec<Line>,
}

const WIDTH: f64 = 360.0;
const HEIGHT: f64 = 300.0;
/// The room left of a chart, and above it.
const LEFT: f64 = 64.0;
const TOP: f64 = 48.0;
/// Each line's colour, and how it is broken.
const STROKES: [(&str, &str); 5] = [("#777777", ""), ("#1f5fbf", ""), ("#1f5fbf", "5 4"), ("#c05a00", ""), ("#c05a00", "5 4")];

/// The powers of ten, in microseconds, between which all times lie.
fn decades(charts: &[Chart]) -> (i32, i32) {
    let values = || charts.iter().flat_map(|chart| &chart.lines).flat_map(|line| &line.values).map(|value| value.1);
    let (least, most) = values().fold((f64::MAX, f64::MIN), |(a, b), v| (a.min(v), b.max(v)));
    (least.log10().floor() as i32, most.log10().ceil() as i32)
}

/// A power of ten of microseconds in words.
fn named(power: i32) -> String {
    match power {
        ..=-1 => format!("{} ns", 10u64.pow((power + 3).max(0) as u32)),
        0..=2 => format!("{} us", 10u64.pow(power as u32)),
        3..=5 => format!("{} ms", 10u64.pow(power as u32 - 3)),
        _ => format!("{} s", 10u64.pow(power as u32 - 6)),
    }
}

/// Text at a place, so anchored.
fn text(x: f64, y: f64, anchor: &str, size: u32, words: &str) -> String {
    format!("<text x=\"{x:.1}\" y=\"{y:.1}\" text-anchor=\"{anchor}\" font-size=\"{size}\">{words}</text>\n")
}

/// The frame of a chart whose left edge is at x: its title, its decades, its places.
fn frame(chart: &Chart, x: f64, (low, high): (i32, i32), place: impl Fn(usize) -> f64) -> String {
    let mut drawn = text(x + WIDTH / 2.0, TOP - 18.0, "middle", 13, &chart.title);
    for power in low..=high {
        let y = TOP + HEIGHT - (power - low) as f64 / (high - low) as f64 * HEIGHT;
        drawn += &format!("<path d=\"M{x:.1} {y:.1}h{WIDTH}\" stroke=\"#dddddd\"/>\n");
        drawn += &text(x - 6.0, y + 4.0, "end", 11, &named(power));
    }
    for (at, _) in &chart.lines[0].values {
        drawn += &text(place(*at), TOP + HEIGHT + 16.0, "middle", 11, &at.to_string());
    }
    drawn + &text(x + WIDTH / 2.0, TOP + HEIGHT + 34.0, "middle", 12, &chart.axis)
}

/// One chart.
fn chart_at(chart: &Chart, x: f64, decades: (i32, i32)) -> String {
    let places = &chart.lines[0].values;
    let (first, last) = (places[0].0 as f64, places[places.len() - 1].0 as f64);
    let place = |at: usize| x + 20.0 + (at as f64 - first) / (last - first) * (WIDTH - 40.0);
    let (low, high) = (decades.0 as f64, decades.1 as f64);
    let height = |time: f64| TOP + HEIGHT - (time.log10() - low) / (high - low) * HEIGHT;
    let mut drawn = frame(chart, x, decades, place);
    for (line, (colour, dashes)) in chart.lines.iter().zip(STROKES) {
        let points: Vec<String> = line.values.iter().map(|&(at, time)| format!("{:.1},{:.1}", place(at), height(time))).collect();
        drawn += &format!(
            "<polyline points=\"{}\" fill=\"none\" stroke=\"{colour}\" stroke-width=\"2\" stroke-dasharray=\"{dashes}\"/>\n",
            points.join(" ")
        );
        for &(at, time) in &line.values {
            drawn += &format!("<circle cx=\"{:.1}\" cy=\"{:.1}\" r=\"3\" fill=\"{colour}\"/>\n", place(at), height(time));
        }
    }
    drawn
}

/// All charts beside each other, and below them what each line is.
pub fn drawn(charts: &[Chart]) -> String {
    let decades = decades(charts);
    let (width, height) = (charts.len() as f64 * (LEFT + WIDTH) + 24.0, TOP + HEIGHT + 88.0);
    let mut svg = format!(
        "<svg xmlns=\"http://www.w3.org/2000/svg\" viewBox=\"0 0 {width} {height}\" width=\"{width}\" height=\"{height}\" \
         font-family=\"sans-serif\" fill=\"#222222\">\n<title>How the time of a list grows</title>\n\
         <rect width=\"{width}\" height=\"{height}\" fill=\"#ffffff\"/>\n"
    );
    for (k, chart) in charts.iter().enumerate() {
        svg += &chart_at(chart, LEFT + k as f64 * (LEFT + WIDTH), decades);
    }
    for (k, (line, (colour, dashes))) in charts[0].lines.iter().zip(STROKES).enumerate() {
        let (x, y) = (LEFT + k as f64 * 236.0, height - 18.0);
        svg += &format!(
            "<path d=\"M{x:.1} {:.1}h30\" stroke=\"{colour}\" stroke-width=\"2\" stroke-dasharray=\"{dashes}\"/>\n",
            y - 4.0
        );
        svg += &text(x + 38.0, y, "start", 12, &line.name);
    }
    svg + "</svg>\n"
}
