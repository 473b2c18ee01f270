//! How both planners' times grow, as a picture: text in SVG, a panel for each number that grows. Times are on an axis of
//! powers of ten and sizes on one of powers of two, so that a straight line is a power of the size.

use crate::times::ratio;

/// The mean seconds of both at one size.
pub struct Point {
    pub size: u64,
    pub library: f64,
    pub simple: f64,
}

/// What grows, and the points in the order of their sizes; there are at least two.
pub struct Panel {
    pub name: &'static str,
    pub points: Vec<Point>,
}

// Lengths are in pixels, from the upper left corner.
const WIDTH: f64 = 900.0;
const HEIGHT: f64 = 426.0;
const LEFT: f64 = 78.0;
const PANEL: f64 = 250.0;
const GAP: f64 = 26.0;
const TOP: f64 = 74.0;
const BOTTOM: f64 = 290.0;

/// How far the first and the last size are from the sides of a panel.
const INSET: f64 = 26.0;

const LIBRARY: &str = "#0b6fa4";
const SIMPLE: &str = "#c4541a";

/// The powers of ten between which all times are: the axis begins and ends with them.
struct Axis {
    low: i32,
    high: i32,
}

impl Axis {
    fn of(panels: &[Panel]) -> Axis {
        let points = panels.iter().flat_map(|panel| &panel.points);
        let times = points.flat_map(|point| [point.library, point.simple]);
        let powers: Vec<f64> = times.map(f64::log10).collect();
        let low = powers.iter().copied().fold(f64::INFINITY, f64::min).floor() as i32;
        let high = powers.iter().copied().fold(-9.0, f64::max).ceil() as i32;
        let high = high.max(low + 1);
        Axis { low, high }
    }

    /// How far down a time stands.
    fn down(&self, seconds: f64) -> f64 {
        let part = (seconds.log10() - f64::from(self.low)) / f64::from(self.high - self.low);
        BOTTOM - part * (BOTTOM - TOP)
    }
}

/// A power of ten of a second, in the unit in which it is said.
pub fn tick(power: i32) -> String {
    let (unit, more) = match power {
        power if power < -3 => ("µs", 6),
        power if power < 0 => ("ms", 3),
        _ => ("s", 0),
    };
    format!("{} {}", 10_f64.powi(power + more), unit)
}

/// Text in which nothing is taken for a tag.
pub fn escaped(text: &str) -> String {
    let text = text.replace('&', "&amp;");
    text.replace('<', "&lt;").replace('>', "&gt;")
}

/// One line of text; `more` says where it begins, its size and the like.
fn words(x: f64, y: f64, more: &str, text: &str) -> String {
    let text = escaped(text);
    format!(
        "<text x=\"{:.1}\" y=\"{:.1}\"{}>{}</text>\n",
        x, y, more, text
    )
}

const MIDDLE: &str = " text-anchor=\"middle\"";
const GREY: &str = " text-anchor=\"middle\" fill=\"#555555\"";

/// How far right a size stands in the panel that begins at `left`.
fn right(panel: &Panel, left: f64, size: u64) -> f64 {
    let (first, last) = (
        panel.points[0].size,
        panel.points[panel.points.len() - 1].size,
    );
    let log = |size: u64| (size as f64).log2();
    let part = (log(size) - log(first)) / (log(last) - log(first));
    left + INSET + part * (PANEL - 2.0 * INSET)
}

/// The library's mark is round and the simple planner's is square, for those who do not tell the colours apart.
fn mark(color: &str, x: f64, y: f64) -> String {
    if color == LIBRARY {
        return format!(
            "<circle cx=\"{:.1}\" cy=\"{:.1}\" r=\"4.5\" fill=\"{}\"/>\n",
            x, y, color
        );
    }
    let (x, y) = (x - 4.0, y - 4.0);
    format!(
        "<rect x=\"{:.1}\" y=\"{:.1}\" width=\"8\" height=\"8\" fill=\"{}\"/>\n",
        x, y, color
    )
}

/// The line through some places, and a mark at each.
fn line(color: &str, places: &[(f64, f64)]) -> String {
    let path: Vec<String> = places
        .iter()
        .map(|(x, y)| format!("{:.1},{:.1}", x, y))
        .collect();
    let path = path.join(" ");
    let line = format!(
        "<polyline points=\"{}\" fill=\"none\" stroke=\"{}\" stroke-width=\"2\"/>\n",
        path, color
    );
    let marks = places.iter().map(|(x, y)| mark(color, *x, *y));
    line + &marks.collect::<String>()
}

/// The frame of a panel, with a thin line at each power of ten.
fn frame(axis: &Axis, left: f64) -> String {
    let mut out = String::new();
    for power in axis.low..=axis.high {
        let y = axis.down(10_f64.powi(power));
        out += &format!(
            "<path d=\"M{:.1} {:.1}h{}\" stroke=\"#dddddd\"/>\n",
            left, y, PANEL
        );
    }
    let height = BOTTOM - TOP;
    out + &format!(
        "<rect x=\"{}\" y=\"{}\" width=\"{}\" height=\"{}\" fill=\"none\" stroke=\"#888888\"/>\n",
        left, TOP, PANEL, height
    )
}

/// One panel: both lines, the sizes below them, and how many times as long the simple planner takes.
fn drawn(axis: &Axis, panel: &Panel, left: f64) -> String {
    let mut out = frame(axis, left);
    let (mut library, mut simple) = (Vec::new(), Vec::new());
    for point in &panel.points {
        let x = right(panel, left, point.size);
        library.push((x, axis.down(point.library)));
        simple.push((x, axis.down(point.simple)));
        out += &words(x, BOTTOM + 18.0, MIDDLE, &point.size.to_string());
        let times = format!("× {}", ratio(point.simple / point.library));
        out += &words(x, BOTTOM + 58.0, GREY, &times);
    }
    let bold = " text-anchor=\"middle\" font-weight=\"bold\"";
    out += &words(left + PANEL / 2.0, BOTTOM + 37.0, bold, panel.name);
    out + &line(SIMPLE, &simple) + &line(LIBRARY, &library)
}

/// What the whole picture has once: the heading, the two colours, the powers of ten.
fn heading(axis: &Axis) -> String {
    let mut out = words(
        LEFT,
        28.0,
        " font-size=\"17\"",
        "Time of one period search, mean",
    );
    for (x, color, name) in [
        (LEFT + 6.0, LIBRARY, "library"),
        (LEFT + 96.0, SIMPLE, "simple planner"),
    ] {
        out += &mark(color, x, 52.0);
        out += &words(x + 10.0, 56.5, "", name);
    }
    let end = " text-anchor=\"end\"";
    for power in axis.low..=axis.high {
        let y = axis.down(10_f64.powi(power)) + 4.5;
        out += &words(LEFT - 8.0, y, end, &tick(power));
    }
    out
}

/// The whole picture, with lines of text below it. It has a white ground of its own, for pages that are dark.
pub fn svg(panels: &[Panel], below: &[String]) -> String {
    let axis = Axis::of(panels);
    let mut out = format!(
        "<svg xmlns=\"http://www.w3.org/2000/svg\" width=\"{w}\" height=\"{h}\" viewBox=\"0 0 {w} {h}\" \
         font-family=\"sans-serif\" font-size=\"13\" fill=\"#222222\">\n\
         <rect width=\"{w}\" height=\"{h}\" fill=\"#ffffff\"/>\n",
        w = WIDTH,
        h = HEIGHT
    );
    out += &heading(&axis);
    let mut left = LEFT;
    for panel in panels {
        out += &drawn(&axis, panel, left);
        left += PANEL + GAP;
    }
    let told = "×: how many times as long the simple planner takes; the library also reads and judges the bytes";
    out += &words(LEFT, BOTTOM + 84.0, " fill=\"#555555\"", told);
    for (place, text) in below.iter().enumerate() {
        let y = BOTTOM + 102.0 + 18.0 * place as f64;
        out += &words(LEFT, y, " fill=\"#555555\"", text);
    }
    out + "</svg>\n"
}
