//! A picture of the planning workloads as SVG: bars of ours, Rust and the peer over a logarithmic axis.
#![forbid(unsafe_code)]

use crate::planning::Measured;
use crate::table::time;

const WIDTH: f64 = 960.0;
/// Where the bars begin, and where the axis ends; values stand right of the bars.
const LEFT: f64 = 230.0;
const RIGHT: f64 = 880.0;
const TOP: f64 = 84.0;
const BOTTOM: f64 = 44.0;
/// A bar and a group of three with the gap after it.
const BAR: f64 = 14.0;
const GROUP: f64 = 54.0;
const FONT: &str = "font-family=\"Helvetica, Arial, sans-serif\"";

/// A side's name and colour.
const SIDES: [(&str, &str); 3] = [
    ("ours (proved)", "#1b6e53"),
    ("idiomatic Rust", "#d98e2b"),
    ("peer (document 000)", "#8a8f98"),
];

/// A logarithmic axis over whole powers of ten; it begins a power below the shortest time, so that each bar is seen.
struct Axis {
    first: i32,
    last: i32,
}

impl Axis {
    fn over(all: &[Measured]) -> Self {
        let times = || all.iter().flat_map(|one| [one.ours, one.rust, one.peer]);
        let least = times().fold(f64::INFINITY, f64::min);
        let most = times().fold(0.0, f64::max);
        Axis {
            first: least.log10().floor() as i32 - 1,
            last: most.log10().ceil() as i32,
        }
    }

    fn x(&self, nanoseconds: f64) -> f64 {
        let share =
            (nanoseconds.log10() - f64::from(self.first)) / f64::from(self.last - self.first);
        LEFT + share * (RIGHT - LEFT)
    }
}

/// A piece of text.
fn text(x: f64, y: f64, size: u32, anchor: &str, words: &str) -> String {
    format!("<text x=\"{x:.1}\" y=\"{y:.1}\" font-size=\"{size}\" text-anchor=\"{anchor}\" fill=\"#222\">{words}</text>\n")
}

/// The whole picture.
pub fn draw(all: &[Measured]) -> String {
    let axis = Axis::over(all);
    let end = TOP + GROUP * all.len() as f64;
    let height = end + BOTTOM;
    let mut svg = format!(
        "<svg xmlns=\"http://www.w3.org/2000/svg\" viewBox=\"0 0 {WIDTH} {height}\" width=\"{WIDTH}\" height=\"{height}\" {FONT}>\n\
         <rect width=\"{WIDTH}\" height=\"{height}\" fill=\"white\"/>\n"
    );
    svg += &text(
        24.0,
        30.0,
        18,
        "start",
        "Time to plan a batch of 64 full pages",
    );
    svg += &legend();
    svg += &grid(&axis, end);
    for (number, one) in all.iter().enumerate() {
        svg += &group(&axis, TOP + GROUP * number as f64, one);
    }
    svg + "</svg>\n"
}

fn legend() -> String {
    let mut svg = String::new();
    let mut x = 24.0;
    for (name, colour) in SIDES {
        svg +=
            &format!("<rect x=\"{x}\" y=\"46\" width=\"12\" height=\"12\" fill=\"{colour}\"/>\n");
        svg += &text(x + 18.0, 56.5, 13, "start", name);
        x += 170.0;
    }
    svg + &text(
        x,
        56.5,
        13,
        "start",
        "shorter is better; * the peer's cap on cycles was hit",
    )
}

/// A line for each power of ten, with its time below.
fn grid(axis: &Axis, end: f64) -> String {
    let mut svg = String::new();
    for power in axis.first..=axis.last {
        let x = axis.x(10f64.powi(power));
        svg += &format!(
            "<line x1=\"{x:.1}\" y1=\"{:.1}\" x2=\"{x:.1}\" y2=\"{end:.1}\" stroke=\"#ddd\"/>\n",
            TOP - 8.0
        );
        svg += &text(x, end + 18.0, 12, "middle", &whole_time(power));
    }
    svg + &text(
        (LEFT + RIGHT) / 2.0,
        end + 36.0,
        12,
        "middle",
        "time, logarithmic",
    )
}

/// A power of ten of nanoseconds, in words.
fn whole_time(power: i32) -> String {
    let unit = ["ns", "µs", "ms", "s"][(power / 3) as usize];
    format!("{} {unit}", 10i32.pow((power % 3) as u32))
}

/// The name of a workload and its three bars.
fn group(axis: &Axis, top: f64, one: &Measured) -> String {
    let mut svg = text(LEFT - 10.0, top + 1.5 * BAR + 4.0, 13, "end", &one.name);
    for (row, nanoseconds) in [one.ours, one.rust, one.peer].into_iter().enumerate() {
        let (y, x) = (top + BAR * row as f64, axis.x(nanoseconds));
        let (width, colour) = (x - LEFT, SIDES[row].1);
        let (height, label) = (BAR - 2.0, y + BAR - 4.5);
        svg += &format!("<rect x=\"{LEFT}\" y=\"{y:.1}\" width=\"{width:.1}\" height=\"{height}\" fill=\"{colour}\"/>\n");
        let star = if row == 2 && one.cap_hit { " *" } else { "" };
        svg += &text(x + 5.0, label, 10, "start", &(time(nanoseconds) + star));
    }
    svg
}
