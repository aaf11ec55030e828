//! The drifts as a picture in SVG: time across and the size of the drift up, both logarithmic, with Lendaru on a line
//! of its own for zero, which no logarithm reaches.
use crate::instead::{COUNT, NAMES};
use crate::table::length;
use crate::Sample;
use std::fmt::Write;

const WIDTH: f64 = 900.0;
const HEIGHT: f64 = 520.0;
const LEFT: f64 = 70.0;
const RIGHT: f64 = 620.0;
const TOP: f64 = 50.0;
/// where the smallest drift that is drawn lies, a picosecond, and where zero does
const BOTTOM: f64 = 410.0;
const ZERO: f64 = 450.0;

const COLOURS: [&str; COUNT] = ["#d55e00", "#0072b2", "#009e73", "#cc79a7"];

const TIMES: [(&str, f64); 7] = [
    ("1 s", 1.0),
    ("1 min", 60.0),
    ("1 hour", 3600.0),
    ("1 day", 86_400.0),
    ("week", 604_800.0),
    ("month", 2_628_000.0),
    ("6 months", 15_768_000.0),
];

/// Drifts with a name, in nanoseconds.
const SIZES: [(&str, f64); 5] = [("1 ps", 1e-3), ("1 ns", 1.0), ("1 µs", 1e3), ("1 ms", 1e6), ("1 s", 1e9)];

struct Scale {
    /// the logarithms at the right and at the top
    time: f64,
    drift: f64,
}

impl Scale {
    fn of(samples: &[Sample]) -> Scale {
        let last = samples.iter().fold(10.0, |most: f64, s| most.max(s.seconds));
        let most = samples.iter().flat_map(|s| s.drifts).fold(1.0, |most: f64, drift| most.max(drift.abs()));
        Scale { time: last.log10(), drift: most.log10().ceil() }
    }

    fn x(&self, seconds: f64) -> f64 {
        LEFT + (RIGHT - LEFT) * seconds.log10() / self.time
    }

    fn y(&self, ns: f64) -> f64 {
        BOTTOM - (BOTTOM - TOP) * (ns.abs().log10() + 3.0) / (self.drift + 3.0)
    }
}

fn line(out: &mut String, from: (f64, f64), to: (f64, f64), style: &str) {
    let ((x1, y1), (x2, y2)) = (from, to);
    writeln!(out, r#"<line x1="{x1:.1}" y1="{y1:.1}" x2="{x2:.1}" y2="{y2:.1}" {style}/>"#).expect("a text grows");
}

fn text(out: &mut String, at: (f64, f64), style: &str, words: &str) {
    writeln!(out, r#"<text x="{:.1}" y="{:.1}" {style}>{words}</text>"#, at.0, at.1).expect("a text grows");
}

fn axes(out: &mut String, scale: &Scale) {
    let grid = r##"stroke="#ddd""##;
    for (name, seconds) in TIMES.into_iter().filter(|(_, s)| s.log10() <= scale.time + 1e-9) {
        let x = scale.x(seconds);
        line(out, (x, TOP), (x, ZERO), grid);
        text(out, (x, ZERO + 20.0), r#"text-anchor="middle""#, name);
    }
    for (name, ns) in SIZES.into_iter().filter(|(_, ns)| ns.log10() <= scale.drift) {
        let y = scale.y(ns);
        line(out, (LEFT, y), (RIGHT, y), grid);
        text(out, (LEFT - 8.0, y + 4.0), r#"text-anchor="end""#, name);
    }
    text(out, (LEFT - 8.0, ZERO + 4.0), r#"text-anchor="end""#, "0");
    text(out, ((LEFT + RIGHT) / 2.0, ZERO + 44.0), r#"text-anchor="middle""#, "engine time");
}

/// One curve; what is below a picosecond is left out.
fn curve(out: &mut String, samples: &[Sample], scale: &Scale, which: usize) {
    let seen = samples.iter().filter(|s| s.drifts[which].abs() >= 1e-3);
    let points: Vec<String> =
        seen.map(|s| format!("{:.1},{:.1}", scale.x(s.seconds), scale.y(s.drifts[which]))).collect();
    let (colour, points) = (COLOURS[which], points.join(" "));
    writeln!(out, r#"<polyline points="{points}" fill="none" stroke="{colour}" stroke-width="2"/>"#)
        .expect("a text grows");
}

/// The names at the right, each at the end of its curve, moved apart where they would lie on each other.
fn names(out: &mut String, last: &Sample, scale: &Scale) {
    let mut ends: Vec<(f64, usize)> = (0..COUNT).map(|i| (scale.y(last.drifts[i].abs().max(1e-3)), i)).collect();
    ends.sort_by(|a, b| a.0.total_cmp(&b.0));
    let mut free = TOP;
    for (y, i) in ends {
        let y = y.max(free);
        free = y + 34.0;
        let style = format!(r#"fill="{}""#, COLOURS[i]);
        text(out, (RIGHT + 10.0, y), &style, NAMES[i]);
        text(out, (RIGHT + 10.0, y + 15.0), &style, &length(last.drifts[i]));
    }
    text(out, (RIGHT + 10.0, ZERO - 11.0), r#"font-weight="bold""#, "Lendaru");
    text(out, (RIGHT + 10.0, ZERO + 4.0), r#"font-weight="bold""#, &format!("{}, at every call", last.own));
}

pub fn draw(samples: &[Sample], seed: u64) -> String {
    let scale = Scale::of(samples);
    let last = samples.last().expect("there is an end");
    let font = r#"font-family="sans-serif" font-size="13""#;
    let mut out = format!("<svg xmlns=\"http://www.w3.org/2000/svg\" viewBox=\"0 0 {WIDTH} {HEIGHT}\" {font}>\n");
    out += "<rect width=\"100%\" height=\"100%\" fill=\"white\"/>\n";
    let title = "Drift of the time kept, or of the next edge, from what was ordered";
    text(&mut out, (LEFT, 24.0), r#"font-size="16""#, title);
    axes(&mut out, &scale);
    for which in 0..COUNT {
        curve(&mut out, samples, &scale, which);
    }
    line(&mut out, (LEFT, ZERO), (RIGHT, ZERO), r##"stroke="#000" stroke-width="4""##);
    names(&mut out, last, &scale);
    let made = format!("reference/months {}, seed {seed}", (last.seconds / 3600.0).round());
    text(&mut out, (LEFT, HEIGHT - 8.0), r##"font-size="11" fill="#777""##, &made);
    out + "</svg>\n"
}
