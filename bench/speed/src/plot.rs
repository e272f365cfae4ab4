//! The plot: a line of dots for each call and core on a logarithmic axis, as SVG.

use std::fmt::Write;

use crate::cases::{ROWS, SINGLES};
use crate::sheets::SIZES;
use crate::table::Times;

const COLOURS: [&str; 2] = ["#1f5fa8", "#c2571a"];
const LEFT: f64 = 190.0;
const TOP: f64 = 92.0;
const ROW: f64 = 26.0;
const PANEL: f64 = 400.0;
const GAP: f64 = 64.0;

/// The sizes of each panel, as places in `SIZES`.
const PANELS: [(&str, [usize; 3]); 2] =
    [("drawings of 16, 64 and 256 cells", [0, 1, 2]), ("600 and 2,048 steps", [3, 4, 4])];

/// The rows of all sizes, then those of one size.
const LINES: usize = ROWS.len() + SINGLES.len();

/// The decades that hold every time.
struct Axis {
    low: f64,
    high: f64,
}

impl Axis {
    fn new(times: &Times) -> Axis {
        let all = || times.rows.iter().flatten().chain(&times.singles).flatten().map(|time| time.log10());
        Axis { low: all().fold(f64::INFINITY, f64::min).floor(), high: all().fold(0.0, f64::max).ceil() }
    }

    fn x(&self, panel: usize, time: f64) -> f64 {
        let left = LEFT + panel as f64 * (PANEL + GAP);
        left + PANEL * (time.log10() - self.low) / (self.high - self.low)
    }
}

pub fn svg(times: &Times) -> String {
    let axis = Axis::new(times);
    let width = LEFT + 2.0 * PANEL + GAP + 30.0;
    let height = TOP + ROW * LINES as f64 + 50.0;
    let mut out = format!(
        "<svg xmlns=\"http://www.w3.org/2000/svg\" width=\"{width}\" height=\"{height}\" viewBox=\"0 0 {width} {height}\" \
         font-family=\"sans-serif\" font-size=\"13\" fill=\"#222\">\n<rect width=\"{width}\" height=\"{height}\" fill=\"#fff\"/>\n"
    );
    text(&mut out, 20.0, 28.0, "start", 17, "Time of one call (logarithmic)");
    legend(&mut out, times);
    for (panel, (title, sizes)) in PANELS.iter().enumerate() {
        grid(&mut out, &axis, panel, title);
        for row in 0..ROWS.len() {
            for core in 0..times.cores.len() {
                dots(&mut out, times, &axis, panel, sizes, row, core);
            }
        }
    }
    singles(&mut out, times, &axis);
    let labels = ROWS.iter().map(|(_, label)| *label).chain(SINGLES.iter().map(|(label, _)| *label));
    for (row, label) in labels.enumerate() {
        text(&mut out, LEFT - 14.0, middle(row) + 4.0, "end", 13, label);
    }
    out + "</svg>\n"
}

fn text(out: &mut String, x: f64, y: f64, anchor: &str, size: u32, words: &str) {
    let _ =
        writeln!(out, "<text x=\"{x:.1}\" y=\"{y:.1}\" text-anchor=\"{anchor}\" font-size=\"{size}\">{words}</text>");
}

fn line(out: &mut String, from: (f64, f64), to: (f64, f64), colour: &str, width: f64) {
    let _ = writeln!(
        out,
        "<line x1=\"{:.1}\" y1=\"{:.1}\" x2=\"{:.1}\" y2=\"{:.1}\" stroke=\"{colour}\" stroke-width=\"{width}\"/>",
        from.0, from.1, to.0, to.1
    );
}

fn dot(out: &mut String, x: f64, y: f64, radius: f64, colour: &str) {
    let _ = writeln!(out, "<circle cx=\"{x:.1}\" cy=\"{y:.1}\" r=\"{radius}\" fill=\"{colour}\"/>");
}

fn legend(out: &mut String, times: &Times) {
    for (core, name) in times.cores.iter().enumerate() {
        let x = LEFT + 110.0 * core as f64;
        line(out, (x, 52.0), (x + 24.0, 52.0), COLOURS[core], 2.0);
        dot(out, x + 12.0, 52.0, 4.0, COLOURS[core]);
        text(out, x + 32.0, 56.5, "start", 13, name);
    }
    text(out, LEFT + 250.0, 56.5, "start", 13, "a larger dot is a larger drawing");
}

/// Decades as lines, rows as bands.
fn grid(out: &mut String, axis: &Axis, panel: usize, title: &str) {
    let bottom = TOP + ROW * LINES as f64;
    let left = axis.x(panel, 10f64.powf(axis.low));
    for row in (0..LINES).step_by(2) {
        let y = TOP + ROW * row as f64;
        let _ =
            writeln!(out, "<rect x=\"{left:.1}\" y=\"{y:.1}\" width=\"{PANEL}\" height=\"{ROW}\" fill=\"#f4f5f7\"/>");
    }
    for decade in axis.low as i32..=axis.high as i32 {
        let x = axis.x(panel, 10f64.powi(decade));
        line(out, (x, TOP), (x, bottom), "#c9ccd1", 1.0);
        text(out, x, bottom + 18.0, "middle", 12, &named(decade));
    }
    text(out, left + PANEL / 2.0, TOP - 12.0, "middle", 13, title);
}

/// A power of ten nanoseconds.
fn named(decade: i32) -> String {
    let units = ["ns", "µs", "ms", "s"];
    let unit = (decade.max(0) / 3) as usize;
    format!("{} {}", 10u32.pow(decade.max(0) as u32 % 3), units[unit.min(3)])
}

/// Where the middle of a row is.
fn middle(row: usize) -> f64 {
    TOP + ROW * (row as f64 + 0.5)
}

/// How far a core's dots are from the middle of the row.
fn apart(times: &Times, core: usize) -> f64 {
    if times.cores.len() == 1 {
        0.0
    } else {
        5.0 * (2.0 * core as f64 - 1.0)
    }
}

fn dots(out: &mut String, times: &Times, axis: &Axis, panel: usize, sizes: &[usize], row: usize, core: usize) {
    let y = middle(row) + apart(times, core);
    let x = |size: usize| axis.x(panel, times.time(row, size, core));
    for pair in sizes.windows(2) {
        line(out, (x(pair[0]), y), (x(pair[1]), y), COLOURS[core], 1.5);
    }
    for (i, &size) in sizes.iter().enumerate() {
        dot(out, x(size), y, 2.5 + i as f64, COLOURS[core]);
    }
    debug_assert!(sizes.iter().all(|&size| size < SIZES.len()));
}

/// A dot for each row of one size, and the size beside it, where there is room.
fn singles(out: &mut String, times: &Times, axis: &Axis) {
    for (place, (single, (_, size))) in times.singles.iter().zip(SINGLES).enumerate() {
        let y = middle(ROWS.len() + place);
        let (mut left, mut right) = (f64::INFINITY, 0f64);
        for (core, &time) in single.iter().enumerate() {
            let x = axis.x(0, time);
            dot(out, x, y + apart(times, core), 3.5, COLOURS[core]);
            (left, right) = (left.min(x), right.max(x));
        }
        if right < LEFT + 0.7 * PANEL {
            text(out, right + 10.0, y + 4.0, "start", 12, size);
        } else {
            text(out, left - 10.0, y + 4.0, "end", 12, size);
        }
    }
}
