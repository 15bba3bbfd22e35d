//! The growth of the calls with L, timed and drawn: bench/growth.svg.

use crate::cases::ACCEPTED;
use crate::door::Door;
use crate::level::Level;
use crate::measure::{measure, Timing, Who};
use second::measure::Measure;
use std::fs;

const FILE: &str = concat!(env!("CARGO_MANIFEST_DIR"), "/growth.svg");

const LENGTHS: [usize; 10] = [1, 32, 64, 128, 192, 256, 320, 384, 448, 512];

/// Fewer than for the tables: there are more rows, and a line shows no hundredths.
const ROUNDS: usize = 1000;

/// A line of a panel: whose, of what colour, with which dashes.
#[derive(Clone, Copy)]
struct Line {
    who: Who,
    name: &'static str,
    colour: &'static str,
    dashes: &'static str,
}

/// Ours is blue, the darker the higher the level.
const LINES: [Line; 4] = [
    ours(Level::Plain, "ours, x86-64", "#8fbce6"),
    ours(Level::V3, "ours, x86-64-v3", "#3d82c4"),
    ours(Level::V4, "ours, x86-64-v4", "#0f3a66"),
    Line {
        who: Who::Second,
        name: "second implementation",
        colour: "#b8500a",
        dashes: "6 4",
    },
];

const fn ours(level: Level, name: &'static str, colour: &'static str) -> Line {
    Line {
        who: Who::Ours(level),
        name,
        colour,
        dashes: "none",
    }
}

/// The lines that this processor has.
fn lines() -> impl Iterator<Item = Line> {
    let missing = |who| matches!(who, Who::Ours(level) if !level.fits());
    LINES.into_iter().filter(move |line| !missing(line.who))
}

/// A panel's place in the picture, and the part of it in which lines are drawn.
const PANEL: (f64, f64) = (260.0, 230.0);
const PLOT: (f64, f64) = (190.0, 140.0);
const PLOT_AT: (f64, f64) = (58.0, 34.0);
const COLUMNS: usize = 4;

/// The space above the panels.
const HEAD: f64 = 76.0;

/// Times every call at every length, and draws a panel for each call.
pub fn write() -> Result<String, String> {
    let doors = LENGTHS.map(|length| Door::new(Measure::Scalar, length));
    let cases = ACCEPTED.iter();
    let mut rows: Vec<_> = cases
        .flat_map(|case| doors.iter().map(|door| case.row(door)))
        .collect();
    for row in &mut rows {
        row.check()?;
    }
    let timings = measure(&mut rows, ROUNDS);
    fs::write(FILE, picture(&timings)).map_err(|error| format!("{FILE}: {error}"))?;
    let mut said = vec![format!("{FILE} is written")];
    said.extend(Level::left_out());
    Ok(said.join("\n") + "\n")
}

fn picture(timings: &[Timing]) -> String {
    let calls = ACCEPTED.iter().zip(timings.chunks(LENGTHS.len()));
    let panels = calls.enumerate().map(|(number, (case, timings))| {
        let (column, line) = (number % COLUMNS, number / COLUMNS);
        let (x, y) = (column as f64 * PANEL.0, HEAD + line as f64 * PANEL.1);
        panel(case.name, timings, x, y)
    });
    let (width, lines) = (COLUMNS as f64 * PANEL.0, ACCEPTED.len().div_ceil(COLUMNS));
    let height = HEAD + lines as f64 * PANEL.1;
    format!(
        "<svg xmlns=\"http://www.w3.org/2000/svg\" viewBox=\"0 0 {width} {height}\" \
         width=\"{width}\" height=\"{height}\" font-family=\"sans-serif\" font-size=\"12\">\n\
         <rect width=\"100%\" height=\"100%\" fill=\"#ffffff\"/>\n{}{}{}</svg>\n",
        text(
            16.0,
            28.0,
            "start",
            18,
            "Time of a call by the length L of the vectors"
        ),
        legend(16.0, 52.0),
        panels.collect::<String>()
    )
}

fn text(x: f64, y: f64, anchor: &str, size: u32, content: &str) -> String {
    format!(
        "<text x=\"{x:.1}\" y=\"{y:.1}\" text-anchor=\"{anchor}\" font-size=\"{size}\">\
         {content}</text>\n"
    )
}

fn legend(x: f64, y: f64) -> String {
    let mut legend = String::new();
    for (number, line) in lines().enumerate() {
        let x = x + 160.0 * number as f64;
        legend += &path(&[(x, y - 4.0), (x + 36.0, y - 4.0)], line);
        legend += &text(x + 42.0, y, "start", 12, line.name);
    }
    let (width, _) = PANEL;
    let note = "scalar product; each panel has its own scale of time";
    legend + &text(COLUMNS as f64 * width - 16.0, y, "end", 12, note)
}

fn path(points: &[(f64, f64)], line: Line) -> String {
    let Line { colour, dashes, .. } = line;
    let points = points.iter().map(|(x, y)| format!("{x:.1},{y:.1}"));
    let points = points.collect::<Vec<_>>().join(" ");
    format!(
        "<polyline points=\"{points}\" fill=\"none\" stroke=\"{colour}\" stroke-width=\"2\" \
         stroke-dasharray=\"{dashes}\"/>\n"
    )
}

/// One call: its axes and its lines.
fn panel(name: &str, timings: &[Timing], x: f64, y: f64) -> String {
    let microseconds = |timing: &Timing, who| timing.of(who).unwrap_or(0.0) / 1000.0;
    let times = |who| timings.iter().map(move |timing| microseconds(timing, who));
    let all = lines().flat_map(|line| times(line.who));
    let axes = Axes::new(
        x + PLOT_AT.0,
        y + PLOT_AT.1 + PLOT.1,
        all.fold(0.0, f64::max),
    );
    let mut panel = text(axes.left, y + 20.0, "start", 14, name) + &axes.draw();
    for line in lines() {
        let points = LENGTHS.into_iter().zip(times(line.who));
        let points = points.map(|(length, time)| (axes.across(length), axes.up(time)));
        panel += &path(&points.collect::<Vec<_>>(), line);
    }
    panel
}

/// The axes of a panel: lengths to the right, microseconds up.
struct Axes {
    left: f64,
    bottom: f64,
    /// The time between two marks, and how many there are above 0.
    step: f64,
    marks: u32,
}

impl Axes {
    fn new(left: f64, bottom: f64, most: f64) -> Axes {
        let step = step(most);
        let marks = (most / step).ceil() as u32;
        Axes {
            left,
            bottom,
            step,
            marks,
        }
    }

    fn across(&self, length: usize) -> f64 {
        self.left + PLOT.0 * length as f64 / 512.0
    }

    fn up(&self, time: f64) -> f64 {
        self.bottom - PLOT.1 * time / (f64::from(self.marks) * self.step)
    }

    fn draw(&self) -> String {
        let Axes {
            left, bottom, step, ..
        } = *self;
        let mut axes = text(left - 6.0, bottom - PLOT.1 - 14.0, "end", 11, "µs");
        for time in (0..=self.marks).map(|mark| f64::from(mark) * step) {
            let y = self.up(time);
            axes += &text(left - 6.0, y + 4.0, "end", 11, &decimal(time, step));
            axes += &rule((left, y), (left + PLOT.0, y));
        }
        for length in [1, 128, 256, 384, 512] {
            let x = self.across(length);
            axes += &text(x, bottom + 16.0, "middle", 11, &length.to_string());
            axes += &rule((x, bottom), (x, bottom + 4.0));
        }
        axes + &text(
            left + PLOT.0 / 2.0,
            bottom + 32.0,
            "middle",
            11,
            "L, elements",
        )
    }
}

fn rule(from: (f64, f64), to: (f64, f64)) -> String {
    let ((x1, y1), (x2, y2)) = (from, to);
    format!(
        "<line x1=\"{x1:.1}\" y1=\"{y1:.1}\" x2=\"{x2:.1}\" y2=\"{y2:.1}\" stroke=\"#c8c8c8\"/>\n"
    )
}

/// The distance of the marks of an axis that goes up to `most`: 1, 2 or 5 times a power of ten, so
/// that there are three to six of them.
fn step(most: f64) -> f64 {
    let power = 10f64.powf((most / 5.0).log10().floor());
    let steps = [1.0, 2.0, 5.0, 10.0].map(|factor| factor * power);
    let fits = |step: &f64| most / step <= 5.0;
    steps.into_iter().find(fits).unwrap_or(most)
}

/// With as many places as the step of the axis has.
fn decimal(number: f64, step: f64) -> String {
    let places = (-step.log10().floor()).max(0.0) as usize;
    format!("{number:.places$}")
}
