//! The tables of times, and the lines below them that say how they came to be.

use crate::cases::{Case, ACCEPTED, BY_CLOCK, COPY_STATE, DEAL, EUCLID, REFUSED};
use crate::cases::{WHOLE_CHECK, WHOLE_CHECK_EUCLID};
use crate::foreign::{openssl, sodium};
use crate::iris::{HAMMING, NAMES};
use crate::level::Level;
use crate::measure::{Timing, Who};
use crate::rows::{BUFFERS, LONG_STREAM, OPEN, SEAL};
use crate::table::Table;
use std::fs;

const OTHERS: [(Who, &str); 3] = [
    (Who::Sodium, "libsodium"),
    (Who::OpenSsl, "OpenSSL"),
    (Who::Second, "second"),
];

/// The instruction sets of which libsodium and OpenSSL may take the widest.
const VECTOR_SETS: [&str; 5] = ["ssse3", "avx2", "avx512f", "avx512vl", "avx512ifma"];

/// The lengths at which every call is timed.
pub const LENGTHS: [usize; 3] = [1, 128, 512];

const RATIO: &str = "1.00 is as fast, 2.00 is ours twice as fast";

/// The whole check is to take at most so much of the second implementation's time, at this length.
const WHOLE_CHECK_AIM: f64 = 0.6;
const AIM_LENGTH: usize = 128;

/// The length at which the deals by the clock are timed: what the table adds does not depend on it.
pub const CLOCK_LENGTH: usize = 128;

/// A refused call is to take less, in nanoseconds.
const REFUSED_AIM: f64 = 1000.0;

/// So is the comparison of two iris codes.
const HAMMING_AIM: f64 = 30.0;

/// A table for each level, and what is to be said of all below the last.
fn for_each_level(table: impl FnMut(Level) -> Table, notes: Vec<String>) -> Vec<Table> {
    let mut tables: Vec<Table> = Level::present().into_iter().map(table).collect();
    let last = tables.last_mut().expect("every processor has a level");
    last.notes.extend(notes);
    tables
}

fn strings<const N: usize>(texts: [&str; N]) -> Vec<String> {
    texts.map(str::to_string).to_vec()
}

/// What a reader looks for first, with a column for each level.
pub fn glance(timings: &[Timing]) -> Table {
    let names = [LONG_STREAM, SEAL, OPEN, &WHOLE_CHECK.at(AIM_LENGTH)];
    let header = by_level("operation".to_string(), |level| level.name().to_string());
    let mut lines = vec![header];
    for timing in names.map(|name| named(timings, name)) {
        let ours = |level| nanoseconds(timing.ours(level));
        lines.push(by_level(format!("{}: ours, ns", timing.name), ours));
        let others = OTHERS.map(|(who, name)| timing.of(who).map(|time| (time, name)));
        for (theirs, name) in others.into_iter().flatten() {
            let ratio = |level| format!("{:.2}", theirs / timing.ours(level));
            lines.push(by_level(format!("  {name}/ours"), ratio));
        }
    }
    Table {
        title: "At a glance".to_string(),
        lines,
        notes: notes(timings),
    }
}

fn named<'a>(timings: &'a [Timing], name: &str) -> &'a Timing {
    let found = timings.iter().find(|timing| timing.name == name);
    found.expect("there is such a row")
}

fn by_level(name: String, cell: impl Fn(Level) -> String) -> Vec<String> {
    let cells = Level::present().into_iter().map(cell);
    std::iter::once(name).chain(cells).collect()
}

/// The whole check at each length, with two columns for each level.
pub fn whole_checks(timings: &[Timing]) -> Table {
    let levels = Level::present();
    let heads: Vec<&str> = levels.iter().map(|level| level.name()).collect();
    let cases = [WHOLE_CHECK, WHOLE_CHECK_EUCLID];
    let mut lines = Vec::new();
    for name in cases
        .iter()
        .flat_map(|case| LENGTHS.map(|length| case.at(length)))
    {
        let timing = named(timings, &name);
        let pairs = levels.iter().map(|level| with_second(timing, *level));
        lines.push((name, pairs.collect()));
    }
    let mut table = paired("Whole check".to_string(), &heads, TIME_AND_RATIO, &lines);
    let aims = cases.map(|case| aim(named(timings, &case.at(AIM_LENGTH))));
    table.notes.extend(aims);
    table
}

fn aim(timing: &Timing) -> String {
    let part = |level| {
        let [ours, second] = with_second(timing, level);
        format!("{:.2}", ours / second)
    };
    let parts: Vec<String> = Level::present().into_iter().map(part).collect();
    format!(
        "{}: at these levels {} of the second implementation's time (aim: at most \
         {WHOLE_CHECK_AIM:.2})",
        timing.name,
        parts.join(", ")
    )
}

/// The cipher, and what a box computes.
pub fn operations(timings: &[Timing]) -> Vec<Table> {
    let table = |level: Level| {
        let mut header = strings(["operation", "ours, ns"]);
        header.extend(OTHERS.map(|(_, name)| format!("{name}/ours")));
        let lines = timings.iter().map(|timing| line(timing, level));
        Table {
            title: format!("Operations, {}", level.name()),
            lines: std::iter::once(header).chain(lines).collect(),
            notes: Vec::new(),
        }
    };
    for_each_level(table, strings(BUFFERS))
}

fn line(timing: &Timing, level: Level) -> Vec<String> {
    let ours = timing.ours(level);
    let ratio = |(who, _)| match timing.of(who) {
        Some(theirs) => format!("{:.2}", theirs / ours),
        None => "-".to_string(),
    };
    let mut cells = vec![timing.name.clone(), nanoseconds(ours)];
    cells.extend(OTHERS.map(ratio));
    cells
}

/// With a tenth where that counts.
fn nanoseconds(time: f64) -> String {
    let places = usize::from(time < 100.0);
    format!("{time:.places$}")
}

fn notes(timings: &[Timing]) -> Vec<String> {
    let mut notes = vec![
        format!("theirs/ours: {RATIO}"),
        format!(
            "same input for all, one run, slices that take turns; each time is the best of {}",
            slices(timings)
        ),
        format!(
            "libsodium {}; {}; key and nonce are set anew in each call, OpenSSL's contexts are \
             reused",
            sodium::version(),
            openssl::version()
        ),
        "second: second/, plain Rust, compiled for any x86-64 whatever the level of ours"
            .to_string(),
        processor(),
    ];
    notes.extend(Level::left_out());
    notes
}

fn slices(timings: &[Timing]) -> String {
    let counts = || timings.iter().map(|timing| timing.slices);
    match (counts().min(), counts().max()) {
        (Some(least), Some(most)) if least < most => {
            format!("{least} to {most} slices, the fewer the longer an operation is")
        }
        (_, most) => format!("{} slices", most.unwrap_or(0)),
    }
}

fn processor() -> String {
    let information = fs::read_to_string("/proc/cpuinfo").unwrap_or_default();
    let field = |name| {
        let fields = information.lines().filter_map(|line| line.split_once(':'));
        let mut values = fields.filter(|(field, _)| field.trim() == name);
        values.next().map_or("unknown", |(_, value)| value.trim())
    };
    let flags: Vec<&str> = field("flags").split_whitespace().collect();
    let sets = VECTOR_SETS.into_iter().filter(|set| flags.contains(set));
    let (family, model) = (field("cpu family"), field("model"));
    let sets = sets.collect::<Vec<_>>().join(" ");
    let name = field("model name");
    format!("CPU: {name}, family {family}, model {model}, with {sets}")
}

/// Two columns, and how their cells come of our number and the second implementation's.
pub struct Columns {
    pub names: [&'static str; 2],
    pub cells: fn([f64; 2]) -> [String; 2],
}

const TIME_AND_RATIO: Columns = Columns {
    names: ["ours, ns", "second/ours"],
    cells: |[ours, second]| [nanoseconds(ours), format!("{:.2}", second / ours)],
};

/// The name of a line, and in each of its places our number and the second implementation's.
pub type Line = (String, Vec<[f64; 2]>);

/// A table with these columns below each head.
fn paired(title: String, heads: &[&str], columns: Columns, numbers: &[Line]) -> Table {
    let [first, second] = columns.names;
    let mut header = strings(["call"]);
    for head in heads {
        header.extend([format!("{head}: {first}"), second.to_string()]);
    }
    let mut lines = vec![header];
    for (name, pairs) in numbers {
        let mut line = vec![name.clone()];
        line.extend(pairs.iter().flat_map(|pair| (columns.cells)(*pair)));
        lines.push(line);
    }
    let notes = Vec::new();
    Table {
        title,
        lines,
        notes,
    }
}

/// A table with a line for each call, and these columns for each of `LENGTHS`.
pub fn by_length(title: String, columns: Columns, numbers: &[Line]) -> Table {
    let heads = LENGTHS.map(|length| format!("L {length}"));
    paired(
        title,
        &heads.each_ref().map(String::as_str),
        columns,
        numbers,
    )
}

fn with_second(timing: &Timing, level: Level) -> [f64; 2] {
    let second = timing.of(Who::Second);
    [
        timing.ours(level),
        second.expect("every call has the second's"),
    ]
}

/// The numbers of `by_length`, from timings that stand call by call.
fn pairs(names: &[String], timings: &[Timing], level: Level) -> Vec<Line> {
    let calls = names.iter().zip(timings.chunks(LENGTHS.len()));
    let pairs = |timings: &[Timing]| timings.iter().map(|t| with_second(t, level)).collect();
    calls
        .map(|(name, timings)| (name.clone(), pairs(timings)))
        .collect()
}

/// The accepted calls, then those that differ under another measure, and what a copy takes.
pub fn accepted(timings: &[Timing]) -> Vec<Table> {
    let cases = ACCEPTED.iter().chain(&EUCLID).chain([&COPY_STATE]);
    let names: Vec<String> = cases.map(|case| case.name.to_string()).collect();
    let table = |level: Level| {
        let title = format!("Calls, {}", level.name());
        by_length(title, TIME_AND_RATIO, &pairs(&names, timings, level))
    };
    let notes = [
        "whole check: the deal, four calls of each box, the join",
        "scalar product where nothing is said",
        "a box's state of 17,136 bytes goes in and comes out by value: these copies are in ours, \
         and in a whole check also the one by which a host puts the next state in the place of the \
         last",
        "the second implementation works in place, on a copy of the state, which is in the time of \
         a single call, and once for each box in that of a whole check",
        "trial: the state goes into ours by value and none comes out; the second implementation \
         copies none",
    ];
    for_each_level(table, strings(notes))
}

pub fn refused(timings: &[Timing]) -> Vec<Table> {
    let name = |case: &Case| format!("{} ({})", case.name, case.why);
    let names = REFUSED.each_ref().map(name);
    let table = |level: Level| {
        let calls = pairs(&names, timings, level);
        let columns = Columns {
            names: ["ours, ns", "second, ns"],
            cells: |pair| pair.map(nanoseconds),
        };
        let title = format!("Refused calls, {}", level.name());
        let mut table = by_length(title, columns, &calls);
        let slow = |(_, pairs): &&Line| pairs.iter().any(|[ours, _]| *ours >= REFUSED_AIM);
        let slow: Vec<&str> = calls.iter().filter(slow).map(|(name, _)| &**name).collect();
        let note = format!("aim: under {REFUSED_AIM} ns; over it: {}", listed(&slow));
        table.notes.push(note);
        table
    };
    let notes = [
        "a load or a trial with a bad tag tests every block before it answers, whichever it is",
        "a box's state goes in and, but for a trial, comes out by value in ours; the second \
         implementation works in place, and has one copy of the state in its time, a trial's none",
    ];
    for_each_level(table, strings(notes))
}

/// The deals by the clock beside the deal by a threshold, with two columns for each level.
pub fn by_clock(timings: &[Timing]) -> Table {
    let levels = Level::present();
    let heads: Vec<&str> = levels.iter().map(|level| level.name()).collect();
    let deal = named(timings, &DEAL.at(CLOCK_LENGTH));
    let lines: Vec<Line> = [&DEAL, &BY_CLOCK[0], &BY_CLOCK[1]]
        .map(|case| {
            let timing = named(timings, &case.at(CLOCK_LENGTH));
            let pair = |level: &Level| [timing.ours(*level), deal.ours(*level)];
            (timing.name.clone(), levels.iter().map(pair).collect())
        })
        .to_vec();
    let columns = Columns {
        names: ["ours, ns", "of deal"],
        cells: |[ours, deal]| [nanoseconds(ours), format!("{:.3}", ours / deal)],
    };
    let mut table = paired("Deal by the clock".to_string(), &heads, columns, &lines);
    let note =
        "of deal: by the time of the deal by a threshold, at the same level; the row that is \
                used is the last";
    table.notes.push(note.to_string());
    table
}

/// The calls on iris codes, with three columns for each level.
pub fn iris(timings: &[Timing]) -> Table {
    let mut header = strings(["call"]);
    for level in Level::present() {
        header.push(format!("{}: ours, ns", level.name()));
        header.extend(strings(["second/ours", "plain C/ours"]));
    }
    let mut lines = vec![header];
    for timing in NAMES.map(|name| named(timings, name)) {
        let mut line = vec![timing.name.clone()];
        for level in Level::present() {
            let ours = timing.ours(level);
            let ratio = |who| match timing.of(who) {
                Some(theirs) => format!("{:.2}", theirs / ours),
                None => "-".to_string(),
            };
            line.push(nanoseconds(ours));
            line.extend([Who::Second, Who::PlainC(level)].map(ratio));
        }
        lines.push(line);
    }
    Table {
        title: "Iris codes".to_string(),
        lines,
        notes: vec![
            "plain C: plain/iris.c, compiled by gcc -O3 for the same level".to_string(),
            hamming_aim(named(timings, HAMMING)),
        ],
    }
}

fn hamming_aim(timing: &Timing) -> String {
    let times: Vec<String> = Level::present()
        .into_iter()
        .map(|level| nanoseconds(timing.ours(level)))
        .collect();
    let times = times.join(", ");
    format!("{HAMMING}: at these levels {times} ns (aim: under {HAMMING_AIM})")
}

fn listed(names: &[&str]) -> String {
    match names {
        [] => "none".to_string(),
        _ => names.join("; "),
    }
}
