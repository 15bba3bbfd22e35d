//! How many instructions a call takes, as valgrind counts them.

use crate::cases::{Case, ACCEPTED, BY_CLOCK, EUCLID, REFUSED};
use crate::door::Door;
use crate::iris;
use crate::level::{Level, LACKING};
use crate::measure::{Row, Who};
use crate::report::{by_length, Columns, LENGTHS};
use crate::table::Table;
use second::measure::Measure;
use std::env;
use std::process::Command;

/// The calls of a run and of one with more: the difference is of calls alone, since all else that
/// the two do is the same.
const CALLS: [u32; 2] = [5, 25];

/// The C library is to copy and fill with no repeated string instruction: valgrind would count one
/// for each byte.
const TUNABLES: &str = "glibc.cpu.x86_rep_movsb_threshold=1000000000:\
                        glibc.cpu.x86_rep_stosb_threshold=1000000000";

/// Who is asked for, as `--once` takes it.
const WHOS: [(&str, Who); 4] = [
    ("ours", Who::Ours(Level::Plain)),
    ("ours-v3", Who::Ours(Level::V3)),
    ("ours-v4", Who::Ours(Level::V4)),
    ("second", Who::Second),
];

const COUNT_AND_RATIO: Columns = Columns {
    names: ["ours", "second/ours"],
    cells: |[ours, second]| [format!("{ours:.0}"), format!("{:.2}", second / ours)],
};

/// The instructions of ours at a level of this name.
pub fn table(level: &str) -> Result<Table, String> {
    let found = |(_, who): &&(&str, Who)| matches!(who, Who::Ours(at) if at.name() == level);
    let (ours, _) = WHOS.iter().find(found).ok_or("no such level")?;
    let mut calls = Vec::new();
    for case in &ACCEPTED {
        eprintln!("bench: counting {}", case.name);
        let numbers = LENGTHS.iter().map(|&length| {
            let [ours, second] = [ours, "second"].map(|who| of_call(case.name, length, who));
            Ok([ours?, second?])
        });
        let numbers = numbers.collect::<Result<Vec<_>, String>>()?;
        calls.push((case.name.to_string(), numbers));
    }
    let title = format!("Instructions, {level}");
    let mut table = by_length(title, COUNT_AND_RATIO, &calls);
    table
        .notes
        .push("second/ours: 2.00 is half as many of ours".to_string());
    table.notes.push(
        "counted by valgrind's callgrind; the copy by which a box's state is handed over by value \
         is 2,142 of ours (a repeated move of 8 bytes)"
            .to_string(),
    );
    Ok(table)
}

fn of_call(call: &str, length: usize, who: &str) -> Result<f64, String> {
    let [fewer, more] = CALLS.map(|calls| of_run(call, length, who, calls));
    let extra = more?.checked_sub(fewer?).ok_or("more calls took less")?;
    Ok(extra as f64 / f64::from(CALLS[1] - CALLS[0]))
}

/// The instructions of a whole run of this program.
fn of_run(call: &str, length: usize, who: &str, calls: u32) -> Result<u64, String> {
    let program = env::current_exe().map_err(|error| error.to_string())?;
    let output = Command::new("valgrind")
        .env("GLIBC_TUNABLES", TUNABLES)
        .args(["--tool=callgrind", "--callgrind-out-file=/dev/null"])
        .arg(program)
        .args(["--once", call, &length.to_string(), who, &calls.to_string()])
        .output()
        .map_err(|error| format!("valgrind: {error}"))?;
    let text = String::from_utf8_lossy(&output.stderr);
    let count = text.lines().find_map(|line| line.split_once("Collected :"));
    match count.map(|(_, count)| count.trim().parse()) {
        Some(Ok(count)) if output.status.success() => Ok(count),
        _ => Err(format!("valgrind of {call}, {length}, {who}: {text}")),
    }
}

/// One call some times, and nothing else that depends on how often: what valgrind runs. Of a call on
/// iris codes L says nothing.
pub fn once(call: &str, length: &str, who: &str, calls: &str) -> Result<(), String> {
    let length: usize = length.parse().map_err(|_| "L is a number")?;
    let calls: u32 = calls.parse().map_err(|_| "a count is a number")?;
    let asked = |(name, _): &(&str, Who)| *name == who;
    let found = WHOS.into_iter().find(asked);
    let (_, who) = found.ok_or("ours, ours-v3, ours-v4 or second")?;
    if matches!(who, Who::Ours(level) if !level.fits()) {
        return Err(LACKING.to_string());
    }
    let repeat = |row: &mut dyn Row| {
        let way = row.way(who);
        row.time(way, calls);
    };
    if iris::NAMES.contains(&call) {
        repeat(&mut *iris::named(call, &iris::Input::new()));
        return Ok(());
    }
    let (case, measure) = named(call).ok_or("no such call")?;
    repeat(&mut *case.row(&Door::new(measure, length)));
    Ok(())
}

/// The call of this name, and the measure of its door.
fn named(call: &str) -> Option<(&'static Case, Measure)> {
    let scalar = ACCEPTED.iter().chain(&REFUSED).chain(&BY_CLOCK);
    let scalar = scalar.map(|case| (case, Measure::Scalar));
    let euclid = EUCLID.iter().map(|case| (case, Measure::Euclid));
    scalar.chain(euclid).find(|(case, _)| case.name == call)
}
