//! Times the verified cipher, check and calls, at each level of x86-64, beside libsodium, OpenSSL
//! and the second implementation.

#![deny(unsafe_code)]

mod calls;
mod cases;
mod check;
mod door;
mod foreign;
mod instructions;
mod iris;
mod level;
mod measure;
mod memory;
mod plot;
mod report;
mod rows;
mod table;

use cases::{Case, ACCEPTED, BY_CLOCK, COPY_STATE, EUCLID, REFUSED};
use door::Door;
use level::Level;
use measure::Row;
use report::{CLOCK_LENGTH, LENGTHS};
use second::measure::Measure;
use std::process::ExitCode;
use table::{Style, Table};

const USAGE: &str = "usage: bench/run [--markdown]
       bench/run --instructions [LEVEL] [--markdown]
       bench/run --plot";

/// How often each row has its turn; a row that takes long in a turn has fewer.
const ROUNDS: usize = 3000;

fn main() -> ExitCode {
    let arguments: Vec<String> = std::env::args().skip(1).collect();
    let names: Vec<&str> = arguments.iter().map(String::as_str).collect();
    let (names, style) = match names.split_last() {
        Some((&"--markdown", names)) => (names, Style::Markdown),
        _ => (&names[..], Style::Plain),
    };
    let result = match *names {
        [] => times().map(|tables| text(&tables, style)),
        ["--instructions"] => counts(Level::Plain.name(), style),
        ["--instructions", level] => counts(level, style),
        ["--plot"] => plot::write(),
        ["--once", call, length, who, calls] => {
            instructions::once(call, length, who, calls).map(|()| String::new())
        }
        _ => Err(USAGE.to_string()),
    };
    match result {
        Ok(text) => {
            print!("{text}");
            ExitCode::SUCCESS
        }
        Err(message) => {
            eprintln!("{message}");
            ExitCode::FAILURE
        }
    }
}

fn text(tables: &[Table], style: Style) -> String {
    let texts: Vec<String> = tables.iter().map(|table| table.text(style)).collect();
    texts.join("\n")
}

fn counts(level: &str, style: Style) -> Result<String, String> {
    instructions::table(level).map(|table| table.text(style))
}

/// Nothing is timed before all rows are checked: a wrong answer has no speed.
fn times() -> Result<Vec<Table>, String> {
    foreign::sodium::init();
    let input = rows::Input::new();
    let codes = iris::Input::new();
    let scalar = LENGTHS.map(|length| Door::new(Measure::Scalar, length));
    let euclid = LENGTHS.map(|length| Door::new(Measure::Euclid, length));
    let mut rows = rows::rows(&input);
    let operations = rows.len();
    rows.extend(ACCEPTED.iter().flat_map(|case| of_case(case, &scalar)));
    rows.extend(EUCLID.iter().flat_map(|case| of_case(case, &euclid)));
    rows.extend(of_case(&COPY_STATE, &scalar));
    let calls = rows.len();
    rows.extend(REFUSED.iter().flat_map(|case| of_case(case, &scalar)));
    let refused = rows.len();
    let by_clock = scalar.iter().filter(|door| door.length == CLOCK_LENGTH);
    rows.extend(by_clock.flat_map(|door| BY_CLOCK.each_ref().map(|case| case.row(door))));
    rows.extend(iris::rows(&codes));
    for row in &mut rows {
        row.check()?;
    }
    let timings = measure::measure(&mut rows, ROUNDS);
    let mut tables = vec![report::glance(&timings), report::whole_checks(&timings)];
    tables.extend(report::operations(&timings[..operations]));
    tables.extend(report::accepted(&timings[operations..calls]));
    tables.extend(report::refused(&timings[calls..refused]));
    tables.extend([
        report::by_clock(&timings),
        report::iris(&timings),
        memory::sizes(),
        memory::depths(),
    ]);
    Ok(tables)
}

/// A row of the case at each door.
fn of_case<'a>(case: &Case, doors: &'a [Door]) -> Vec<Box<dyn Row + 'a>> {
    doors.iter().map(|door| case.row(door)).collect()
}
