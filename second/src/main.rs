//! Prints a test script, or the answers that it must get.

use second::replay::Replay;
use second::script::{self, Case, MAX_LINE};
use second::{
    check_cases, checks, generated, half_cases, halves, iris_cases, iris_lines, replay_cases,
    rfc8439,
};
use std::io::{Read, Write};
use std::process::ExitCode;

const USAGE: &str =
    "usage: second vectors-stdin | vectors-stdout | checks-stdin | checks-stdout | \
                     halves-stdin | halves-stdout | iris-stdin | iris-stdout | \
                     replay-stdin | replay-stdout | replay <SCRIPT";

fn main() -> ExitCode {
    let arguments: Vec<String> = std::env::args().skip(1).collect();
    let names: Vec<&str> = arguments.iter().map(String::as_str).collect();
    let result = match names[..] {
        ["vectors-stdin"] => print(&vectors(), script::run, |case| &case.line),
        ["vectors-stdout"] => print(&vectors(), script::run, |case| &case.expected),
        ["checks-stdin"] => print(&check_cases::cases(), checks::run, |case| &case.line),
        ["checks-stdout"] => print(&check_cases::cases(), checks::run, |case| &case.expected),
        ["halves-stdin"] => print(&half_cases::cases(), halves::run, |case| &case.line),
        ["halves-stdout"] => print(&half_cases::cases(), halves::run, |case| &case.expected),
        ["iris-stdin"] => print(&iris_cases::cases(), iris_lines::run, |case| &case.line),
        ["iris-stdout"] => print(&iris_cases::cases(), iris_lines::run, |case| &case.expected),
        ["replay-stdin"] => print_replay(|case| &case.line),
        ["replay-stdout"] => print_replay(|case| &case.expected),
        ["replay"] => replay(),
        _ => Err(USAGE.to_string()),
    };
    match result {
        Ok(()) => ExitCode::SUCCESS,
        Err(message) => {
            eprintln!("{message}");
            ExitCode::FAILURE
        }
    }
}

/// The cases of the program `test_vectors`.
fn vectors() -> Vec<Case> {
    let mut cases = rfc8439::cases();
    cases.extend(generated::cases());
    cases
}

/// Prints one side of the script of `test_replay`.
fn print_replay(side: fn(&Case) -> &str) -> Result<(), String> {
    let mut replay = Replay::default();
    print(&replay_cases::cases(), |line| Ok(replay.answer(line)), side)
}

/// Answers a script of `test_replay` from standard input.
fn replay() -> Result<(), String> {
    let mut script = Vec::new();
    std::io::stdin()
        .read_to_end(&mut script)
        .map_err(|error| format!("standard input: {error}"))?;
    write(&Replay::default().answers(&String::from_utf8_lossy(&script)))
}

/// Prints one side of every case, and nothing at all if a case is wrong.
fn print(
    cases: &[Case],
    mut run: impl FnMut(&str) -> Result<String, String>,
    side: fn(&Case) -> &str,
) -> Result<(), String> {
    let mut text = String::new();
    for case in cases {
        case.check(&mut run)?;
        if case.line.len() > MAX_LINE {
            return Err(format!("line too long: {}", case.line));
        }
        text.push_str(side(case));
        text.push('\n');
    }
    write(&text)
}

fn write(text: &str) -> Result<(), String> {
    std::io::stdout()
        .write_all(text.as_bytes())
        .map_err(|error| format!("standard output: {error}"))
}
