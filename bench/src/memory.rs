//! The sizes of the states, and the stack that a call takes.

use crate::cases::{ACCEPTED, BY_CLOCK, REFUSED};
use crate::door::Door;
use crate::foreign::{door, stack};
use crate::iris;
use crate::level::Level;
use crate::measure::{Row, Who};
use crate::report::LENGTHS;
use crate::table::Table;
use second::measure::Measure;
use std::thread;

pub fn sizes() -> Table {
    let mut lines = vec![["struct", "bytes"].map(str::to_string).to_vec()];
    lines.extend(door::SIZES.map(|(name, bytes)| vec![name.to_string(), bytes.to_string()]));
    Table {
        title: "Sizes".to_string(),
        lines,
        notes: vec!["the lock's host keeps a name of 16 bytes and a number of 8".to_string()],
    }
}

/// The stack that each call of ours takes, at each level.
pub fn depths() -> Table {
    let thread = thread::Builder::new().stack_size(stack::ROOM);
    let thread = thread.spawn(lines).expect("a thread");
    Table {
        title: "Stack".to_string(),
        lines: thread.join().expect("the calls return"),
        notes: vec![
            "bytes of ours from the caller's frame down to the lowest byte written, the most of L \
             1, 128 and 512: with the state that is handed in, by value, and the frames of this \
             program"
                .to_string(),
        ],
    }
}

fn lines() -> Vec<Vec<String>> {
    let doors = LENGTHS.map(|length| Door::new(Measure::Scalar, length));
    let mut lines = vec![vec!["call".to_string()]];
    lines[0].extend(
        Level::present()
            .iter()
            .map(|level| level.name().to_string()),
    );
    for case in ACCEPTED.iter().chain(&BY_CLOCK).chain(&REFUSED) {
        let mut line = vec![case.name.to_string()];
        line.extend(Level::present().into_iter().map(|level| {
            let depths = doors.iter().map(|door| depth(&mut *case.row(door), level));
            depths.max().unwrap_or(0).to_string()
        }));
        lines.push(line);
    }
    let codes = iris::Input::new();
    for mut row in iris::rows(&codes) {
        let mut line = vec![row.name().to_string()];
        line.extend(
            Level::present()
                .into_iter()
                .map(|level| depth(&mut *row, level).to_string()),
        );
        lines.push(line);
    }
    lines
}

fn depth(row: &mut dyn Row, level: Level) -> usize {
    let ours = row.way(Who::Ours(level));
    // Once before, so that no function is looked up by the linker meanwhile.
    row.time(ours, 0);
    stack::depth(&mut || {
        row.time(ours, 0);
    })
}
