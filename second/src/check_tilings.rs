//! Generated tables of the day for the program `test_checks`: rows without a pattern that are
//! the day, in any order, most of them damaged then. What a table with one damage is answered
//! by stands here; of more than one, and of lists without a pattern, this implementation is
//! asked.

use crate::cases::Cases;
use crate::check_tables::{line_with, place_of, Ends, Why};
use crate::day::{MAX_ROWS, MINUTES};
use std::collections::BTreeSet;

const LAST_MINUTE: u32 = MINUTES - 1;

/// How many generated tables come with each damage.
const DAMAGED: usize = 15;

/// The ways in which a table is damaged by one change, the first of them none.
const DAMAGES: usize = 10;

/// How many are damaged more than once.
const DAMAGED_MORE: usize = 40;

/// Changes a table at a row: an end goes wrong by one minute or by as much as it can, or the row
/// is turned round, left out or doubled.
fn change(rows: &mut Vec<Ends>, at: usize, damage: usize) {
    let (first, last) = rows[at];
    match damage {
        0 => {}
        1 => rows[at].1 = last.wrapping_add(1),
        2 => rows[at].1 = last.wrapping_sub(1),
        3 => rows[at].0 = first.wrapping_sub(1),
        4 => rows[at].0 = first.wrapping_add(1),
        5 => rows[at] = (last, first),
        6 => drop(rows.remove(at)),
        7 => rows.push((first, last)),
        8 => rows[at].1 = LAST_MINUTE,
        _ => rows[at].0 = 0,
    }
}

/// What a good table is answered by after this change, if it is not good then too.
fn why_changed(rows: &[Ends], at: usize, damage: usize) -> Option<Why> {
    let ((first, last), bad_row) = (rows[at], (14, at as u32 + 1));
    let why = match damage {
        1 if last == LAST_MINUTE => bad_row,
        1 => (16, last + 1),
        2 | 4 if first == last => bad_row,
        2 => (15, last),
        3 if first == 0 => bad_row,
        3 => (16, first - 1),
        4 => (15, first),
        5 if first < last => bad_row,
        6 if rows.len() == 1 => (14, 0),
        6 => (15, first),
        7 if rows.len() == MAX_ROWS => (14, 0),
        7 => (16, first),
        8 if last < LAST_MINUTE => (16, last + 1),
        9 if first > 0 => (16, 0),
        _ => return None,
    };
    Some(why)
}

impl Cases {
    /// A number below another, without a pattern.
    fn below(&mut self, count: usize) -> usize {
        self.number() as usize % count
    }

    /// A minute without a pattern, now and then above the day.
    pub fn minute(&mut self) -> u32 {
        self.below(1450) as u32
    }

    /// Rows without a pattern that are the day, in any order.
    fn tiling(&mut self, count: usize) -> Vec<Ends> {
        let mut cuts = BTreeSet::new();
        while cuts.len() < count - 1 {
            cuts.insert(1 + self.below(1439) as u32);
        }
        let ends = cuts.iter().map(|cut| cut - 1).chain([1439]);
        let mut rows: Vec<Ends> = [0].into_iter().chain(cuts.clone()).zip(ends).collect();
        for place in (1..count).rev() {
            let other = self.below(place + 1);
            rows.swap(place, other);
        }
        rows
    }

    /// Generated tables, each damaged by one change or by none. Thresholds are generated too.
    pub fn generated_tables(&mut self) {
        for turn in 0..DAMAGED * DAMAGES {
            let mut rows = self.tiling(1 + turn * 7 % MAX_ROWS);
            let (at, minute) = (self.below(rows.len()), self.minute());
            let why = why_changed(&rows, at, turn % DAMAGES);
            change(&mut rows, at, turn % DAMAGES);
            let thresholds = self.threshold_list(rows.len());
            let line = line_with(&rows, &thresholds, minute);
            match why {
                Some((why, place)) => {
                    self.add_expecting("02, 5: damaged", line, format!("{why} {place} 0"));
                }
                None => {
                    self.add(line);
                    let place = place_of(&rows, minute).unwrap_or(0);
                    let case = self.list.last().expect("the case just added");
                    let expected = format!("0 {place} ");
                    assert!(case.expected.starts_with(&expected), "{}", case.line);
                }
            }
        }
    }

    /// A field of thresholds without a pattern, in each of the formats by turns.
    fn threshold_list(&mut self, count: usize) -> String {
        match (count, self.list.len() % 3) {
            (0, _) => "-".to_string(),
            (_, 0) => self.bytes(4 * count),
            (_, 1) => format!("~{count}:{}:4294950000:65535", self.seed()),
            _ => format!("~{count}:{}:{}:0", self.seed(), self.number()),
        }
    }

    /// Tables that are damaged by some changes, and lists without a pattern.
    pub fn more_generated_tables(&mut self) {
        for turn in 0..DAMAGED_MORE {
            let mut rows = self.tiling(2 + turn * 5 % 14);
            for _ in 0..2 + turn % 3 {
                let (at, damage) = (self.below(rows.len()), 1 + self.below(4));
                change(&mut rows, at, damage);
            }
            let (thresholds, minute) = (self.threshold_list(rows.len()), self.minute());
            self.add(line_with(&rows, &thresholds, minute));
        }
        for count in [1, 2, 31, 32, 33] {
            let [firsts, lasts, thresholds] = [(); 3].map(|()| self.bytes(4 * count));
            self.add(format!("table {firsts} {lasts} {thresholds} 700"));
            let (low, high) = (self.seed(), self.seed());
            let firsts = format!("~{count}:{low}:0:511");
            let lasts = format!("~{count}:{high}:512:511");
            self.add(format!("table {firsts} {lasts} {thresholds} 700"));
        }
    }
}
