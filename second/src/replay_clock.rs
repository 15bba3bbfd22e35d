//! Deals by the clock (02) in the script of `test_replay`: whole checks by every row and at
//! every end of one, the same deals by a threshold, and sets of the clock ahead of others. By
//! which row a set is dealt and what is joined stands here and is not asked of this
//! implementation. Refused deals are in `replay_days`.

use crate::check_tables::{place_of, rows_to, Ends};
use crate::day::{Table, MINUTES};
use crate::measure::{Measure, MAX_LENGTH};
use crate::replay::{BOXES, MAX_BYTES};
use crate::replay_checks::Step::{self, Load};
use crate::replay_checks::{value_of, Check, AFTER_LOADS};
use crate::replay_script::{Deal, Script};
use crate::rule::Rule::{Between, Threshold};

/// A working day and the night around it, and a minute in the second of its rows.
pub const DAY: [Ends; 3] = [(1080, 1439), (420, 1079), (0, 419)];
pub const NOON: u32 = 700;

/// The orders in which the rows of the day come.
const ORDERS: [[usize; 3]; 6] = [
    [0, 1, 2],
    [2, 1, 0],
    [1, 2, 0],
    [0, 2, 1],
    [1, 0, 2],
    [2, 0, 1],
];

/// Lengths at the edges, and where the count of blocks changes.
const LENGTHS: [usize; 4] = [1, 16, 17, MAX_LENGTH];

/// A threshold that no measure takes.
pub const NONSENSE: i32 = i32::MIN;

/// A table of these rows.
pub fn table(rows: &[Ends], thresholds: &[i32]) -> Table {
    Table {
        firsts: rows.iter().map(|row| row.0).collect(),
        lasts: rows.iter().map(|row| row.1).collect(),
        thresholds: thresholds.iter().map(|t| *t as u32).collect(),
    }
}

/// The day whose rows have these thresholds but for one of them.
pub fn day_with(mut thresholds: [i32; 3], row: usize, threshold: i32) -> Table {
    thresholds[row] = threshold;
    table(&DAY, &thresholds)
}

/// The same deal by the clock. Its rule is to be what the table has for the minute.
pub fn by_clock(deal: Deal, table: Table, minute: u32) -> Deal {
    Deal {
        clock: Some((table, minute)),
        ..deal
    }
}

impl Script {
    /// An accepted deal by the clock: the tags of its buffers.
    pub fn dealt_by_row(&mut self, deal: &Deal, place: usize) -> String {
        assert_eq!(self.deal(deal), 0, "{deal}");
        let answer = &self.list.last().expect("a line").expected;
        let tags = answer.strip_prefix(&format!("0 {place} "));
        tags.expect("another row").to_string()
    }

    /// States that are all zero.
    pub fn by_the_clock_before_the_first_start(&mut self) {
        let day = "0000000058020000 570200009f050000 0500000006000000";
        self.answered("clock 0 - 9 0 - - - 1440 0 0", "14 0");
        self.answered(format!("clock 1 @32:1 0 1 {day} 0 1536 1536"), "7 0");
        self.answered(format!("clock 2 @32:1 0 1 {day} 1440 1536 1536"), "8 0");
        self.accepted(format!("clock 2 @32:1 0 1 {day} 600 1536 1536"));
        self.show("dealer");
    }

    /// A deal by the clock, and by the row's threshold at a dealer that is started anew where
    /// the first one was: the same tags, the same state.
    fn twins(&mut self) {
        self.start("Twins", [7, 0, 0, 0]);
        for (turn, length) in LENGTHS.into_iter().enumerate() {
            for measure in Measure::ALL {
                let (row, last) = ((turn + measure.code() as usize) % 3, self.next_number() - 1);
                let (minute, threshold) = ([DAY[row].0, DAY[row].1][turn % 2], 3 + turn as i32);
                let day = day_with([NONSENSE; 3], row, threshold);
                let mut plain = self.new_deal(last + 1, measure, length, threshold);
                plain.rooms[turn % 2] = MAX_BYTES;
                let deal = by_clock(plain.clone(), day, minute);
                let tags = self.dealt_by_row(&deal, row + 1);
                let after = self.show("dealer");
                let (name, [key0, key1]) = (&self.door.bare, &self.door.keys);
                self.accepted(format!("dealer {name} {key0} {key1} {last}"));
                self.answered(plain, format!("0 {tags}"));
                assert_eq!(self.show("dealer"), after);
            }
        }
    }

    /// 32 rows, and a minute that is in the first, the last or between; and a table of one row.
    fn many_rows(&mut self) {
        let mut rows = rows_to(32);
        rows.swap(7, 31);
        for (minute, place) in [(0, 1), (30, 31), (31, 8), (1439, 8), (7, 32)] {
            let mut thresholds = vec![NONSENSE; 32];
            thresholds[place - 1] = 4;
            let deal = self.new_deal(self.next_number(), Measure::Hamming, 1, 4);
            self.dealt_by_row(&by_clock(deal, table(&rows, &thresholds), minute), place);
        }
        let number = self.next_number();
        // Minutes above the day, also such as are in it in fewer bits or modulo 1,440.
        for minute in [1440, 1441, 2140, 65_536, 66_236, 1 << 31, u32::MAX] {
            let deal = format!("clock {number} @32:1 0 1 00000000 9f050000 05000000");
            self.answered(format!("{deal} {minute} 1536 1536"), "8 0");
        }
        let day = "~1:0:0:0 ~1:0:1439:0 ~1:1:4294966272:2047";
        self.accepted(format!("clock {number} @32:1 0 1 {day} 1439 1536 1536"));
    }

    /// Vectors whose measure has a neighbour on either side that may be dealt, and the measure.
    fn vectors_at(&mut self, measure: Measure, length: usize) -> ([String; 2], i32) {
        loop {
            let vectors = [self.vector(measure, length), self.vector(measure, length)];
            let value = value_of(measure, &vectors) as i32;
            let range = measure.thresholds();
            if range.contains(&(value - 1)) && range.contains(&(value + 1)) {
                return (vectors, value);
            }
        }
    }

    /// A check by one row of a table in which the measure reaches one row's threshold and does
    /// not reach another's; the third is out of range. So another row's threshold is seen. Six
    /// turns go through both ends of all three rows, and through their orders.
    pub fn check_by_row(&mut self, measure: Measure, length: usize, turn: usize) -> Check {
        let (vectors, value) = self.vectors_at(measure, length);
        let stricter = value + if measure.is_distance() { -1 } else { 1 };
        let code = measure.code() as usize;
        let (of_day, met) = ((turn / 2 + code) % 3, turn.is_multiple_of(2));
        let order = ORDERS[(turn + 2 * code) % ORDERS.len()];
        let row = order.iter().position(|row| *row == of_day);
        let row = row.expect("a row of the day");
        let mut thresholds = [NONSENSE; 3];
        thresholds[row] = if met { value } else { stricter };
        thresholds[(row + 1) % 3] = if met { stricter } else { value };
        let mut check = self.check(measure, vectors, Threshold(thresholds[row]));
        assert_eq!(check.met, met);
        let minute = [DAY[of_day].0, DAY[of_day].1][(turn + code) % 2];
        let day = table(&order.map(|row| DAY[row]), &thresholds);
        check.deal = by_clock(check.deal, day, minute);
        check
    }

    /// Whole checks of every code and length, met and not. In one of them all calls are handed
    /// in twice.
    fn checks_by_clock(&mut self) {
        self.start("Night and day", [0; 4]);
        for (place, length) in LENGTHS.into_iter().enumerate() {
            for measure in Measure::ALL {
                for turn in [2 * place, 2 * place + 1] {
                    let check = self.check_by_row(measure, length, turn);
                    let twice = turn == 5 && measure == Measure::Euclid;
                    self.whole_check(&check, if twice { 27 } else { 2 });
                }
            }
        }
        self.show_all();
    }

    /// Tables and minutes without a pattern.
    fn sweep_of_days(&mut self) {
        self.start("Any day", [0; 4]);
        for turn in 0..8 {
            let measure = Measure::ALL[turn % 3];
            let (vectors, value) = self.vectors_at(measure, 1 + turn);
            let mut cuts: Vec<u32> = (0..1 + 2 * turn)
                .map(|_| 1 + self.below(1439) as u32)
                .collect();
            cuts.sort_unstable();
            cuts.dedup();
            let lasts = cuts.iter().map(|cut| cut - 1).chain([MINUTES - 1]);
            let mut rows: Vec<Ends> = [0].into_iter().chain(cuts.clone()).zip(lasts).collect();
            for place in 0..rows.len() {
                let other = self.below(rows.len());
                rows.swap(place, other);
            }
            let near = |_: &Ends| value - 1 + self.below(3) as i32;
            let thresholds: Vec<i32> = rows.iter().map(near).collect();
            let minute = self.below(1440) as u32;
            let place = place_of(&rows, minute).expect("a row of the day");
            let mut check = self.check(measure, vectors, Threshold(thresholds[place - 1]));
            check.deal = by_clock(check.deal, table(&rows, &thresholds), minute);
            self.whole_check(&check, 2);
        }
    }

    /// Two checks that are dealt one after the other, the second loaded at both boxes while the
    /// first is open; each by the clock or not.
    fn clock_ahead(&mut self) {
        self.start("Clock ahead", [0; 4]);
        for (turn, (first, second)) in [(false, true), (true, false), (true, true)]
            .into_iter()
            .enumerate()
        {
            let checks = [(first, turn), (second, turn + 3)].map(|(clock, turn)| {
                let measure = Measure::ALL[turn % 3];
                let check = match clock {
                    true => self.check_by_row(measure, 17, turn),
                    false => {
                        let (vectors, value) = self.vectors_at(measure, 2);
                        self.check(measure, vectors, Between(value, value + 1))
                    }
                };
                assert_eq!(self.step(&check, Step::Deal), 0);
                check
            });
            for check in &checks {
                for step in [Load(0), Load(1)] {
                    assert_eq!(self.step(check, step), 0);
                }
            }
            self.show(BOXES[turn % 2]);
            for check in checks {
                for step in AFTER_LOADS {
                    assert_eq!(self.step(&check, step), 0);
                }
                let bit = self.claim.joined[&check.deal.number];
                assert_eq!(bit, u32::from(check.met), "{}", check.deal);
            }
        }
        self.show_all();
    }

    /// All of it but for what comes before the first start.
    pub fn by_the_clock(&mut self) {
        self.refused_by_the_clock();
        self.many_rows();
        self.twins();
        self.checks_by_clock();
        self.sweep_of_days();
        self.clock_ahead();
        self.refused_between();
        self.bad_lines_of_the_clock();
        self.high_numbers();
    }
}

#[cfg(test)]
mod tests {
    use super::*;
    use crate::replay_script::hex_words;
    use std::collections::HashSet;

    /// The fields of every deal by the clock, and the two numbers that answer it.
    fn deals() -> Vec<(Vec<String>, [u32; 2])> {
        let mut script = Script::default();
        script.by_the_clock();
        let deals = script.list.into_iter().filter_map(|case| {
            let fields: Vec<String> = case.line.split(' ').map(str::to_string).collect();
            let numbers = case.expected.split(' ').take(2).map(str::parse);
            let numbers: Vec<u32> = numbers.collect::<Result<_, _>>().ok()?;
            (fields[0] == "clock").then(|| (fields, numbers.try_into().unwrap()))
        });
        deals.collect()
    }

    /// Beside 2, 4, 5, 7 and 8 the place is 0; the others have the places that they may.
    #[test]
    fn places() {
        let found: HashSet<[u32; 2]> = deals().into_iter().map(|deal| deal.1).collect();
        for [why, place] in &found {
            let most = match why {
                0 | 14 => 32,
                15 | 16 => 1439,
                _ => 0,
            };
            assert!(*place <= most && (*why, *place) != (0, 0), "{why} {place}");
        }
        for [why, place] in [[14, 0], [14, 1], [14, 2], [15, 0], [15, 1439], [16, 0]] {
            assert!(found.contains(&[why, place]), "{why} {place}");
        }
        assert!([1, 2, 3, 8, 31, 32]
            .map(|row| [0, row])
            .iter()
            .all(|row| found.contains(row)));
    }

    /// Numbers of more than 32 bits and the last of all are dealt, and refused where they come
    /// again; and a table of 257 rows, one in 8 bits, is refused.
    #[test]
    fn high_numbers_and_long_lists() {
        let (high, last) = (((1_u64 << 32) + 5).to_string(), u64::MAX.to_string());
        let (mut numbers, mut long) = (Vec::new(), Vec::new());
        for (fields, answer) in deals() {
            if fields[1] == high || fields[1] == last {
                numbers.push((fields[1].clone(), answer[0]));
            }
            if fields[5..8].iter().all(|list| list.starts_with("~257:")) {
                long.push(answer);
            }
        }
        let expected = [(&high, 14), (&high, 0), (&high, 7), (&last, 0), (&last, 7)];
        assert_eq!(numbers, expected.map(|(number, why)| (number.clone(), why)));
        assert_eq!(long, [[14, 0]]);
    }

    /// Every code is dealt at every length of the edges, at both ends of every row, and by the
    /// rows in every order.
    #[test]
    fn every_code_length_and_end_is_dealt() {
        let (mut lengths, mut minutes) = (HashSet::new(), HashSet::new());
        let mut firsts = HashSet::new();
        for (fields, _) in deals().into_iter().filter(|(_, [why, _])| *why == 0) {
            lengths.insert((fields[3].clone(), fields[4].clone()));
            minutes.insert((fields[3].clone(), fields[8].clone()));
            firsts.insert((fields[3].clone(), fields[5].clone()));
        }
        for code in ["0", "1", "2"] {
            for length in LENGTHS {
                assert!(lengths.contains(&(code.to_string(), length.to_string())));
            }
            for minute in DAY.iter().flat_map(|(first, last)| [first, last]) {
                let there = minutes.contains(&(code.to_string(), minute.to_string()));
                assert!(there, "{code} {minute}");
            }
            for order in ORDERS {
                let rows = hex_words(&order.map(|row| DAY[row].0));
                assert!(firsts.contains(&(code.to_string(), rows)));
            }
        }
    }
}
