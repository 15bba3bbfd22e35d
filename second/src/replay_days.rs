//! Deals by the clock (02) that are refused, in the script of `test_replay`: bad tables, every
//! refusal of a deal with every other one and with a bad table beside it, thresholds at the
//! ends of their ranges in every row. By which number and place a deal is refused stands here
//! and is not asked of this implementation.

use crate::check_tables::{rows_to, Ends, Why};
use crate::day::{Table, MINUTES};
use crate::measure::{Measure, MAX_LENGTH};
use crate::replay_checks::Step::{self, Load, Mask};
use crate::replay_checks::AFTER_LOADS;
use crate::replay_clock::{by_clock, day_with, table, DAY, NONSENSE, NOON};
use crate::replay_script::{choices, Deal, Script};

/// Tables that are refused at once, of rows of which each is written out.
const BAD_TABLES: [(&[Ends], Why); 17] = [
    (&[], (14, 0)),
    (&[(0, 1440)], (14, 1)),
    (&[(0, 699), (701, 700), (701, 1439)], (14, 2)),
    (&[(0, 699), (700, 1439), (1440, 1440)], (14, 3)),
    (&[(0, 700), (9, 8), (1, 0)], (14, 2)),
    (&[(0, u32::MAX), (u32::MAX, 0)], (14, 1)),
    (&[(1, 1439)], (15, 0)),
    (&[(0, 0), (2, 1439)], (15, 1)),
    (&[(701, 1439), (0, 699)], (15, 700)),
    (&[(0, 1438)], (15, 1439)),
    (&[(0, 1439), (0, 0)], (16, 0)),
    (&[(1, 1439), (0, 1)], (16, 1)),
    (&[(0, 700), (700, 1439)], (16, 700)),
    (&[(0, 1439), (1439, 1439)], (16, 1439)),
    (&[(0, 300), (300, 899), (901, 1439)], (16, 300)),
    (&[(0, 299), (301, 900), (900, 1439)], (15, 300)),
    (&[(0, 1439), (700, 700), (700, 700)], (16, 700)),
];

/// Those that stand beside other refusals. The first is a table with a threshold too many.
const BESIDE: [(&[Ends], Why); 5] = [
    (&DAY, (14, 0)),
    (&[(0, 699), (701, 700), (0, 1440)], (14, 2)),
    (&[(1, 1439)], (15, 0)),
    (&[(0, 0), (2, 2), (2, 1439)], (15, 1)),
    (&[(0, 700), (700, 1438)], (16, 700)),
];

/// What is no line of a script: one field too few or too many, numbers that are none, lists
/// that are not whole words, rooms too large.
const BAD_LINES: [&str; 14] = [
    "clock",
    "clock 90000000 @32:1 0 1 00000000 9f050000 05000000 0 1536",
    "clock 90000000 @32:1 0 1 00000000 9f050000 05000000 0 1536 1536 0",
    "clock 90000000 @32:1 0 1 00000000 9f050000 05000000 4294967296 1536 1536",
    "clock 90000000 @32:1 0 1 00000000 9f050000 05000000 -1 1536 1536",
    "clock 90000000 @32:1 0 1 00000000 9f050000 05000000 - 1536 1536",
    "clock 90000000 @32:1 0 1 000000 9f050000 05000000 0 1536 1536",
    "clock 90000000 @32:1 0 1 00000000 @5:1 05000000 0 1536 1536",
    "clock 90000000 @32:1 0 1 00000000 9f050000 5:6 0 1536 1536",
    "clock 90000000 @32:1 0 1 00000000 camera 05000000 0 1536 1536",
    "clock 90000000 @32:1 0 1 00000000 9f050000 05000000 0 1536 8705",
    "clock 90000000 @32:1 0 4294967296 00000000 9f050000 05000000 0 1536 1536",
    "clock 18446744073709551616 @32:1 0 1 00000000 9f050000 05000000 0 1536 1536",
    "clock 90000000 ~8:3:0:1 0 1 00000000 9f050000 05000000 0 1536 1536",
];

/// The day with each of its lists a word too short, and a word too long.
fn unequal_lists() -> Vec<Table> {
    let mut tables = Vec::new();
    for place in 0..3 {
        for count in [2, 4] {
            let mut day = table(&DAY, &[5; 3]);
            let list = match place {
                0 => &mut day.firsts,
                1 => &mut day.lasts,
                _ => &mut day.thresholds,
            };
            list.resize(count, 5);
            tables.push(day);
        }
    }
    tables
}

impl Script {
    /// Refused deals by the clock, with the number and the place of each: the dealer is then as
    /// it was, and shown before and after.
    fn refused(&mut self, deals: Vec<(Deal, Why)>) {
        let before = self.show("dealer");
        for (deal, (why, place)) in deals {
            self.answered(deal, format!("{why} {place}"));
        }
        assert_eq!(self.show("dealer"), before);
    }

    /// A deal in range at noon, by a table whose other rows are not.
    fn good_deal(&mut self, measure: Measure, length: usize) -> Deal {
        let deal = self.new_deal(self.next_number(), measure, length, 5);
        by_clock(deal, table(&DAY, &[NONSENSE, 5, NONSENSE]), NOON)
    }

    /// What makes a deal by the clock one that is refused by this number.
    fn spoil_clock(&self, deal: &mut Deal, refusal: u32, variant: usize) {
        let (table, minute) = deal.clock.as_mut().expect("a deal by the clock");
        match (refusal, variant) {
            (8, 0) => *minute = MINUTES,
            (8, 1) => table.thresholds = vec![5, NONSENSE as u32, 5],
            (8, _) => *minute = u32::MAX,
            _ => self.spoil_deal(deal, refusal, variant),
        }
    }

    /// Deals by the clock with every choice of things wrong, and a bad table beside each.
    fn wrong_clocks(&mut self) {
        self.start("A clock", [40, 0, 0, 0]);
        self.dealt(Measure::Scalar, 3, 5);
        let all = choices(&[2, 4, 5, 7, 8]);
        let mut deals = Vec::new();
        for (variant, length) in [(0, 18), (1, 1), (2, MAX_LENGTH)] {
            for (turn, wrong) in all.iter().enumerate() {
                let mut deal = self.good_deal(Measure::ALL[(turn + variant) % 3], length);
                for refusal in wrong {
                    self.spoil_clock(&mut deal, *refusal, variant);
                }
                deals.push((deal, (wrong[0], 0)));
            }
        }
        for (kind, (rows, why)) in BESIDE.into_iter().enumerate() {
            for (turn, wrong) in [vec![]].iter().chain(&all).enumerate() {
                let (measure, variant) = (Measure::ALL[turn % 3], (turn + kind) % 3);
                let mut deal = self.good_deal(measure, [1, 17][turn % 2]);
                for refusal in wrong {
                    self.spoil_clock(&mut deal, *refusal, variant);
                }
                let threshold = if wrong.contains(&8) { NONSENSE } else { 5 };
                let count = if kind == 0 { 4 } else { rows.len() };
                let (bad, _) = deal.clock.as_mut().expect("a deal by the clock");
                *bad = table(rows, &vec![threshold; count]);
                deals.push((deal, why));
            }
        }
        self.refused(deals);
    }

    /// Bad tables of every kind in deals that are good else, and in such as are not.
    fn bad_days(&mut self) {
        let mut deals = Vec::new();
        for (turn, (rows, why)) in BAD_TABLES.into_iter().enumerate() {
            let mut deal = self.good_deal(Measure::ALL[turn % 3], 2);
            let minute = [NOON, 0, MINUTES, 1439][turn % 4];
            deal.clock = Some((table(rows, &vec![5; rows.len()]), minute));
            deals.push((deal, why));
        }
        let mut bad = unequal_lists();
        bad.push(table(&rows_to(33), &[5; 33]));
        for table in bad {
            let deal = self.good_deal(Measure::Euclid, 2);
            deals.push((by_clock(deal, table, NOON), (14, 0)));
        }
        self.refused(deals);
        let number = self.next_number();
        for lists in [
            "- 00000000 00000000",
            "00000000 - 00000000",
            "00000000 9f050000 -",
            "~33:0:0:0 ~33:0:1439:0 ~33:0:0:0",
            "~2432:0:0:0 ~2432:0:1439:0 ~2432:0:0:0",
            "~1:0:0:0 ~1:0:1439:0 @9728:1",
        ] {
            let line = format!("clock {number} @32:1 0 1 {lists} 0 1536 1536");
            self.answered(line, "14 0");
        }
    }

    /// Every measure's thresholds on both sides of both ends of their range, in each row: one
    /// that is out of range counts in the chosen row alone.
    fn ranges_by_row(&mut self) {
        let (mut refused, mut taken) = (Vec::new(), Vec::new());
        for (turn, measure) in Measure::ALL.into_iter().enumerate() {
            let (lowest, highest) = measure.thresholds().into_inner();
            let (below, above) = (lowest.wrapping_sub(1), highest.wrapping_add(1));
            for (row, (first, last)) in DAY.into_iter().enumerate() {
                let deal = self.new_deal(self.next_number(), measure, 1, 5);
                for (out, minute) in [(below, first), (above, last), (NONSENSE, first)] {
                    let day = day_with([5; 3], row, out);
                    refused.push((by_clock(deal.clone(), day, minute), (8, 0)));
                }
                let (fine, minute) = [(lowest, last), (highest, first)][(row + turn) % 2];
                let day = day_with([below, above, NONSENSE], row, fine);
                let deal = self.new_deal(0, measure, 1, fine);
                taken.push((by_clock(deal, day, minute), row + 1));
            }
        }
        self.refused(refused);
        for (mut deal, place) in taken {
            deal.number = self.next_number();
            self.dealt_by_row(&deal, place);
        }
    }

    /// A refused deal by the clock in the middle of a check: nothing of it is changed, and the
    /// halves that were dealt before stay at hand.
    pub fn refused_between(&mut self) {
        let check = self.check_by_row(Measure::Euclid, 4, 3);
        for step in [Step::Deal, Load(0), Mask(0)] {
            assert_eq!(self.step(&check, step), 0);
        }
        let before = self.show_all();
        let bad = self.good_deal(Measure::Euclid, 4);
        let above = by_clock(bad.clone(), table(&DAY, &[5; 3]), MINUTES);
        let gap = by_clock(bad, table(&[(0, 7)], &[5]), 3);
        for (deal, answer) in [(above, "8 0"), (gap, "15 8")] {
            self.answered(deal, answer);
        }
        assert_eq!(self.show_all(), before);
        assert_eq!(self.step(&check, Load(1)), 0);
        for step in AFTER_LOADS.into_iter().filter(|step| *step != Mask(0)) {
            assert_eq!(self.step(&check, step), 0);
        }
    }

    pub fn bad_lines_of_the_clock(&mut self) {
        let before = self.show_all();
        for line in BAD_LINES {
            let place = self.list.len() + 1;
            self.answered(line, format!("bad line {place}"));
        }
        assert_eq!(self.show_all(), before);
    }

    /// Numbers above 2^32 and the last one of all, dealt and refused. The first is below the
    /// dealer's last number in 32 bits, and the one behind it that is lower is above it so.
    /// Before them a table of 257 rows, one in 8 bits, whose first row is the day.
    pub fn high_numbers(&mut self) {
        let (high, low) = ((1 << 32) + 5, u32::MAX.into());
        assert!((6..low).contains(&self.replay.dealer.last));
        let day = "~257:0:0:0 ~257:0:1439:0 ~257:0:5:0";
        self.answered(format!("clock {high} @32:1 0 1 {day} 0 1536 1536"), "14 0");
        for (number, refused) in [(high, &[high, low][..]), (u64::MAX, &[u64::MAX])] {
            let mut deal = self.good_deal(Measure::Scalar, 1);
            deal.number = number;
            self.dealt_by_row(&deal, 2);
            for number in refused {
                deal.number = *number;
                self.answered(&deal, "7 0");
            }
        }
        self.show("dealer");
    }

    /// Every refusal of a deal by the clock, and what is next to one.
    pub fn refused_by_the_clock(&mut self) {
        self.wrong_clocks();
        self.bad_days();
        self.ranges_by_row();
    }
}
