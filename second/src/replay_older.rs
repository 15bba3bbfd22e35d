//! Halves from before (`older`) in the script of `test_replay`: every load refuses them by 11
//! and spends no number, and the check goes on with the half of today.

use crate::field;
use crate::measure::Measure;
use crate::older::{self, Dealing, DEALINGS};
use crate::replay::BOXES;
use crate::replay_checks::Step::{self, Load};
use crate::replay_checks::{value_of, Check, AFTER_LOADS};
use crate::replay_script::{Deal, Script};

/// Lengths whose older halves fit a line as hex. At the first of them today's has a block more.
const LENGTHS: [usize; 3] = [17, 1, 2];

impl Script {
    /// Halves from before each change. The first change moved those of distances alone.
    pub fn older_sets(&mut self) {
        self.start("Older", [0; 4]);
        for (turn, measure) in Measure::ALL.into_iter().enumerate() {
            let first = if measure.is_distance() { 0 } else { 1 };
            for (age, dealing) in DEALINGS.into_iter().enumerate().skip(first) {
                let length = LENGTHS[(turn + age) % LENGTHS.len()];
                self.older_set(dealing, measure, length, (turn + age) % 2);
            }
        }
        self.show_all();
    }

    /// A check whose threshold is met. It is not 0, where sets of distances are the same before
    /// and after the first change.
    pub fn check_that_is_met(&mut self, measure: Measure, length: usize) -> Check {
        let vectors = [self.vector(measure, length), self.vector(measure, length)];
        let value = value_of(measure, &vectors) as i32;
        self.check(measure, vectors, value + i32::from(measure.is_distance()))
    }

    /// A check before whose load one box is handed its half as it was dealt before, and after
    /// whose load the other one is, under the next number.
    fn older_set(&mut self, dealing: Dealing, measure: Measure, length: usize, idle: usize) {
        let check = self.check_that_is_met(measure, length);
        assert_eq!(self.step(&check, Step::Deal), 0);
        self.kept(idle, &[(self.older_line(dealing, idle, &check.deal), 11)]);
        for step in [Load(0), Load(1)] {
            assert_eq!(self.step(&check, step), 0);
        }
        let next = Deal {
            number: check.deal.number + 1,
            ..check.deal.clone()
        };
        let open = 1 - idle;
        self.kept(open, &[(self.older_line(dealing, open, &next), 11)]);
        for step in AFTER_LOADS {
            assert_eq!(self.step(&check, step), 0);
        }
        assert_eq!(self.claim.joined[&check.deal.number], 1);
    }

    /// The line that loads a box's half of this deal as it was dealt before.
    pub fn older_line(&self, dealing: Dealing, at: usize, deal: &Deal) -> String {
        let measure = Measure::from_code(deal.code).expect("a code");
        let seed = field::parse_array(&deal.seed).expect("a seed");
        let halves = dealing(measure, deal.length as usize, deal.rule.offset(), &seed);
        let name = field::parse_array(&self.door.padded).expect("a name");
        let key = field::parse_array(&self.door.keys[at]).expect("a key");
        let half = older::half(&name, &key, deal.number, &halves[at]);
        format!("bytes {} {}", BOXES[at], field::format(&half))
    }
}
