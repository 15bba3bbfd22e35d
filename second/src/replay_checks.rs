//! The whole checks in the script of `test_replay`: every call accepted, in many orders, and
//! the joined bit that of the measure over whole numbers. Then checks that end early. Those
//! between two marks are in `replay_marks`.

use crate::checks::vector;
use crate::measure::{Measure, MAX_LENGTH};
use crate::replay::BOXES;
use crate::replay_script::{hex_words, Deal, Script};
use crate::rule::Rule;

/// Lengths at the edges, and where the count of blocks changes.
const LENGTHS: [usize; 5] = [1, 16, 17, 18, MAX_LENGTH];

/// A threshold, by where it lies.
#[derive(Clone, Copy)]
enum Threshold {
    Measure,
    OneAbove,
    Lowest,
    Highest,
}

const THRESHOLDS: [Threshold; 4] = [
    Threshold::Measure,
    Threshold::OneAbove,
    Threshold::Lowest,
    Threshold::Highest,
];

/// A check in range, and what its join must say.
pub struct Check {
    pub deal: Deal,
    pub vectors: [String; 2],
    pub met: bool,
}

/// The measure of two vector fields.
pub fn value_of(measure: Measure, vectors: &[String; 2]) -> i64 {
    let [x, y] = [0, 1].map(|at: usize| vector(&vectors[at]).expect("a vector"));
    measure.of(&x, &y)
}

/// The calls of a check; a number is a box's place.
#[derive(Clone, Copy, PartialEq)]
pub enum Step {
    Deal,
    Load(usize),
    Mask(usize),
    Take(usize),
    Finish(usize),
    Drop(usize),
    Join,
}

use Step::{Finish, Load, Mask, Take};

/// The camera box as far ahead as may be. Drops are no part of a whole check.
pub const STEPS: [Step; 10] = [
    Step::Deal,
    Load(0),
    Mask(0),
    Take(0),
    Finish(0),
    Load(1),
    Mask(1),
    Take(1),
    Finish(1),
    Step::Join,
];

/// The calls of a check from call 2 on, both boxes by turns.
pub const AFTER_LOADS: [Step; 7] = [
    Mask(0),
    Mask(1),
    Take(0),
    Take(1),
    Finish(0),
    Finish(1),
    Step::Join,
];

impl Step {
    /// Whether all is written and sent that this step hands on.
    pub fn is_ready(self, done: &[Step]) -> bool {
        let needs: &[Step] = match self {
            Step::Deal => &[],
            Load(_) => &[Step::Deal],
            Step::Drop(0) => &[Load(0)],
            Step::Drop(_) => &[Load(1)],
            Mask(0) => &[Load(0)],
            Mask(_) => &[Load(1)],
            Take(_) => &[Mask(0), Mask(1)],
            Finish(_) => &[Take(0), Take(1)],
            Step::Join => &[Finish(0), Finish(1)],
        };
        needs.iter().all(|step| done.contains(step))
    }

    /// The part that it is a call on.
    fn part(self) -> &'static str {
        match self {
            Step::Deal => "dealer",
            Step::Join => "lock",
            _ => BOXES[self.at().expect("a call on a box")],
        }
    }

    /// The box that it is a call on, if it is one.
    pub fn at(self) -> Option<usize> {
        match self {
            Step::Deal | Step::Join => None,
            Load(at) | Mask(at) | Take(at) | Finish(at) | Step::Drop(at) => Some(at),
        }
    }

    /// The refusal of the same call once more. A load would be one ahead, under a number
    /// that is not above the open one.
    fn again(self) -> u32 {
        match self {
            Step::Deal | Step::Join | Load(_) => 7,
            _ => 3,
        }
    }
}

impl Script {
    pub fn check(
        &mut self,
        measure: Measure,
        vectors: [String; 2],
        rule: impl Into<Rule>,
    ) -> Check {
        let rule = rule.into();
        let [x, y] = [0, 1].map(|at: usize| vector(&vectors[at]).expect("a vector"));
        let number = self.next_number() + self.below(3) as u64;
        Check {
            deal: self.new_deal(number, measure, x.len(), rule),
            vectors,
            met: measure.meets(&x, &y, rule),
        }
    }

    /// One call of a check: its refusal.
    pub fn step(&mut self, check: &Check, step: Step) -> u32 {
        let (number, length) = (check.deal.number, check.deal.length as usize);
        match step {
            Step::Deal => self.deal(&check.deal),
            Load(at) => self.load(at, &self.half_line(at, number)),
            Mask(at) => self.mask(at, &check.vectors[at], length + at),
            Take(at) => {
                let vector = self.vector_of(1 - at, number);
                self.take(at, &self.vector_for(at, number), &vector)
            }
            Finish(at) => {
                let word = self.word_of(1 - at, number);
                self.finish(at, &self.word_for(at, number), &word)
            }
            Step::Drop(at) => self.drop_set(at),
            Step::Join => self.join(&self.join_under(number)),
        }
    }

    /// A whole check in some order, which the turn decides: every call is accepted, and
    /// the join says what it must. In some turns each call is handed in twice, in some
    /// the states are shown.
    pub fn whole_check(&mut self, check: &Check, turn: usize) {
        let mut done = Vec::new();
        while done.len() < STEPS.len() {
            let ready = |step: &Step| !done.contains(step) && step.is_ready(&done);
            let ready: Vec<Step> = STEPS.into_iter().filter(ready).collect();
            let step = match turn % 4 {
                0 => ready[0],
                1 => ready[ready.len() - 1],
                _ => self.pick(&ready),
            };
            if step == Step::Join && turn % 3 == 1 {
                assert_eq!(self.host_and_join(&self.join_of(check.deal.number)), 0);
            } else {
                assert_eq!(self.step(check, step), 0, "{}", check.deal);
            }
            if turn.is_multiple_of(9) {
                assert_eq!(self.step(check, step), step.again());
            }
            if turn.is_multiple_of(3) {
                self.show(step.part());
            }
            done.push(step);
        }
        let bit = self.claim.joined[&check.deal.number];
        assert_eq!(bit, u32::from(check.met), "{}", check.deal);
    }

    pub fn whole_checks(&mut self) {
        let mut turn = 0;
        let names = ["A", "Hut 4", "Hut 4, east doo", "Hut 4, east door", "~ ~"];
        for (length, name) in LENGTHS.into_iter().zip(names) {
            self.start(name, [turn as u64; 4]);
            for measure in Measure::ALL {
                for threshold in THRESHOLDS {
                    let vectors = [self.vector(measure, length), self.vector(measure, length)];
                    let value = value_of(measure, &vectors) as i32;
                    let threshold = match threshold {
                        Threshold::Measure => value,
                        Threshold::OneAbove => value + 1,
                        Threshold::Lowest => *measure.thresholds().start(),
                        Threshold::Highest => *measure.thresholds().end(),
                    };
                    if measure.thresholds().contains(&threshold) {
                        let check = self.check(measure, vectors, threshold);
                        self.whole_check(&check, turn);
                    }
                    turn += 1;
                }
            }
        }
    }

    /// The lines of 01, "The proved cases", that are checks: each at its value and one above.
    pub fn checks_of_01(&mut self) {
        self.start("01", [0; 4]);
        let (x, y) = (hex_words(&[3, -4i32 as u32]), hex_words(&[2, 5]));
        let (bits, others) = (hex_words(&[1, 0, 1, 1]), hex_words(&[1, 1, 0, 1]));
        let all = |element: i32| format!("~512:0:{}:0", element as u32);
        for (measure, value, vectors) in [
            (Measure::Scalar, -14, [x.clone(), y.clone()]),
            (Measure::Euclid, 82, [x, y]),
            (Measure::Hamming, 2, [bits, others]),
            (Measure::Euclid, 2_145_387_008, [all(-1024), all(1023)]),
        ] {
            for (threshold, met) in [(value, true), (value + 1, measure.is_distance())] {
                let check = self.check(measure, vectors.clone(), threshold);
                assert_eq!(check.met, met);
                self.whole_check(&check, 2);
                self.host_and_join(&self.join_of(check.deal.number));
            }
        }
    }

    /// 02, "Distances mean close": the largest distance at a threshold of one less.
    pub fn distances(&mut self) {
        self.start("02", [0; 4]);
        let all = |element: i32| format!("~512:0:{}:0", element as u32);
        let vectors = [all(-1024), all(1023)];
        let check = self.check(Measure::Euclid, vectors, 2_145_387_007);
        assert!(!check.met);
        self.whole_check(&check, 2);
    }

    /// Boxes that have sent nothing yet: no words, then 0.
    pub fn first_messages(&mut self) {
        self.start("Hut 4", [10, 10, 10, 10]);
        let number = self.dealt(Measure::Euclid, 1, 9);
        self.loaded(0);
        assert_eq!(self.mask(0, "03000000", 1), 0);
        let (vector, word) = (self.vector_for(0, number), self.word_for(0, number));
        assert_eq!(self.take(0, &vector, "office"), 4);
        assert_eq!(self.take(0, &vector, "-"), 4);
        assert_eq!(self.take(0, &vector, "05000000"), 0);
        assert_eq!(self.finish(0, &word, "office"), 0);
        let mut join = self.join_of(number);
        join.answers = ["office".to_string(), "office".to_string()];
        assert_eq!(self.host_and_join(&join), 0);
        self.show_all();
    }

    /// The lowest floor and the highest, at every part.
    pub fn floors(&mut self) {
        self.start("Low", [0; 4]);
        let zero = self.new_deal(0, Measure::Scalar, 1, 0);
        assert_eq!(self.deal(&zero), 7);
        assert_eq!(self.join(&self.join_of(0)), 7);
        let check = self.check(
            Measure::Scalar,
            ["01000000", "01000000"].map(str::to_string),
            1,
        );
        self.whole_check(&check, 0);
        self.start("High", [u64::MAX - 1, 0, u64::MAX, u64::MAX]);
        let number = self.dealt(Measure::Scalar, 1, 0);
        assert_eq!(number, u64::MAX);
        for number in [u64::MAX, 0, 1, 1 << 63] {
            let deal = self.new_deal(number, Measure::Scalar, 1, 0);
            assert_eq!(self.deal(&deal), 7);
        }
        self.answered(self.load_line(1, 0), 7);
        self.answered("bytes office @1536:9", 7);
        self.answered("bytes office @1537:9", 4);
        self.loaded(0);
        self.dropped(0);
        self.answered(self.load_line(0, 0), 7);
        for number in [u64::MAX, 0, 1] {
            assert_eq!(self.host_and_join(&self.join_of(number)), 7);
        }
        self.show_all();
    }

    /// A check that a box drops in each phase; the next one is answered.
    pub fn drops(&mut self) {
        self.start("Drops", [0; 4]);
        let vectors = || ["0300000001000000", "0200000001000000"].map(str::to_string);
        for at in [0, 1] {
            for phase in 1..4 {
                let check = self.check(Measure::Euclid, vectors(), 1);
                let steps = [
                    Step::Deal,
                    Load(0),
                    Load(1),
                    Mask(0),
                    Mask(1),
                    Take(0),
                    Take(1),
                ];
                for step in &steps[..1 + 2 * phase] {
                    assert_eq!(self.step(&check, *step), 0);
                }
                self.dropped(at);
                self.show(BOXES[at]);
                self.after_a_drop(at, &check);
                self.dropped(1 - at);
                let check = self.check(Measure::Euclid, vectors(), 1);
                self.whole_check(&check, 2);
            }
        }
        self.a_drop_at_the_end();
    }

    /// What still comes for a set that was dropped.
    fn after_a_drop(&mut self, at: usize, check: &Check) {
        for (step, refusal) in [(Load(at), 7), (Mask(at), 3), (Take(at), 3), (Finish(at), 3)] {
            assert_eq!(self.step(check, step), refusal);
        }
        self.answered(format!("drop {}", BOXES[at]), 3);
        self.show(BOXES[at]);
    }

    /// One box answers, the other drops: its last answer is of another number.
    fn a_drop_at_the_end(&mut self) {
        let check = self.check(
            Measure::Scalar,
            ["02000000", "03000000"].map(str::to_string),
            6,
        );
        for step in STEPS
            .into_iter()
            .filter(|step| matches!(step, Step::Deal | Load(_) | Mask(_)))
        {
            assert_eq!(self.step(&check, step), 0);
        }
        for step in [Take(0), Take(1), Finish(0)] {
            assert_eq!(self.step(&check, step), 0);
        }
        self.dropped(1);
        let earlier = *self.claim.joined.keys().last().expect("a join");
        let mut join = self.join_of(check.deal.number);
        join.messages[1].number = earlier;
        assert_eq!(self.host_and_join(&join), 7);
        assert_eq!(self.step(&check, Finish(1)), 3);
        self.show_all();
    }
}
