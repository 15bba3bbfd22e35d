//! Sets between two marks (02) in the script of `test_replay`: deals that are refused, whole
//! checks on every side of both marks, sets of either kind ahead of each other, and widths and
//! marks that a host has put into a state. By which number a call is refused and what is
//! joined stands here and is not asked of this implementation.

use crate::measure::{Measure, MAX_LENGTH};
use crate::party::{IDLE, SPOKEN};
use crate::replay::BOXES;
use crate::replay_ahead::OPEN;
use crate::replay_checks::Step::{self, Finish, Load, Mask, Take};
use crate::replay_checks::{value_of, Check, AFTER_LOADS};
use crate::replay_script::{choices, Script};
use crate::rule::Rule::{self, Between, Threshold};
use crate::rule::{MARKED, MAX_WIDTH, ORDINARY};

/// The ends of the scalar product's marks.
const LOWEST: i32 = -(1 << 30);
const HIGHEST: i32 = 1 << 30;

/// By code, marks that 8 turns down and 13 would not: P out of range, Q, or both. A Q that is
/// no distance is a negative one, so with P in range it is below P.
const OUT_OF_RANGE: [[(i32, i32); 3]; 3] = [
    [
        (LOWEST - 1, 0),
        (0, HIGHEST + 1),
        (HIGHEST + 1, HIGHEST + 2),
    ],
    [(-1, 0), (-2, -1), (i32::MIN, i32::MIN)],
    [(-1, 513), (0, 514), (514, 515)],
];
/// Marks that 13 turns down alone: in the wrong order, or too far apart, as code 0 has them.
const WRONG_WIDTH: [[(i32, i32); 3]; 3] = [
    [(LOWEST, HIGHEST), (0, -1), (HIGHEST, LOWEST)],
    [(i32::MAX, 0), (1, 0), (i32::MAX, i32::MAX - 1)],
    [(513, 512), (1, 0), (513, 0)],
];
/// Marks that both turn down: 8 is the answer.
const BOTH_WRONG: [[(i32, i32); 3]; 3] = [
    [
        (HIGHEST + 1, HIGHEST),
        (5, LOWEST - 1),
        (i32::MIN, i32::MAX),
    ],
    [(0, -1), (i32::MAX, i32::MIN), (-1, -2)],
    [(514, 513), (0, -1), (515, 514)],
];

/// Marks that are dealt: the widest, equal ones, and the ends.
const DEALT: [&[(i32, i32)]; 3] = [
    &[
        (LOWEST, HIGHEST - 1),
        (LOWEST + 1, HIGHEST),
        (LOWEST, LOWEST),
        (HIGHEST, HIGHEST),
        (-1, 0),
    ],
    &[(0, i32::MAX), (0, 0), (i32::MAX, i32::MAX), (1, 2)],
    &[(0, 513), (0, 0), (513, 513), (1, 512)],
];

/// 30.25 and 30.26 in docs/SPEC.md: marks, and what a deal with them is answered by.
const WORKED: [(Measure, i32, i32, u32); 7] = [
    (Measure::Hamming, 0, 513, 0),
    (Measure::Hamming, -1, 513, 8),
    (Measure::Hamming, 0, 514, 8),
    (Measure::Scalar, 5, 5, 0),
    (Measure::Scalar, 5, 4, 13),
    (Measure::Scalar, LOWEST, HIGHEST, 13),
    (Measure::Scalar, LOWEST, HIGHEST - 1, 0),
];

/// How far P and Q are from the measure, and whether it lies between them: it is P - 1, P, Q
/// and Q + 1, and the same where P = Q.
const NEAR: [(i32, i32, bool); 7] = [
    (1, 3, false),
    (0, 2, true),
    (-2, 0, true),
    (-3, -1, false),
    (1, 1, false),
    (0, 0, true),
    (-1, -1, false),
];

/// Widths and marks that a host puts into open sets: those that halves carry, and others.
const PUT: [(u32, u32); 9] = [
    (0, 1),
    (2, 2),
    (2, 0),
    (MAX_WIDTH, u32::MAX),
    (MAX_WIDTH, 0),
    (MAX_WIDTH + 1, 1),
    (u32::MAX - 1, 0),
    (u32::MAX, 256),
    (u32::MAX, 0),
];

/// A phase in which they are put into both boxes' states, and width and mark.
type Put = (u32, u32, u32);

/// What two boxes join to with these in their states, from the sum that they open.
fn bit_with(check: &Check, value: i64, (phase, width, mark): Put) -> u32 {
    let measure = Measure::from_code(check.deal.code).expect("a code");
    let dealt = check.deal.rule.mark();
    // Call 3 is the one that has the sign.
    let mark = if phase < SPOKEN { mark } else { dealt };
    let sign = |mark: u32| match measure.is_distance() && mark == ORDINARY {
        true => -1,
        false => 1,
    };
    let sum = sign(mark) * value - sign(dealt) * i64::from(check.deal.rule.offset());
    u32::from((sum as u32) < width.wrapping_add(1))
}

impl Script {
    /// The rule with which a deal between marks is refused by these of 8 and 13, or by none.
    fn marks_with(&self, wrong: &[u32], code: usize, variant: usize) -> Rule {
        let (p, q) = match (wrong.contains(&8), wrong.contains(&13)) {
            (false, false) => DEALT[code][variant],
            (true, false) => OUT_OF_RANGE[code][variant],
            (false, true) => WRONG_WIDTH[code][variant],
            (true, true) => BOTH_WRONG[code][variant],
        };
        Between(p, q)
    }

    /// Deals between marks with every choice of things wrong.
    fn wrong_deals_between(&mut self) {
        self.start("Between marks", [40, 0, 0, 0]);
        self.dealt(Measure::Euclid, 3, Between(5, 5));
        let before = self.show_all();
        for (variant, length) in [(0, 17), (1, 1), (2, MAX_LENGTH)] {
            for (turn, wrong) in choices(&[2, 4, 5, 7, 8, 13]).into_iter().enumerate() {
                let code = (turn + variant) % 3;
                let rule = self.marks_with(&wrong, code, variant);
                let measure = Measure::ALL[code];
                let mut deal = self.new_deal(self.next_number(), measure, length, rule);
                for refusal in wrong.iter().filter(|refusal| ![8, 13].contains(*refusal)) {
                    self.spoil_deal(&mut deal, *refusal, variant);
                }
                self.answered(deal, wrong[0]);
            }
        }
        assert_eq!(self.show_all(), before);
        self.marks_of_every_code();
    }

    /// Every code with all the marks above, and with thresholds at which marks are refused:
    /// 13 is never their refusal.
    fn marks_of_every_code(&mut self) {
        for (code, measure) in Measure::ALL.into_iter().enumerate() {
            for (marks, refusal) in [
                (&OUT_OF_RANGE[code][..], 8),
                (&WRONG_WIDTH[code], 13),
                (&BOTH_WRONG[code], 8),
                (DEALT[code], 0),
            ] {
                let before = self.show("dealer");
                for &(p, q) in marks {
                    let deal = self.new_deal(self.next_number(), measure, 1, Between(p, q));
                    assert_eq!(self.deal(&deal), refusal, "{deal}");
                }
                assert_eq!(self.show("dealer") == before, refusal != 0);
            }
            let (lowest, highest) = measure.thresholds().into_inner();
            for (threshold, refusal) in [(lowest, 0), (highest, 0), (lowest - 1, 8)] {
                let deal = self.new_deal(self.next_number(), measure, 1, threshold);
                assert_eq!(self.deal(&deal), refusal, "{deal}");
            }
        }
    }

    /// A check between marks that lie so from the measure of vectors without a pattern. A
    /// distance that is too small for its marks to be dealt is not taken.
    fn check_near(&mut self, measure: Measure, length: usize, near: (i32, i32)) -> Check {
        loop {
            let vectors = [self.vector(measure, length), self.vector(measure, length)];
            let value = value_of(measure, &vectors) as i32;
            let rule = Between(value + near.0, value + near.1);
            if rule.is_in_range(measure) {
                return self.check(measure, vectors, rule);
            }
        }
    }

    /// Whole checks on every side of both marks. At two of the lengths a half has a block more
    /// than before.
    fn checks_between(&mut self) {
        self.start("Near marks", [0; 4]);
        let all = Measure::ALL
            .into_iter()
            .flat_map(|measure| NEAR.map(|near| (measure, near)));
        for (turn, (measure, (p, q, met))) in all.enumerate() {
            let check = self.check_near(measure, [9, 17, 57][turn % 3], (p, q));
            assert_eq!(check.met, met);
            self.whole_check(&check, turn);
        }
    }

    /// Whole checks with the marks at the ends, and of copied templates.
    fn ends_of_marks(&mut self) {
        self.start("Ends of marks", [0; 4]);
        for (code, measure) in Measure::ALL.into_iter().enumerate() {
            for &(p, q) in DEALT[code] {
                let vectors = [self.vector(measure, 4), self.vector(measure, 4)];
                let check = self.check(measure, vectors, Between(p, q));
                self.whole_check(&check, 2);
            }
        }
        let all = |element: i32| format!("~512:0:{}:0", element as u32);
        for (p, q, met) in [(2_145_387_008, i32::MAX, true), (0, 2_145_387_007, false)] {
            let check = self.check(Measure::Euclid, [all(-1024), all(1023)], Between(p, q));
            assert_eq!(check.met, met);
            self.whole_check(&check, 2);
        }
        for measure in [Measure::Euclid, Measure::Hamming] {
            for (rule, met) in [
                (Between(1, 513), false),
                (Between(0, 513), true),
                (Between(0, 0), true),
                (Threshold(1), true),
            ] {
                let template = self.vector(measure, 6);
                let check = self.check(measure, [template.clone(), template], rule);
                assert_eq!(check.met, met);
                self.whole_check(&check, 3);
            }
        }
    }

    /// Short vectors and rules of both kinds, both without a pattern.
    fn sweep(&mut self) {
        self.start("Sweep", [0; 4]);
        for turn in 0..24 {
            let (measure, length) = (Measure::ALL[turn % 3], 1 + turn / 3 % 4);
            let vectors = [self.vector(measure, length), self.vector(measure, length)];
            let value = value_of(measure, &vectors) as i32;
            let far = 2 + value.unsigned_abs() as usize / 2;
            let near =
                [far, far].map(|far| value + self.below(far) as i32 - self.below(far) as i32);
            let [one, other] = near.map(|mark| match measure {
                Measure::Scalar => mark,
                _ => mark.max(0),
            });
            let rule = match turn % 2 {
                0 => Between(one.min(other), one.max(other)),
                _ => Threshold(one),
            };
            let check = self.check(measure, vectors, rule);
            self.whole_check(&check, 2);
        }
        self.show_all();
    }

    /// A set dealt and loaded at a box, which is then shown.
    fn loaded_and_shown(&mut self, at: usize, measure: Measure, rule: Rule) -> u64 {
        let number = self.dealt(measure, 2, rule);
        self.loaded(at);
        self.show(BOXES[at]);
        number
    }

    /// Width and mark that a box's open set has, and those of its waiting one.
    fn has(&self, at: usize, open: (u32, u32), waiting: (u32, u32)) {
        let state = &self.replay.boxes[at];
        assert_eq!((state.set.width, state.set.mark), open);
        assert_eq!((state.waiting.width, state.waiting.mark), waiting);
    }

    /// A set between marks behind an ordinary one and the other way round, in every phase:
    /// each takes its width and mark along, and leaves none behind.
    fn kinds_ahead_of_each_other(&mut self, at: usize) {
        self.start("Kinds", [0; 4]);
        let (none, ordinary) = ((0, ORDINARY), (MAX_WIDTH, ORDINARY));
        for phase in OPEN {
            let measure = Measure::ALL[phase as usize % 3];
            self.has(at, none, none);
            let first = self.loaded_and_shown(at, measure, Threshold(1));
            self.brought_to(at, phase);
            let second = self.loaded_and_shown(at, Measure::Hamming, Between(1, 1 + at as i32));
            let between = (at as u32, MARKED);
            self.has(at, ordinary, between);
            self.ended(at, first);
            self.is_as_after_a_load(at, first);
            self.has(at, between, none);
            self.brought_to(at, phase);
            self.loaded_and_shown(at, Measure::Euclid, Threshold(9));
            self.has(at, between, ordinary);
            self.ended(at, second);
            self.is_as_after_a_load(at, second);
            self.has(at, ordinary, none);
            self.dropped(at);
            self.show(BOXES[at]);
        }
        self.has(at, none, none);
    }

    /// The open set of this number is answered where it can be, and else dropped.
    fn ended(&mut self, at: usize, number: u64) {
        match self.replay.boxes[at].phase {
            SPOKEN => assert_eq!(self.finish(at, &self.word_for(at, number), "9"), 0),
            _ => self.dropped(at),
        }
    }

    /// Call 4 with words that nobody sent, so that Z is next to where an answer turns: 0 and
    /// w + 1.
    fn edges_of_z(&mut self, at: usize) {
        self.start("Edges of Z", [0; 4]);
        for (turn, (rule, width)) in [
            (Threshold(4), MAX_WIDTH),
            (Between(4, 4), 0),
            (Between(4, 9), 5),
        ]
        .into_iter()
        .enumerate()
        {
            for z in [u32::MAX, 0, width, width + 1, width + 2] {
                let measure = Measure::ALL[(turn + at) % 3];
                let number = self.dealt(measure, 2, rule);
                self.loaded(at);
                self.brought_to(at, SPOKEN);
                let word = z.wrapping_sub(self.replay.sent[at].word).to_string();
                assert_eq!(self.finish(at, &self.word_for(at, number), &word), 0);
            }
        }
        self.show(BOXES[at]);
    }

    /// Whole checks with a width and mark put into both boxes' open sets, from which the
    /// joined bit follows. Nothing is claimed of states that a host has written to.
    fn put_at_both_boxes(&mut self) {
        self.start("Put at both", [0; 4]);
        self.claim.off = true;
        let all = OPEN
            .into_iter()
            .flat_map(|phase| PUT.map(|(width, mark)| (phase, width, mark)));
        for (turn, put) in all.enumerate() {
            let measure = Measure::ALL[(turn + turn / PUT.len()) % 3];
            let mut check = self.check_near(measure, 7, (0, 1));
            if turn % 2 == 0 {
                check.deal.rule = Threshold(check.deal.rule.offset());
            }
            self.check_with(&check, put);
        }
    }

    /// One of them.
    fn check_with(&mut self, check: &Check, put: Put) {
        let (phase, width, mark) = put;
        let measure = Measure::from_code(check.deal.code).expect("a code");
        for step in [Step::Deal, Load(0), Load(1)] {
            assert_eq!(self.step(check, step), 0);
        }
        for step in AFTER_LOADS {
            if [Mask(0), Take(0), Finish(0)][phase as usize - 1] == step {
                for at in [0, 1] {
                    self.put_width(at, width, mark);
                    self.show(BOXES[at]);
                }
            }
            assert_eq!(self.step(check, step), 0);
        }
        let bit = bit_with(check, value_of(measure, &check.vectors), put);
        assert_eq!(self.claim.joined[&check.deal.number], bit, "{}", check.deal);
    }

    /// The same at one box alone: its calls go on, and what is joined is as good as random.
    fn put_at_one_box(&mut self, at: usize) {
        self.start("Put at one", [0; 4]);
        self.claim.off = true;
        for (turn, (width, mark)) in [(0, 1), (u32::MAX, 2), (1 << 31, 0), (9, u32::MAX)]
            .into_iter()
            .enumerate()
        {
            let check = self.check_near(Measure::ALL[1 + turn % 2], 7, (0, 5));
            for step in [Step::Deal, Load(0), Load(1)] {
                assert_eq!(self.step(&check, step), 0);
            }
            self.put_width(at, width, mark);
            for step in AFTER_LOADS.into_iter().filter(|step| *step != Step::Join) {
                assert_eq!(self.step(&check, step), 0);
            }
            self.host_and_join(&self.join_of(check.deal.number));
            self.show_all();
        }
    }

    /// With no set open, and with one waiting: what is put is in the open set alone, and goes
    /// with it. The next load and the next set bring their own.
    fn put_while_idle_and_waiting(&mut self, at: usize) {
        self.start("Put elsewhere", [0; 4]);
        for (width, mark) in [(5, 0), (0, 2), (u32::MAX, u32::MAX)] {
            assert_eq!(self.replay.boxes[at].phase, IDLE);
            self.put_width(at, width, mark);
            self.kept(at, &[(format!("drop {}", BOXES[at]), 3)]);
            let first = self.loaded_and_shown(at, Measure::Euclid, Between(3, 4));
            self.has(at, (1, MARKED), (0, ORDINARY));
            self.loaded_and_shown(at, Measure::Hamming, Threshold(2));
            self.put_width(at, width, mark);
            self.has(at, (width, mark), (MAX_WIDTH, ORDINARY));
            self.show(BOXES[at]);
            self.dropped(at);
            self.is_as_after_a_load(at, first);
            self.put_width(at, width, mark);
            self.dropped(at);
            self.has(at, (0, ORDINARY), (0, ORDINARY));
            self.show(BOXES[at]);
        }
    }

    /// The worked cases of a deal. The dealer moves on where its answer is 0.
    fn worked_deals(&mut self) {
        self.start("Worked marks", [0; 4]);
        let mut before = self.show("dealer");
        for (measure, p, q, answer) in WORKED {
            let deal = self.new_deal(self.next_number(), measure, 2, Between(p, q));
            assert_eq!(self.deal(&deal), answer, "{deal}");
            let after = self.show("dealer");
            assert_eq!(after == before, answer != 0);
            before = after;
        }
    }

    /// All of it.
    pub fn between_marks(&mut self) {
        self.wrong_deals_between();
        self.checks_between();
        self.ends_of_marks();
        self.sweep();
        self.put_at_both_boxes();
        for at in [0, 1] {
            self.edges_of_z(at);
            self.kinds_ahead_of_each_other(at);
            self.put_at_one_box(at);
            self.put_while_idle_and_waiting(at);
        }
        self.worked_deals();
    }
}
