//! Pairs of checks that overlap, in the script of `test_replay`: the second set is loaded
//! ahead while the first is under way, or is dropped. Every call is accepted, and both
//! joined bits are those of the measures over whole numbers.

use crate::measure::{Measure, MAX_LENGTH};
use crate::party::IDLE;
use crate::replay::BOXES;
use crate::replay_checks::Step::{Finish, Load, Mask};
use crate::replay_checks::{value_of, Check, Step, STEPS};
use crate::replay_script::Script;
use crate::rule::Rule;

/// The lengths of the two sets.
const LENGTHS: [[usize; 2]; 6] = [
    [1, 2],
    [18, 17],
    [2, 2],
    [17, MAX_LENGTH],
    [MAX_LENGTH, 1],
    [2, 1],
];

/// Two checks, and when the second overlaps the first.
struct Pair {
    checks: [Check; 2],
    /// The phase of each box in which it loads the second set: idle is after the first has
    /// ended there.
    ahead: [u32; 2],
    /// The phase in which each box drops the first set: idle is never.
    dropped: [u32; 2],
}

/// A call of the first check, 0, or of the second, 1.
type Call = (usize, Step);

/// Whether the first set has ended at a box.
fn has_ended(done: &[Call], at: usize) -> bool {
    done.contains(&(0, Finish(at))) || done.contains(&(0, Step::Drop(at)))
}

impl Pair {
    /// Whether a call of the first check may come next. A box stops in the phase in which
    /// it loads ahead until it has done so, and in the one in which it drops.
    fn first_may(&self, done: &[Call], step: Step, phase: u32) -> bool {
        let Some(at) = step.at() else {
            return true;
        };
        let here = |planned: u32| phase != IDLE && phase == planned;
        let loads = here(self.ahead[at]) && !done.contains(&(1, Load(at)));
        let drops = here(self.dropped[at]);
        !loads && !has_ended(done, at) && drops == (step == Step::Drop(at))
    }

    fn second_may(&self, done: &[Call], step: Step, phase: u32) -> bool {
        match step {
            Step::Deal => done.contains(&(0, Step::Deal)),
            Load(at) if self.ahead[at] == IDLE => has_ended(done, at),
            Load(at) => phase == self.ahead[at],
            Mask(at) => has_ended(done, at),
            Step::Drop(_) => false,
            // The lock takes no number below its last one.
            Step::Join => done.contains(&(0, Step::Join)) || self.dropped != [IDLE; 2],
            _ => true,
        }
    }
}

impl Script {
    /// The calls that may come next.
    fn next_calls(&self, pair: &Pair, done: &[Call]) -> Vec<Call> {
        let steps = STEPS.into_iter().chain([0, 1].map(Step::Drop));
        let calls = steps.flat_map(|step| [(0, step), (1, step)]);
        let may = |&(which, step): &Call| {
            let of_check = done.iter().filter(|(of, _)| *of == which);
            let steps: Vec<Step> = of_check.map(|(_, step)| *step).collect();
            let phase = step.at().map_or(IDLE, |at| self.replay.boxes[at].phase);
            let planned = match which {
                0 => pair.first_may(done, step, phase),
                _ => pair.second_may(done, step, phase),
            };
            planned && step.is_ready(&steps) && !steps.contains(&step)
        };
        calls.filter(may).collect()
    }

    /// All calls of both checks in some order, which the turn decides. The box is shown
    /// where a set has begun to wait, or has ended.
    fn whole_pair(&mut self, pair: &Pair, turn: usize) {
        let mut done = Vec::new();
        loop {
            let next = self.next_calls(pair, &done);
            let call = match (next.len(), turn % 4) {
                (0, _) => break,
                (_, 0) => next[0],
                (count, 1) => next[count - 1],
                _ => self.pick(&next),
            };
            let (which, step) = call;
            let check = &pair.checks[which];
            assert_eq!(self.step(check, step), 0, "{} {which}", check.deal);
            if let (1, Load(at)) | (_, Finish(at) | Step::Drop(at)) = call {
                self.show(BOXES[at]);
            }
            done.push(call);
        }
        let joined = match pair.dropped {
            [IDLE, IDLE] => &pair.checks[..],
            _ => &pair.checks[1..],
        };
        for check in joined {
            let bit = self.claim.joined[&check.deal.number];
            assert_eq!(bit, u32::from(check.met), "{}", check.deal);
        }
    }

    /// A check whose threshold is reached, or just not, or whose measure is the one mark or
    /// next to the other. A distance of zero reaches every threshold.
    pub fn near_check(
        &mut self,
        measure: Measure,
        length: usize,
        met: bool,
        between: bool,
    ) -> Check {
        let vectors = [self.vector(measure, length), self.vector(measure, length)];
        let value = value_of(measure, &vectors) as i32;
        let rule = match (between, met, measure.is_distance() && value > 0) {
            (true, true, _) => Rule::Between(value, value + 1),
            (true, false, true) => Rule::Between(0, value - 1),
            (true, false, false) => Rule::Between(value + 1, value + 1),
            (false, true, _) => Rule::Threshold(value),
            (false, false, true) => Rule::Threshold(value - 1),
            (false, false, false) => Rule::Threshold(value + 1),
        };
        self.check(measure, vectors, rule)
    }

    /// The checks of a pair: every two codes, every two bits and every two kinds of rule come
    /// in turn.
    fn near_checks(&mut self, turn: usize, lengths: [usize; 2]) -> [Check; 2] {
        let codes = [turn % 3, turn / 3 % 3];
        let [first, mut second] = [0, 1].map(|which: usize| {
            let met = (turn + turn / 4) >> which & 1 == 0;
            let between = turn >> (1 - which) & 1 == 0;
            let measure = Measure::ALL[codes[which]];
            self.near_check(measure, lengths[which], met, between)
        });
        second.deal.number = first.deal.number + 1 + self.below(3) as u64;
        [first, second]
    }

    /// The second set loaded in every phase of the one box with every phase of the other,
    /// and ahead at one of them at least.
    pub fn pairs(&mut self) {
        self.start("Pairs", [3, 2, 1, 0]);
        for turn in 1..16 {
            let checks = self.near_checks(turn, LENGTHS[turn % LENGTHS.len()]);
            let ahead = [turn as u32 / 4, turn as u32 % 4];
            let pair = Pair {
                checks,
                ahead,
                dropped: [IDLE; 2],
            };
            self.whole_pair(&pair, turn + turn / 4);
        }
        self.show_all();
    }

    /// The first set dropped at one box or at both, with the second waiting. A box that can
    /// come no further, since the other has dropped before it sent, is not asked to.
    pub fn pairs_with_drops(&mut self) {
        self.start("Drops ahead", [9, 1, 2, 3]);
        for (turn, (ahead, dropped)) in [
            ([1, 1], [1, 1]),
            ([1, 2], [1, 2]),
            ([2, 1], [2, 1]),
            ([3, 2], [3, 2]),
            ([2, 3], [2, 3]),
            ([3, 1], [3, 3]),
            ([2, 3], [IDLE, 3]),
            ([1, IDLE], [3, IDLE]),
            ([IDLE, 2], [1, 2]),
        ]
        .into_iter()
        .enumerate()
        {
            let checks = self.near_checks(turn, [1 + turn % 3, 1 + turn % 2]);
            let pair = Pair {
                checks,
                ahead,
                dropped,
            };
            self.whole_pair(&pair, turn);
        }
        self.show_all();
    }
}
