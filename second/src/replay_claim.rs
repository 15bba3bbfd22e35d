//! What 01, "A door's list of calls", claims of every list: no part accepts a set number
//! twice, and an accepted join says whether the measure of the two vectors, taken over
//! whole numbers, meets the rule that was dealt. And what 02, "Load ahead", adds: a box holds
//! two sets at most, their numbers rise, and it sends under the first of them alone.

use crate::measure::Measure;
use crate::rule::Rule;
use std::collections::{BTreeMap, BTreeSet, VecDeque};
use std::fmt::Debug;

/// What has been accepted in a door's list of calls, by set number.
#[derive(Default)]
pub struct Claim {
    pub deals: BTreeMap<u64, (Measure, Rule)>,
    pub boxes: [AtBox; 2],
    pub joined: BTreeMap<u64, u32>,
    /// Numbers under which a message was taken that had not been sent so: of these
    /// nothing is claimed.
    pub forged: BTreeSet<u64>,
    /// Whether something other than calls writes states: then nothing is claimed at all.
    pub off: bool,
}

/// What a box was handed, and what it sent.
#[derive(Default)]
pub struct AtBox {
    pub loads: BTreeMap<u64, ()>,
    /// The sets that were loaded and have not ended, the open one first. It is read off
    /// the accepted calls, and not off the box's state.
    pub held: VecDeque<u64>,
    pub vectors: BTreeMap<u64, Vec<i32>>,
    pub masked: BTreeMap<u64, Vec<u32>>,
    pub words: BTreeMap<u64, u32>,
    pub answers: BTreeMap<u64, u32>,
}

impl Claim {
    pub fn deal(&mut self, number: u64, measure: Measure, rule: Rule) {
        once(self.off, &mut self.deals, number, (measure, rule));
    }

    pub fn load(&mut self, at: usize, number: u64) {
        let AtBox { loads, held, .. } = &mut self.boxes[at];
        let rises = loads.keys().all(|earlier| *earlier < number);
        assert!(self.off || (rises && held.len() < 2), "load of {number}");
        once(self.off, loads, number, ());
        held.push_back(number);
    }

    /// The open set ends by call 4 or a drop.
    pub fn close(&mut self, at: usize) {
        let ended = self.boxes[at].held.pop_front();
        assert!(self.off || ended.is_some(), "no set is open");
    }

    /// A box sends under the number of its open set.
    fn sends(&self, at: usize, number: u64) {
        let open = self.boxes[at].held.front();
        assert!(self.off || open == Some(&number), "{number}, not {open:?}");
    }

    pub fn mask(&mut self, at: usize, number: u64, vector: Vec<i32>, masked: Vec<u32>) {
        self.sends(at, number);
        once(self.off, &mut self.boxes[at].vectors, number, vector);
        once(self.off, &mut self.boxes[at].masked, number, masked);
    }

    pub fn take(&mut self, at: usize, number: u64, vector: &[u32], word: u32) {
        self.sends(at, number);
        let sent = self.boxes[1 - at].masked.get(&number);
        if sent.is_none_or(|sent| sent != vector) {
            self.forged.insert(number);
        }
        once(self.off, &mut self.boxes[at].words, number, word);
    }

    pub fn finish(&mut self, at: usize, number: u64, word: u32, answer: u32) {
        self.sends(at, number);
        if self.boxes[1 - at].words.get(&number) != Some(&word) {
            self.forged.insert(number);
        }
        once(self.off, &mut self.boxes[at].answers, number, answer);
        self.close(at);
    }

    pub fn join(&mut self, number: u64, answers: [u32; 2], bit: u32) {
        once(self.off, &mut self.joined, number, bit);
        let sent = [0, 1].map(|at: usize| self.boxes[at].answers.get(&number).copied());
        if sent != answers.map(Some) {
            self.forged.insert(number);
        }
        if self.off || self.forged.contains(&number) {
            return;
        }
        let (measure, rule) = self.deals[&number];
        let [x, y] = [0, 1].map(|at: usize| &self.boxes[at].vectors[&number]);
        let met = measure.meets(x, y, rule);
        assert_eq!(bit, u32::from(met), "the join of {number}");
    }
}

/// Puts what was accepted under a number where nothing has been yet.
fn once<T: Debug>(off: bool, accepted: &mut BTreeMap<u64, T>, number: u64, what: T) {
    let before = accepted.insert(number, what);
    assert!(off || before.is_none(), "{number} again, after {before:?}");
}

#[cfg(test)]
mod tests {
    use super::*;
    use crate::rule::Rule::{Between, Threshold};

    /// A check under number 5 up to its join, on the vectors of 01 whose scalar product is
    /// -14 and whose squared Euclid 82.
    fn answered_by(measure: Measure, rule: Rule) -> Claim {
        let mut claim = Claim::default();
        claim.deal(5, measure, rule);
        for (at, vector) in [(0, vec![3, -4]), (1, vec![2, 5])] {
            claim.load(at, 5);
            claim.mask(at, 5, vector, vec![at as u32, 9]);
        }
        claim.take(0, 5, &[1, 9], 70);
        claim.take(1, 5, &[0, 9], 71);
        claim.finish(0, 5, 71, 100);
        claim.finish(1, 5, 70, 101);
        claim
    }

    fn answered(threshold: i32) -> Claim {
        answered_by(Measure::Scalar, Threshold(threshold))
    }

    #[test]
    fn a_join_must_be_right() {
        for (measure, rule, bit) in [
            (Measure::Scalar, Threshold(-14), 1),
            (Measure::Scalar, Threshold(-13), 0),
            (Measure::Scalar, Between(-14, -14), 1),
            (Measure::Scalar, Between(-13, 9), 0),
            (Measure::Scalar, Between(-99, -15), 0),
            (Measure::Euclid, Threshold(81), 0),
            (Measure::Euclid, Threshold(82), 1),
            (Measure::Euclid, Threshold(83), 1),
            (Measure::Euclid, Between(0, 81), 0),
            (Measure::Euclid, Between(1, 82), 1),
            (Measure::Euclid, Between(82, 83), 1),
            (Measure::Euclid, Between(83, 84), 0),
        ] {
            answered_by(measure, rule).join(5, [100, 101], bit);
            let mut claim = answered_by(measure, rule);
            let join = std::panic::AssertUnwindSafe(|| claim.join(5, [100, 101], 1 - bit));
            assert!(std::panic::catch_unwind(join).is_err());
        }
    }

    #[test]
    fn of_what_was_forged_nothing_is_claimed() {
        let mut claim = answered(-14);
        claim.join(5, [100, 102], 0);
        assert!(claim.forged.contains(&5));
        let mut claim = answered(-14);
        for at in [0, 1] {
            claim.load(at, 6);
        }
        claim.mask(0, 6, vec![1], vec![1]);
        claim.take(1, 6, &[2], 3);
        assert!(claim.forged.contains(&6) && !claim.forged.contains(&5));
    }

    #[test]
    #[should_panic(expected = "5 again")]
    fn no_number_is_used_twice() {
        answered(0).deal(5, Measure::Scalar, Threshold(0));
    }

    #[test]
    #[should_panic(expected = "load of 5")]
    fn no_number_is_loaded_twice() {
        answered(0).load(1, 5);
    }

    /// A box with one set open and another one waiting.
    fn ahead() -> Claim {
        let mut claim = answered(0);
        claim.load(0, 6);
        claim.load(0, 8);
        claim
    }

    #[test]
    fn the_waiting_set_opens_when_the_open_one_ends() {
        let mut claim = ahead();
        claim.mask(0, 6, vec![1], vec![1]);
        claim.close(0);
        claim.mask(0, 8, vec![1], vec![1]);
        claim.close(0);
        assert!(claim.boxes[0].held.is_empty());
    }

    #[test]
    #[should_panic(expected = "8, not Some(6)")]
    fn nothing_is_sent_for_the_waiting_set() {
        ahead().mask(0, 8, vec![1], vec![1]);
    }

    #[test]
    #[should_panic(expected = "load of 9")]
    fn no_third_set_is_held() {
        ahead().load(0, 9);
    }
}
