//! The three measures: 01, "Measures", and 02, "Distances mean close" and "Between two
//! marks". Sums are taken over whole numbers here; that the words of a check agree with
//! them is what the tests look at.

use crate::rule::{Rule, ORDINARY};
use std::ops::RangeInclusive;

/// The longest vector.
pub const MAX_LENGTH: usize = 512;

#[derive(Clone, Copy, Debug, PartialEq, Eq)]
pub enum Measure {
    Scalar,
    Euclid,
    Hamming,
}

impl Measure {
    /// Each at the place of its code.
    pub const ALL: [Measure; 3] = [Measure::Scalar, Measure::Euclid, Measure::Hamming];

    pub fn from_code(code: u32) -> Option<Measure> {
        Measure::ALL.get(code as usize).copied()
    }

    pub fn code(self) -> u32 {
        self as u32
    }

    /// A party's own term.
    pub fn own(self, vector: &[i32]) -> i64 {
        match self {
            Measure::Scalar => 0,
            Measure::Euclid | Measure::Hamming => {
                vector.iter().map(|&x| i64::from(x) * i64::from(x)).sum()
            }
        }
    }

    /// The factor of the sum of products.
    pub fn k(self) -> i64 {
        match self {
            Measure::Scalar => 1,
            Measure::Euclid | Measure::Hamming => -2,
        }
    }

    /// The elements that a vector may have.
    pub fn elements(self) -> RangeInclusive<i32> {
        match self {
            Measure::Scalar | Measure::Euclid => -1024..=1023,
            Measure::Hamming => 0..=1,
        }
    }

    /// The thresholds that may be dealt, and the marks.
    pub fn thresholds(self) -> RangeInclusive<i32> {
        match self {
            Measure::Scalar => -(1 << 30)..=1 << 30,
            Measure::Euclid => 0..=i32::MAX,
            Measure::Hamming => 0..=513,
        }
    }

    /// The measure of two vectors of one length.
    pub fn of(self, x: &[i32], y: &[i32]) -> i64 {
        let products = x.iter().zip(y).map(|(&x, &y)| i64::from(x) * i64::from(y));
        self.own(x) + self.own(y) + self.k() * products.sum::<i64>()
    }

    /// Whether less of it means the same person: 02, "Distances mean close".
    pub fn is_distance(self) -> bool {
        match self {
            Measure::Scalar => false,
            Measure::Euclid | Measure::Hamming => true,
        }
    }

    /// Whether the measure of two vectors meets the rule: what the lock's 1 means. A distance
    /// reaches a threshold from above, the scalar product from below, and any measure lies
    /// between two marks. Equal is enough for all of them.
    pub fn meets(self, x: &[i32], y: &[i32], rule: Rule) -> bool {
        let value = self.of(x, y);
        match rule {
            Rule::Threshold(t) if self.is_distance() => value <= i64::from(t),
            Rule::Threshold(t) => value >= i64::from(t),
            Rule::Between(p, q) => (i64::from(p)..=i64::from(q)).contains(&value),
        }
    }

    /// The factor of measure - T or measure - P in the sum that two boxes open: what it gives
    /// lies from 0 to the set's width just where the rule is met. Between two marks it is the
    /// plain one. A state handed in may hold any mark.
    pub fn sign(self, mark: u32) -> i64 {
        match self.is_distance() && mark == ORDINARY {
            true => -1,
            false => 1,
        }
    }
}

#[cfg(test)]
mod tests {
    use super::*;
    use crate::rule::MARKED;
    use Rule::{Between, Threshold};

    /// Whether thresholds one below the measure, equal to it and one above it are reached.
    fn around(measure: Measure, x: &[i32], y: &[i32]) -> [bool; 3] {
        let value = measure.of(x, y) as i32;
        [value - 1, value, value + 1].map(|t| measure.meets(x, y, Threshold(t)))
    }

    /// The lines of 01, "The proved cases", on measures, the largest distance as 02 reads
    /// it.
    #[test]
    fn the_proved_cases() {
        let (x, y) = ([3, -4], [2, 5]);
        assert_eq!(Measure::Scalar.of(&x, &y), -14);
        assert!(Measure::Scalar.meets(&x, &y, Threshold(-14)));
        assert!(!Measure::Scalar.meets(&x, &y, Threshold(-13)));
        assert_eq!(Measure::Euclid.own(&x), 25);
        assert_eq!(Measure::Euclid.own(&y), 29);
        assert_eq!(Measure::Euclid.of(&x, &y), 82);
        let (bits, others) = ([1, 0, 1, 1], [1, 1, 0, 1]);
        assert_eq!(Measure::Hamming.of(&bits, &others), 2);
        let (low, high) = ([-1024; MAX_LENGTH], [1023; MAX_LENGTH]);
        assert_eq!(Measure::Euclid.of(&low, &high), 2_145_387_008);
        assert!(Measure::Euclid.meets(&low, &high, Threshold(2_145_387_008)));
        assert!(!Measure::Euclid.meets(&low, &high, Threshold(2_145_387_007)));
        assert_eq!(around(Measure::Scalar, &x, &y), [true, true, false]);
        assert_eq!(around(Measure::Euclid, &x, &y), [false, true, true]);
        assert_eq!(around(Measure::Euclid, &low, &high), [false, true, true]);
        assert_eq!(
            around(Measure::Hamming, &bits, &others),
            [false, true, true]
        );
    }

    /// The ends of Hamming's thresholds: at 0 equal vectors alone, at 513 all.
    #[test]
    fn the_ends_of_hamming() {
        let (zeros, ones) = ([0; MAX_LENGTH], [1; MAX_LENGTH]);
        let mut near = ones;
        near[511] = 0;
        let at = |x, y, threshold| Measure::Hamming.meets(x, y, Threshold(threshold));
        assert!(at(&ones, &ones, 0) && at(&zeros, &zeros, 0));
        assert!(!at(&ones, &near, 0) && at(&ones, &near, 1));
        assert!(!at(&zeros, &ones, 511) && at(&zeros, &ones, 512));
        assert!(at(&zeros, &ones, 513) && at(&ones, &ones, 513));
    }

    #[test]
    fn codes_are_places() {
        for code in 0..3 {
            assert_eq!(Measure::from_code(code).unwrap().code(), code);
        }
        assert_eq!(Measure::from_code(3), None);
    }

    #[test]
    fn element_1023_is_taken_and_1024_is_not() {
        for measure in [Measure::Scalar, Measure::Euclid] {
            assert!(measure.elements().contains(&1023));
            assert!(!measure.elements().contains(&1024));
            assert!(!measure.elements().contains(&-1025));
        }
    }

    /// The lowest and the highest of some numbers.
    fn ends(numbers: impl Iterator<Item = i64>) -> [i64; 2] {
        let numbers: Vec<i64> = numbers.collect();
        [
            *numbers.iter().min().unwrap(),
            *numbers.iter().max().unwrap(),
        ]
    }

    /// The lowest and the highest measure of any two vectors.
    fn ends_of_values(measure: Measure) -> [i64; 2] {
        let elements = [*measure.elements().start(), *measure.elements().end()];
        let vectors = elements.iter().flat_map(|&x| elements.map(|y| (x, y)));
        ends(vectors.map(|(x, y)| measure.of(&[x; MAX_LENGTH], &[y; MAX_LENGTH])))
    }

    /// The lowest and the highest of measure - T or measure - P, with the sign of the mark.
    fn ends_of_sums(measure: Measure, mark: u32) -> [i64; 2] {
        let offsets = [*measure.thresholds().start(), *measure.thresholds().end()];
        let sign = measure.sign(mark);
        let values = ends_of_values(measure).into_iter();
        ends(values.flat_map(|value| offsets.map(|offset| sign * (value - i64::from(offset)))))
    }

    /// They are from -2^31 to 2^31 - 1: a word tells which of them are negative.
    #[test]
    fn sums_fit_a_word() {
        for (measure, values, plain, ordinary) in [
            (
                Measure::Scalar,
                [-536_346_624, 536_870_912],
                [-1_610_088_448, 1_610_612_736],
                [-1_610_088_448, 1_610_612_736],
            ),
            (
                Measure::Euclid,
                [0, 2_145_387_008],
                [-2_147_483_647, 2_145_387_008],
                [-2_145_387_008, 2_147_483_647],
            ),
            (Measure::Hamming, [0, 512], [-513, 512], [-512, 513]),
        ] {
            assert_eq!(ends_of_values(measure), values, "{measure:?}");
            assert_eq!(ends_of_sums(measure, MARKED), plain, "{measure:?}");
            assert_eq!(ends_of_sums(measure, ORDINARY), ordinary, "{measure:?}");
            for end in [plain, ordinary].concat() {
                assert!(i32::try_from(end).is_ok(), "{end}");
            }
        }
    }

    /// The sign is the rule's: from 0 to the width means met, on every side of a threshold and
    /// of both marks, and also where the sum is taken as a word.
    #[test]
    fn the_sign_is_that_of_the_rule() {
        let (x, y) = ([1, 0, 1, 1], [1, 1, 0, 0]);
        for measure in Measure::ALL {
            let value = measure.of(&x, &y);
            let near = value as i32 - 2..=value as i32 + 2;
            let marks = near
                .clone()
                .flat_map(|p| (p..p + 3).map(move |q| Between(p, q)));
            for rule in near.map(Threshold).chain(marks) {
                let sign = measure.sign(rule.mark());
                let sum = sign * (value - i64::from(rule.offset()));
                let within = sum as u32 <= rule.width().unwrap();
                assert_eq!(measure.meets(&x, &y, rule), within, "{measure:?} {rule}");
            }
        }
    }

    /// Both marks are met by what equals them, for every code.
    #[test]
    fn both_marks_count() {
        let (x, y) = ([3, -4], [2, 5]);
        for (measure, value) in [(Measure::Scalar, -14), (Measure::Euclid, 82)] {
            for (p, q, met) in [(0, 0, true), (-1, 0, true), (0, 1, true), (-9, 9, true)] {
                let rule = Between(value + p, value + q);
                assert_eq!(measure.meets(&x, &y, rule), met, "{rule}");
            }
            assert!(!measure.meets(&x, &y, Between(value + 1, value + 9)));
            assert!(!measure.meets(&x, &y, Between(value - 9, value - 1)));
        }
    }

    /// A mark that no half carries counts as the plain sign.
    #[test]
    fn any_mark_but_0_is_plain() {
        for mark in [MARKED, 2, 255, 256, u32::MAX] {
            assert_eq!(Measure::ALL.map(|measure| measure.sign(mark)), [1; 3]);
        }
        assert_eq!(
            Measure::ALL.map(|measure| measure.sign(ORDINARY)),
            [1, -1, -1]
        );
    }
}
