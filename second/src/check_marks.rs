//! The cases of the program `test_checks` on 02, "Between two marks": measures on both sides
//! of both marks, for every r where something turns over, and marks at the ends of their
//! ranges. What the lock says stands here and is not asked of this implementation.

use crate::cases::Cases;
use crate::check_cases::{checks_of_01, Vectors, EDGES};
use crate::checks::vector;
use crate::measure::{Measure, MAX_LENGTH};
use crate::rule::Rule::{self, Between, Threshold};

/// How far P and Q are from the measure, and whether it lies between them. With r = 0 and
/// r = 2^32 - 1 the gates of 30.24 in docs/SPEC.md are among them.
const NEAR: [(i32, i32, bool); 9] = [
    // The measure is P - 1, P, Q and Q + 1.
    (1, 6, false),
    (0, 5, true),
    (-5, 0, true),
    (-6, -1, false),
    // And the same where P = Q, and where they are neighbours.
    (1, 1, false),
    (0, 0, true),
    (-1, -1, false),
    (0, 1, true),
    (-1, 0, true),
];

const ALL_VECTORS: [Vectors; 5] = [
    Vectors::Generated,
    Vectors::Equal,
    Vectors::LowAndHigh,
    Vectors::BothLow,
    Vectors::BothHigh,
];

/// 30.23 in docs/SPEC.md, of the vectors of 01 that both measures have: the marks, and whether
/// the measure, 82 and -14, lies between them.
const WORKED: [(Measure, i32, i32, bool); 7] = [
    (Measure::Euclid, 82, 82, true),
    (Measure::Euclid, 83, 84, false),
    (Measure::Euclid, 80, 81, false),
    (Measure::Scalar, -14, -13, true),
    (Measure::Scalar, -15, -14, true),
    (Measure::Scalar, -15, -13, true),
    (Measure::Scalar, -16, -15, false),
];

/// The same for Hamming of equal vectors.
const WORKED_OF_EQUALS: [(i32, i32, bool); 2] = [(1, 513, false), (0, 0, true)];

/// The longest vectors of the sweep.
const MAX_SWEPT: usize = 9;

/// The measure of two vector fields.
fn value_of(measure: Measure, [x, y]: [&str; 2]) -> i32 {
    let [x, y] = [x, y].map(|field| vector(field).expect("a vector field"));
    measure.of(&x, &y) as i32
}

/// Marks at the ends of the measure's range, the widest that 13 lets through among them.
fn marks_at_the_ends(measure: Measure) -> Vec<(i32, i32)> {
    let (lowest, highest) = measure.thresholds().into_inner();
    let mut marks = vec![
        (lowest, lowest),
        (lowest, lowest + 1),
        (lowest, highest - 1),
        (lowest + 1, highest),
        (highest - 1, highest),
        (highest, highest),
    ];
    if measure != Measure::Scalar {
        marks.push((lowest, highest));
    }
    marks
}

impl Cases {
    /// Two vectors with marks near their measure, as far as these may be dealt.
    fn near_marks(&mut self, r: Option<u32>, measure: Measure, vectors: [&str; 2]) {
        let value = value_of(measure, vectors);
        for (p, q, met) in NEAR {
            let rule = Between(value + p, value + q);
            if rule.is_in_range(measure) {
                self.check_at(r, measure, rule, vectors, met);
            }
        }
    }

    /// Vectors of every kind with marks at the ends of the range.
    fn marks_at_ends(&mut self, measure: Measure, length: usize) {
        for vectors in ALL_VECTORS {
            let [x, y] = self.vectors(vectors, measure, length);
            let value = value_of(measure, [&x, &y]);
            for (p, q) in marks_at_the_ends(measure) {
                let met = p <= value && value <= q;
                self.check_at(None, measure, Between(p, q), [&x, &y], met);
            }
        }
    }

    /// A copied template, whose distance is 0: P = 1 turns it away, a threshold does not.
    fn copied_templates(&mut self) {
        for measure in [Measure::Euclid, Measure::Hamming] {
            for length in [1, 40, MAX_LENGTH] {
                let [x, y] = self.vectors(Vectors::Equal, measure, length);
                for (rule, met) in [
                    (Between(1, 513), false),
                    (Between(1, 1), false),
                    (Between(0, 0), true),
                    (Between(0, 513), true),
                    (Threshold(0), true),
                    (Threshold(1), true),
                ] {
                    self.check_at(None, measure, rule, [&x, &y], met);
                }
            }
        }
    }

    /// A rule without a pattern, of the one kind or the other, near a value.
    fn any_rule(&mut self, measure: Measure, value: i32, between: bool) -> Rule {
        let range = measure.thresholds();
        let mut near = |spread: u32| {
            let apart = (self.number() >> 8) % (2 * spread + 1);
            let number = i64::from(value) + i64::from(apart) - i64::from(spread);
            number.clamp((*range.start()).into(), (*range.end()).into()) as i32
        };
        let (one, other) = (near(4), near(1 + value.unsigned_abs() / 2));
        match between {
            true => Between(one.min(other), one.max(other)),
            false => Threshold(one),
        }
    }

    /// Short vectors and rules without a pattern.
    fn sweep(&mut self) {
        for length in 1..=MAX_SWEPT {
            for measure in Measure::ALL {
                for turn in 0..4 {
                    let [x, y] = self.vectors(Vectors::Generated, measure, length);
                    let value = value_of(measure, [&x, &y]);
                    let rule = self.any_rule(measure, value, turn > 0);
                    let met = match (rule, measure) {
                        (Threshold(t), Measure::Scalar) => value >= t,
                        (Threshold(t), _) => value <= t,
                        (Between(p, q), _) => p <= value && value <= q,
                    };
                    self.check_at(None, measure, rule, [&x, &y], met);
                }
            }
        }
    }

    /// The worked cases, with the vectors of 01.
    fn worked_cases(&mut self) {
        let [(_, _, x, y), _, (_, _, bits, _), _] = checks_of_01();
        for (measure, p, q, met) in WORKED {
            self.check_at(None, measure, Between(p, q), [x, y], met);
        }
        for (p, q, met) in WORKED_OF_EQUALS {
            self.check_at(None, Measure::Hamming, Between(p, q), [bits, bits], met);
        }
    }

    /// All of it.
    pub fn checks_between_marks(&mut self) {
        for measure in Measure::ALL {
            for r in EDGES {
                let [x, y] = self.vectors(Vectors::Generated, measure, 40);
                self.near_marks(Some(r), measure, [&x, &y]);
            }
        }
        for (measure, _, x, y) in checks_of_01() {
            self.near_marks(None, measure, [x, y]);
        }
        for measure in Measure::ALL {
            for length in [1, MAX_LENGTH] {
                self.marks_at_ends(measure, length);
            }
        }
        self.copied_templates();
        self.sweep();
        self.worked_cases();
    }
}

#[cfg(test)]
mod tests {
    use super::*;
    use crate::check_cases::cases;
    use std::collections::HashSet;

    /// Code, marks, r, measure and what the lock says of every check between marks.
    fn checks_between() -> Vec<(u32, [i32; 2], u32, i32, bool)> {
        let cases = cases();
        let runs = cases.iter().filter(|case| case.line.starts_with("run "));
        let checks = runs.filter_map(|case| {
            let fields: Vec<&str> = case.line.split(' ').collect();
            let Some(Between(p, q)) = Rule::parse(fields[2]) else {
                return None;
            };
            let [code, r] = [1, 7].map(|place: usize| fields[place].parse().unwrap());
            let measure = Measure::from_code(code).unwrap();
            let value = value_of(measure, [fields[3], fields[4]]);
            Some((code, [p, q], r, value, case.expected.ends_with(" 1")))
        });
        checks.collect()
    }

    /// Each code meets its measure at P - 1, P, Q and Q + 1, and with P = Q on both sides, at
    /// every edge of r; and each bit is that of 02.
    #[test]
    fn every_side_of_both_marks_is_there() {
        let mut found = HashSet::new();
        for (code, [p, q], r, value, met) in checks_between() {
            assert_eq!(met, p <= value && value <= q);
            let sides = [
                value == p - 1,
                value == p,
                value == q,
                value == q.wrapping_add(1),
            ];
            for side in (0..4).filter(|side| sides[*side]) {
                found.insert((code, r, side, p == q));
            }
        }
        for code in 0..3 {
            for r in EDGES {
                for side in 0..4 {
                    assert!(found.contains(&(code, r, side, false)), "{code} {r} {side}");
                    assert!(found.contains(&(code, r, side, true)), "{code} {r} {side}");
                }
            }
        }
    }

    /// The widest marks, those at the ends, and a distance of 0 with P = 0 and P = 1.
    #[test]
    fn the_ends_of_the_marks_are_there() {
        let found: HashSet<(u32, [i32; 2], bool)> = checks_between()
            .into_iter()
            .map(|(code, marks, _, _, met)| (code, marks, met))
            .collect();
        let (lowest, highest) = (-(1 << 30), 1 << 30);
        for marks in [[lowest, highest - 1], [lowest + 1, highest]] {
            assert!(found.contains(&(0, marks, true)));
        }
        for (code, highest) in [(1, i32::MAX), (2, 513)] {
            assert!(found.contains(&(code, [0, highest], true)));
            assert!(found.contains(&(code, [highest, highest], false)));
            assert!(found.contains(&(code, [1, highest], true)));
            assert!(found.contains(&(code, [1, highest], false)));
            assert!(found.contains(&(code, [1, 513], false)));
            assert!(found.contains(&(code, [0, 0], true)));
        }
        let largest = checks_between().into_iter();
        let largest =
            largest.filter(|(code, _, _, value, _)| (*code, *value) == (1, 2_145_387_008));
        let bits: HashSet<bool> = largest.map(|(.., met)| met).collect();
        assert_eq!(bits.len(), 2);
    }
}
