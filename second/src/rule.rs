//! What a set is dealt for: a threshold, or two marks (02, "Between two marks"). A half
//! carries a width and a mark of it; threshold or lower mark, the offset, is in r1 alone.

use crate::field::decimal;
use crate::measure::Measure;
use std::fmt::{self, Display, Formatter};

/// The mark of a set that is dealt for a threshold, and that of one between two marks.
pub const ORDINARY: u32 = 0;
pub const MARKED: u32 = 1;

/// The width of an ordinary set, and the greatest of any.
pub const MAX_WIDTH: u32 = (1 << 31) - 1;

#[derive(Clone, Copy, Debug, PartialEq, Eq)]
pub enum Rule {
    /// T, which the measure is to reach.
    Threshold(i32),
    /// P and Q, from which to which the measure is to lie.
    Between(i32, i32),
}

impl Rule {
    /// Whether the measure allows each of its numbers as a threshold (refusal 8).
    pub fn is_in_range(self, measure: Measure) -> bool {
        let range = measure.thresholds();
        match self {
            Rule::Threshold(t) => range.contains(&t),
            Rule::Between(p, q) => range.contains(&p) && range.contains(&q),
        }
    }

    /// The width of its sets. Marks that refusal 13 turns down have none: Q below P, or too
    /// far above it.
    pub fn width(self) -> Option<u32> {
        match self {
            Rule::Threshold(_) => Some(MAX_WIDTH),
            Rule::Between(p, q) => {
                let width = u32::try_from(i64::from(q) - i64::from(p)).ok();
                width.filter(|width| *width <= MAX_WIDTH)
            }
        }
    }

    /// The mark of its sets.
    pub fn mark(self) -> u32 {
        match self {
            Rule::Threshold(_) => ORDINARY,
            Rule::Between(..) => MARKED,
        }
    }

    /// T or P: what is taken from the measure in the sum that opens.
    pub fn offset(self) -> i32 {
        match self {
            Rule::Threshold(t) => t,
            Rule::Between(p, _) => p,
        }
    }

    /// The rule of a script's field: `T` or `P:Q`, negative numbers plus 2^32.
    pub fn parse(field: &str) -> Option<Rule> {
        let number = |text: &str| decimal::<u32>(text).map(|word| word as i32);
        match field.split_once(':') {
            Some((p, q)) => Some(Rule::Between(number(p)?, number(q)?)),
            None => number(field).map(Rule::Threshold),
        }
    }
}

impl From<i32> for Rule {
    /// A number alone is a threshold.
    fn from(t: i32) -> Rule {
        Rule::Threshold(t)
    }
}

impl Display for Rule {
    /// As a field of a script.
    fn fmt(&self, f: &mut Formatter) -> fmt::Result {
        match *self {
            Rule::Threshold(t) => write!(f, "{}", t as u32),
            Rule::Between(p, q) => write!(f, "{}:{}", p as u32, q as u32),
        }
    }
}

/// Whether a half may carry this width under this mark (refusal 11).
pub fn is_carried(width: u32, mark: u32) -> bool {
    match mark {
        ORDINARY => width == MAX_WIDTH,
        MARKED => width <= MAX_WIDTH,
        _ => false,
    }
}

#[cfg(test)]
mod tests {
    use super::Rule::{Between, Threshold};
    use super::*;

    /// The two cases of 13, on both sides of each; a threshold is never one of them.
    #[test]
    fn widths() {
        let (lowest, highest) = (-(1 << 30), 1 << 30);
        for (rule, width) in [
            (Between(7, 7), Some(0)),
            (Between(7, 8), Some(1)),
            (Between(7, 6), None),
            (Between(-7, -8), None),
            (Between(lowest, highest - 1), Some(MAX_WIDTH)),
            (Between(lowest + 1, highest), Some(MAX_WIDTH)),
            (Between(lowest, highest), None),
            (Between(highest, lowest), None),
            (Between(0, i32::MAX), Some(MAX_WIDTH)),
            (Between(i32::MAX, 0), None),
            (Threshold(lowest), Some(MAX_WIDTH)),
            (Threshold(i32::MAX), Some(MAX_WIDTH)),
        ] {
            assert_eq!(rule.width(), width, "{rule}");
        }
    }

    /// Q - P is above 2^31 - 1 for one pair of marks in range only, under code 0.
    #[test]
    fn marks_are_too_far_apart_once() {
        for measure in Measure::ALL {
            let (lowest, highest) = measure.thresholds().into_inner();
            let widest = Between(lowest, highest).width();
            assert_eq!(widest.is_none(), measure == Measure::Scalar);
            assert!(Between(lowest + 1, highest).width().is_some());
            assert!(Between(lowest, highest - 1).width().is_some());
        }
    }

    /// Either mark out of range is enough, on either side.
    #[test]
    fn ranges() {
        for measure in Measure::ALL {
            let (lowest, highest) = measure.thresholds().into_inner();
            let (low, high) = (lowest.wrapping_sub(1), highest.wrapping_add(1));
            for fine in [lowest, highest] {
                assert!(Threshold(fine).is_in_range(measure));
                assert!(Between(fine, highest).is_in_range(measure));
                assert!(Between(fine, lowest).is_in_range(measure));
                for out in [low, high] {
                    assert!(!Threshold(out).is_in_range(measure));
                    assert!(!Between(out, fine).is_in_range(measure));
                    assert!(!Between(fine, out).is_in_range(measure));
                    assert!(!Between(out, out).is_in_range(measure));
                }
            }
        }
    }

    #[test]
    fn what_a_half_may_carry() {
        let most = MAX_WIDTH;
        for (width, marks) in [
            (0, [false, true]),
            (1_000_000, [false, true]),
            (most - 1, [false, true]),
            (most, [true, true]),
            (most + 1, [false, false]),
            (u32::MAX, [false, false]),
        ] {
            assert_eq!([0, 1].map(|mark| is_carried(width, mark)), marks, "{width}");
            assert!(!is_carried(width, 2) && !is_carried(width, 255));
        }
    }

    #[test]
    fn fields() {
        for (field, rule) in [
            ("5", Threshold(5)),
            ("4294967295", Threshold(-1)),
            ("3221225472:1073741823", Between(-(1 << 30), (1 << 30) - 1)),
            ("9:4294967295", Between(9, -1)),
        ] {
            assert_eq!(Rule::parse(field), Some(rule));
            assert_eq!(rule.to_string(), field);
        }
        for bad in [
            "",
            ":",
            "1:",
            ":1",
            "1:2:3",
            "-1",
            "+1:2",
            "1: 2",
            "4294967296",
        ] {
            assert_eq!(Rule::parse(bad), None, "{bad}");
        }
        assert_eq!(Rule::parse("1:4294967296"), None);
    }
}
