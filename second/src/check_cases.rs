//! The cases of the program `test_checks`: keys, values and whole checks at the edges
//! of every range and at inputs without a pattern. Checks between two marks are in
//! `check_marks`, tables of the day in `check_tables`, own terms in `check_own`.

use crate::cases::Cases;
use crate::checks::{edges, run, vector};
use crate::dcf::LEVELS;
use crate::field;
use crate::measure::{Measure, MAX_LENGTH};
use crate::rule::Rule;
use crate::script::Case;

/// Points, and values of r, where something wraps or turns over.
pub const EDGES: [u32; 5] = [0, 1, (1 << 31) - 1, 1 << 31, u32::MAX];

const LENGTHS: [usize; 5] = [1, 2, 128, MAX_LENGTH - 1, MAX_LENGTH];

const ZERO_SEED: &str = "0000000000000000000000000000000000000000000000000000000000000000";
const FULL_SEED: &str = "ffffffffffffffffffffffffffffffffffffffffffffffffffffffffffffffff";

/// The vectors of a check.
#[derive(Clone, Copy)]
pub enum Vectors {
    Generated,
    Equal,
    LowAndHigh,
    BothLow,
    BothHigh,
}

/// A threshold, by where it lies.
#[derive(Clone, Copy)]
enum Threshold {
    Measure,
    OneAbove,
    OneBelow,
    Lowest,
    Highest,
}

/// Which thresholds each pair of vectors is checked with: those of the first lie on both
/// sides of where the answer turns for the scalar product.
const CHECKS: [(Vectors, [Threshold; 2]); 4] = [
    (
        Vectors::Generated,
        [Threshold::Measure, Threshold::OneAbove],
    ),
    (
        Vectors::LowAndHigh,
        [Threshold::Measure, Threshold::OneAbove],
    ),
    (Vectors::BothLow, [Threshold::OneBelow, Threshold::Lowest]),
    (Vectors::BothHigh, [Threshold::Measure, Threshold::Highest]),
];

/// The same for distances, whose answer turns below the measure, and the ends of their
/// thresholds on both sides of it.
const MORE_CHECKS: [(Vectors, [Threshold; 3]); 3] = [
    (
        Vectors::Generated,
        [Threshold::OneBelow, Threshold::Lowest, Threshold::Highest],
    ),
    (
        Vectors::LowAndHigh,
        [Threshold::OneBelow, Threshold::Lowest, Threshold::Highest],
    ),
    (
        Vectors::Equal,
        [Threshold::Measure, Threshold::OneAbove, Threshold::Highest],
    ),
];

impl Threshold {
    /// As a number, if it is one that the measure allows.
    fn of(self, measure: Measure, x: &str, y: &str) -> Option<i32> {
        let [x, y] = [x, y].map(|field| vector(field).expect("a vector field"));
        let value = measure.of(&x, &y) as i32;
        let (lowest, highest) = measure.thresholds().into_inner();
        let threshold = match self {
            Threshold::Measure => value,
            Threshold::OneAbove => value + 1,
            Threshold::OneBelow => value - 1,
            Threshold::Lowest => lowest,
            Threshold::Highest => highest,
        };
        measure
            .thresholds()
            .contains(&threshold)
            .then_some(threshold)
    }

    /// Whether the measure of such vectors reaches it: 02, "Distances mean close". None is
    /// as high as its highest threshold, and at its lowest is only the distance of equals.
    fn reached(self, measure: Measure, equal: bool) -> bool {
        let distance = measure.is_distance();
        match self {
            Threshold::Measure => true,
            Threshold::OneAbove | Threshold::Highest => distance,
            Threshold::OneBelow => !distance,
            Threshold::Lowest => !distance || equal,
        }
    }
}

/// The lines of 01, "The proved cases", that are whole checks: the measure's value, and the
/// fields of the vectors.
pub fn checks_of_01() -> [(Measure, i32, &'static str, &'static str); 4] {
    let (x, y) = ("03000000fcffffff", "0200000005000000");
    let (bits, others) = (
        "01000000000000000100000001000000",
        "01000000010000000000000001000000",
    );
    let (low, high) = ("~512:1:4294966272:0", "~512:1:1023:0");
    [
        (Measure::Scalar, -14, x, y),
        (Measure::Euclid, 82, x, y),
        (Measure::Hamming, 2, bits, others),
        (Measure::Euclid, 2_145_387_008, low, high),
    ]
}

impl Cases {
    /// A word without a pattern.
    pub fn number(&mut self) -> u32 {
        let bytes = field::generate(4, self.seed());
        u32::from_le_bytes(bytes.try_into().expect("four bytes"))
    }

    /// The points: every edge and some more.
    fn points(&mut self) -> Vec<u32> {
        let more = [self.number(), self.number()];
        [&EDGES[..], &more].concat()
    }

    /// The key for a point, and both values at every input worth a look.
    fn key_and_values(&mut self, seed0: &str, seed1: &str, point: u32) {
        self.add(format!("key {seed0} {seed1} {point}"));
        let elsewhere = self.number();
        for u in edges(point).into_iter().chain([elsewhere]) {
            for party in [0, 1] {
                self.add(format!("value {party} {seed0} {seed1} {point} {u}"));
            }
        }
    }

    /// A key, and both values at the inputs that leave its point's path at each of the levels.
    fn every_level(&mut self, point: u32) {
        let (seed0, seed1) = (self.bytes(32), self.bytes(32));
        self.add(format!("key {seed0} {seed1} {point}"));
        for level in 1..=LEVELS {
            let u = point ^ 1 << (LEVELS - level);
            for party in [0, 1] {
                self.add(format!("value {party} {seed0} {seed1} {point} {u}"));
            }
        }
    }

    /// Keys under seeds of zeros and ones, and under one seed for both parties.
    fn odd_seeds(&mut self) {
        let seed = self.bytes(32);
        for (seed0, seed1, point) in [
            (ZERO_SEED, ZERO_SEED, 0),
            (FULL_SEED, FULL_SEED, u32::MAX),
            (ZERO_SEED, FULL_SEED, 0x5555_5555),
            (FULL_SEED, ZERO_SEED, 0xaaaa_aaaa),
            (&seed, &seed, 1 << 31),
        ] {
            self.add(format!("key {seed0} {seed1} {point}"));
            for party in [0, 1] {
                self.add(format!("value {party} {seed0} {seed1} {point} {point}"));
            }
        }
    }

    /// The fields of X and Y.
    pub fn vectors(&mut self, vectors: Vectors, measure: Measure, length: usize) -> [String; 2] {
        let (low, high) = measure.elements().into_inner();
        let mask = high - low;
        let all = |element: i32| format!("~{length}:0:{}:0", element as u32);
        let mut some = || format!("~{length}:{}:{}:{mask}", self.seed(), low as u32);
        match vectors {
            Vectors::Generated => [some(), some()],
            Vectors::Equal => {
                let both = some();
                [both.clone(), both]
            }
            Vectors::LowAndHigh => [all(low), all(high)],
            Vectors::BothLow => [all(low), all(low)],
            Vectors::BothHigh => [all(high), all(high)],
        }
    }

    /// The six fields after the vectors. Masks, c0 and r0 go through their kinds in turns of
    /// 3, 5 and 4, and r, where it is not given, in turns of 7, so that each meets each.
    fn draws(&mut self, length: usize, r: Option<u32>) -> String {
        let turn = self.list.len();
        let masks = match turn % 3 {
            0 => format!("~{}:0:0:0", 4 * length),
            1 => format!("~{}:0:4294967295:0", 4 * length),
            _ => self.bytes(16 * length),
        };
        let r = r.unwrap_or_else(|| self.points()[turn % 7]);
        let c0 = [0, u32::MAX].get(turn % 5).copied();
        let c0 = c0.unwrap_or_else(|| self.number());
        let r0 = [0, u32::MAX].get(turn % 4).copied();
        let r0 = r0.unwrap_or_else(|| self.number());
        let (seed0, seed1) = (self.bytes(32), self.bytes(32));
        format!("{masks} {c0} {r} {r0} {seed0} {seed1}")
    }

    /// A check, which must end in `met`.
    fn check(&mut self, measure: Measure, threshold: i32, x: &str, y: &str, met: bool) {
        self.check_at(None, measure, Rule::Threshold(threshold), [x, y], met);
    }

    /// The same for any rule, with this r or one that comes in turn.
    pub fn check_at(
        &mut self,
        r: Option<u32>,
        measure: Measure,
        rule: Rule,
        [x, y]: [&str; 2],
        met: bool,
    ) {
        let length = vector(x).expect("a vector field").len();
        let draws = self.draws(length, r);
        self.add(format!("run {} {rule} {x} {y} {draws}", measure.code()));
        let end = format!(" {}", u32::from(met));
        let case = self.list.last().expect("the case just added");
        assert!(case.expected.ends_with(&end), "{}", case.line);
    }

    /// One pair of vectors with some thresholds, those that are allowed.
    fn checks(
        &mut self,
        measure: Measure,
        length: usize,
        vectors: Vectors,
        thresholds: &[Threshold],
    ) {
        let [x, y] = self.vectors(vectors, measure, length);
        for threshold in thresholds {
            if let Some(number) = threshold.of(measure, &x, &y) {
                let reached = threshold.reached(measure, vector(&x) == vector(&y));
                self.check(measure, number, &x, &y, reached);
            }
        }
    }

    /// The lines of 01, each at its value and one above.
    fn proved_cases(&mut self) {
        for (measure, value, x, y) in checks_of_01() {
            self.check(measure, value, x, y, true);
            self.check(measure, value + 1, x, y, measure.is_distance());
        }
        // Element -4 under the mask 4294967295, 3 under 4294967294.
        let masks = "ffffffff00000000ffffffffffffffff";
        let seeds = [self.bytes(32), self.bytes(32)].join(" ");
        self.add(format!("run 0 0 fcffffff 03000000 {masks} 5 6 7 {seeds}"));
        let case = self.list.last().expect("the case just added");
        assert!(case.expected.starts_with("4294967291 4294967291 1 1 "));
    }

    /// Where the answer of distances turns: 02, "Distances mean close". The lines of 01 come
    /// one below their value too.
    fn distances(&mut self) {
        for length in LENGTHS {
            for measure in [Measure::Euclid, Measure::Hamming] {
                for (vectors, thresholds) in MORE_CHECKS {
                    self.checks(measure, length, vectors, &thresholds);
                }
            }
        }
        for (measure, value, x, y) in checks_of_01() {
            self.check(measure, value - 1, x, y, !measure.is_distance());
        }
    }
}

/// Every case of the program `test_checks`, the same ones at each call.
pub fn cases() -> Vec<Case> {
    let mut cases = Cases::new(run);
    for point in cases.points() {
        let (seed0, seed1) = (cases.bytes(32), cases.bytes(32));
        cases.key_and_values(&seed0, &seed1, point);
    }
    cases.odd_seeds();
    cases.proved_cases();
    for length in LENGTHS {
        for measure in Measure::ALL {
            for (vectors, thresholds) in CHECKS {
                cases.checks(measure, length, vectors, &thresholds);
            }
        }
    }
    cases.distances();
    for point in [0, u32::MAX, cases.number(), cases.number()] {
        cases.every_level(point);
    }
    cases.checks_between_marks();
    cases.tables_of_the_day();
    cases.own_terms();
    cases.list
}

#[cfg(test)]
mod tests {
    use super::*;
    use crate::script::{assert_right_short_and_not_repeated, MAX_STDIN};
    use std::collections::{HashMap, HashSet};

    #[test]
    fn cases_are_right_short_and_not_repeated() {
        let cases = cases();
        assert_right_short_and_not_repeated(&cases, run);
        let size: usize = cases.iter().map(|case| case.line.len() + 1).sum();
        assert!(size <= MAX_STDIN);
    }

    /// Every code meets every edge of r with both answers, and every length both answers.
    #[test]
    fn checks_cover_what_they_should() {
        let cases = cases();
        let (mut code_and_answer, mut length_and_answer) = (HashSet::new(), HashSet::new());
        for case in cases.iter().filter(|case| case.line.starts_with("run ")) {
            let fields: Vec<&str> = case.line.split(' ').collect();
            let length = vector(fields[3]).unwrap().len();
            let reached = case.expected.ends_with(" 1");
            code_and_answer.insert((fields[1], fields[7], reached));
            length_and_answer.insert((length, reached));
        }
        for r in EDGES.map(|r| r.to_string()) {
            for code in ["0", "1", "2"] {
                assert!(code_and_answer.contains(&(code, &r, false)), "{code} {r}");
                assert!(code_and_answer.contains(&(code, &r, true)), "{code} {r}");
            }
        }
        for length in LENGTHS {
            assert!(length_and_answer.contains(&(length, false)));
            assert!(length_and_answer.contains(&(length, true)));
        }
    }

    /// Four keys, one for each end of the points and two without a pattern, are asked by both
    /// parties at inputs that leave the point's path at every level.
    #[test]
    fn every_level_is_left() {
        let mut left: HashMap<String, HashSet<u32>> = HashMap::new();
        for case in cases()
            .iter()
            .filter(|case| case.line.starts_with("value "))
        {
            let (key, u) = case.line.rsplit_once(' ').unwrap();
            let (_, point) = key.rsplit_once(' ').unwrap();
            let [point, u] = [point, u].map(|field| field.parse::<u32>().unwrap());
            let levels = left.entry(key.to_string()).or_default();
            levels.insert((point ^ u).leading_zeros() + 1);
        }
        let all: HashSet<u32> = (1..=LEVELS as u32).collect();
        let whole = left.values().filter(|levels| all.is_subset(levels));
        assert_eq!(whole.count(), 4 * 2);
    }

    /// Each code meets thresholds on both sides of the measure and at both ends, and each
    /// answer is that of 02: 1 at ≥ T for the scalar product, at ≤ T for distances.
    #[test]
    fn thresholds_lie_on_both_sides() {
        let (mut places, mut values) = (HashSet::new(), HashSet::new());
        for case in cases().iter().filter(|case| case.line.starts_with("run ")) {
            let fields: Vec<&str> = case.line.split(' ').collect();
            let code = fields[1].parse::<u32>().unwrap();
            let Some(Rule::Threshold(t)) = Rule::parse(fields[2]) else {
                continue;
            };
            let measure = Measure::from_code(code).unwrap();
            let (x, y) = (vector(fields[3]).unwrap(), vector(fields[4]).unwrap());
            let value = measure.of(&x, &y) as i32;
            let reached = if code == 0 { value >= t } else { value <= t };
            assert_eq!(case.expected.ends_with(" 1"), reached, "{}", case.line);
            values.insert((code, value, t));
            let (lowest, highest) = measure.thresholds().into_inner();
            let near = [value - 1, value, value + 1, lowest, highest];
            let there = (0..5).filter(|place| near[*place] == t);
            places.extend(there.map(|place| (code, place)));
        }
        assert_eq!(places.len(), 3 * 5);
        for t in [2_145_387_007, 2_145_387_008, 2_145_387_009] {
            assert!(values.contains(&(1, 2_145_387_008, t)), "{t}");
        }
        for (value, t) in [(0, 0), (0, 513), (512, 511), (512, 512), (512, 513)] {
            assert!(values.contains(&(2, value, t)), "{value} {t}");
        }
    }
}
