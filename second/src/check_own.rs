//! The cases of the program `test_checks` on a vector's own term: 02, "Squares worked out".
//! Its words may be any here, also ones that no measure takes.

use crate::cases::Cases;
use crate::field;
use crate::measure::{Measure, MAX_LENGTH};

/// Numbers where a square turns over: the ends of the elements' ranges, the roots of 2^31 and
/// of 2^32, the ends of the numbers that a word stands for, and the neighbours of all of these.
const EDGES: [i32; 26] = [
    0,
    1,
    2,
    1022,
    1023,
    1024,
    1025,
    46_340,
    46_341,
    65_535,
    65_536,
    65_537,
    i32::MAX - 1,
    i32::MAX,
    i32::MIN,
    i32::MIN + 1,
    -65_537,
    -65_536,
    -65_535,
    -46_341,
    -46_340,
    -1025,
    -1024,
    -1023,
    -2,
    -1,
];

/// Every length up to this has a case: a loop over several elements at once leaves each rest.
const SHORT: usize = 66;

/// How many of all elements a line has: as hex no more than half a line.
const IN_A_LINE: usize = 256;

/// The bytes of a word.
const WORD: usize = 4;

/// A field of these elements.
fn field_of(elements: &[i32]) -> String {
    let bytes: Vec<u8> = elements.iter().flat_map(|x| x.to_le_bytes()).collect();
    field::format(&bytes)
}

impl Cases {
    fn own(&mut self, measure: Measure, vector: &str) {
        self.add(format!("own {} {vector}", measure.code()));
    }

    pub fn own_terms(&mut self) {
        for measure in Measure::ALL {
            for number in EDGES {
                self.own(measure, &field_of(&[number]));
            }
            self.own(measure, &field_of(&EDGES));
        }
        let all: Vec<i32> = Measure::Euclid.elements().collect();
        for elements in all.chunks(IN_A_LINE) {
            self.own(Measure::Euclid, &field_of(elements));
        }
        for length in (1..=SHORT).chain([MAX_LENGTH - 1, MAX_LENGTH]) {
            let vector = self.bytes(WORD * length);
            self.own(Measure::Euclid, &vector);
        }
    }
}

#[cfg(test)]
mod tests {
    use super::field_of;
    use crate::check_cases::cases;
    use std::collections::HashMap;

    /// The answer to each line.
    fn answers() -> HashMap<String, String> {
        let cases = cases().into_iter();
        cases.map(|case| (case.line, case.expected)).collect()
    }

    /// Squares modulo 2^32, worked out by hand. The sign does not count.
    #[test]
    fn squares_at_the_edges() {
        let answers = answers();
        for (number, square) in [
            (0_i32, "0"),
            (-1, "1"),
            (-2, "4"),
            (1023, "1046529"),
            (-1024, "1048576"),
            (1025, "1050625"),
            (46_340, "2147395600"),
            (-46_341, "2147488281"),
            (65_535, "4294836225"),
            (-65_536, "0"),
            (65_537, "131073"),
            (i32::MAX, "1"),
            (i32::MAX - 1, "4"),
            (i32::MIN, "0"),
        ] {
            let own = |code| &answers[&format!("own {code} {}", field_of(&[number]))];
            assert_eq!([own(0), own(1), own(2)], ["0", square, square], "{number}");
        }
    }

    /// Every element that squared Euclid takes is in a line. The squares of 1 to n sum to
    /// n (n + 1) (2 n + 1) / 6.
    #[test]
    fn every_element_is_squared() {
        let answers = answers();
        let squares = |n: i64| n * (n + 1) * (2 * n + 1) / 6;
        let sum = |first: i64, last: i64| match last < 0 {
            true => squares(-first) - squares(-last - 1),
            false => squares(last) - squares(first - 1),
        };
        for first in (-1024..1024).step_by(256) {
            let last = first + 255;
            let elements: Vec<i32> = (first..=last).collect();
            let own = &answers[&format!("own 1 {}", field_of(&elements))];
            assert_eq!(*own, sum(first.into(), last.into()).to_string());
        }
    }
}
