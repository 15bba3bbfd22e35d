//! The cases of the program `test_halves`: halves of every code at the edges of every
//! range, and halves with something wrong in them. What is refused, and by which
//! number, stands here and is not asked of this implementation. Those of 02, "Between two
//! marks", are in `half_marks`.

use crate::cases::Cases;
use crate::content::{self, TEXT_BYTES};
use crate::field;
use crate::halves::run;
use crate::measure::{Measure, MAX_LENGTH};
use crate::rule::Rule;
use crate::script::Case;
use crate::sealed::BLOCK_BYTES;
use std::collections::HashSet;
use std::fmt::{self, Display, Formatter};
use std::ops::Range;

/// Where the count of blocks changes, and other edges.
pub const MAIN_LENGTHS: [usize; 5] = [1, 17, 18, 138, MAX_LENGTH];
const MORE_LENGTHS: [usize; 12] = [2, 97, 98, 128, 218, 219, 255, 256, 340, 461, 510, 511];

/// Set numbers where something wraps or turns over, and one whose bytes all differ.
const NUMBERS: [u64; 7] = [
    1,
    u64::MAX,
    0x0123_4567_89ab_cdef,
    u32::MAX as u64,
    1 << 32,
    1 << 63,
    (1 << 63) - 1,
];

/// How many places one line asks for.
const STEP: usize = 64;

/// The fields of a half in a line of the script.
#[derive(Clone)]
pub struct Half {
    pub party: usize,
    pub measure: Measure,
    pub length: usize,
    pub rule: Rule,
    pub number: u64,
    pub seed: String,
    pub key: String,
    pub name: String,
}

impl Display for Half {
    fn fmt(&self, f: &mut Formatter) -> fmt::Result {
        let (party, code, length) = (self.party, self.measure.code(), self.length);
        let (rule, number) = (self.rule, self.number);
        let (seed, key, name) = (&self.seed, &self.key, &self.name);
        write!(
            f,
            "{party} {code} {length} {rule} {number} {seed} {key} {name}"
        )
    }
}

impl Half {
    /// The last number of a box that takes this half, and none below it.
    pub fn last(&self) -> u64 {
        self.number - 1
    }

    /// The bytes of the half.
    fn bytes(&self) -> usize {
        BLOCK_BYTES * content::blocks(self.length)
    }
}

/// The field of a door's name.
fn name(text: &str) -> String {
    let mut padded = [0; 16];
    padded[..text.len()].copy_from_slice(text.as_bytes());
    field::format(&padded)
}

/// Where the corrections of a content for vectors of this length begin.
fn corrections(length: usize) -> usize {
    20 + 12 * length + 8 + 32
}

/// The places from one to another, as many as fit a line.
pub fn steps(places: Range<usize>) -> impl Iterator<Item = Range<usize>> {
    let end = places.end;
    places
        .step_by(STEP)
        .map(move |from| from..end.min(from + STEP))
}

/// The numbers with a space between two.
pub fn join(numbers: impl Iterator<Item = u32>) -> String {
    let numbers: Vec<String> = numbers.map(|number| number.to_string()).collect();
    numbers.join(" ")
}

impl Cases {
    /// A half with a seed and a key of its own.
    pub fn half(&mut self, party: usize, measure: Measure, length: usize) -> Half {
        Half {
            party,
            measure,
            length,
            rule: Rule::Threshold(*measure.thresholds().end()),
            number: NUMBERS[2],
            seed: self.bytes(32),
            key: self.bytes(32),
            name: name("Hut 4"),
        }
    }

    /// A line whose answer 01 gives.
    pub fn answered(&mut self, line: String, answer: impl ToString) {
        self.add_expecting("01", line, answer.to_string());
    }

    /// Both halves of a set, each under its own key.
    pub fn both_tags(&mut self, measure: Measure, length: usize, rule: impl Into<Rule>) {
        let turn = self.list.len();
        let mut half = self.half(0, measure, length);
        half.rule = rule.into();
        half.number = NUMBERS[turn % NUMBERS.len()];
        half.name = name(&"A door of 16 ch."[..1 + turn % 16]);
        self.add(format!("tag {half}"));
        (half.party, half.key) = (1, self.bytes(32));
        self.add(format!("tag {half}"));
    }

    /// Halves byte for byte.
    fn whole_halves(&mut self) {
        let (zeros, ones) = ("00".repeat(32), "ff".repeat(32));
        for (party, measure) in [(0, Measure::Scalar), (1, Measure::Euclid)] {
            let half = self.half(party, measure, 1);
            self.add(format!("half {half}"));
        }
        let mut half = self.half(1, Measure::Scalar, 1);
        half.rule = Rule::Threshold(*half.measure.thresholds().start());
        (half.seed, half.key) = (zeros.clone(), ones.clone());
        (half.number, half.name) = (u64::MAX, name("~~~~~~~~~~~~~~~~"));
        self.add(format!("half {half}"));
        let mut half = self.half(0, Measure::Hamming, 1);
        (half.seed, half.key) = (ones, zeros);
        (half.number, half.name) = (1, name(" "));
        self.add(format!("half {half}"));
    }

    fn tags(&mut self) {
        for measure in Measure::ALL {
            for length in MAIN_LENGTHS {
                let (lowest, highest) = measure.thresholds().into_inner();
                self.both_tags(measure, length, lowest);
                self.both_tags(measure, length, highest);
            }
        }
        for (turn, length) in MORE_LENGTHS.into_iter().enumerate() {
            self.both_tags(Measure::ALL[turn % 3], length, 13 * turn as i32);
        }
    }

    /// Halves that are opened and sealed again.
    fn again(&mut self) {
        for (turn, length) in MAIN_LENGTHS.into_iter().enumerate() {
            for party in [0, 1] {
                let half = self.half(party, Measure::ALL[(turn + party) % 3], length);
                self.add(format!("again {half} {}", half.last()));
                let tag = self.last_answer();
                self.answered(format!("tag {half}"), tag);
            }
        }
        let half = self.half(0, Measure::Scalar, 3);
        self.answered(format!("again {half} {}", half.number), 7);
    }

    /// A half at the box that it is for, and its refusal there.
    fn last_number(&mut self, half: &Half, last: u64, refusal: u32) {
        let Half {
            party, key, name, ..
        } = half;
        let line = format!("examine {half} {last} {party} {key} {name}");
        self.answered(line, refusal);
    }

    fn last_numbers(&mut self) {
        for number in NUMBERS {
            let mut half = self.half(number as usize % 2, Measure::Euclid, 5);
            half.number = number;
            self.last_number(&half, number - 1, 0);
            self.last_number(&half, number, 7);
            if let Some(next) = number.checked_add(1) {
                self.last_number(&half, next, 7);
                self.last_number(&half, u64::MAX, 7);
            }
            if number > 1 {
                self.last_number(&half, 0, 0);
            }
        }
        let mut half = self.half(0, Measure::Euclid, 5);
        half.number = 0;
        self.last_number(&half, 0, 7);
    }

    /// A half at boxes that it is not for.
    fn other_boxes(&mut self) {
        let half = self.half(0, Measure::Scalar, 20);
        let Half { key, name: own, .. } = &half;
        let (last, stale, other_key) = (half.last(), half.number, self.bytes(32));
        let mut at = |last: u64, party: usize, key: &str, name: &str, refusal: u32| {
            self.answered(
                format!("examine {half} {last} {party} {key} {name}"),
                refusal,
            );
        };
        at(last, 1, key, own, 11);
        at(last, 0, &other_key, own, 10);
        at(stale, 0, &other_key, own, 7);
        at(stale, 1, key, own, 7);
        at(last, 1, &other_key, own, 10);
        for other in [
            "hut 4",
            "Hut 5",
            "Hut 4 ",
            "Hut",
            "H",
            "Hut 4          4",
            " Hut 4",
        ] {
            at(last, 0, key, &name(other), 11);
        }
        at(last, 0, key, &"00".repeat(16), 11);
        at(stale, 0, key, &name("Hut 5"), 7);
    }

    /// One byte of a half flipped, each in turn. Only a number in block 0 that is
    /// not above the last one is another matter than a block that does not fit.
    fn flips(&mut self, half: &Half, last: u64, places: Range<usize>) {
        let refusal = |at: usize| {
            let mask = if at.is_multiple_of(2) { 1 } else { 128 };
            let number = match at {
                0..8 => half.number ^ mask << (8 * at),
                _ => half.number,
            };
            match number > last {
                true => 10,
                false => 7,
            }
        };
        for Range { start, end } in steps(places) {
            let line = format!("flip {half} {last} {start} {end}");
            self.answered(line, join((start..end).map(refusal)));
        }
    }

    fn all_flips(&mut self) {
        let half = self.half(0, Measure::Euclid, 1);
        self.flips(&half, half.last(), 0..half.bytes());
        self.flips(&half, half.number, 0..16);
        self.flips(&half, half.number, 512..528);
        for (party, length) in [(1, 18), (0, MAX_LENGTH)] {
            let half = self.half(party, Measure::Hamming, length);
            let end = half.bytes();
            self.flips(&half, half.last(), 0..16);
            self.flips(
                &half,
                half.last(),
                end - BLOCK_BYTES - 16..end - BLOCK_BYTES + 16,
            );
            self.flips(&half, half.last(), end - 24..end);
        }
    }

    /// Halves with bytes missing, or with a block more.
    pub fn cuts(&mut self, half: &Half, last: u64, refusals: &[(usize, u32)]) {
        for (bytes, refusal) in refusals {
            self.answered(format!("cut {half} {last} {bytes}"), refusal);
        }
    }

    fn all_cuts(&mut self) {
        let half = self.half(1, Measure::Scalar, 1);
        let too_short = [0, 1, 7, 8, 12, 511, 512, 513, 1024, 1535].map(|bytes| (bytes, 4));
        self.cuts(&half, half.last(), &too_short);
        let others = [(1536, 0), (1537, 4), (2047, 4), (2048, 10)];
        self.cuts(&half, half.last(), &others);
        let stale = [(0, 4), (1024, 4), (1535, 4), (1536, 7), (2048, 7)];
        self.cuts(&half, half.number, &stale);

        let half = self.half(0, Measure::Euclid, 18);
        let refusals = [(1024, 4), (1536, 11), (2047, 4), (2048, 0), (2560, 10)];
        self.cuts(&half, half.last(), &refusals);
        self.cuts(&half, half.number, &[(1536, 7), (2048, 7)]);

        let half = self.half(1, Measure::Hamming, MAX_LENGTH);
        let fewer = [1536, 4096, 7680].map(|bytes| (bytes, 11));
        self.cuts(&half, half.last(), &fewer);
        let others = [(7681, 4), (8191, 4), (8192, 0), (8193, 4), (8704, 4)];
        self.cuts(&half, half.last(), &others);
        self.cuts(&half, half.number, &[(8192, 7), (8704, 4)]);
    }

    /// A half with a block of another one: the refusal for each pair of places.
    pub fn mixes(
        &mut self,
        half: &Half,
        last: u64,
        other: &Half,
        refusals: &[(usize, usize, u32)],
    ) {
        for (to, from, refusal) in refusals {
            self.answered(format!("mixed {half} {last} {other} {to} {from}"), refusal);
        }
    }

    /// Blocks of other numbers, places and keys.
    fn wrong_blocks(&mut self) {
        let half = self.half(0, Measure::Euclid, 18);
        let last = half.last();
        let same = [(0, 0, 0), (3, 3, 0), (0, 1, 10), (1, 0, 10), (2, 3, 10)];
        self.mixes(&half, last, &half, &same);
        self.mixes(&half, last, &half, &[(4, 0, 10), (4, 3, 10)]);

        let mut next = half.clone();
        (next.number, next.seed) = (half.number + 1, self.bytes(32));
        let all = [0, 1, 2, 3].map(|block| (block, block, 10));
        self.mixes(&half, last, &next, &all);
        self.mixes(&half, half.number, &next, &[(0, 0, 10), (1, 1, 7)]);
        let mut earlier = next.clone();
        earlier.number = last;
        self.mixes(&half, last, &earlier, &[(0, 0, 7), (1, 1, 10), (3, 3, 10)]);

        let mut other_box = half.clone();
        (other_box.party, other_box.key) = (1, self.bytes(32));
        self.mixes(&half, last, &other_box, &all);

        let half = self.half(1, Measure::Scalar, MAX_LENGTH);
        let places = [(15, 14, 10), (15, 15, 0), (16, 0, 4), (16, 15, 4)];
        self.mixes(&half, half.last(), &half, &places);
        self.mixes(&half, half.number, &half, &[(15, 14, 7), (16, 0, 4)]);
    }

    /// Blocks of one number, place and key, which a dealer never makes of two sets:
    /// only what they open to can be wrong.
    fn right_blocks(&mut self) {
        let half = self.half(0, Measure::Euclid, 18);
        let last = half.last();
        let mut twin = half.clone();
        twin.seed = self.bytes(32);
        let all = [0, 1, 2, 3].map(|block| (block, block, 0));
        self.mixes(&half, last, &twin, &all);
        let mut other = twin.clone();
        other.measure = Measure::Hamming;
        other.rule = Rule::Threshold(513);
        self.mixes(&half, last, &other, &[(0, 0, 0)]);
        other = twin.clone();
        other.party = 1;
        self.mixes(&half, last, &other, &[(0, 0, 11), (1, 1, 0)]);
        other = twin.clone();
        other.name = name("Hut 5");
        self.mixes(&half, last, &other, &[(0, 0, 11), (3, 3, 0)]);
        // With another L the fill stands where width and mark are read, or they in the fill.
        other = twin.clone();
        for length in [17, 55, 57, 58] {
            other.length = length;
            self.mixes(&half, last, &other, &[(0, 0, 11)]);
        }
        let mut short = half.clone();
        short.length = 1;
        self.mixes(&short, last, &twin, &[(3, 3, 11)]);
        self.mixes(&short, half.number, &twin, &[(3, 3, 7)]);
    }

    /// One byte of the content at a time set to 4, from the first to the last. Those of the
    /// width are tested in an ordinary set alone: between two marks 4 does for each of them.
    pub fn content_bytes(&mut self, half: &Half) {
        let key = corrections(half.length);
        let flag = |at: usize| (key..key + 32 * 37).contains(&at) && (at - key) % 37 == 36;
        let behind = match half.rule {
            Rule::Threshold(_) => content::bytes(half.length) - 5,
            Rule::Between(..) => content::bytes(half.length) - 1,
        };
        let tested = |at: usize| at < 20 || flag(at) || at >= behind;
        let end = TEXT_BYTES * content::blocks(half.length);
        for Range { start, end } in steps(0..end) {
            let refusals = (start..end).map(|at| if tested(at) { 11 } else { 0 });
            let line = format!("content {half} {} {start} {end} 4", half.last());
            self.answered(line, join(refusals));
        }
    }

    /// One byte of the content set to values of which some are in range.
    pub fn content_values(&mut self, half: &Half, at: usize, refusals: &[(u8, u32)]) {
        for (byte, refusal) in refusals {
            let line = format!("content {half} {} {at} {} {byte}", half.last(), at + 1);
            self.answered(line, refusal);
        }
    }

    fn contents(&mut self) {
        let half = self.half(1, Measure::Hamming, 18);
        self.content_values(&half, 0, &[(b'H', 0), (b'h', 11), (0, 11)]);
        self.content_values(&half, 5, &[(0, 0), (b' ', 11)]);
        self.content_values(&half, 15, &[(0, 0), (1, 11)]);
        self.content_values(&half, 16, &[(0, 11), (1, 0), (2, 11), (255, 11)]);
        let codes = [(0, 0), (1, 0), (2, 0), (3, 11), (255, 11)];
        self.content_values(&half, 17, &codes);
        let lengths = [(0, 11), (1, 11), (17, 11), (18, 0), (55, 11), (57, 11)];
        self.content_values(&half, 18, &lengths);
        self.content_values(&half, 18, &[(58, 11), (255, 11)]);
        self.content_values(&half, 19, &[(0, 0), (1, 11), (2, 11), (255, 11)]);
        let key = corrections(18);
        let flags = [
            (0, 0),
            (1, 0),
            (2, 0),
            (3, 0),
            (4, 11),
            (128, 11),
            (255, 11),
        ];
        self.content_values(&half, key + 36, &flags);
        self.content_values(&half, key + 31 * 37 + 36, &flags);
        self.content_values(&half, key + 32 * 37 + 3, &[(0, 0), (255, 0)]);
        self.content_values(&half, content::bytes(18), &[(0, 0), (1, 11), (128, 11)]);
        self.content_values(&half, TEXT_BYTES * 4 - 1, &[(0, 0), (1, 11)]);

        let half = self.half(0, Measure::Euclid, MAX_LENGTH);
        self.content_values(&half, 18, &[(0, 0), (1, 11)]);
        self.content_values(&half, 19, &[(0, 11), (1, 11), (2, 0), (3, 11)]);
        self.content_values(&half, content::bytes(MAX_LENGTH), &[(0, 0), (1, 11)]);
        self.content_values(&half, 16 * TEXT_BYTES - 1, &[(0, 0), (128, 11)]);
        let stale = half.number;
        self.answered(format!("content {half} {stale} 16 17 1"), 7);
    }

    /// A run of bytes of the content, all set to one.
    pub fn spread(&mut self, half: &Half, places: Range<usize>, byte: u8, refusal: u32) {
        let Range { start, end } = places;
        let line = format!("spread {half} {} {start} {end} {byte}", half.last());
        self.answered(line, refusal);
    }

    fn spreads(&mut self) {
        let half = self.half(0, Measure::Scalar, 1);
        for (byte, refusal) in [(0, 0), (3, 0), (4, 11), (255, 11)] {
            self.spread(&half, 20..1260, byte, refusal);
        }
        self.spread(&half, 1265..1452, 0, 0);
        self.spread(&half, 1265..1452, 255, 11);
        // L = 0 would have three blocks, and L = 514 sixteen: no length is to be tried.
        self.spread(&half, 18..1452, 0, 11);
        let half = self.half(1, Measure::Euclid, MAX_LENGTH);
        self.spread(&half, 18..content::bytes(514), 2, 11);
        self.spread(&half, 20..content::bytes(MAX_LENGTH) - 5, 2, 0);
        let half = self.half(1, Measure::Hamming, 257);
        self.spread(&half, 18..content::bytes(257), 1, 0);
        self.spread(&half, 18..content::bytes(257) + 1, 1, 11);
    }

    /// Sets that differ in their threshold alone, at the ends and next to them: party 1's r
    /// word tells them apart, and nothing in party 0's half does.
    fn thresholds(&mut self) {
        for measure in Measure::ALL {
            let (lowest, highest) = measure.thresholds().into_inner();
            let mut half = self.half(1, measure, 2);
            let mut tags = HashSet::new();
            for threshold in [lowest, lowest + 1, highest - 1, highest] {
                half.rule = Rule::Threshold(threshold);
                self.add(format!("tag {half}"));
                tags.insert(self.last_answer());
            }
            assert_eq!(tags.len(), 4);
            half.party = 0;
            self.add(format!("tag {half}"));
            let tag = self.last_answer();
            for threshold in [lowest, lowest + 1] {
                half.rule = Rule::Threshold(threshold);
                self.answered(format!("tag {half}"), &tag);
            }
        }
    }

    /// What the case just added is answered by.
    pub fn last_answer(&self) -> String {
        let case = self.list.last().expect("the case just added");
        case.expected.clone()
    }
}

/// Every case of the program `test_halves`, the same ones at each call.
pub fn cases() -> Vec<Case> {
    let mut cases = Cases::new(run);
    cases.whole_halves();
    cases.tags();
    cases.again();
    cases.last_numbers();
    cases.other_boxes();
    cases.all_flips();
    cases.all_cuts();
    cases.wrong_blocks();
    cases.right_blocks();
    let half = cases.half(0, Measure::Hamming, 1);
    cases.content_bytes(&half);
    cases.contents();
    cases.spreads();
    cases.thresholds();
    cases.between_marks();
    cases.list
}

#[cfg(test)]
mod tests {
    use super::*;
    use crate::script::{assert_right_short_and_not_repeated, MAX_STDIN};

    #[test]
    fn cases_are_right_short_and_not_repeated() {
        let cases = cases();
        assert_right_short_and_not_repeated(&cases, run);
        let size: usize = cases.iter().map(|case| case.line.len() + 1).sum();
        assert!(size <= MAX_STDIN);
    }
}
