//! What a set gives each box for one check, and what the box makes of it: 01,
//! "Dealing a set" and "One check at a box", with the signs of 02, "Distances mean
//! close", and the widths of 02, "Between two marks". Names, set numbers, messages and
//! refusals are not here.

use crate::dcf::{Key, Seed};
use crate::measure::Measure;
use crate::rule::Rule;

/// What the dealer draws for a set, in the order of 01.
pub struct Draws {
    /// x0 and x1, whose sum masks X.
    pub x: [Vec<u32>; 2],
    /// y0 and y1, whose sum masks Y.
    pub y: [Vec<u32>; 2],
    pub c0: u32,
    pub r: u32,
    pub r0: u32,
    pub seeds: [Seed; 2],
}

/// One party's part of a set.
#[derive(Clone, Debug, PartialEq, Eq)]
pub struct Half {
    /// 0 or 1.
    pub party: usize,
    pub measure: Measure,
    /// The mask of the party's own vector, whole.
    pub own_mask: Vec<u32>,
    pub x_share: Vec<u32>,
    pub y_share: Vec<u32>,
    pub c: u32,
    pub r: u32,
    pub seed: Seed,
    pub key: Key,
    pub width: u32,
    pub mark: u32,
}

/// The sum of products, modulo 2^32.
fn dot(left: &[u32], right: &[u32]) -> u32 {
    let products = left.iter().zip(right).map(|(l, r)| l.wrapping_mul(*r));
    products.fold(0, u32::wrapping_add)
}

fn add(left: &[u32], right: &[u32]) -> Vec<u32> {
    let pairs = left.iter().zip(right);
    pairs.map(|(l, r)| l.wrapping_add(*r)).collect()
}

/// A word with the sign that the measure has in the opened sum of a set with this mark.
fn signed(measure: Measure, mark: u32, word: u32) -> u32 {
    (measure.sign(mark) as u32).wrapping_mul(word)
}

/// The two halves of a set ("Dealing a set"). The rule's offset is only in r1, and so is its
/// sign.
pub fn deal(measure: Measure, rule: Rule, draws: &Draws) -> [Half; 2] {
    let (mark, offset) = (rule.mark(), rule.offset() as u32);
    let width = rule.width().expect("refusal 13 is tested first");
    let masks = [add(&draws.x[0], &draws.x[1]), add(&draws.y[0], &draws.y[1])];
    let c1 = dot(&masks[0], &masks[1]).wrapping_sub(draws.c0);
    let r1 = draws
        .r
        .wrapping_sub(signed(measure, mark, offset))
        .wrapping_sub(draws.r0);
    let (c, r) = ([draws.c0, c1], [draws.r0, r1]);
    let key = Key::new(&draws.seeds, draws.r);
    [0, 1].map(|party| Half {
        party,
        measure,
        own_mask: masks[party].clone(),
        x_share: draws.x[party].clone(),
        y_share: draws.y[party].clone(),
        c: c[party],
        r: r[party],
        seed: draws.seeds[party],
        key: key.clone(),
        width,
        mark,
    })
}

impl Half {
    /// Call 2: element plus mask, as words.
    pub fn masked(&self, vector: &[i32]) -> Vec<u32> {
        let mut words = vec![0; vector.len()];
        self.masked_into(vector, &mut words);
        words
    }

    /// The same into words that are there already, as many as elements.
    pub fn masked_into(&self, vector: &[i32], words: &mut [u32]) {
        let pairs = vector.iter().zip(&self.own_mask);
        for (word, (&x, m)) in words.iter_mut().zip(pairs) {
            *word = (x as u32).wrapping_add(*m);
        }
    }

    /// Call 3, without k, own and r: this party's share of the sum of products,
    /// from both masked vectors.
    fn share(&self, mx: &[u32], my: &[u32]) -> u32 {
        let share = self
            .c
            .wrapping_sub(dot(mx, &self.y_share))
            .wrapping_sub(dot(my, &self.x_share));
        match self.party {
            1 => share.wrapping_add(dot(mx, my)),
            _ => share,
        }
    }

    /// Call 3: the word, from this party's own vector and both masked ones.
    pub fn word(&self, own_vector: &[i32], mx: &[u32], my: &[u32]) -> u32 {
        self.word_with(self.measure.own(own_vector) as u32, mx, my)
    }

    /// The same from this party's own term. Both parts of the measure have its sign, and
    /// r has none.
    pub fn word_with(&self, own: u32, mx: &[u32], my: &[u32]) -> u32 {
        let products = (self.measure.k() as u32).wrapping_mul(self.share(mx, my));
        self.r
            .wrapping_add(signed(self.measure, self.mark, products.wrapping_add(own)))
    }

    /// Call 4: the answer, from Z, the sum of both words. A state handed in may hold any width:
    /// how many words lie from 0 to it is then a word too.
    pub fn answer(&self, z: u32) -> u32 {
        let value = |u| self.key.value(self.party, &self.seed, u);
        let count = self.width.wrapping_add(1);
        let answer = value(z.wrapping_sub(count)).wrapping_sub(value(z));
        answer.wrapping_add(u32::from(self.party == 1 && z < count))
    }
}

/// Everything that two boxes say in one check.
pub struct Run {
    pub masked: [Vec<u32>; 2],
    pub words: [u32; 2],
    pub z: u32,
    pub answers: [u32; 2],
    pub joined: u32,
}

/// One check from the halves to the join.
pub fn run(halves: &[Half; 2], x: &[i32], y: &[i32]) -> Run {
    let masked = [halves[0].masked(x), halves[1].masked(y)];
    let [mx, my] = &masked;
    let words = [halves[0].word(x, mx, my), halves[1].word(y, mx, my)];
    let z = words[0].wrapping_add(words[1]);
    let answers = [halves[0].answer(z), halves[1].answer(z)];
    Run {
        words,
        z,
        answers,
        joined: answers[0].wrapping_add(answers[1]),
        masked,
    }
}

#[cfg(test)]
mod tests {
    use super::*;
    use crate::measure::MAX_LENGTH;
    use crate::rule::{MARKED, MAX_WIDTH};
    use crate::sample::Source;
    use std::num::Wrapping;
    use Rule::{Between, Threshold};

    /// Values of r and of Z where something wraps or turns over.
    const EDGES: [u32; 5] = [0, 1, (1 << 31) - 1, 1 << 31, u32::MAX];

    fn joined_by(measure: Measure, rule: Rule, draws: &Draws, x: &[i32], y: &[i32]) -> u32 {
        run(&deal(measure, rule, draws), x, y).joined
    }

    fn joined(measure: Measure, threshold: i32, draws: &Draws, x: &[i32], y: &[i32]) -> u32 {
        joined_by(measure, Threshold(threshold), draws, x, y)
    }

    /// What the lock says at thresholds one below the measure, equal to it and one above
    /// it, from the words of 02.
    fn around(measure: Measure) -> [u32; 3] {
        match measure {
            Measure::Scalar => [1, 1, 0],
            Measure::Euclid | Measure::Hamming => [0, 1, 1],
        }
    }

    /// Vectors without a pattern, equal ones, and the ends of the range against each other.
    fn pairs(source: &mut Source, measure: Measure, length: usize) -> [[Vec<i32>; 2]; 3] {
        let (low, high) = measure.elements().into_inner();
        let (x, y) = (
            source.vector(measure, length),
            source.vector(measure, length),
        );
        let ends = [vec![low; length], vec![high; length]];
        [[x.clone(), y], [x.clone(), x], ends]
    }

    /// The thresholds worth a look that may be dealt, and what the lock says of each.
    fn thresholds(measure: Measure, x: &[i32], y: &[i32]) -> Vec<(i32, u32)> {
        let value = measure.of(x, y) as i32;
        let near = [value - 1, value, value + 1].into_iter();
        let (lowest, highest) = measure.thresholds().into_inner();
        let ends = [lowest, highest].map(|t| (t, measure.meets(x, y, Threshold(t)).into()));
        let all = near.zip(around(measure)).chain(ends);
        all.filter(|(t, _)| measure.thresholds().contains(t))
            .collect()
    }

    #[test]
    fn the_join_is_whether_the_threshold_is_reached() {
        let mut source = Source(0);
        for measure in Measure::ALL {
            for length in [1, 2, 3, 17, 128, 511, 512] {
                let pairs = pairs(&mut source, measure, length);
                let mut draws = source.draws(length);
                for r in EDGES.into_iter().chain([draws.r]) {
                    draws.r = r;
                    for [x, y] in &pairs {
                        for (threshold, bit) in thresholds(measure, x, y) {
                            let said = joined(measure, threshold, &draws, x, y);
                            assert_eq!(said, bit, "{measure:?} {length} {threshold}");
                        }
                    }
                }
            }
        }
    }

    /// The lines of 01, "The proved cases", on whole checks, as 02 reads them.
    #[test]
    fn the_proved_cases() {
        let mut source = Source(100);
        let (x, y) = (vec![3, -4], vec![2, 5]);
        let (bits, others) = (vec![1, 0, 1, 1], vec![1, 1, 0, 1]);
        let (low, high) = (vec![-1024; MAX_LENGTH], vec![1023; MAX_LENGTH]);
        for (measure, value, x, y) in [
            (Measure::Scalar, -14, &x, &y),
            (Measure::Euclid, 82, &x, &y),
            (Measure::Hamming, 2, &bits, &others),
            (Measure::Euclid, 2_145_387_008, &low, &high),
        ] {
            let draws = source.draws(x.len());
            let near = [value - 1, value, value + 1];
            let said = near.map(|threshold| joined(measure, threshold, &draws, x, y));
            assert_eq!(said, around(measure), "{measure:?} {value}");
        }
    }

    /// Hamming at 0 says 1 of equal vectors alone, and at 513 of all.
    #[test]
    fn the_ends_of_hamming() {
        let mut source = Source(150);
        let bits = source.vector(Measure::Hamming, MAX_LENGTH);
        let opposite: Vec<i32> = bits.iter().map(|bit| 1 - bit).collect();
        let draws = source.draws(MAX_LENGTH);
        let said = |y, threshold| joined(Measure::Hamming, threshold, &draws, &bits, y);
        for (threshold, equal, far) in [(0, 1, 0), (511, 1, 0), (512, 1, 1), (513, 1, 1)] {
            assert_eq!(said(&bits, threshold), equal, "{threshold}");
            assert_eq!(said(&opposite, threshold), far, "{threshold}");
        }
    }

    type Word = Wrapping<u32>;

    /// A box's word with a slip, from party, T, r, k × share and own.
    type Slip = fn(party: usize, t: Word, r: Word, products: Word, own: Word) -> Word;

    /// What the lock says of two boxes with a slip.
    fn joined_with(slip: Slip, halves: &[Half; 2], t: i32, x: &[i32], y: &[i32]) -> u32 {
        let masked = [halves[0].masked(x), halves[1].masked(y)];
        let word = |half: &Half, vector: &[i32]| {
            let share = half.share(&masked[0], &masked[1]);
            let [t, r, share] = [t as u32, half.r, share].map(Wrapping);
            let [k, own] = [half.measure.k(), half.measure.own(vector)];
            let [k, own] = [k, own].map(|number| Wrapping(number as u32));
            slip(half.party, t, r, k * share, own)
        };
        let z = word(&halves[0], x) + word(&halves[1], y);
        let [answer0, answer1] = [0, 1].map(|party: usize| halves[party].answer(z.0));
        answer0.wrapping_add(answer1)
    }

    /// Each slip gives a wrong bit at some threshold next to the measure; no slip, none.
    #[test]
    fn a_slip_gives_a_wrong_bit() {
        let slips: [(&str, Slip); 7] = [
            ("none", |_, _, r, products, own| r - products - own),
            ("k alone negated", |_, _, r, products, own| {
                r - products + own
            }),
            ("own alone negated", |_, _, r, products, own| {
                r + products - own
            }),
            ("neither", |_, _, r, products, own| r + products + own),
            ("at party 1 alone", |party, _, r, products, own| {
                [r + products + own, r - products - own][party]
            }),
            ("r1 = r - T - r0", |party, t, r, products, own| {
                r - products - own - [Wrapping(0), t + t][party]
            }),
            ("< for ≤", |party, _, r, products, own| {
                r - products - own - Wrapping(party as u32)
            }),
        ];
        let (x, y) = ([1, 0, 1, 1], [1, 1, 0, 1]);
        let draws = Source(180).draws(4);
        for measure in [Measure::Euclid, Measure::Hamming] {
            for (name, slip) in slips {
                let said = [1, 2, 3].map(|threshold| {
                    let halves = deal(measure, Threshold(threshold), &draws);
                    joined_with(slip, &halves, threshold, &x, &y)
                });
                assert_eq!(said == around(measure), name == "none", "{name} {said:?}");
            }
        }
    }

    #[test]
    fn masked_elements_of_the_proved_cases() {
        let mut draws = Source(200).draws(1);
        for (element, mask, word) in [(-4, 4294967295, 4294967291), (3, 4294967294, 1)] {
            draws.x = [vec![u32::MAX], vec![1u32.wrapping_add(mask)]];
            let halves = deal(Measure::Scalar, Threshold(0), &draws);
            assert_eq!(halves[0].masked(&[element]), [word]);
        }
    }

    /// The gate's lines: r, the difference, and what it gives.
    #[test]
    fn the_gate_of_the_proved_cases() {
        let mut draws = Source(220).draws(1);
        for (r, difference, gives) in [
            (0, 0, 1),
            (0, i32::MIN, 0),
            (1, -1, 0),
            (u32::MAX, 0, 1),
            (1 << 31, i32::MAX, 1),
            (1 << 31, i32::MIN, 0),
        ] {
            draws.r = r;
            let z = r.wrapping_add(difference as u32);
            let answers = deal(Measure::Scalar, Threshold(0), &draws).map(|half| half.answer(z));
            assert_eq!(
                answers[0].wrapping_add(answers[1]),
                gives,
                "{r} {difference}"
            );
        }
    }

    /// Marks on every side of a value, as far as they may be dealt, and what the lock says.
    fn marks(measure: Measure, value: i32) -> Vec<(Rule, u32)> {
        let (lowest, highest) = measure.thresholds().into_inner();
        let all = [
            ((value, value), 1),
            ((value, value + 1), 1),
            ((value - 1, value), 1),
            ((value + 1, value + 1), 0),
            ((value + 1, highest), 0),
            ((value - 1, value - 1), 0),
            ((lowest, value - 1), 0),
            ((lowest, value), 1),
            ((value, highest), 1),
            ((lowest, highest), 1),
            ((lowest, highest - 1), 1),
            ((lowest + 1, highest), u32::from(value > lowest)),
        ];
        let rules = all.into_iter().map(|((p, q), bit)| (Between(p, q), bit));
        rules
            .filter(|(rule, _)| rule.is_in_range(measure) && rule.width().is_some())
            .collect()
    }

    /// 02, "Between two marks": P ≤ measure ≤ Q, for every code.
    #[test]
    fn the_join_is_whether_the_measure_lies_between_the_marks() {
        let mut source = Source(500);
        for measure in Measure::ALL {
            for length in [1, 2, 17, 512] {
                let pairs = pairs(&mut source, measure, length);
                let mut draws = source.draws(length);
                for r in EDGES.into_iter().chain([draws.r]) {
                    draws.r = r;
                    for [x, y] in &pairs {
                        let value = measure.of(x, y);
                        for (rule, bit) in marks(measure, value as i32) {
                            let run = run(&deal(measure, rule, &draws), x, y);
                            let sum = (value - i64::from(rule.offset())) as u32;
                            assert_eq!(run.z, sum.wrapping_add(r), "{measure:?} {rule}");
                            assert_eq!(run.joined, bit, "{measure:?} {length} {rule}");
                        }
                    }
                }
            }
        }
    }

    /// A copied template is no person: from P = 1 on, a distance of 0 is not met.
    #[test]
    fn a_copied_template_is_turned_away() {
        let mut source = Source(600);
        for measure in [Measure::Euclid, Measure::Hamming] {
            let x = source.vector(measure, 40);
            let draws = source.draws(40);
            let said = |p, q| joined_by(measure, Between(p, q), &draws, &x, &x);
            assert_eq!(
                [said(0, 0), said(0, 513), said(1, 1), said(1, 513)],
                [1, 1, 0, 0]
            );
            assert_eq!(joined(measure, 1, &draws, &x, &x), 1);
        }
    }

    /// An ordinary set's two answers are each what they were before there were widths.
    #[test]
    fn ordinary_answers_are_as_before() {
        let mut source = Source(700);
        for measure in Measure::ALL {
            for half in deal(measure, Threshold(3), &source.draws(1)) {
                let before = |z: u32| {
                    let value = |u| half.key.value(half.party, &half.seed, u);
                    let answer = value(z.wrapping_add(1 << 31)).wrapping_sub(value(z));
                    answer.wrapping_add(u32::from(half.party == 1 && z < 1 << 31))
                };
                for z in EDGES.into_iter().chain(source.words(200)) {
                    assert_eq!(half.answer(z), before(z), "{measure:?} {z}");
                }
            }
        }
    }

    /// The gate is right for every width that a word can be, not only those that halves carry.
    #[test]
    fn the_gate_is_right_for_every_width() {
        let mut source = Source(800);
        let widths = [
            0,
            1,
            5,
            MAX_WIDTH - 1,
            MAX_WIDTH,
            MAX_WIDTH + 1,
            u32::MAX - 1,
        ];
        for r in EDGES.into_iter().chain(source.words(2)) {
            let mut draws = source.draws(1);
            draws.r = r;
            let halves = deal(Measure::Scalar, Threshold(0), &draws);
            for width in widths.into_iter().chain(source.words(2)) {
                let near = [width, width.wrapping_add(1)];
                for sum in EDGES.into_iter().chain(near).chain(source.words(3)) {
                    let z = r.wrapping_add(sum);
                    let answer = |half: &Half| {
                        Half {
                            width,
                            ..half.clone()
                        }
                        .answer(z)
                    };
                    let joined = answer(&halves[0]).wrapping_add(answer(&halves[1]));
                    assert_eq!(joined, u32::from(sum <= width), "{r} {width} {sum}");
                }
            }
        }
    }

    /// The same with the sums of keys as they are meant to be, over all words of a few bits and
    /// all widths but the one that has all of them.
    #[test]
    fn the_gate_is_right_for_all_small_words() {
        for bits in 2..=6 {
            let words = 1u32 << bits;
            let pairs = (0..words).flat_map(|r| (0..words).map(move |sum| (r, sum)));
            for (r, sum) in pairs {
                for count in 1..words {
                    let z = (r + sum) % words;
                    let value = |u: u32| i32::from(u < r);
                    let answer = value((z + words - count) % words) - value(z);
                    let joined = answer + i32::from(z < count);
                    assert_eq!(joined, i32::from(sum < count), "{bits} {r} {sum} {count}");
                }
            }
        }
    }

    /// With a width of 2^32 - 1, which no half carries, no word is counted: w + 1 is 0.
    #[test]
    fn the_count_of_words_wraps() {
        let halves = deal(Measure::Scalar, Threshold(0), &Source(900).draws(1));
        for half in halves {
            let wide = Half {
                width: u32::MAX,
                ..half
            };
            assert_eq!(EDGES.map(|z| wide.answer(z)), [0; 5]);
        }
    }

    /// A set between marks and an ordinary one of the same draws differ in r1, width and mark
    /// alone, and for the scalar product with T = P not even in r1.
    #[test]
    fn marks_change_r1_width_and_mark_alone() {
        let draws = Source(950).draws(2);
        for measure in Measure::ALL {
            let ordinary = deal(measure, Threshold(5), &draws);
            let between = deal(measure, Between(5, 12), &draws);
            for (ordinary, between) in ordinary.into_iter().zip(between) {
                let same_r = between.party == 0 || measure == Measure::Scalar;
                assert_eq!(ordinary.r == between.r, same_r);
                let expected = Half {
                    r: between.r,
                    width: 7,
                    mark: MARKED,
                    ..ordinary
                };
                assert_eq!(between, expected);
            }
        }
    }
}
