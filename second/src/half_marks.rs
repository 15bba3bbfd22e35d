//! The cases of the program `test_halves` on 02, "Between two marks": halves of sets between
//! marks, what width and mark may be, the new counts of blocks, and halves from before. What
//! is refused, and by which number, stands here and is not asked of this implementation.

use crate::cases::Cases;
use crate::content::{self, TEXT_BYTES};
use crate::half_cases::{join, steps, Half, MAIN_LENGTHS};
use crate::measure::{Measure, MAX_LENGTH};
use crate::rule::Rule::{self, Between, Threshold};
use crate::sealed::BLOCK_BYTES;
use std::ops::Range;

/// The lengths at which a half has a block more than before, and how many it has from there on.
const MORE_BLOCKS: [(usize, usize); 9] = [
    (17, 4),
    (57, 5),
    (138, 7),
    (178, 8),
    (259, 10),
    (299, 11),
    (380, 13),
    (420, 14),
    (501, 16),
];

/// Lengths of which width and mark end in the block where they begin, are alone in the last
/// block, and have the mark alone in the last block.
const ENDS: [usize; 3] = [1, 17, 57];

/// The longest sets of the sweep.
const MAX_SWEPT: usize = 8;

/// The places of the width, and of the mark, in the content of a length.
fn width_places(length: usize) -> Range<usize> {
    content::bytes(length) - 5..content::bytes(length) - 1
}

fn mark_place(length: usize) -> usize {
    content::bytes(length) - 1
}

/// Marks of every kind that the measure allows: equal ones at both ends and the widest.
fn marks(measure: Measure) -> [Rule; 4] {
    let (lowest, highest) = measure.thresholds().into_inner();
    let widest = match measure {
        Measure::Scalar => highest - 1,
        _ => highest,
    };
    [
        Between(lowest, lowest),
        Between(highest, highest),
        Between(lowest, widest),
        Between(lowest + 1, highest),
    ]
}

impl Cases {
    /// A half of a set between marks, with a seed and a key of its own.
    fn half_between(&mut self, party: usize, measure: Measure, length: usize, rule: Rule) -> Half {
        Half {
            rule,
            ..self.half(party, measure, length)
        }
    }

    /// Sets of every code between marks, byte for byte, by their tags, and sealed again.
    fn sets_between_marks(&mut self) {
        for (turn, measure) in Measure::ALL.into_iter().enumerate() {
            let half = self.half_between(turn % 2, measure, 1, Between(3, 300));
            self.add(format!("half {half}"));
            for (place, length) in MAIN_LENGTHS.into_iter().enumerate() {
                for rule in marks(measure) {
                    self.both_tags(measure, length, rule);
                }
                let rule = marks(measure)[place % 4];
                let half = self.half_between(place % 2, measure, length, rule);
                self.add(format!("again {half} {}", half.last()));
                let tag = self.last_answer();
                self.answered(format!("tag {half}"), tag);
            }
        }
    }

    /// Sets whose marks differ: P is in party 1's r word alone, and the width in both halves.
    fn marks_of_a_set(&mut self) {
        for measure in Measure::ALL {
            for party in [0, 1] {
                let mut half = self.half_between(party, measure, 2, Between(3, 9));
                let mut tag = |rule: Rule| {
                    half.rule = rule;
                    self.add(format!("tag {half}"));
                    self.last_answer()
                };
                let narrow = tag(Between(3, 9));
                assert_eq!(narrow == tag(Between(4, 10)), party == 0);
                assert_ne!(narrow, tag(Between(3, 10)));
                assert_ne!(narrow, tag(Threshold(3)));
            }
        }
    }

    /// A threshold or mark without a pattern.
    fn any_mark(&mut self, measure: Measure) -> i32 {
        let (lowest, highest) = measure.thresholds().into_inner();
        let count = i64::from(highest) - i64::from(lowest) + 1;
        (i64::from(lowest) + i64::from(self.number()) % count) as i32
    }

    /// Short sets by rules of both kinds without a pattern.
    fn sweep_of_sets(&mut self) {
        for length in 1..=MAX_SWEPT {
            for measure in Measure::ALL {
                let [one, other] = [(); 2].map(|()| self.any_mark(measure));
                self.both_tags(measure, length, Between(one.min(other), one.max(other)));
                self.both_tags(measure, length, Threshold(one));
            }
        }
    }

    /// Each of the nine lengths and its neighbours: tags, and just as many blocks are taken.
    fn counts_of_blocks(&mut self) {
        for (turn, (first, count)) in MORE_BLOCKS.into_iter().enumerate() {
            for (length, blocks) in [(first - 1, count - 1), (first, count), (first + 1, count)] {
                let measure = Measure::ALL[(turn + length) % 3];
                let rule = match length % 2 {
                    0 => Threshold(*measure.thresholds().end()),
                    _ => Between(7, 500),
                };
                self.both_tags(measure, length, rule);
                let half = self.half_between(length % 2, measure, length, rule);
                let bytes = BLOCK_BYTES * blocks;
                let fewer = match blocks {
                    3 => 4,
                    _ => 11,
                };
                let more = match blocks {
                    16 => 4,
                    _ => 10,
                };
                let cuts = [
                    (bytes - BLOCK_BYTES, fewer),
                    (bytes, 0),
                    (bytes + BLOCK_BYTES, more),
                ];
                self.cuts(&half, half.last(), &cuts);
            }
        }
    }

    /// The mark of ordinary sets and of others, of every width: 0 is taken with the greatest
    /// alone, 1 with any, and nothing else.
    fn values_of_the_mark(&mut self) {
        let most = i32::MAX;
        for (turn, (rule, ordinary)) in [
            (Threshold(5), 0),
            (Between(0, most), 0),
            (Between(0, most - 1), 11),
            (Between(6, 6), 11),
            (Between(6, 7), 11),
        ]
        .into_iter()
        .enumerate()
        {
            for length in ENDS {
                let half = self.half_between((turn + length) % 2, Measure::Euclid, length, rule);
                let values = [
                    (0, ordinary),
                    (1, 0),
                    (2, 11),
                    (3, 11),
                    (128, 11),
                    (255, 11),
                ];
                self.content_values(&half, mark_place(length), &values);
                self.content_values(&half, mark_place(length) + 1, &[(0, 0), (1, 11), (255, 11)]);
            }
        }
    }

    /// The width of ordinary sets: 2^31 - 1 and nothing else.
    fn widths_under_mark_0(&mut self) {
        for (turn, length) in ENDS.into_iter().enumerate() {
            let half = self.half(turn % 2, Measure::ALL[turn], length);
            let Range { start, end } = width_places(length);
            self.content_values(&half, start, &[(255, 0), (254, 11), (0, 11)]);
            self.content_values(&half, start + 1, &[(255, 0), (127, 11)]);
            self.content_values(&half, start + 2, &[(255, 0), (254, 11)]);
            self.content_values(&half, end - 1, &[(127, 0), (126, 11), (128, 11), (255, 11)]);
            for byte in [0, 1, 127, 255] {
                self.spread(&half, start..end, byte, 11);
            }
            // Width 0 under mark 0: what the fill of a half from before says.
            self.spread(&half, start..end + 1, 0, 11);
        }
    }

    /// The width of sets between marks: 0 to 2^31 - 1.
    fn widths_under_mark_1(&mut self) {
        for (turn, length) in ENDS.into_iter().enumerate() {
            let measure = Measure::ALL[turn];
            let equal = self.half_between(turn % 2, measure, length, Between(8, 8));
            let Range { start, end } = width_places(length);
            // 2^31 is the first that is too great.
            let highest_bytes = [(0, 0), (1, 0), (127, 0), (128, 11), (255, 11)];
            self.content_values(&equal, end - 1, &highest_bytes);
            self.content_values(&equal, start, &[(0, 0), (1, 0), (255, 0)]);
            for (byte, refusal) in [(0, 0), (1, 0), (127, 0), (128, 11), (255, 11)] {
                self.spread(&equal, start..end, byte, refusal);
            }
            self.spread(&equal, start..end - 1, 255, 0);
            self.spread(&equal, start..end + 1, 1, 0);
        }
        let widest = self.half_between(0, Measure::Euclid, 2, Between(0, i32::MAX));
        let highest_bytes = [(127, 0), (128, 11), (255, 11)];
        self.content_values(&widest, width_places(2).end - 1, &highest_bytes);
        self.examined(&widest);
    }

    /// Widths that no marks of the code give: the code of a set of another code is changed.
    fn widths_of_other_codes(&mut self) {
        for (party, rule) in [
            (0, Between(7, 1_000_007)),
            (1, Between(0, 1_000_000)),
            (0, Between(0, i32::MAX)),
            (1, Between(0, i32::MAX)),
        ] {
            let half = self.half_between(party, Measure::Euclid, 3, rule);
            self.content_values(&half, 17, &[(0, 0), (1, 0), (2, 0), (3, 11)]);
        }
        // The last block of a set of another code, from the same seed and under one key.
        let half = self.half_between(1, Measure::Hamming, 3, Between(0, 513));
        let wide = Half {
            measure: Measure::Euclid,
            rule: Between(0, 1_000_000),
            ..half.clone()
        };
        self.mixes(&half, half.last(), &wide, &[(2, 2, 0)]);
        let ordinary = Half {
            rule: Threshold(0),
            ..half.clone()
        };
        self.mixes(&half, half.last(), &ordinary, &[(2, 2, 0)]);
        self.mixes(&ordinary, half.last(), &half, &[(2, 2, 0), (2, 1, 10)]);
    }

    /// A half that is taken as it is.
    fn examined(&mut self, half: &Half) {
        let (party, key, name) = (half.party, &half.key, &half.name);
        let line = format!("examine {half} {} {party} {key} {name}", half.last());
        self.answered(line, 0);
    }

    /// Fill behind the mark of a whole set between marks, to its end.
    fn fill_behind_the_mark(&mut self) {
        for (turn, length) in [1, 16, 17, 57, MAX_LENGTH].into_iter().enumerate() {
            let half = self.half_between(turn % 2, Measure::ALL[turn % 3], length, Between(9, 9));
            let end = TEXT_BYTES * content::blocks(length);
            self.content_values(&half, content::bytes(length), &[(0, 0), (1, 11), (128, 11)]);
            self.content_values(&half, end - 1, &[(0, 0), (1, 11)]);
            self.spread(&half, content::bytes(length)..end, 255, 11);
        }
    }

    /// Halves laid out as they were before, of these lengths: every one is refused by 11.
    fn before(&mut self, half: &Half, lengths: Range<usize>) {
        for Range { start, end } in steps(lengths) {
            let line = format!("before {half} {} {start} {end}", half.last());
            self.answered(line, join((start..end).map(|_| 11)));
        }
    }

    /// All lengths for every code and party, dealt for a threshold; some between marks, which
    /// were never dealt so.
    fn all_before(&mut self) {
        for measure in Measure::ALL {
            for party in [0, 1] {
                let half = self.half(party, measure, 1 + party);
                self.before(&half, 1..MAX_LENGTH + 1);
                for rule in marks(measure) {
                    let half = self.half_between(party, measure, 2, rule);
                    self.before(&half, 14..20);
                    self.before(&half, 56..59);
                    self.before(&half, 500..503);
                }
                let line = format!("before {half} {} 16 18", half.number);
                self.answered(line, "7 7");
            }
        }
    }

    /// All of it.
    pub fn between_marks(&mut self) {
        self.sets_between_marks();
        self.marks_of_a_set();
        self.sweep_of_sets();
        self.counts_of_blocks();
        self.values_of_the_mark();
        self.widths_under_mark_0();
        self.widths_under_mark_1();
        self.widths_of_other_codes();
        self.fill_behind_the_mark();
        let half = self.half_between(1, Measure::Scalar, 1, Between(2, 2));
        self.content_bytes(&half);
        self.all_before();
    }
}
