//! The tests of 02, "Between two marks", at a box: sets of that kind, and states into which a
//! host has put any width and mark.

use crate::measure::Measure;
use crate::message::{MASKED_VECTOR, WORD};
use crate::party::tests::{all_calls, dealt, door, label, phases, started};
use crate::party::{Party, IDLE};
use crate::rule::Rule::{Between, Threshold};
use crate::rule::{MARKED, MAX_WIDTH, ORDINARY};
use crate::sample::Source;

/// 02, "Between two marks", from the deal to the join.
#[test]
fn the_lock_says_whether_the_measure_lies_between_the_marks() {
    let mut source = Source(350);
    for measure in Measure::ALL {
        for length in [3, 17, 57] {
            let x = source.vector(measure, length);
            let y = source.vector(measure, length);
            let value = measure.of(&x, &y) as i32;
            for (p, q, bit) in [(1, 2, 0), (0, 2, 1), (0, 0, 1), (-1, 0, 1), (-2, -1, 0)] {
                let rule = Between(value + p, value + q);
                if rule.is_in_range(measure) {
                    let joined = door(measure, rule, &x, &y).joined;
                    assert_eq!(joined, bit, "{measure:?} {rule}");
                }
            }
        }
    }
}

/// Width and mark come with the load and are not tested: calls go on with what a host has
/// put there.
#[test]
fn widths_and_marks_of_a_state_are_not_tested() {
    let turns = [
        [0, 3, 3, 3, 3],
        [0, 0, 3, 3, 0],
        [0, 3, 0, 3, 0],
        [0, 3, 3, 0, 0],
    ];
    for (state, calls) in phases().into_iter().zip(turns) {
        let carried = match state.phase {
            IDLE => (0, ORDINARY),
            _ => (MAX_WIDTH, ORDINARY),
        };
        assert_eq!((state.set.width, state.set.mark), carried);
        for width in [0, 1, MAX_WIDTH, MAX_WIDTH + 1, u32::MAX] {
            for mark in [0, 1, 2, 256, u32::MAX] {
                let mut put = state.clone();
                (put.set.width, put.set.mark) = (width, mark);
                assert_eq!(all_calls(&put), calls);
                (put.waiting.width, put.waiting.mark) = (width, mark);
                assert_eq!(all_calls(&put), calls);
            }
        }
    }
}

/// Party 1 after call 3 of an ordinary Hamming set, with this mark put into it before.
fn spoken_with(mark: u32) -> Party {
    let [_, half] = dealt(Measure::Hamming, 2, Threshold(1));
    let mut state = started(1);
    state.load(&half).unwrap();
    state.set.mark = mark;
    state.mask(&[1, 0], &mut [0; 2]).unwrap();
    state.take(&label(MASKED_VECTOR, 0), &[5, 6]).unwrap();
    state
}

/// Any mark but 0 counts as the plain sign.
#[test]
fn the_word_has_the_sign_of_the_state_s_mark() {
    let without_r = |state: Party| state.check.word.wrapping_sub(state.set.r);
    let ordinary = without_r(spoken_with(ORDINARY));
    for mark in [MARKED, 2, 256, u32::MAX] {
        let plain = without_r(spoken_with(mark));
        assert_eq!(plain, ordinary.wrapping_neg(), "{mark}");
    }
}

/// Value at Z - (w + 1) minus value at Z, and party 1 adds 1 if Z < w + 1, which may wrap.
#[test]
fn the_answer_has_the_width_of_the_state() {
    for (width, z, earlier, added) in [
        (0, 0, u32::MAX, 1),
        (5, 5, u32::MAX, 1),
        (5, 6, 0, 0),
        (1 << 31, 1 << 31, u32::MAX, 1),
        (u32::MAX, 0, 0, 0),
        (u32::MAX, 7, 7, 0),
    ] {
        let mut state = spoken_with(ORDINARY);
        state.set.width = width;
        let set = state.set.half(1);
        let value = |u: u32| set.key.value(1, &set.seed, u);
        let expected = value(earlier).wrapping_sub(value(z)).wrapping_add(added);
        let other = z.wrapping_sub(state.check.word);
        let answer = state.finish(&label(WORD, 0), other);
        assert_eq!(answer, Ok(expected), "{width} {z}");
    }
}
