//! The tests of 02, "Load ahead", at a box: one set open, another one waiting.

use crate::measure::Measure;
use crate::message::{Label, MASKED_VECTOR, WORD};
use crate::opened::{OpenedSet, NO_SET};
use crate::party::tests::{all_calls, dealt_as, label, phases, started, NUMBER};
use crate::party::{Party, IDLE, LOADED, MASKED, SPOKEN};
use crate::refusal;
use crate::rule::Rule::{Between, Threshold};
use crate::rule::{MARKED, MAX_WIDTH, ORDINARY};

/// The number of the set that waits.
pub const NEXT: u64 = NUMBER + 1;

/// The half of party 0 of a set that is not like the open one, which is of code 0 and L 2 and
/// ordinary.
pub fn half_of(number: u64) -> Vec<u8> {
    let [half, _] = dealt_as(number, Measure::Euclid, 3, Between(50, 57));
    half
}

/// What a load of that half leaves at a box that has answered a check before.
fn loaded_alone() -> Party {
    let mut state = started(0);
    state.last = NUMBER;
    state.load(&half_of(NEXT)).unwrap();
    state
}

/// A box at each phase with a set open, in their order, and the other set waiting.
pub fn waiting() -> [Party; 3] {
    let [_, open @ ..] = phases();
    open.map(|mut state| {
        state.load(&half_of(NEXT)).unwrap();
        state
    })
}

/// The refusal of a load on a copy; a refused one changes nothing.
fn load(state: &Party, half: &[u8]) -> u32 {
    let mut copy = state.clone();
    let number = refusal::number(&copy.load(half));
    assert_eq!(copy == *state, number != 0);
    number
}

fn next(kind: u64) -> Label<'static> {
    Label {
        number: NEXT,
        ..label(kind, 1)
    }
}

#[test]
fn a_load_ahead_moves_the_last_number_and_nothing_else() {
    let [_, open @ ..] = phases();
    for (before, after) in open.into_iter().zip(waiting()) {
        let expected = Party {
            last: NEXT,
            waiting: loaded_alone().set,
            ..before
        };
        assert_eq!(after, expected);
    }
}

#[test]
fn the_open_check_goes_on_as_if_nothing_waited() {
    let [loaded, masked, spoken] = waiting();
    assert_eq!(all_calls(&loaded), [3, 0, 3, 3, 0]);
    assert_eq!(all_calls(&masked), [3, 3, 0, 3, 0]);
    assert_eq!(all_calls(&spoken), [3, 3, 3, 0, 0]);
    let mut state = loaded;
    state.mask(&[3, 4], &mut [0; 2]).unwrap();
    assert_eq!(state, masked);
    state.take(&label(MASKED_VECTOR, 1), &[5, 6]).unwrap();
    assert_eq!(state, spoken);
    let [.., mut alone] = phases();
    let answer = alone.finish(&label(WORD, 1), 7);
    assert_eq!(state.finish(&label(WORD, 1), 7), answer);
    assert_eq!(state, loaded_alone());
}

/// Width and mark belong to each of the two sets, and go with the one that opens.
#[test]
fn widths_and_marks_go_with_their_sets() {
    let carried = |set: &OpenedSet| (set.width, set.mark);
    for mut state in waiting() {
        assert_eq!(carried(&state.set), (MAX_WIDTH, ORDINARY));
        assert_eq!(carried(&state.waiting), (7, MARKED));
        state.drop_set().unwrap();
        assert_eq!(carried(&state.set), (7, MARKED));
        assert_eq!(carried(&state.waiting), (0, ORDINARY));
        let [ordinary, _] = dealt_as(NEXT + 1, Measure::Hamming, 1, Threshold(1));
        state.load(&ordinary).unwrap();
        assert_eq!(carried(&state.set), (7, MARKED));
        assert_eq!(carried(&state.waiting), (MAX_WIDTH, ORDINARY));
        state.drop_set().unwrap();
        assert_eq!(carried(&state.set), (MAX_WIDTH, ORDINARY));
        state.drop_set().unwrap();
        assert_eq!(carried(&state.set), (0, ORDINARY));
    }
}

#[test]
fn a_second_load_ahead_is_out_of_turn() {
    let good = half_of(NEXT + 1);
    let mut broken = good.clone();
    broken[100] ^= 1;
    for state in waiting() {
        for half in [&good[..], &broken, &half_of(NEXT), &good[..1535], &[]] {
            assert_eq!(load(&state, half), 3);
        }
    }
}

/// The tests behind 3 are those of any load, in their order.
#[test]
fn halves_ahead_are_refused_in_order() {
    let [_, open @ ..] = phases();
    let mut broken = half_of(NEXT);
    broken[100] ^= 1;
    let [cut, _] = dealt_as(NEXT, Measure::Euclid, 18, Threshold(50));
    let [_, of_office] = dealt_as(NEXT, Measure::Euclid, 3, Threshold(50));
    for state in open {
        assert_eq!(load(&state, &[]), 4);
        assert_eq!(load(&state, &broken[..1535]), 4);
        assert_eq!(load(&state, &half_of(NUMBER)), 7);
        assert_eq!(load(&state, &broken), 10);
        assert_eq!(load(&state, &of_office), 10);
        assert_eq!(load(&state, &cut[..1536]), 11);
        assert_eq!(load(&state, &half_of(NEXT)), 0);
        assert_eq!(load(&state, &half_of(u64::MAX)), 0);
    }
}

/// Last and open number may disagree in a state handed in: a half must be above both.
#[test]
fn a_half_ahead_is_above_the_last_number_and_the_open_one() {
    let [idle, open @ ..] = phases();
    for state in open {
        for (last, number, refusal) in [
            (0, NUMBER, 7),
            (0, NEXT, 0),
            (NEXT, NEXT, 7),
            (NEXT, NEXT + 1, 0),
            (u64::MAX, u64::MAX, 7),
        ] {
            let state = Party {
                last,
                ..state.clone()
            };
            assert_eq!(load(&state, &half_of(number)), refusal, "{last} {number}");
        }
        let mut higher = state.clone();
        (higher.last, higher.set.number) = (NUMBER, NUMBER + 2);
        assert_eq!(load(&higher, &half_of(NUMBER + 1)), 7);
        assert_eq!(load(&higher, &half_of(NUMBER + 2)), 7);
        assert_eq!(load(&higher, &half_of(NUMBER + 3)), 0);
    }
    let mut stale = idle;
    stale.set.number = NEXT;
    assert_eq!(load(&stale, &half_of(NEXT)), 0, "no set is open");
}

#[test]
fn the_waiting_set_opens_as_a_load_at_an_idle_box_leaves_it() {
    for mut state in waiting() {
        state.drop_set().unwrap();
        assert_eq!(state, loaded_alone());
    }
    let [.., mut spoken] = waiting();
    spoken.finish(&label(WORD, 1), 7).unwrap();
    assert_eq!(spoken, loaded_alone());
}

#[test]
fn both_numbers_stay_spent_after_two_drops() {
    for mut state in waiting() {
        state.drop_set().unwrap();
        state.drop_set().unwrap();
        let closed = Party {
            last: NEXT,
            ..started(0)
        };
        assert_eq!(state, closed);
        assert_eq!(refusal::number(&state.drop_set()), 3);
        assert_eq!(load(&state, &half_of(NUMBER)), 7);
        assert_eq!(load(&state, &half_of(NEXT)), 7);
        assert_eq!(load(&state, &half_of(NEXT + 1)), 0);
    }
}

/// Waiting sets, by number, code and L, of which no state can be handed in while a set under
/// `NUMBER` is open.
pub const FAULTS: [(u64, u32, u32); 12] = [
    (NUMBER, 1, 3),
    (NUMBER - 1, 1, 3),
    (0, 1, 3),
    (NEXT, 3, 3),
    (NEXT, u32::MAX, 3),
    (NEXT, 1, 513),
    (NEXT, 1, u32::MAX),
    (NEXT, 1, 0),
    (NEXT, 2, 0),
    (NEXT, 3, 0),
    (0, 1, 0),
    (NUMBER, 3, 513),
];

pub fn put(state: &Party, (number, code, length): (u64, u32, u32)) -> Party {
    let mut state = state.clone();
    (state.waiting.number, state.waiting.code) = (number, code);
    state.waiting.length = length;
    state
}

#[test]
fn a_waiting_set_that_no_call_leaves_is_refused_at_every_call() {
    let [_, open @ ..] = phases();
    for state in open.into_iter().chain(waiting()) {
        for fault in FAULTS {
            assert_eq!(all_calls(&put(&state, fault)), [3; 5], "{fault:?}");
        }
    }
}

#[test]
fn nothing_waits_at_an_idle_box() {
    let [idle, ..] = phases();
    for wrong in [(NEXT, 1, 3), (NEXT, 0, 1), (NEXT, 2, 512), (0, 1, 0)] {
        assert_eq!(all_calls(&put(&idle, wrong)), [3; 5], "{wrong:?}");
    }
    for mut state in waiting() {
        state.phase = IDLE;
        assert_eq!(all_calls(&state), [3; 5]);
        (state.set.code, state.set.length) = (0, 0);
        assert_eq!(all_calls(&state), [3; 5]);
    }
}

/// With L zero none waits, and the number is compared with nothing.
#[test]
fn a_number_alone_does_not_wait() {
    let [idle, loaded, masked, spoken] = phases();
    for number in [0, NUMBER - 1, NUMBER, NEXT, u64::MAX] {
        let calls = |state: &Party| all_calls(&put(state, (number, 0, 0)));
        assert_eq!(calls(&idle), [0, 3, 3, 3, 3]);
        assert_eq!(calls(&loaded), [0, 0, 3, 3, 0]);
        assert_eq!(calls(&masked), [0, 3, 0, 3, 0]);
        assert_eq!(calls(&spoken), [0, 3, 3, 0, 0]);
    }
    let mut state = put(&idle, (7, 0, 0));
    state.last = NUMBER;
    state.load(&half_of(NEXT)).unwrap();
    assert_eq!(state, loaded_alone());
    let mut state = put(&loaded, (7, 0, 0));
    state.drop_set().unwrap();
    assert_eq!(state.waiting, NO_SET);
    assert_eq!(state.phase, IDLE);
}

/// The ends of what may wait.
#[test]
fn a_waiting_set_may_have_any_code_and_length() {
    let [_, loaded, masked, spoken] = phases();
    for fine in [(NEXT, 0, 1), (NEXT, 2, 512), (u64::MAX, 1, 3)] {
        assert_eq!(all_calls(&put(&loaded, fine)), [3, 0, 3, 3, 0]);
        assert_eq!(all_calls(&put(&masked, fine)), [3, 3, 0, 3, 0]);
        assert_eq!(all_calls(&put(&spoken, fine)), [3, 3, 3, 0, 0]);
    }
}

/// What an earlier fault of the open set refuses, it refuses with a set waiting too.
#[test]
fn the_open_set_is_tested_beside_the_waiting_one() {
    for state in waiting() {
        let refused = |change: &dyn Fn(&mut Party)| {
            let mut wrong = state.clone();
            change(&mut wrong);
            assert_eq!(all_calls(&wrong), [3; 5]);
        };
        refused(&|state| state.phase = 4);
        refused(&|state| state.party = 2);
        refused(&|state| state.set.code = 3);
        refused(&|state| state.set.length = 0);
        refused(&|state| state.set.length = 513);
        refused(&|state| state.set.number = NEXT);
    }
}

/// By 7 where the tests before it pass: turn, L of the open set, kind, name and sender.
#[test]
fn messages_for_the_waiting_set_are_refused() {
    let own = |kind: u64| Label {
        sender: 0,
        ..next(kind)
    };
    for state in waiting() {
        let mut copy = state.clone();
        let mut take = |label: Label, vector: &[u32]| refusal::number(&copy.take(&label, vector));
        let takes = [
            take(next(MASKED_VECTOR), &[5, 6]),
            take(next(MASKED_VECTOR), &[5, 6, 7]),
            take(own(MASKED_VECTOR), &[5, 6]),
        ];
        let mut finish = |label: Label| refusal::number(&copy.finish(&label, 7));
        let finishes = [finish(next(WORD)), finish(own(WORD))];
        let expected = match state.phase {
            LOADED => ([3, 3, 3], [3, 3]),
            MASKED => ([7, 4, 6], [3, 3]),
            SPOKEN => ([3, 3, 3], [7, 6]),
            phase => unreachable!("phase {phase}"),
        };
        assert_eq!((takes, finishes), expected);
        assert_eq!(copy, state);
    }
}

/// After the open set has ended, the messages of the next are taken and the old refused.
#[test]
fn messages_go_to_the_set_that_was_waiting() {
    let [_, mut state, _] = waiting();
    state.drop_set().unwrap();
    state.mask(&[3, 4, 5], &mut [0; 3]).unwrap();
    let old = state.take(&label(MASKED_VECTOR, 1), &[5, 6, 7]);
    assert_eq!(refusal::number(&old), 7);
    state.take(&next(MASKED_VECTOR), &[5, 6, 7]).unwrap();
    assert_eq!(refusal::number(&state.finish(&label(WORD, 1), 7)), 7);
    state.finish(&next(WORD), 7).unwrap();
    let closed = Party {
        last: NEXT,
        ..started(0)
    };
    assert_eq!(state, closed);
}
