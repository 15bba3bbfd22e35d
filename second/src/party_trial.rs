//! The tests of 02, "Trial load", at a box: a trial against a load on a copy of the state, for
//! many states and halves, and the numbers that the papers give for them.

use crate::aead;
use crate::content::{self, Name, TEXT_BYTES};
use crate::dealing;
use crate::measure::{Measure, MAX_LENGTH};
use crate::message::{MASKED_VECTOR, WORD};
use crate::older::{self, DEALINGS};
use crate::party::tests::{dealt, dealt_as, label, phases, started, KEYS, NAME, NUMBER};
use crate::party::{Party, Told, IDLE};
use crate::party_ahead::{half_of, put, waiting, FAULTS, NEXT};
use crate::refusal::{self, Refusal};
use crate::replay_states::party_bytes;
use crate::rule::Rule::{self, Between, Threshold};
use crate::rule::MARKED;
use crate::sample::Source;
use crate::sealed::{self, BLOCK_BYTES};
use std::collections::BTreeSet;

/// What a trial says. It is what a load on a copy says, and what it tells is read off the set
/// that this load opens or has wait. The state stays, and a load after it is that load.
fn tried(state: &Party, half: &[u8]) -> Result<Told, Refusal> {
    let before = state.clone();
    let said = state.trial(half);
    assert_eq!(state.trial(half), said, "a second time");
    assert!(*state == before);
    let mut copy = before.clone();
    let loaded = copy.load(half);
    let brought = match before.phase {
        IDLE => &copy.set,
        _ => &copy.waiting,
    };
    let told = Told {
        name: before.name,
        code: brought.code,
        length: brought.length,
    };
    assert_eq!(said, loaded.map(|()| told));
    let mut later = state.clone();
    assert_eq!(later.load(half), loaded);
    assert!(later == copy);
    said
}

fn number(state: &Party, half: &[u8]) -> u32 {
    refusal::number(&tried(state, half))
}

/// The plain content of a half of this party.
fn plain(name: &Name, party: usize, measure: Measure, length: usize, rule: Rule) -> Vec<u8> {
    let halves = dealing::deal(measure, length, rule, &[7; 32]);
    content::lay_out(name, &halves[party])
}

/// Plain content with one byte replaced, sealed for the camera box under `NEXT`.
fn sealed_with(plain: &[u8], place: usize, byte: u8) -> Vec<u8> {
    let mut plain = plain.to_vec();
    plain[place] = byte;
    sealed::seal(&KEYS[0], NEXT, &plain)
}

/// A half with one bit of one byte changed.
fn damaged(half: &[u8], place: usize, bit: usize) -> Vec<u8> {
    let mut half = half.to_vec();
    half[place] ^= 1 << bit;
    half
}

/// What a host may do to a state. States are large: each is made when its turn comes.
type Change = Box<dyn Fn(&mut Party)>;

fn change(with: impl Fn(&mut Party) + 'static) -> Change {
    Box::new(with)
}

/// These numbers put into the waiting set.
fn putting(waiting: (u64, u32, u32)) -> Change {
    change(move |state| *state = put(state, waiting))
}

fn changed(state: &Party, change: &Change) -> Party {
    let mut state = state.clone();
    change(&mut state);
    state
}

/// Faults that refusal 3 names, in this phase: of phase, party, code and L, and of the waiting
/// set.
fn faults(phase: u32) -> Vec<Change> {
    let mut faults = vec![
        change(|state| state.phase = 4),
        change(|state| state.phase = u32::MAX),
        change(|state| state.party = 2),
        change(|state| state.party = u32::MAX),
        change(|state| state.set.code = 3),
        change(|state| state.set.code = u32::MAX),
        change(|state| state.set.length = MAX_LENGTH as u32 + 1),
        change(|state| state.set.length = u32::MAX),
    ];
    match phase {
        IDLE => faults.extend([
            change(|state| state.set.code = 1),
            change(|state| state.set.length = 1),
            change(|state| (state.set.code, state.set.length) = (2, 3)),
            putting((NEXT, 1, 3)),
            putting((0, 1, 0)),
        ]),
        _ => {
            faults.push(change(|state| state.set.length = 0));
            faults.push(change(|state| state.phase = IDLE));
            faults.extend(FAULTS.map(putting));
        }
    }
    faults
}

/// Numbers alone that are put over a waiting set: none waits then.
const NUMBERS_ALONE: [u64; 3] = [0, NEXT, u64::MAX];

/// What is not refused by 3, though calls leave no such state: numbers that disagree, a number
/// that waits alone, any width and mark, things left in the arrays, and another box.
fn oddities() -> Vec<Change> {
    let mut oddities = vec![
        change(|_| {}),
        change(|state| state.last = 0),
        change(|state| state.last = NEXT),
        change(|state| state.last = u64::MAX),
        change(|state| state.set.number = 0),
        change(|state| state.set.number = NEXT - 1),
        change(|state| (state.set.width, state.set.mark) = (u32::MAX, 7)),
        change(|state| (state.waiting.width, state.waiting.mark) = (5, MARKED)),
        change(|state| state.check.word = 9),
        change(|state| state.check.masked[511] = 9),
        change(|state| state.name[15] = b' '),
        change(|state| state.party = 1),
        change(|state| state.key[31] ^= 128),
    ];
    oddities.extend(NUMBERS_ALONE.map(|number| putting((number, 0, 0))));
    oddities
}

/// Halves of each kind for the camera box: good ones under many numbers, and with something
/// wrong under a number that may do and under one that may not.
fn halves() -> Vec<Vec<u8>> {
    let numbers = [NUMBER, NEXT, NEXT + 1, u64::MAX];
    let mut halves: Vec<Vec<u8>> = numbers.map(half_of).to_vec();
    for number in [NUMBER, NEXT + 1] {
        let [long, of_office] = dealt_as(number, Measure::Hamming, 18, Threshold(3));
        let name = *b"Hut 5\0\0\0\0\0\0\0\0\0\0\0";
        let plain = plain(&name, 0, Measure::Scalar, 1, Threshold(3));
        halves.extend([
            long[..1535].to_vec(),
            long[..1536].to_vec(),
            long[..1024].to_vec(),
            [&long[..], &long[..BLOCK_BYTES]].concat(),
            damaged(&long, 100, 0),
            damaged(&long[..1536], 511, 7),
            damaged(&long, 8, 0),
            sealed::seal(&KEYS[0], number, &plain),
            of_office,
            long,
        ]);
    }
    halves.extend([Vec::new(), vec![0; 7], vec![255; 1536], vec![0; 8704]]);
    halves
}

/// A trial against a load on every state of every kind with every half.
#[test]
fn a_trial_agrees_with_a_load_on_a_copy() {
    let (halves, mut seen) = (halves(), BTreeSet::new());
    for own in phases().into_iter().chain(waiting()) {
        let waits = own.waiting.length != 0;
        for half in &halves {
            for fault in faults(own.phase) {
                assert_eq!(number(&changed(&own, &fault), half), 3);
            }
            let (mut count, mut out_of_turn) = (0, 0);
            for oddity in oddities() {
                let number = number(&changed(&own, &oddity), half);
                seen.insert((own.phase, number));
                (count, out_of_turn) = (count + 1, out_of_turn + usize::from(number == 3));
            }
            let expected = if waits {
                count - NUMBERS_ALONE.len()
            } else {
                0
            };
            assert_eq!(out_of_turn, expected);
        }
    }
    for phase in 0..4 {
        let expected = [0, 4, 7, 10, 11].map(|number| (phase, number));
        assert!(
            expected.iter().all(|answer| seen.contains(answer)),
            "{phase}"
        );
    }
}

/// With a set waiting nothing of the half is looked at.
#[test]
fn a_trial_with_a_set_waiting_is_out_of_turn() {
    for state in waiting() {
        for half in halves() {
            assert_eq!(number(&state, &half), 3);
        }
    }
}

/// A trial while a set is open speaks of a load ahead, and tells of the half, not of that set.
#[test]
fn a_trial_tells_of_the_half_and_not_of_the_state() {
    let [half, _] = dealt_as(NEXT, Measure::Hamming, 511, Threshold(3));
    for state in phases() {
        let told = tried(&state, &half).unwrap();
        assert_eq!((told.name, told.code, told.length), (NAME, 2, 511));
        let told = tried(&state, &half_of(NEXT)).unwrap();
        assert_eq!((told.name, told.code, told.length), (NAME, 1, 3));
    }
}

/// Every length, so every count of blocks; every code, both parties, thresholds and marks.
#[test]
fn every_length_is_told() {
    for length in 1..=MAX_LENGTH {
        let measure = Measure::ALL[length % 3];
        let party = length / 3 % 2;
        let rule = match length / 6 % 2 {
            0 => Threshold(5),
            _ => Between(5, 5 + length as i32 % 3),
        };
        let halves = dealt(measure, length, rule);
        let told = Told {
            name: NAME,
            code: measure.code(),
            length: length as u32,
        };
        assert_eq!(tried(&started(party), &halves[party]), Ok(told));
    }
}

/// Codes, widths and marks at the ends of what a half may carry: mark and width are not told.
#[test]
fn what_is_told_has_no_width_and_no_mark() {
    for measure in Measure::ALL {
        let end = content::bytes(2);
        let equal = plain(&NAME, 0, measure, 2, Between(6, 6));
        let ordinary = plain(&NAME, 0, measure, 2, Threshold(6));
        assert_eq!(equal[end - 1], MARKED as u8);
        for (plain, place, byte) in [
            (&ordinary, end - 1, 0),
            (&equal, end - 5, 0),
            (&equal, end - 5, 255),
            (&equal, end - 2, 127),
        ] {
            let told = tried(&started(0), &sealed_with(plain, place, byte)).unwrap();
            assert_eq!((told.code, told.length), (measure.code(), 2));
        }
    }
}

/// The name that is told is the one that stands first in the half.
#[test]
fn the_name_is_that_of_the_half() {
    for name in [NAME, [0; 16], [255; 16], *b"Hut 4, east door"] {
        let plain = plain(&name, 0, Measure::Scalar, 1, Threshold(0));
        let half = sealed::seal(&KEYS[0], NEXT, &plain);
        let mut state = started(0);
        state.name = name;
        let told = tried(&state, &half).unwrap();
        let mut text = half[12..12 + TEXT_BYTES].to_vec();
        let (label, tag) = (half[..12].try_into().unwrap(), &half[12 + TEXT_BYTES..512]);
        let tag = tag.try_into().unwrap();
        assert!(aead::open(&KEYS[0], &label, &label, &mut text, tag));
        assert_eq!(told.name[..], text[..16]);
        for place in 0..16 {
            let mut other = state.clone();
            other.name[place] ^= 1;
            assert_eq!(number(&other, &half), 11, "{place}");
        }
    }
}

/// Numbers at, above and below the last one and the open one.
#[test]
fn a_tried_number_is_above_the_last_and_the_open_one() {
    let numbers = [
        0,
        1,
        NUMBER - 1,
        NUMBER,
        NEXT,
        NEXT + 1,
        u64::MAX - 1,
        u64::MAX,
    ];
    let plain = plain(&NAME, 0, Measure::Scalar, 1, Threshold(0));
    let halves = numbers.map(|number| sealed::seal(&KEYS[0], number, &plain));
    for mut state in phases() {
        for last in numbers {
            for open in numbers {
                (state.last, state.set.number) = (last, open);
                let floor = if state.phase == IDLE {
                    last
                } else {
                    last.max(open)
                };
                for (half, tried) in halves.iter().zip(numbers) {
                    let refusal = if tried > floor { 0 } else { 7 };
                    assert_eq!(number(&state, half), refusal, "{last} {open} {tried}");
                }
            }
        }
    }
}

/// Each byte of a block's number, index and tag, and many of its text. The number is odd: one
/// less is the last one.
#[test]
fn every_byte_counts() {
    let half = half_of(NEXT + 1);
    let mut idle = started(0);
    idle.last = NEXT;
    let [_, mut open, ..] = phases();
    open.last = NEXT;
    for place in 0..half.len() {
        let at = place % BLOCK_BYTES;
        let bit = if place == 0 { 0 } else { place % 8 };
        if !(13..490).contains(&at) || at.is_multiple_of(40) {
            let expected = if place == 0 { 7 } else { 10 };
            let half = damaged(&half, place, bit);
            for state in [&idle, &open] {
                assert_eq!(number(state, &half), expected, "{place}");
            }
        }
    }
}

/// A stale number comes before a tag, a wrong length before a stale number.
#[test]
fn the_lowest_refusal_is_the_answer() {
    let good = half_of(NUMBER);
    let broken = damaged(&good, 100, 0);
    let [idle, loaded, ..] = phases();
    for (last, refusals) in [(NUMBER, [4, 4, 7, 7]), (NUMBER - 1, [4, 4, 10, 0])] {
        let state = Party {
            last,
            ..idle.clone()
        };
        let halves = [&broken[..1535], &good[..1024], &broken, &good];
        assert_eq!(halves.map(|half| number(&state, half)), refusals);
    }
    let halves = [&broken[..1535], &good[..1024], &broken, &good];
    assert_eq!(halves.map(|half| number(&loaded, half)), [4, 4, 7, 7]);
}

/// Boxes of another party, name or key.
#[test]
fn a_half_for_another_box_is_refused() {
    let [half, of_office] = dealt(Measure::Scalar, 2, Threshold(0));
    for (party, key, refusals) in [
        (0, 0, [0, 10]),
        (1, 1, [10, 0]),
        (1, 0, [11, 10]),
        (0, 1, [10, 11]),
    ] {
        let state = Party::start(b"Hut 4", party, &KEYS[key], 10).unwrap();
        let answers = [&half, &of_office].map(|half| number(&state, half));
        assert_eq!(answers, refusals);
    }
    let state = Party::start(b"Hut 4 ", 0, &KEYS[0], 10).unwrap();
    assert_eq!(number(&state, &half), 11);
}

/// Content that is sealed well, with one thing out of range.
#[test]
fn wrong_contents_are_refused() {
    let ordinary = plain(&NAME, 0, Measure::Scalar, 1, Threshold(0));
    let equal = plain(&NAME, 0, Measure::Scalar, 1, Between(6, 6));
    let (flags, fill) = (20 + 12 + 8 + 32 + 36, content::bytes(1));
    for (plain, place, byte, refusal) in [
        (&ordinary, 16, 0, 0),
        (&ordinary, 16, 1, 11),
        (&ordinary, 17, 2, 0),
        (&ordinary, 17, 3, 11),
        (&ordinary, 18, 0, 11),
        (&ordinary, 18, 17, 11),
        (&ordinary, 19, 2, 11),
        (&ordinary, flags, 3, 0),
        (&ordinary, flags, 4, 11),
        (&ordinary, flags + 31 * 37, 128, 11),
        (&ordinary, fill, 1, 11),
        (&ordinary, ordinary.len() - 1, 1, 11),
        (&ordinary, fill - 1, 1, 0),
        (&ordinary, fill - 1, 2, 11),
        (&ordinary, fill - 5, 254, 11),
        (&ordinary, fill - 2, 255, 11),
        (&equal, fill - 1, 0, 11),
        (&equal, fill - 2, 128, 11),
        (&equal, fill - 2, 127, 0),
    ] {
        let half = sealed_with(plain, place, byte);
        for state in phases() {
            assert_eq!(number(&state, &half), refusal, "{place} {byte}");
        }
    }
}

#[test]
fn halves_from_before_are_refused() {
    for dealing in DEALINGS {
        for (party, length) in [(0, 1), (1, 17), (0, 57)] {
            let halves = dealing(Measure::Euclid, length, 5, &[3; 32]);
            let half = older::half(&NAME, &KEYS[party], NEXT, &halves[party]);
            assert_eq!(number(&started(party), &half), 11);
        }
    }
}

/// A half that was tried can still be loaded, and the bytes of the state are those that the
/// load alone leaves.
#[test]
fn a_tried_half_can_still_be_loaded() {
    for state in phases() {
        let (mut alone, mut after) = (state.clone(), state.clone());
        let before = party_bytes(&after);
        for number in [u64::MAX, NEXT + 1, NEXT] {
            after.trial(&half_of(number)).unwrap();
            assert_eq!(party_bytes(&after), before);
        }
        after.load(&half_of(NEXT)).unwrap();
        alone.load(&half_of(NEXT)).unwrap();
        assert_eq!(party_bytes(&after), party_bytes(&alone));
        let again = if state.phase == IDLE { 7 } else { 3 };
        assert_eq!(number(&after, &half_of(NEXT)), again);
    }
}

/// A check with trials before each of its calls is the check without them.
#[test]
fn trials_change_nothing_in_a_check() {
    let [half, _] = dealt(Measure::Scalar, 2, Threshold(0));
    let mut state = started(0);
    let try_all = |state: &Party, own: u32| {
        let answers = [&half, &half_of(NEXT), &vec![0; 1536]].map(|half| number(state, half));
        assert_eq!(answers, [own, 0, 7]);
    };
    try_all(&state, 0);
    state.load(&half).unwrap();
    try_all(&state, 7);
    state.mask(&[3, 4], &mut [0; 2]).unwrap();
    try_all(&state, 7);
    state.take(&label(MASKED_VECTOR, 1), &[5, 6]).unwrap();
    try_all(&state, 7);
    let [.., mut spoken] = phases();
    assert_eq!(state, spoken);
    let answer = spoken.finish(&label(WORD, 1), 7);
    assert_eq!(state.finish(&label(WORD, 1), 7), answer);
    try_all(&state, 7);
    assert_eq!(state, spoken);
}

/// States and halves of all kinds put together without a pattern, with more than one thing
/// wrong at a time.
#[test]
fn any_state_and_any_half() {
    let (halves, mut source) = (halves(), Source(900));
    let own: Vec<Party> = phases().into_iter().chain(waiting()).collect();
    for words in source.words(6 * 1500).chunks_exact(6) {
        let pick = |place: usize, count: usize| words[place] as usize % count;
        let mut state = own[pick(0, own.len())].clone();
        let changes = [oddities(), oddities(), faults(state.phase)];
        for (place, changes) in changes.iter().enumerate() {
            // Half of the time the state is left as it is.
            if let Some(change) = changes.get(pick(1 + place, 2 * changes.len())) {
                change(&mut state);
            }
        }
        let mut half = halves[pick(4, halves.len())].clone();
        if words[5] >> 30 == 0 && !half.is_empty() {
            half = damaged(&half, pick(5, half.len()), pick(5, 8));
        }
        tried(&state, &half).ok();
    }
}
