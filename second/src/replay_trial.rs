//! Trials (02, "Trial load") in the script of `test_replay`: halves that a load would take and
//! halves that it would not, in every phase, with a set waiting, on states that no call leaves,
//! and in the midst of checks. What each is answered by stands here and is not asked of this
//! implementation; in the lists of calls it is what the load answers that follows, or one on a
//! copy. The box's state is shown before and after.

use crate::field;
use crate::measure::{Measure, MAX_LENGTH};
use crate::older::DEALINGS;
use crate::party::{Party, IDLE, LOADED, MASKED, SPOKEN};
use crate::replay::{Replay, BOXES};
use crate::replay_boxes::loads_of_wrong_blocks;
use crate::replay_checks::Step::{self, Load, Mask};
use crate::replay_checks::{Check, AFTER_LOADS};
use crate::replay_script::{choices, Script, NOWHERE};
use crate::rule::Rule;

const PHASES: [u32; 4] = [IDLE, LOADED, MASKED, SPOKEN];

/// Some of the choices of a load's refusals.
const SOME_CHOICES: [&[u32]; 6] = [&[4], &[7], &[10], &[11], &[4, 7], &[7, 10]];

/// Lengths at the edges of L, where the count of blocks changes, and one whose two bytes are
/// both not zero.
const LENGTHS: [usize; 7] = [1, 17, 18, 56, 57, 300, MAX_LENGTH];

/// What is no line of a script. The newest half has four blocks, the one before it three.
const BAD_LINES: [&str; 15] = [
    "trial",
    "trial camera",
    "trial door camera 0 1536 0",
    "trial camera lock 0 1536 0",
    "trial camera camera 0 1536",
    "trial camera camera 0 1536 0 0",
    "trial camera camera 4 1536 0",
    "trial camera camera 0 2561 0",
    "trial camera camera 0 8705 0",
    "trial camera camera 0 1536 4294967296",
    "trial-mixed camera 4 0 0",
    "trial-mixed camera 0 1 3",
    "trial-mixed camera 0 0",
    "trial-bytes camera 0G",
    "trial-bytes camera ~2:1:0:1",
];

/// The line that tries what this one loads.
fn trial_of(load: &str) -> String {
    match load.split_once(' ') {
        Some(("load", fields)) => format!("trial {fields}"),
        Some((kind, fields)) => format!("trial-{kind} {fields}"),
        None => unreachable!("no load: {load}"),
    }
}

/// What a trial is answered by if a load that says this leaves this state.
fn answer_by(refusal: u32, left: &Party) -> String {
    let brought = match left.waiting.length {
        0 => &left.set,
        _ => &left.waiting,
    };
    match refusal {
        0 => format!(
            "0 {} {} {}",
            field::format(&left.name),
            brought.code,
            brought.length
        ),
        _ => refusal.to_string(),
    }
}

impl Script {
    /// A trial, and then the load of the same, which it must agree with: its refusal.
    pub fn tried_and_loaded(&mut self, at: usize, load: &str) -> u32 {
        let trial = self.say(trial_of(load));
        let loaded = self.say(load);
        let loaded = field::decimal(&loaded).expect("a load's answer");
        assert_eq!(trial, answer_by(loaded, &self.replay.boxes[at]), "{load}");
        loaded
    }

    /// A trial alone, which must agree with a load on a copy of the box.
    pub fn tried_only(&mut self, at: usize, load: &str) {
        let before = self.replay.boxes[at].clone();
        let mut copy = Replay {
            boxes: self.replay.boxes.clone(),
            dealt: self.replay.dealt.clone(),
            ..Replay::default()
        };
        let loaded = field::decimal(&copy.answer(load)).expect("a load's answer");
        self.answered(trial_of(load), answer_by(loaded, &copy.boxes[at]));
        assert_eq!(self.replay.boxes[at], before);
    }

    /// A trial that would not be taken.
    fn turned_down(&mut self, load: &str, refusal: u32) {
        self.answered(trial_of(load), refusal);
    }

    /// A trial that would be taken, at a box of this door.
    fn told(&mut self, load: &str, measure: Measure, length: usize) {
        let (name, code) = (&self.door.padded, measure.code());
        let answer = format!("0 {name} {code} {length}");
        self.answered(trial_of(load), answer);
    }

    /// Trials at a box in each phase: with many things wrong, of the half and of the state, and
    /// with none. Nothing of the state changes, and the half can still be loaded.
    fn tried_in_every_phase(&mut self, at: usize) {
        self.start("Tried", [7, 6, 5, 4]);
        for phase in PHASES {
            self.opened(at, Measure::Euclid, 18, phase);
            if phase == IDLE {
                self.dropped(at);
            }
            self.dealt(Measure::Hamming, 18, 10);
            let before = self.show(BOXES[at]);
            self.tried_with_things_wrong(at, phase);
            for _ in 0..2 {
                self.told(&self.load_line(at, 0), Measure::Hamming, 18);
            }
            let impossible = (at as u32 + phase).is_multiple_of(2);
            if impossible {
                self.tried_on_impossible(at);
            }
            if !impossible || phase == IDLE {
                self.tried_with_faults(at);
            }
            assert_eq!(self.show(BOXES[at]), before);
            self.loaded(at);
            self.tried_after_the_load(at);
        }
    }

    /// Halves with every choice of things wrong in one phase, and with some of them in the
    /// others. In one phase, in which the newest number is odd, blocks that are wrong: each box
    /// has every other one of them.
    fn tried_with_things_wrong(&mut self, at: usize, phase: u32) {
        let all = phase == 2 * at as u32;
        let wrong = match all {
            true => choices(&[4, 7, 10, 11]),
            false => SOME_CHOICES.map(<[u32]>::to_vec).to_vec(),
        };
        for wrong in wrong {
            let line = self.wrong_load(at, &wrong, (at + phase as usize) % 4);
            self.turned_down(&line, wrong[0]);
        }
        if all {
            for (line, refusal) in loads_of_wrong_blocks(at).into_iter().skip(at).step_by(2) {
                self.turned_down(&line, refusal);
            }
        }
    }

    /// The newest half, of length 18, has been loaded. Its own trial is stale then, or, with
    /// the set waiting, out of turn like every other.
    fn tried_after_the_load(&mut self, at: usize) {
        let waits = self.replay.boxes[at].waiting.length != 0;
        let before = self.show(BOXES[at]);
        self.turned_down(&self.load_line(at, 0), if waits { 3 } else { 7 });
        let empty = format!("bytes {} -", BOXES[at]);
        self.turned_down(&empty, if waits { 3 } else { 4 });
        self.dealt(Measure::Scalar, 2, 0);
        if waits {
            self.turned_down(&self.load_line(at, 0), 3);
            assert_eq!(self.show(BOXES[at]), before);
            self.dropped(at);
        }
        // The set that has waited is open now.
        self.told(&self.load_line(at, 0), Measure::Scalar, 2);
        self.turned_down(&self.load_line(at, 1), 7);
        self.dropped(at);
        self.show(BOXES[at]);
    }

    /// States that no call leaves.
    fn tried_on_impossible(&mut self, at: usize) {
        let state = &self.replay.boxes[at];
        let own = [state.phase, state.party, state.set.code, state.set.length];
        for (turn, impossible) in self.impossible(at).into_iter().enumerate() {
            if !impossible.contains(&u32::MAX) {
                self.put(at, impossible);
                self.tried_at_fault(at, turn);
            }
        }
        self.put(at, own);
    }

    /// Waiting sets that no call leaves.
    fn tried_with_faults(&mut self, at: usize) {
        for (turn, fault) in self.faults(at).into_iter().enumerate() {
            self.put_waiting(at, fault);
            self.tried_at_fault(at, turn);
        }
        self.put_waiting(at, (0, 0, 0));
    }

    /// A good half, or one that is not even whole.
    fn tried_at_fault(&mut self, at: usize, turn: usize) {
        let line = match turn % 2 {
            1 => format!("bytes {} 00", BOXES[at]),
            _ => self.load_line(at, 0),
        };
        self.turned_down(&line, 3);
    }

    /// A number alone that a host has put into the waiting set does not wait.
    fn tried_with_a_number_alone(&mut self, at: usize) {
        for number in [1, u64::MAX] {
            self.put_waiting(at, (number, 0, 0));
            self.told(&self.load_line(at, 0), Measure::Hamming, 3);
        }
        self.put_waiting(at, (0, 0, 0));
    }

    /// Every code at every length, by a threshold or two marks: code and L are told.
    fn tried_lengths(&mut self) {
        self.start("Hut 4, east door", [0; 4]);
        for (turn, length) in LENGTHS.into_iter().enumerate() {
            for (code, measure) in Measure::ALL.into_iter().enumerate() {
                let rule = match (turn + code) % 2 {
                    0 => Rule::Threshold(7),
                    _ => Rule::Between(7, 7 + code as i32),
                };
                self.dealt(measure, length, rule);
                self.told(&self.load_line((turn / 2 + code) % 2, 0), measure, length);
            }
        }
        self.tried_marks();
    }

    /// A set between two marks is open, and an ordinary one is tried, and the other way about.
    fn tried_marks(&mut self) {
        let rules = [Rule::Between(3, 9), Rule::Threshold(3)];
        for at in [0, 1] {
            self.dealt(Measure::Euclid, 17, rules[at]);
            self.loaded(at);
            self.dealt(Measure::Scalar, 1, rules[1 - at]);
            self.told(&self.load_line(at, 0), Measure::Scalar, 1);
            self.loaded(at);
            self.turned_down(&self.load_line(at, 0), 3);
            self.show(BOXES[at]);
        }
    }

    /// Numbers next to the last one; and the number that was tried is not the last one.
    fn tried_numbers(&mut self) {
        self.start("Above", [10, 10, 11, 0]);
        self.dealt(Measure::Scalar, 1, 0);
        self.answered("trial camera camera 0 1536 0", 7);
        for place in [NOWHERE, 0, 100, 511] {
            self.answered(format!("trial office office 0 1536 {place}"), 7);
        }
        self.answered("trial office office 0 1535 100", 4);
        self.told(&self.load_line(0, 0), Measure::Scalar, 1);
        self.dealt(Measure::Euclid, 2, 0);
        for line in ["trial camera camera 0 1536 0", "trial-mixed camera 0 1 0"] {
            self.answered(line, 10);
        }
        self.answered("trial office office 0 1536 0", 10);
        self.answered("trial office office 1 1536 100", 7);
        self.answered("trial-mixed office 0 1 0", 7);
        self.told("mixed camera 1 0 1", Measure::Euclid, 2);
        self.told("mixed office 2 0 2", Measure::Euclid, 2);
        // The newer one is tried, the older one loaded.
        self.told(&self.load_line(0, 0), Measure::Euclid, 2);
        assert_eq!(self.load(0, &self.load_line(0, 1)), 0);
        self.turned_down(&self.load_line(0, 1), 7);
        self.turned_down("load camera camera 1 1536 100", 7);
        self.turned_down("load camera camera 1 1535 100", 4);
        self.told(&self.load_line(0, 0), Measure::Euclid, 2);
        self.loaded(0);
        self.show(BOXES[0]);
        self.told(&self.load_line(1, 0), Measure::Euclid, 2);
        self.loaded(1);
        self.turned_down(&self.load_line(1, 0), 7);
        self.show(BOXES[1]);
    }

    fn highest_tried_numbers(&mut self) {
        self.start("Highest", [u64::MAX - 1, u64::MAX - 1, u64::MAX, 0]);
        self.dealt(Measure::Scalar, 1, 0);
        self.told(&self.load_line(0, 0), Measure::Scalar, 1);
        self.turned_down(&self.load_line(1, 0), 7);
        self.answered("trial-bytes office @1536:9", 7);
        self.loaded(0);
        for _ in 0..2 {
            self.turned_down(&self.load_line(0, 0), 7);
            self.answered("trial camera camera 0 1536 100", 7);
            self.drop_set(0);
        }
        self.show(BOXES[0]);
    }

    /// Open and last number that disagree, as a host may put them: a half must be above both.
    /// With none open it is compared with the last one alone.
    fn tried_where_numbers_disagree(&mut self, at: usize) {
        self.start("Odd", [70, 60, 60, 60]);
        self.claim.off = true;
        let first = self.opened(at, Measure::Scalar, 2, LOADED);
        for length in [2, 3, 4] {
            self.dealt(Measure::Hamming, length, 1);
        }
        self.put_waiting(at, (first + 2, 1, 2));
        self.dropped(at);
        for step in [1, 2] {
            self.turned_down(&self.half_line(at, first + step), 7);
        }
        self.told(&self.half_line(at, first + 3), Measure::Hamming, 4);
        self.put(at, [IDLE, at as u32, 0, 0]);
        self.told(&self.half_line(at, first + 1), Measure::Hamming, 2);
        // The last number is that of a set which the host has taken away while it waited.
        for step in [1, 3] {
            assert_eq!(self.load(at, &self.half_line(at, first + step)), 0);
        }
        self.put_waiting(at, (0, 0, 0));
        for step in [2, 3] {
            self.turned_down(&self.half_line(at, first + step), 7);
        }
        self.dealt(Measure::Hamming, 3, 1);
        self.told(&self.load_line(at, 0), Measure::Hamming, 3);
        self.tried_with_a_number_alone(at);
        self.show(BOXES[at]);
    }

    /// Boxes with another name, party or key than the half is for, and the box it is for.
    fn tried_at_other_boxes(&mut self) {
        self.start("Hut 4", [0; 4]);
        self.dealt(Measure::Hamming, 17, 3);
        let (name, [key0, key1]) = (self.door.bare.clone(), self.door.keys.clone());
        for (name, party, key, refusals) in [
            (&name[..], 1, &key0, [11, 10]),
            (&name, 0, &key1, [10, 11]),
            (&field::format(b"Hut 5"), 0, &key0, [11, 10]),
            (&field::format(b"hut 4"), 1, &key1, [10, 11]),
            (&field::format(b"Hut 4 "), 0, &key0, [11, 10]),
            (&field::format(b"Hut"), 1, &key1, [10, 11]),
        ] {
            self.answered(format!("party camera {name} {party} {key} 0"), 0);
            for (from, refusal) in BOXES.into_iter().zip(refusals) {
                self.turned_down(&format!("load camera {from} 0 2048 {NOWHERE}"), refusal);
            }
        }
        // A stale half for another door, and a box that has changed about.
        self.answered(format!("party camera 41 0 {key0} 1"), 0);
        self.turned_down(&self.load_line(0, 0), 7);
        self.answered(format!("party camera {name} 1 {key1} 0"), 0);
        self.turned_down(&self.load_line(0, 0), 10);
        let office = format!("load camera office 0 2048 {NOWHERE}");
        self.told(&office, Measure::Hamming, 17);
        self.show(BOXES[0]);
    }

    /// A half as hex, and halves from before each change, at an idle box and with a set open.
    fn tried_bytes(&mut self) {
        self.start("Older", [0; 4]);
        self.dealt(Measure::Euclid, 1, Rule::Between(4, 9));
        let half = field::format(&self.replay.dealt[0][1]);
        self.told(&format!("bytes office {half}"), Measure::Euclid, 1);
        self.loaded(1);
        for (age, dealing) in DEALINGS.into_iter().enumerate() {
            let at = age % 2;
            let check = self.check_that_is_met(Measure::ALL[2 - at], 1);
            let line = self.older_line(dealing, at, &check.deal);
            self.turned_down(&line, 11);
            self.show(BOXES[at]);
        }
    }

    /// A whole check in the right order: before each call on a box the half of the next set is
    /// tried there, and after it that of the check. In one turn the next set is loaded ahead at
    /// a box, trials are out of turn there from then on, and its check follows.
    fn check_amid_trials(&mut self, turn: usize) {
        let lengths = [[2, 18], [17, 1]][turn];
        let [first, mut next] = [0, 1].map(|which: usize| {
            let measure = Measure::ALL[(turn + 2 * which) % 3];
            self.near_check(measure, lengths[which], which == turn, which == turn)
        });
        next.deal.number = first.deal.number + 1;
        for check in [&first, &next] {
            assert_eq!(self.step(check, Step::Deal), 0);
        }
        let mut steps = vec![Load(0), Load(1)];
        steps.extend(AFTER_LOADS);
        for step in steps {
            self.step_amid_trials([&first, &next], step);
            if turn == 1 && step == Mask(1) {
                assert_eq!(self.step(&next, Load(1)), 0);
            }
        }
        let mut checks = vec![first];
        if turn == 1 {
            for step in [Load(0)].into_iter().chain(AFTER_LOADS) {
                assert_eq!(self.step(&next, step), 0);
            }
            checks.push(next);
        }
        for check in checks {
            let bit = self.claim.joined[&check.deal.number];
            assert_eq!(bit, u32::from(check.met), "{}", check.deal);
        }
    }

    fn step_amid_trials(&mut self, [first, next]: [&Check; 2], step: Step) {
        let Some(at) = step.at() else {
            assert_eq!(self.step(first, step), 0);
            return;
        };
        let waits = |script: &Script| script.replay.boxes[at].waiting.length != 0;
        let later = self.half_line(at, next.deal.number);
        if waits(self) {
            self.turned_down(&later, 3);
        } else {
            let measure = Measure::from_code(next.deal.code).expect("a code");
            self.told(&later, measure, next.deal.length as usize);
        }
        assert_eq!(self.step(first, step), 0);
        let own = self.half_line(at, first.deal.number);
        self.turned_down(&own, if waits(self) { 3 } else { 7 });
    }

    /// None of them changes a state.
    fn bad_lines_of_trials(&mut self) {
        self.start("Bad", [0; 4]);
        self.dealt(Measure::Scalar, 1, 0);
        self.dealt(Measure::Scalar, 17, 0);
        let before = self.show(BOXES[0]);
        for line in BAD_LINES {
            let place = self.list.len() + 1;
            self.answered(line, format!("bad line {place}"));
        }
        self.answered("trial camera camera 0 2560 0", 10);
        assert_eq!(self.show(BOXES[0]), before);
    }

    /// All of it.
    pub fn trials(&mut self) {
        for at in [0, 1] {
            self.tried_in_every_phase(at);
            self.tried_where_numbers_disagree(at);
        }
        self.tried_lengths();
        self.tried_numbers();
        self.highest_tried_numbers();
        self.tried_at_other_boxes();
        self.tried_bytes();
        self.start("Amid", [3, 2, 1, 0]);
        for turn in [0, 1] {
            self.check_amid_trials(turn);
        }
        self.tried_lists();
        self.bad_lines_of_trials();
    }
}

#[cfg(test)]
mod tests {
    use super::*;
    use crate::opened::NO_SET;
    use crate::party::Told;
    use crate::refusal::{self, Refusal};
    use crate::sealed::BLOCK_BYTES;
    use std::collections::BTreeSet;

    /// A trial of the script: the state it is handed, the bytes, and what it is answered by.
    struct Tried {
        at: usize,
        state: Party,
        half: Vec<u8>,
        answer: Result<Told, Refusal>,
    }

    /// Each trial of the script that is no bad line.
    fn tried() -> Vec<Tried> {
        let (mut script, mut replay) = (Script::default(), Replay::default());
        script.trials();
        let mut tried = Vec::new();
        for case in &script.list {
            let fields: Vec<&str> = case.line.split(' ').collect();
            let half = match fields[0] {
                "trial" if fields.len() == 6 => replay.cut_half(&fields[2..]),
                "trial-mixed" => replay.mixed_half(fields[1], &fields[2..]),
                "trial-bytes" => field::parse(fields[2]).ok(),
                _ => None,
            };
            let at = BOXES.iter().position(|name| fields.get(1) == Some(name));
            if let (Some(at), Some(half), false) = (at, half, case.expected.starts_with("bad")) {
                let state = replay.boxes[at].clone();
                let answer = state.trial(&half);
                assert!(case
                    .expected
                    .starts_with(&refusal::number(&answer).to_string()));
                tried.push(Tried {
                    at,
                    state,
                    half,
                    answer,
                });
            }
            replay.answer(&case.line);
        }
        tried
    }

    /// Every answer at each box in each phase, with a set waiting and without.
    #[test]
    fn every_answer_is_there_in_every_phase() {
        let trials = tried();
        let seen: BTreeSet<_> = trials
            .iter()
            .map(|tried| {
                let (state, waits) = (&tried.state, tried.state.waiting.length != 0);
                (tried.at, state.phase, waits, refusal::number(&tried.answer))
            })
            .collect();
        for at in [0, 1] {
            for phase in PHASES {
                for number in [0, 3, 4, 7, 10, 11] {
                    assert!(
                        seen.contains(&(at, phase, false, number)),
                        "{at} {phase} {number}"
                    );
                }
                assert!(seen.contains(&(at, phase, true, 3)), "{at} {phase}");
            }
        }
        assert!(seen
            .iter()
            .all(|(_, _, waits, number)| !waits || *number == 3));
    }

    type Slip = (&'static str, fn(&Party, &[u8]) -> Result<Told, Refusal>);

    /// A trial on a state with something changed that it would look at.
    fn on(state: &Party, half: &[u8], change: fn(&mut Party)) -> Result<Told, Refusal> {
        let mut state = state.clone();
        change(&mut state);
        state.trial(half)
    }

    /// A trial that tells something else in place of code and L.
    fn telling(state: &Party, half: &[u8], (code, length): (u32, u32)) -> Result<Told, Refusal> {
        let told = Told {
            name: state.name,
            code,
            length,
        };
        state.trial(half).map(|_| told)
    }

    /// Careless trials of the papers' readings, and some more.
    const SLIPS: [Slip; 13] = [
        ("3 with a set open", |state, half| match state.phase {
            IDLE => state.trial(half),
            _ => Err(Refusal::Turn),
        }),
        ("tells of the open set", |state, half| match state.phase {
            IDLE => state.trial(half),
            _ => telling(state, half, (state.set.code, state.set.length)),
        }),
        ("tells of the waiting set", |state, half| {
            match state.waiting.length {
                0 => state.trial(half),
                length => Ok(Told {
                    name: state.name,
                    code: state.waiting.code,
                    length,
                }),
            }
        }),
        ("tells of what waits", |state, half| match state.phase {
            IDLE => state.trial(half),
            _ => telling(state, half, (state.waiting.code, state.waiting.length)),
        }),
        ("tags before the number", |state, half| {
            let any_number = on(state, half, |state| (state.last, state.set.number) = (0, 0));
            match any_number {
                Err(Refusal::Block) => any_number,
                _ => state.trial(half),
            }
        }),
        ("the number before the length", |state, half| {
            let label = half.first_chunk().map(|number| u64::from_le_bytes(*number));
            match (state.trial(half), label) {
                (Err(Refusal::Length), Some(number)) if number <= state.last => {
                    Err(Refusal::Number)
                }
                (answer, _) => answer,
            }
        }),
        ("the length before the turn", |state, half| {
            match half.len().is_multiple_of(BLOCK_BYTES) {
                true => state.trial(half),
                false => Err(Refusal::Length),
            }
        }),
        ("above the last number alone", |state, half| {
            on(state, half, |state| state.set.number = 0)
        }),
        ("above the open number alone", |state, half| {
            match state.phase {
                IDLE => state.trial(half),
                _ => on(state, half, |state| state.last = 0),
            }
        }),
        ("no look at what waits", |state, half| {
            on(state, half, |state| state.waiting = NO_SET)
        }),
        ("no look at the state", |state, half| {
            on(state, half, |state| {
                (state.phase, state.party) = (IDLE, state.party.min(1));
                (state.set, state.waiting) = (NO_SET, NO_SET);
            })
        }),
        ("the low byte of L", |state, half| {
            let told = state.trial(half)?;
            telling(state, half, (told.code, told.length & 255))
        }),
        ("L rounded up", |state, half| {
            let told = state.trial(half)?;
            let length = told.length.next_multiple_of(2);
            telling(state, half, (told.code, length))
        }),
    ];

    /// For each slip there is a trial in the script that is not answered so.
    #[test]
    fn every_slip_is_caught() {
        let trials = tried();
        for (name, slip) in SLIPS {
            let caught = trials
                .iter()
                .filter(|tried| slip(&tried.state, &tried.half) != tried.answer);
            assert!(caught.count() > 0, "{name}");
        }
    }
}
