//! A box and its calls: 01, "One check at a box" and "When a call is turned down", and 02,
//! "Load ahead" and "Trial load". Width and mark of a state are what its set brought, or what
//! the host put there: no call tests them.

use crate::content::Name;
use crate::measure::MAX_LENGTH;
use crate::message::{padded, secret, Label, MASKED_VECTOR, WORD};
use crate::opened::{spread, OpenedSet, Words, NO_SET};
use crate::refusal::Refusal;
use crate::sealed::{self, Holder, Set};

/// How many calls of a check a box has answered: with none of them, no set is open.
pub const IDLE: u32 = 0;
pub const LOADED: u32 = 1;
pub const MASKED: u32 = 2;
pub const SPOKEN: u32 = 3;

/// A box's state. It is plain data, as a host hands it in: it may hold what no call
/// leaves.
#[derive(Clone, Debug, PartialEq, Eq)]
pub struct Party {
    pub name: Name,
    /// 0 at the camera, 1 at the office.
    pub party: u32,
    pub key: [u8; 32],
    pub last: u64,
    pub phase: u32,
    /// The set that is open.
    pub set: OpenedSet,
    pub check: Check,
    /// The set that a load ahead has brought: one waits exactly where its L is not zero.
    pub waiting: OpenedSet,
}

/// What calls 2 and 3 have added to the open set.
#[derive(Clone, Debug, PartialEq, Eq)]
pub struct Check {
    pub masked: Words,
    pub own: u32,
    pub word: u32,
}

const NO_CHECK: Check = Check {
    masked: [0; MAX_LENGTH],
    own: 0,
    word: 0,
};

/// What a trial tells of a half that a load would take. Number, width and mark are not asked
/// for.
#[derive(Clone, Copy, Debug, PartialEq, Eq)]
pub struct Told {
    /// The door: the padded name in the half.
    pub name: Name,
    pub code: u32,
    /// L, as the half carries it.
    pub length: u32,
}

impl Default for Party {
    /// All zero.
    fn default() -> Party {
        Party {
            name: [0; 16],
            party: 0,
            key: [0; 32],
            last: 0,
            phase: IDLE,
            set: NO_SET,
            check: NO_CHECK,
            waiting: NO_SET,
        }
    }
}

impl Party {
    pub fn start(name: &[u8], party: u64, key: &[u8], floor: u64) -> Result<Party, Refusal> {
        let name = padded(name)?;
        Refusal::PartyOrCode.unless(party < 2)?;
        Ok(Party {
            name,
            party: party as u32,
            key: secret(key)?,
            last: floor,
            ..Party::default()
        })
    }

    fn has_waiting(&self) -> bool {
        self.waiting.length != 0
    }

    /// Whether the state is one that calls leave, as far as that is tested.
    fn is_sound(&self) -> bool {
        let open = match self.phase {
            IDLE => self.set.is_none(),
            LOADED | MASKED | SPOKEN => self.set.is_loadable(),
            _ => false,
        };
        open && self.party < 2 && self.waits_soundly()
    }

    /// The part of it that the waiting set has. With none waiting its number is compared
    /// with nothing: it is zero, and the open one is not.
    fn waits_soundly(&self) -> bool {
        match self.has_waiting() {
            false => self.waiting.is_none(),
            true => {
                let above = self.waiting.number > self.set.number;
                self.phase != IDLE && above && self.waiting.is_loadable()
            }
        }
    }

    /// Refusal 3, of a call that has its turn in this phase.
    fn turn(&self, phase: u32) -> Result<(), Refusal> {
        Refusal::Turn.unless(self.phase == phase && self.is_sound())
    }

    /// Refusals 6 and 7, of a message that must be of this kind.
    fn expect(&self, label: &Label, kind: u64) -> Result<(), Refusal> {
        let sender = 1 - u64::from(self.party);
        Refusal::Label.unless(label.is(kind, &self.name, sender))?;
        Refusal::Number.unless(label.number == self.set.number)
    }

    /// The number that a half's must be above. In states that calls leave, the last number
    /// is never below the open one; in others it may be.
    fn floor(&self) -> u64 {
        match self.phase {
            IDLE => self.last,
            _ => self.last.max(self.set.number),
        }
    }

    /// A set that has just opened, or none: nothing is left of an earlier check, and nothing
    /// waits.
    fn hold(&mut self, phase: u32, set: OpenedSet) {
        self.phase = phase;
        self.set = set;
        self.check = NO_CHECK;
        self.waiting = NO_SET;
    }

    /// The open set ends. The waiting one, if there is one, opens in its place; its number
    /// was spent at its load.
    fn close(&mut self) {
        match self.has_waiting() {
            true => self.hold(LOADED, self.waiting.clone()),
            false => self.hold(IDLE, NO_SET),
        }
    }

    /// All tests of a load, and the set that it would bring. Nothing is kept of it.
    fn examine(&self, half: &[u8]) -> Result<Set, Refusal> {
        Refusal::Turn.unless(self.is_sound() && !self.has_waiting())?;
        let holder = Holder {
            name: &self.name,
            party: self.party as usize,
            key: &self.key,
        };
        sealed::examine(half, &holder, self.floor())
    }

    /// What a load of this half would say. The number is not spent: a half that was tried can
    /// still be loaded.
    pub fn trial(&self, half: &[u8]) -> Result<Told, Refusal> {
        let Set { half, .. } = self.examine(half)?;
        Ok(Told {
            // A half with another name in it has been refused.
            name: self.name,
            code: half.measure.code(),
            length: half.own_mask.len() as u32,
        })
    }

    /// Call 1: opens a set, or has it wait for the open one to end.
    pub fn load(&mut self, half: &[u8]) -> Result<(), Refusal> {
        let set = self.examine(half)?;
        self.last = set.number;
        match self.phase {
            IDLE => self.hold(LOADED, OpenedSet::new(&set)),
            _ => self.waiting = OpenedSet::new(&set),
        }
        Ok(())
    }

    /// Call 2: the masked vector goes to the start of the buffer.
    pub fn mask(&mut self, vector: &[u32], buffer: &mut [u32]) -> Result<(), Refusal> {
        self.turn(LOADED)?;
        let length = self.set.length();
        Refusal::Length.unless(vector.len() == length)?;
        Refusal::Room.unless(buffer.len() >= length)?;
        let measure = self.set.measure();
        let elements: Vec<i32> = vector.iter().map(|&word| word as i32).collect();
        let range = measure.elements();
        Refusal::Range.unless(elements.iter().all(|element| range.contains(element)))?;

        let masked = self.set.half(self.party).masked(&elements);
        buffer[..length].copy_from_slice(&masked);
        self.check.masked = spread(&masked);
        self.check.own = measure.own(&elements) as u32;
        self.phase = MASKED;
        Ok(())
    }

    /// Call 3: the word, from the other's masked vector.
    pub fn take(&mut self, label: &Label, vector: &[u32]) -> Result<u32, Refusal> {
        self.turn(MASKED)?;
        let length = self.set.length();
        Refusal::Length.unless(label.is_whole() && vector.len() == length)?;
        self.expect(label, MASKED_VECTOR)?;

        let own = &self.check.masked[..length];
        let (mx, my) = match self.party {
            0 => (own, vector),
            _ => (vector, own),
        };
        let half = self.set.half(self.party);
        self.check.word = half.word_with(self.check.own, mx, my);
        self.phase = SPOKEN;
        Ok(self.check.word)
    }

    /// Call 4: the answer, from the other's word. It closes the set.
    pub fn finish(&mut self, label: &Label, word: u32) -> Result<u32, Refusal> {
        self.turn(SPOKEN)?;
        Refusal::Length.unless(label.is_whole())?;
        self.expect(label, WORD)?;

        let z = self.check.word.wrapping_add(word);
        let answer = self.set.half(self.party).answer(z);
        self.close();
        Ok(answer)
    }

    /// Ends the open set, and that one only.
    pub fn drop_set(&mut self) -> Result<(), Refusal> {
        Refusal::Turn.unless(self.phase != IDLE && self.is_sound())?;
        self.close();
        Ok(())
    }
}

#[cfg(test)]
pub mod tests {
    use super::*;
    use crate::dealer::{Dealer, Order};
    use crate::lock::{Answer, Lock};
    use crate::measure::Measure;
    use crate::message::ANSWER;
    use crate::refusal;
    use crate::rule::Rule::{self, Between, Threshold};
    use crate::sample::Source;
    use crate::share;

    pub const KEYS: [[u8; 32]; 2] = [[1; 32], [2; 32]];
    pub const NAME: Name = *b"Hut 4\0\0\0\0\0\0\0\0\0\0\0";
    pub const NUMBER: u64 = 11;

    pub fn started(party: usize) -> Party {
        Party::start(b"Hut 4", party as u64, &KEYS[party], 10).unwrap()
    }

    /// The halves of a set under this number.
    pub fn dealt_as(number: u64, measure: Measure, length: usize, rule: Rule) -> [Vec<u8>; 2] {
        let mut dealer = Dealer::start(b"Hut 4", 10, [&KEYS[0], &KEYS[1]]).unwrap();
        let order = Order {
            code: measure.code().into(),
            length: length as u64,
            rule,
            number,
            seed: &[length as u8; 32],
        };
        let bytes = 512 * crate::content::blocks(length);
        let mut halves = [vec![0; bytes], vec![0; bytes]];
        let [half0, half1] = &mut halves;
        dealer.deal(&order, [half0, half1]).unwrap();
        halves
    }

    pub fn dealt(measure: Measure, length: usize, rule: Rule) -> [Vec<u8>; 2] {
        dealt_as(NUMBER, measure, length, rule)
    }

    fn words(vector: &[i32]) -> Vec<u32> {
        vector.iter().map(|&element| element as u32).collect()
    }

    pub fn label(kind: u64, sender: usize) -> Label<'static> {
        Label {
            kind,
            name: &NAME,
            sender: sender as u64,
            number: NUMBER,
        }
    }

    /// One check from the deal to the join, with what each box answers on the way.
    pub fn door(measure: Measure, rule: Rule, x: &[i32], y: &[i32]) -> share::Run {
        let halves = dealt(measure, x.len(), rule);
        let mut boxes = [started(0), started(1)];
        let mut masked = [vec![0; x.len()], vec![0; x.len()]];
        for (party, vector) in [(0, x), (1, y)] {
            boxes[party].load(&halves[party]).unwrap();
            let buffer = &mut masked[party];
            boxes[party].mask(&words(vector), buffer).unwrap();
        }
        let [box0, box1] = &mut boxes;
        let words = [
            box0.take(&label(MASKED_VECTOR, 1), &masked[1]).unwrap(),
            box1.take(&label(MASKED_VECTOR, 0), &masked[0]).unwrap(),
        ];
        let answers = [
            box0.finish(&label(WORD, 1), words[1]).unwrap(),
            box1.finish(&label(WORD, 0), words[0]).unwrap(),
        ];
        let [first, second] = [0, 1].map(|sender| Answer {
            label: label(ANSWER, sender),
            answer: answers[sender],
        });
        let mut lock = Lock::start(b"Hut 4", 10).unwrap();
        share::Run {
            masked,
            words,
            z: words[0].wrapping_add(words[1]),
            answers,
            joined: lock.join([&first, &second]).unwrap(),
        }
    }

    #[test]
    fn the_lock_says_whether_the_threshold_is_reached() {
        let mut source = Source(300);
        for measure in Measure::ALL {
            for length in [1, 2, 17, 18, 128, 511, 512] {
                let x = source.vector(measure, length);
                let y = source.vector(measure, length);
                let value = measure.of(&x, &y) as i32;
                for threshold in value - 1..=value + 1 {
                    if measure.thresholds().contains(&threshold) {
                        let joined = door(measure, Threshold(threshold), &x, &y).joined;
                        let reached = match measure {
                            Measure::Scalar => value >= threshold,
                            Measure::Euclid | Measure::Hamming => value <= threshold,
                        };
                        assert_eq!(joined, u32::from(reached));
                    }
                }
            }
        }
    }

    /// A box says what the functions of a check say.
    #[test]
    fn boxes_say_what_the_check_says() {
        let mut source = Source(400);
        for measure in Measure::ALL {
            let (x, y) = (source.vector(measure, 20), source.vector(measure, 20));
            for rule in [Threshold(7), Between(7, 11)] {
                let halves = crate::dealing::deal(measure, 20, rule, &[20; 32]);
                let expected = share::run(&halves, &x, &y);
                let run = door(measure, rule, &x, &y);
                assert_eq!(run.masked, expected.masked);
                assert_eq!(run.words, expected.words);
                assert_eq!(run.answers, expected.answers);
            }
        }
    }

    /// The line of 01 on the longest vectors, as 02 reads it.
    #[test]
    fn the_largest_distance() {
        let (x, y) = ([-1024; MAX_LENGTH], [1023; MAX_LENGTH]);
        for (threshold, bit) in [(2_145_387_007, 0), (2_145_387_008, 1), (2_145_387_009, 1)] {
            let run = door(Measure::Euclid, Threshold(threshold), &x, &y);
            assert_eq!(run.joined, bit);
        }
    }

    #[test]
    fn starts() {
        let start = |name: &[u8], party, key: usize| {
            refusal::number(&Party::start(name, party, &[5; 33][..key], 0))
        };
        assert_eq!(start(b"Hut 4, east door", 1, 32), 0);
        assert_eq!(start(b"Hut 4, east doors", 2, 31), 1);
        assert_eq!(start(b"Hut 4", 2, 31), 2);
        assert_eq!(start(b"Hut 4", 1 << 32, 32), 2);
        assert_eq!(start(b"Hut 4", 0, 31), 4);
        assert_eq!(start(b"Hut 4", 0, 33), 4);
    }

    /// A box of party 0 at each phase of a check of length 2, in the order of phases.
    pub fn phases() -> [Party; 4] {
        let [half, _] = dealt(Measure::Scalar, 2, Threshold(0));
        let idle = started(0);
        let mut loaded = idle.clone();
        loaded.load(&half).unwrap();
        let mut masked = loaded.clone();
        masked.mask(&[3, 4], &mut [0; 2]).unwrap();
        let mut spoken = masked.clone();
        spoken.take(&label(MASKED_VECTOR, 1), &[5, 6]).unwrap();
        [idle, loaded, masked, spoken]
    }

    /// The refusals of load, mask, take, finish and drop, each with what its own phase
    /// takes. The half is not that of the open set.
    pub fn all_calls(state: &Party) -> [u32; 5] {
        let [half, _] = dealt_as(NUMBER + 5, Measure::Euclid, 3, Threshold(0));
        let on = |call: &dyn Fn(&mut Party) -> u32| {
            let mut copy = state.clone();
            let number = call(&mut copy);
            assert_eq!(copy == *state, number != 0);
            number
        };
        [
            on(&|state| refusal::number(&state.load(&half))),
            on(&|state| refusal::number(&state.mask(&[3, 4], &mut [0; 2]))),
            on(&|state| refusal::number(&state.take(&label(MASKED_VECTOR, 1), &[5, 6]))),
            on(&|state| refusal::number(&state.finish(&label(WORD, 1), 7))),
            on(&|state| refusal::number(&state.drop_set())),
        ]
    }

    #[test]
    fn each_call_has_its_turn() {
        let [idle, loaded, masked, spoken] = phases();
        assert_eq!(all_calls(&idle), [0, 3, 3, 3, 3]);
        assert_eq!(all_calls(&loaded), [0, 0, 3, 3, 0]);
        assert_eq!(all_calls(&masked), [0, 3, 0, 3, 0]);
        assert_eq!(all_calls(&spoken), [0, 3, 3, 0, 0]);
    }

    #[test]
    fn a_state_that_no_call_leaves_is_refused() {
        for state in phases() {
            let refused = |change: &dyn Fn(&mut Party)| {
                let mut wrong = state.clone();
                change(&mut wrong);
                assert_eq!(all_calls(&wrong), [3; 5]);
            };
            refused(&|state| state.phase = 4);
            refused(&|state| state.phase = u32::MAX);
            refused(&|state| state.party = 2);
            refused(&|state| state.set.code = 3);
            refused(&|state| state.set.length = 513);
            match state.phase {
                IDLE => {
                    refused(&|state| state.set.code = 1);
                    refused(&|state| state.set.length = 1);
                }
                _ => refused(&|state| state.set.length = 0),
            }
        }
    }

    #[test]
    fn a_set_leaves_nothing_but_its_number() {
        let [idle, loaded, masked, spoken] = phases();
        let mut closed = idle;
        closed.last = NUMBER;
        for mut state in [loaded, masked, spoken.clone()] {
            state.drop_set().unwrap();
            assert_eq!(state, closed);
        }
        let mut answered = spoken;
        answered.finish(&label(WORD, 1), 7).unwrap();
        assert_eq!(answered, closed);
        let [half, _] = dealt(Measure::Scalar, 2, Threshold(0));
        assert_eq!(closed.load(&half), Err(Refusal::Number));
    }

    #[test]
    fn loads_are_refused_in_order() {
        let [half, _] = dealt(Measure::Scalar, 2, Threshold(0));
        let mut broken = half.clone();
        broken[100] ^= 1;
        let mut idle = started(0);
        for (last, bytes, refusal) in [
            (NUMBER, &broken[..1535], 4),
            (NUMBER, &broken[..], 7),
            (10, &broken[..], 10),
        ] {
            idle.last = last;
            let before = idle.clone();
            assert_eq!(refusal::number(&idle.load(bytes)), refusal);
            assert_eq!(idle, before);
        }
        idle.name[15] = b' ';
        assert_eq!(idle.load(&half), Err(Refusal::Content));
    }

    /// 01: element 1,023 is taken, 1,024 refused by 8.
    #[test]
    fn masks_are_refused_in_order() {
        let [_, loaded, ..] = phases();
        for (vector, room, refusal) in [
            (&[1024][..], 0, 4),
            (&[1024, 0, 0], 2, 4),
            (&[0, 1024], 1, 5),
            (&[0, 1024], 2, 8),
            (&[u32::MAX - 1024, 0], 2, 8),
            (&[u32::MAX - 1023, 1023], 2, 0),
            (&[1023, 1023], 5, 0),
        ] {
            let mut state = loaded.clone();
            let mut buffer = vec![9; room];
            let answer = state.mask(vector, &mut buffer);
            assert_eq!(refusal::number(&answer), refusal, "{vector:?}");
            let untouched = if refusal == 0 { 2 } else { 0 };
            assert!(buffer[untouched..].iter().all(|&word| word == 9));
            assert_eq!(state == loaded, refusal != 0);
        }
    }

    /// Labels with everything wrong, then put right from the lowest refusal up.
    fn wrong_labels(kind: u64) -> [(Label<'static>, u32); 7] {
        let good = label(kind, 1);
        let number = Label { number: 12, ..good };
        let sender = Label {
            sender: 0,
            ..number
        };
        let wide = Label {
            sender: 1 + (1 << 32),
            ..number
        };
        let name = Label {
            name: b"Hut 4\0\0\0\0\0\0\0\0\0\0 ",
            ..number
        };
        let other_kind = Label {
            kind: 1 - kind,
            ..number
        };
        let short = Label {
            name: b"Hut 4",
            ..other_kind
        };
        [
            (short, 4),
            (other_kind, 6),
            (name, 6),
            (wide, 6),
            (sender, 6),
            (number, 7),
            (good, 0),
        ]
    }

    #[test]
    fn messages_are_refused_in_order() {
        let [_, _, masked, spoken] = phases();
        for (label, refusal) in wrong_labels(MASKED_VECTOR) {
            let mut state = masked.clone();
            let short = state.take(&label, &[5]);
            assert_eq!(short, Err(Refusal::Length));
            let answer = state.take(&label, &[5, 6]);
            assert_eq!(refusal::number(&answer), refusal);
            assert_eq!(state == masked, refusal != 0);
        }
        for (label, refusal) in wrong_labels(WORD) {
            let mut state = spoken.clone();
            let answer = state.finish(&label, 7);
            assert_eq!(refusal::number(&answer), refusal);
            assert_eq!(state == spoken, refusal != 0);
        }
    }
}
