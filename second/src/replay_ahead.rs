//! Load ahead (02) at its edges, in the script of `test_replay`: halves that are refused
//! while a set is open or waits, waiting sets that no call leaves, messages for the waiting
//! set, and both sets dropped. By which number stands here and is not asked of this
//! implementation; the box's state is shown after it.

use crate::measure::{Measure, MAX_LENGTH};
use crate::party::{IDLE, LOADED, MASKED, SPOKEN};
use crate::replay::BOXES;
use crate::replay_script::{choices, Message, Script, NOWHERE};

/// The phases with a set open.
pub const OPEN: [u32; 3] = [LOADED, MASKED, SPOKEN];

/// A vector of as many ones.
fn ones(length: u32) -> String {
    format!("~{length}:0:1:0")
}

impl Script {
    /// Brings a box from the load of its open set to this phase, with messages that nobody
    /// sent.
    pub fn brought_to(&mut self, at: usize, phase: u32) {
        let (number, length) = (self.open(at), self.replay.boxes[at].set.length);
        if phase >= MASKED {
            assert_eq!(self.mask(at, &ones(length), length as usize), 0);
        }
        if phase >= SPOKEN {
            let message = self.vector_for(at, number);
            assert_eq!(self.take(at, &message, &ones(length)), 0);
        }
    }

    /// A set dealt and opened at a box that is idle, and the box brought to this phase.
    pub fn opened(&mut self, at: usize, measure: Measure, length: usize, phase: u32) -> u64 {
        let number = self.dealt(measure, length, 1);
        self.loaded(at);
        self.brought_to(at, phase);
        number
    }

    /// A set dealt and loaded ahead.
    pub fn ahead(&mut self, at: usize, measure: Measure, length: usize) -> u64 {
        let number = self.dealt(measure, length, 1);
        self.loaded(at);
        number
    }

    /// Calls that are refused and leave the box's state as it was, which is then shown.
    pub fn kept(&mut self, at: usize, lines: &[(String, u32)]) {
        let before = self.replay.boxes[at].clone();
        for (line, refusal) in lines {
            self.answered(line, refusal);
        }
        assert_eq!(self.replay.boxes[at], before);
        self.show(BOXES[at]);
    }

    /// Halves with every choice of things wrong, at a box with a set open; then, with one
    /// waiting, none of it is looked at.
    fn halves_ahead(&mut self, at: usize) {
        self.start("Halves ahead", [7, 6, 5, 4]);
        let name = BOXES[at];
        for phase in OPEN {
            let variant = (at + phase as usize) % 4;
            self.opened(at, Measure::Euclid, 18, phase);
            self.dealt(Measure::Hamming, 18, 10);
            let choices = choices(&[4, 7, 10, 11]);
            let wrong = choices.iter();
            let lines: Vec<(String, u32)> = wrong
                .map(|wrong| (self.wrong_load(at, wrong, variant), wrong[0]))
                .collect();
            self.kept(at, &lines);
            if phase as usize == 1 + 2 * at {
                self.wrong_blocks(at);
            }
            self.loaded(at);
            let mut lines: Vec<(String, u32)> = [&[][..], &[4], &[7], &[10], &[11], &[4, 7]]
                .map(|wrong| (self.wrong_load(at, wrong, variant), 3))
                .to_vec();
            lines.push((format!("bytes {name} -"), 3));
            lines.push((format!("load {name} {name} 0 0 {NOWHERE}"), 3));
            self.kept(at, &lines);
            // A half that no box has seen is out of turn too.
            self.dealt(Measure::Scalar, 1, 0);
            self.answered(self.load_line(at, 0), 3);
            for _ in 0..2 {
                self.dropped(at);
            }
            self.loaded(at);
            self.dropped(at);
        }
        self.show(name);
    }

    /// Both sets dropped: their numbers are spent, and those of no other.
    fn both_dropped(&mut self, at: usize) {
        self.start("Two drops", [0; 4]);
        for phase in OPEN {
            // Dealt before the open set, and not loaded.
            let earlier = self.dealt(Measure::Scalar, 2, 0);
            let open = self.opened(at, Measure::Euclid, 2, phase);
            self.answered(self.half_line(at, earlier), 7);
            self.answered(self.half_line(at, open), 7);
            let waits = self.ahead(at, Measure::Hamming, 1 + phase as usize);
            let halves = [earlier, open, waits].map(|number| (self.half_line(at, number), 3));
            self.kept(at, &halves);
            self.dropped(at);
            self.is_as_after_a_load(at, open);
            self.dropped(at);
            self.answered(format!("drop {}", BOXES[at]), 3);
            let spent = [earlier, open, waits].map(|number| (self.half_line(at, number), 7));
            self.kept(at, &spent);
        }
    }

    /// A set that waited until the one of this number ended is open now, as a load leaves it
    /// at a box that is started anew.
    pub fn is_as_after_a_load(&mut self, at: usize, ended: u64) {
        let promoted = self.show(BOXES[at]);
        let (name, key) = (&self.door.bare, &self.door.keys[at]);
        self.accepted(format!("party {} {name} {at} {key} {ended}", BOXES[at]));
        self.answered(self.load_line(at, 0), 0);
        assert_eq!(self.show(BOXES[at]), promoted);
    }

    /// The five calls on a box with an open set of length 2, each good but for its turn.
    fn open_calls(&self, at: usize) -> [String; 5] {
        let (name, number) = (BOXES[at], self.open(at));
        let (vector, word) = (self.vector_for(at, number), self.word_for(at, number));
        [
            self.load_line(at, 0),
            format!("mask {name} {} 2", ones(2)),
            format!("take {name} {vector} {}", ones(2)),
            format!("finish {name} {word} 7"),
            format!("drop {name}"),
        ]
    }

    /// Waiting sets that no call leaves in this phase: number, code and L.
    pub fn faults(&self, at: usize) -> Vec<(u64, u32, u32)> {
        let open = self.open(at);
        match self.replay.boxes[at].phase {
            IDLE => vec![(40, 1, 3), (40, 0, 1), (40, 2, 512), (40, 1, 0)],
            _ => vec![
                (open, 1, 3),
                (open - 1, 1, 3),
                (open + 2, 3, 3),
                (open + 2, 1, 513),
                (open + 2, 1, 0),
                (open + 2, u32::MAX, u32::MAX),
            ],
        }
    }

    /// Every call on every waiting set that no call leaves, in every phase: the numbers put
    /// where none waits, and over those of a set that does.
    fn waiting_faults(&mut self, at: usize) {
        self.start("Faults", [30, 20, 20, 20]);
        for phase in [IDLE, LOADED, MASKED, SPOKEN] {
            if phase != IDLE {
                self.opened(at, Measure::Euclid, 2, phase);
            }
            if phase == MASKED {
                self.ahead(at, Measure::Scalar, 3);
            }
            self.dealt(Measure::Hamming, 3, 1);
            let before = self.show(BOXES[at]);
            let own = &self.replay.boxes[at].waiting;
            let own = (own.number, own.code, own.length);
            for fault in self.faults(at) {
                self.put_waiting(at, fault);
                self.refused_all(at);
            }
            self.put_waiting(at, own);
            assert_eq!(self.show(BOXES[at]), before);
            while self.replay.boxes[at].phase != IDLE {
                self.dropped(at);
            }
        }
        self.idle_with_a_set_waiting(at);
    }

    fn refused_all(&mut self, at: usize) {
        let lines = self.open_calls(at).map(|line| (line, 3));
        self.kept(at, &lines);
    }

    /// A set waits, and the phase says that none is open: with the open set's code and L
    /// there, and without.
    fn idle_with_a_set_waiting(&mut self, at: usize) {
        self.opened(at, Measure::Euclid, 2, LOADED);
        self.ahead(at, Measure::Hamming, 5);
        for (code, length) in [(1, 2), (0, 0)] {
            self.put(at, [IDLE, at as u32, code, length]);
            self.answered(format!("bytes {} -", BOXES[at]), 3);
            self.refused_all(at);
        }
        self.put(at, [LOADED, at as u32, 1, 2]);
        self.dropped(at);
        self.show(BOXES[at]);
    }

    /// A number alone does not wait: calls go on as if it were zero.
    fn numbers_alone(&mut self, at: usize) {
        self.start("Numbers alone", [50, 40, 40, 40]);
        self.claim.off = true;
        let dealt = self.dealt(Measure::Euclid, 2, 1);
        for (turn, number) in [7, dealt, dealt - 1, u64::MAX].into_iter().enumerate() {
            self.put_waiting(at, (number, 0, 0));
            self.show(BOXES[at]);
            self.accepted(&self.open_calls(at)[turn]);
            self.show(BOXES[at]);
        }
        // A load ahead takes its place; a drop clears it.
        for phase in OPEN {
            self.opened(at, Measure::Scalar, 2, phase);
            self.put_waiting(at, (self.open(at) + 9, 0, 0));
            self.ahead(at, Measure::Hamming, 3);
            self.show(BOXES[at]);
            self.dropped(at);
            self.put_waiting(at, (u64::MAX, 0, 0));
            self.dropped(at);
            self.show(BOXES[at]);
        }
    }

    /// The ends of what may wait: every call has its turn, and what waited opens as it is.
    fn waiting_ends(&mut self, at: usize) {
        self.start("Ends", [60, 50, 50, 50]);
        self.claim.off = true;
        for (code, length) in [(0, 1), (2, MAX_LENGTH as u32)] {
            let open = self.opened(at, Measure::Euclid, 2, LOADED);
            for (turn, number) in [open + 1, u64::MAX, open + 3].into_iter().enumerate() {
                self.put_waiting(at, (number, code, length));
                self.answered(self.load_line(at, 0), 3);
                self.accepted(&self.open_calls(at)[turn + 1]);
                self.show(BOXES[at]);
            }
            self.brought_to(at, SPOKEN);
            self.show(BOXES[at]);
            let word = self.word_for(at, open + 3);
            assert_eq!(self.finish(at, &word, "7"), 0);
            self.show(BOXES[at]);
        }
    }

    /// An open number above the last one, as a host may put it: a half must be above both.
    /// With none open it is compared with the last one alone.
    fn numbers_that_disagree(&mut self, at: usize) {
        self.start("Disagree", [70, 60, 60, 60]);
        self.claim.off = true;
        for phase in OPEN {
            let first = self.opened(at, Measure::Scalar, 2, LOADED);
            for _ in 0..3 {
                self.dealt(Measure::Hamming, 2, 1);
            }
            self.put_waiting(at, (first + 2, 1, 2));
            self.dropped(at);
            self.brought_to(at, phase);
            let lines = [1, 2].map(|step| (self.half_line(at, first + step), 7));
            self.kept(at, &lines);
            match phase {
                MASKED => {
                    self.dropped(at);
                    assert_eq!(self.load(at, &self.half_line(at, first + 1)), 0);
                    self.show(BOXES[at]);
                    assert_eq!(self.load(at, &self.half_line(at, first + 2)), 0);
                }
                _ => assert_eq!(self.load(at, &self.half_line(at, first + 3)), 0),
            }
            for _ in 0..2 {
                self.show(BOXES[at]);
                self.dropped(at);
            }
        }
        self.last_above_the_open_number(at);
        self.idle_above_the_last_number(at);
    }

    /// The last number is that of a set which the host has taken away while it waited.
    fn last_above_the_open_number(&mut self, at: usize) {
        let open = self.opened(at, Measure::Scalar, 2, MASKED);
        self.dealt(Measure::Hamming, 2, 1);
        self.ahead(at, Measure::Hamming, 2);
        self.put_waiting(at, (0, 0, 0));
        let lines = [1, 2].map(|step| (self.half_line(at, open + step), 7));
        self.kept(at, &lines);
        self.ahead(at, Measure::Euclid, 1);
        self.show(BOXES[at]);
        for _ in 0..2 {
            self.dropped(at);
        }
    }

    fn idle_above_the_last_number(&mut self, at: usize) {
        let first = self.opened(at, Measure::Scalar, 2, LOADED);
        self.dealt(Measure::Hamming, 2, 1);
        self.put_waiting(at, (first + 2, 0, 2));
        self.dropped(at);
        self.answered(self.load_line(at, 0), 7);
        self.put(at, [IDLE, at as u32, 0, 0]);
        self.loaded(at);
        self.show(BOXES[at]);
    }

    /// What is sent for the waiting set comes to a box that still has the first one open:
    /// the other box has dropped that.
    fn messages_ahead(&mut self, at: usize) {
        self.start("Messages ahead", [80, 70, 70, 70]);
        for (turn, phase) in [LOADED, MASKED, SPOKEN, MASKED].into_iter().enumerate() {
            let waits = if turn == 3 { 3 } else { 2 };
            let open = self.opened(at, Measure::Euclid, 2, phase);
            self.loaded(1 - at);
            let next = self.ahead(at, Measure::Scalar, waits);
            self.loaded(1 - at);
            self.dropped(1 - at);
            self.brought_to(1 - at, SPOKEN);
            let vectors = match (phase, waits) {
                (MASKED, 2) => [7, 6],
                (MASKED, _) => [4, 4],
                _ => [3, 3],
            };
            let words = if phase == SPOKEN { [7, 6] } else { [3, 3] };
            let takes = self.both_senders(at, "take", self.vector_for(at, next), vectors);
            let finishes = self.both_senders(at, "finish", self.word_for(at, next), words);
            self.kept(at, &[takes, finishes].concat());
            self.waiting_opens(at, open, next);
        }
    }

    /// What the other box sent last, under this label, and under the one with the wrong
    /// sender.
    fn both_senders(
        &self,
        at: usize,
        call: &str,
        sent: Message,
        refusals: [u32; 2],
    ) -> [(String, u32); 2] {
        let mut wrong = sent.clone();
        wrong.sender = at as u32;
        let line = |message: &Message| format!("{call} {} {message} {}", BOXES[at], BOXES[1 - at]);
        [(line(&sent), refusals[0]), (line(&wrong), refusals[1])]
    }

    /// The waiting set opens, and its messages are taken; those of the first are late.
    fn waiting_opens(&mut self, at: usize, open: u64, next: u64) {
        let (name, other) = (BOXES[at], BOXES[1 - at]);
        match self.replay.boxes[at].phase {
            SPOKEN => assert_eq!(self.finish(at, &self.word_for(at, open), "9"), 0),
            _ => self.dropped(at),
        }
        self.is_as_after_a_load(at, open);
        self.brought_to(at, MASKED);
        let length = self.replay.boxes[at].set.length;
        let (old_vector, old_word) = (self.vector_for(at, open), self.word_for(at, open));
        self.answered(format!("take {name} {old_vector} {}", ones(length)), 7);
        let vector = self.vector_for(at, next);
        assert_eq!(self.take(at, &vector, other), 0);
        self.answered(format!("finish {name} {old_word} 5"), 7);
        let word = self.word_for(at, next);
        assert_eq!(self.finish(at, &word, other), 0);
        self.dropped(1 - at);
        self.show(name);
    }

    /// The highest numbers: one may still wait, and nothing is above it.
    fn highest_numbers(&mut self) {
        self.start("Highest", [u64::MAX - 2; 4]);
        for at in [0, 1] {
            self.dealt_once(u64::MAX - 1, Measure::Scalar);
            self.load(at, &self.half_line(at, u64::MAX - 1));
        }
        for at in [0, 1] {
            self.dealt_once(u64::MAX, Measure::Euclid);
            self.brought_to(at, LOADED + at as u32);
            self.loaded(at);
            self.show(BOXES[at]);
            self.dropped(at);
            self.answered(self.load_line(at, 0), 7);
            self.answered(format!("bytes {} @1536:7", BOXES[at]), 7);
            self.show(BOXES[at]);
            self.dropped(at);
        }
    }

    /// A set dealt under this number, if it has not been.
    fn dealt_once(&mut self, number: u64, measure: Measure) {
        if self.replay.dealer.last < number {
            let deal = self.new_deal(number, measure, 2, 1);
            assert_eq!(self.deal(&deal), 0);
        }
    }

    /// All of it.
    pub fn edges_of_load_ahead(&mut self) {
        for at in [0, 1] {
            self.halves_ahead(at);
            self.both_dropped(at);
            self.waiting_faults(at);
            self.numbers_alone(at);
            self.waiting_ends(at);
            self.numbers_that_disagree(at);
            self.messages_ahead(at);
        }
        self.highest_numbers();
    }
}
