//! The calls on a box in the script of `test_replay` that are refused: by which number stands
//! here and is not asked of this implementation.

use crate::content;
use crate::dealing;
use crate::field;
use crate::measure::{Measure, MAX_LENGTH};
use crate::replay::BOXES;
use crate::replay_script::{choices, hex_words, Message, Script, NOWHERE};
use crate::rule::Rule;
use crate::sealed;

/// Loads of blocks of another place, number or box, at a box that would take the newest half
/// of length 18, and the number that refuses each. The one before is that of its last number.
pub fn loads_of_wrong_blocks(at: usize) -> [(String, u32); 22] {
    let (name, other) = (BOXES[at], BOXES[1 - at]);
    [
        (format!("load {name} {other} 0 2048 {NOWHERE}"), 10),
        (format!("load {name} {other} 1 2048 {NOWHERE}"), 7),
        (format!("load {name} {other} 0 2047 {NOWHERE}"), 4),
        (format!("load {name} {name} 0 2560 {NOWHERE}"), 10),
        (format!("load {name} {name} 1 2560 {NOWHERE}"), 7),
        (format!("load {name} {name} 0 512 {NOWHERE}"), 4),
        // The newest number is odd, and one less is the last one.
        (format!("load {name} {name} 0 2048 0"), 7),
        (format!("load {name} {name} 0 2048 7"), 10),
        (format!("load {name} {name} 0 2048 11"), 10),
        (format!("load {name} {name} 0 2048 2047"), 10),
        (format!("mixed {name} 0 1 0"), 7),
        (format!("mixed {name} 1 1 1"), 10),
        (format!("mixed {name} 3 1 3"), 10),
        (format!("mixed {name} 0 0 1"), 10),
        (format!("mixed {name} 3 0 2"), 10),
        (format!("mixed {name} 2 1 0"), 10),
        (format!("bytes {name} -"), 4),
        (format!("bytes {name} 0000000000000000"), 4),
        (format!("bytes {name} @1535:1"), 4),
        (format!("bytes {name} @1536:1"), 10),
        (format!("bytes {name} @8192:2"), 10),
        (format!("bytes {name} @8704:3"), 4),
    ]
}

impl Script {
    /// A load of the newest half of length 18, or of the one before, with these things
    /// wrong.
    pub fn wrong_load(&self, at: usize, wrong: &[u32], variant: usize) -> String {
        let has = |refusal: u32| wrong.contains(&refusal);
        let whole = if has(11) { 1536 } else { 2048 };
        let bytes = match has(4) {
            true => [whole - 1, 1024, 0, whole + 1][variant],
            false => whole,
        };
        let place = match has(10) {
            true => [8, 515, 1535, 100][variant],
            false => NOWHERE,
        };
        let (name, back) = (BOXES[at], usize::from(has(7)));
        format!("load {name} {name} {back} {bytes} {place}")
    }

    pub fn wrong_loads(&mut self, at: usize) {
        self.start("A box's door", [7, 6, 5, 4]);
        self.dealt(Measure::Euclid, 18, 100);
        self.loaded(at);
        self.dropped(at);
        self.dealt(Measure::Hamming, 18, 10);
        let (before, name) = (self.show(BOXES[at]), BOXES[at]);
        for variant in 0..4 {
            let state = [
                format!("put {name} 4 {at} 0 0"),
                format!("put {name} 0 2 0 0"),
                format!("put {name} 0 {at} 1 0"),
                format!("put {name} 0 {at} 0 18"),
            ];
            for wrong in choices(&[4, 7, 10, 11]) {
                self.answered(self.wrong_load(at, &wrong, variant), wrong[0]);
            }
            self.answered(&state[variant], "put");
            self.answered(self.wrong_load(at, &[], variant), 3);
            for wrong in choices(&[4, 7, 10, 11]) {
                self.answered(self.wrong_load(at, &wrong, variant), 3);
            }
            self.put(at, [0, at as u32, 0, 0]);
        }
        assert_eq!(self.show(name), before);
        self.wrong_blocks(at);
        self.loaded(at);
        self.show(name);
    }

    pub fn wrong_blocks(&mut self, at: usize) {
        for (line, refusal) in loads_of_wrong_blocks(at) {
            self.answered(line, refusal);
        }
    }

    /// A number one off: stale where it was odd and the last one is just below.
    pub fn wrong_numbers(&mut self) {
        self.start("Numbers", [10, 10, 11, 0]);
        self.dealt(Measure::Scalar, 1, 0);
        self.answered("load camera camera 0 1536 0", 7);
        self.answered(format!("load office office 0 1536 {NOWHERE}"), 7);
        self.dealt(Measure::Scalar, 1, 0);
        self.answered("load camera camera 0 1536 0", 10);
        self.answered("load office office 0 1536 0", 10);
        self.answered("load office office 1 1536 100", 7);
        self.answered("mixed office 0 1 0", 7);
        self.answered("mixed camera 0 1 0", 10);
        // The older half first, then the newer one; not the other way round.
        assert_eq!(self.load(0, &self.load_line(0, 1)), 0);
        self.dropped(0);
        self.loaded(0);
        self.dropped(0);
        for back in [1, 0] {
            assert_eq!(self.load(0, &self.load_line(0, back)), 7);
        }
        self.dealt(Measure::Scalar, MAX_LENGTH, 0);
        for (bytes, refusal) in [(8704, 4), (8191, 4), (7680, 11), (1536, 11)] {
            let line = format!("load office office 0 {bytes} {NOWHERE}");
            self.answered(line, refusal);
        }
        self.loaded(1);
        self.show_all();
    }

    /// Boxes with another name, party or key than the half is for.
    pub fn other_boxes(&mut self) {
        self.start("Hut 4, east door", [0; 4]);
        self.dealt(Measure::Hamming, 17, 3);
        let (name, [key0, key1]) = (self.door.bare.clone(), self.door.keys.clone());
        for (name, party, key, refusal) in [
            (&name, 1, &key0, 11),
            (&name, 0, &key1, 10),
            (&name, 1, &key1, 10),
            (&field::format(b"Hut 4, east doos"), 0, &key0, 11),
            (&field::format(b"Hut 4, east doo"), 0, &key0, 11),
            (&field::format(b"Hut 4, east dozr"), 0, &key0, 11),
            (&field::format(b"hut 4, east door"), 0, &key0, 11),
            (&field::format(b"Hut 4,"), 0, &key0, 11),
            (&name, 0, &key0, 0),
        ] {
            self.answered(format!("party camera {name} {party} {key} 0"), 0);
            self.answered(self.load_line(0, 0), refusal);
        }
        self.answered(format!("party camera {name} 0 {key1} 1"), 0);
        self.answered(self.load_line(0, 0), 7);
        self.answered(format!("party camera {name} 0 {key1} 0"), 0);
        self.answered(format!("load camera office 0 2048 {NOWHERE}"), 11);
    }

    /// Halves that are sealed well, with something wrong in their content: what other boxes
    /// do not find wrong.
    pub fn wrong_contents(&mut self) {
        self.start("Hut 4", [0; 4]);
        let key = field::parse_array(&self.door.keys[0]).expect("a key");
        let name = field::parse_array(&self.door.padded).expect("a name");
        let plain = |length: usize, rule: Rule| {
            let [half, _] = dealing::deal(Measure::Scalar, length, rule, &[9; 32]);
            content::lay_out(&name, &half)
        };
        let (ordinary, equal) = (plain(1, Rule::Threshold(0)), plain(1, Rule::Between(6, 6)));
        // The first flag byte of L = 1, and the first byte of the fill. Before that is the
        // mark, and before the mark the highest and the lowest byte of the width.
        let (flags, fill) = (20 + 12 + 8 + 32 + 36, content::bytes(1));
        for (plain, place, byte, refusal) in [
            (&ordinary, 17, 3, 11),
            (&ordinary, 18, 0, 11),
            (&plain(0, Rule::Threshold(0)), 18, 0, 11),
            (&ordinary, flags, 4, 11),
            (&ordinary, fill, 1, 11),
            (&ordinary, fill - 1, 2, 11),
            (&ordinary, fill - 5, 254, 11),
            (&equal, fill - 1, 0, 11),
            (&equal, fill - 2, 128, 11),
            (&equal, fill - 2, 127, 0),
        ] {
            let mut plain = plain.clone();
            plain[place] = byte;
            let half = field::format(&sealed::seal(&key, 5, &plain));
            self.answered(format!("bytes camera {half}"), refusal);
        }
        self.show("camera");
    }

    /// A vector with these things wrong, and the room for it.
    fn wrong_mask(&self, at: usize, wrong: &[u32], variant: usize) -> String {
        let state = &self.replay.boxes[at];
        let hamming = state.set.code == 2;
        let has = |refusal: u32| wrong.contains(&refusal);
        let far = match hamming {
            true => [2, u32::MAX, 1023, 1 << 31][variant],
            false => [1024, -1025i32 as u32, 1 << 31, u32::MAX - 2047][variant],
        };
        let length = match has(4) {
            true => [2, 4, 0, 513][variant],
            false => 3,
        };
        let mut words = vec![1; length];
        if has(8) && length > 0 {
            words[variant % length] = far;
        }
        let vector = match length {
            513 => format!("~513:0:{}:0", words[0]),
            _ => hex_words(&words),
        };
        let room = if has(5) { variant % 3 } else { 3 + variant };
        format!("mask {} {vector} {room}", BOXES[at])
    }

    pub fn wrong_masks(&mut self) {
        self.start("Elements", [0; 4]);
        for (turn, measure) in Measure::ALL.into_iter().enumerate() {
            let at = turn % 2;
            self.dealt(measure, 3, 0);
            self.loaded(at);
            let before = self.show(BOXES[at]);
            for variant in 0..4 {
                for wrong in choices(&[4, 5, 8]) {
                    self.answered(self.wrong_mask(at, &wrong, variant), wrong[0]);
                }
            }
            assert_eq!(self.show(BOXES[at]), before);
            self.ends_of_range(at, measure);
            self.dropped(at);
        }
        self.show_all();
    }

    /// 01: element 1,023 is taken, 1,024 refused by 8.
    fn ends_of_range(&mut self, at: usize, measure: Measure) {
        let (low, high) = measure.elements().into_inner();
        for (element, refusal) in [(low - 1, 8), (high + 1, 8), (low, 0), (high, 0)] {
            let words = [high, low, element].map(|element| element as u32);
            assert_eq!(self.mask(at, &hex_words(&words), 520), refusal);
            if element == low {
                self.show(BOXES[at]);
                self.dropped(at);
                self.dealt(measure, 3, 0);
                self.loaded(at);
            }
        }
        self.show(BOXES[at]);
    }

    /// The message that a box takes with these things wrong.
    fn wrong_message(&self, good: &Message, wrong: &[u32], variant: usize) -> Message {
        let mut message = good.clone();
        for refusal in wrong.iter().rev() {
            self.spoil_message(&mut message, *refusal, variant);
        }
        message
    }

    /// Call 3 with these things wrong. In every other variant it is the vector that has a
    /// wrong length.
    fn wrong_take(&self, at: usize, wrong: &[u32], variant: usize) -> String {
        let good = self.vector_for(at, self.open(at));
        let by_vector = wrong.contains(&4) && variant % 2 == 1;
        let rest: Vec<u32> = wrong
            .iter()
            .copied()
            .filter(|n| !by_vector || *n != 4)
            .collect();
        let message = self.wrong_message(&good, &rest, variant);
        let length = self.replay.boxes[at].set.length as usize;
        let length = match by_vector {
            true => [length - 1, length + 1, 0, 513, 1][variant / 2],
            false => length,
        };
        let vector = match length {
            0 => "-".to_string(),
            _ => format!("~{length}:{variant}:0:65535"),
        };
        format!("take {} {message} {vector}", BOXES[at])
    }

    fn wrong_finish(&self, at: usize, wrong: &[u32], variant: usize) -> String {
        let good = self.word_for(at, self.open(at));
        let message = self.wrong_message(&good, wrong, variant);
        format!("finish {} {message} {variant}", BOXES[at])
    }

    pub fn wrong_messages(&mut self) {
        self.start("Hut 4", [1 << 33; 4]);
        let number = self.dealt(Measure::Hamming, 2, 1);
        for at in [0, 1] {
            self.loaded(at);
            assert_eq!(self.mask(at, "0100000000000000", 2), 0);
        }
        self.at_both_boxes(Script::wrong_take);
        for at in [0, 1] {
            let message = self.vector_for(at, number);
            assert_eq!(self.take(at, &message, BOXES[1 - at]), 0);
        }
        self.at_both_boxes(Script::wrong_finish);
        for at in [0, 1] {
            let message = self.word_for(at, number);
            assert_eq!(self.finish(at, &message, BOXES[1 - at]), 0);
        }
    }

    /// Every choice of a message's refusals, at the one box or the other.
    fn at_both_boxes(&mut self, call: fn(&Script, usize, &[u32], usize) -> String) {
        let before = BOXES.map(|name| self.show(name));
        for variant in 0..10 {
            for (turn, wrong) in choices(&[4, 6, 7]).iter().enumerate() {
                let line = call(self, (variant + turn) % 2, wrong, variant);
                self.answered(line, wrong[0]);
            }
        }
        assert_eq!(BOXES.map(|name| self.show(name)), before);
    }

    /// The five calls on a box, each good but for its turn.
    fn calls(&self, at: usize, number: u64) -> [String; 5] {
        let (name, length) = (BOXES[at], 2);
        let (vector, word) = (self.vector_for(at, number), self.word_for(at, number));
        [
            self.load_line(at, 0),
            format!("mask {name} 0100000001000000 {length}"),
            format!("take {name} {vector} 0500000006000000"),
            format!("finish {name} {word} 7"),
            format!("drop {name}"),
        ]
    }

    /// Calls with something else wrong beside their turn.
    fn spoilt_calls(&self, at: usize, variant: usize) -> [String; 4] {
        [
            format!("load {0} {0} 0 {1} {1}", BOXES[at], [0, 1535, 100][variant]),
            self.wrong_mask(at, &[4, 5, 8], variant),
            self.wrong_take(at, &[4, 6, 7], 2 * variant),
            self.wrong_finish(at, &[4, 6, 7], 2 * variant),
        ]
    }

    /// States that no call leaves in this phase: phase, party, code and L.
    pub fn impossible(&self, at: usize) -> Vec<[u32; 4]> {
        let state = &self.replay.boxes[at];
        let (phase, party, code, length) =
            (state.phase, at as u32, state.set.code, state.set.length);
        let mut states = vec![
            [4, party, code, length],
            [u32::MAX, party, code, length],
            [phase, 2, code, length],
            [phase, u32::MAX, code, length],
            [phase, party, 3, length],
            [phase, party, code, 513],
        ];
        match phase {
            0 => states.extend([[0, party, 1, 0], [0, party, 0, 1], [0, party, 2, 512]]),
            _ => states.extend([[phase, party, code, 0], [phase, party, u32::MAX, length]]),
        }
        states
    }

    /// Every call in every phase and on every state that no call leaves.
    pub fn turns(&mut self, at: usize) {
        self.start("Turns", [20, 21, 22, 23]);
        for _ in 0..3 {
            self.dealt(Measure::Euclid, 2, 1);
        }
        let number = self.replay.dealer.last;
        for phase in 0..4 {
            let before = self.show(BOXES[at]);
            let calls = self.calls(at, number);
            // With a set open a load is one ahead: 3 is not its refusal.
            for (turn, line) in calls.iter().enumerate() {
                let own = turn == phase || (turn == 4 && phase > 0);
                if !own {
                    self.answered(line, if turn == 0 { 7 } else { 3 });
                }
            }
            for variant in 0..3 {
                for (turn, line) in self.spoilt_calls(at, variant).iter().enumerate() {
                    if turn != phase {
                        self.answered(line, if turn == 0 { 4 } else { 3 });
                    }
                }
            }
            let state = &self.replay.boxes[at];
            let own = [state.phase, state.party, state.set.code, state.set.length];
            for impossible in self.impossible(at) {
                self.put(at, impossible);
                for line in &calls {
                    self.answered(line, 3);
                }
            }
            self.show(BOXES[at]);
            self.put(at, own);
            assert_eq!(self.show(BOXES[at]), before);
            self.accepted(&calls[phase]);
        }
        self.show(BOXES[at]);
    }
}
