//! Lists of calls for the script of `test_replay`: checks that go on side by side while halves
//! and messages are lost, doubled, late, damaged and misdirected.

use crate::measure::{Measure, MAX_LENGTH};
use crate::message::{ANSWER, MASKED_VECTOR, WORD};
use crate::party::{IDLE, LOADED, MASKED, SPOKEN};
use crate::replay::BOXES;
use crate::replay_script::{half_bytes, hex_words, Join, Message, Script, NOWHERE};
use crate::rule::{Rule, MAX_WIDTH};

/// The longest vector that is written out in a line.
const MAX_WRITTEN: usize = 18;

/// What may happen in a list.
#[derive(Clone, Copy, PartialEq)]
enum Hazards {
    /// What 01 asks of a list: messages that a call takes were sent so.
    Network,
    /// Contents that nobody sent.
    Forgers,
    /// States that the host has written to.
    Host,
}

/// A message with its content.
#[derive(Clone)]
struct Sent {
    message: Message,
    content: Vec<u32>,
}

impl Script {
    /// All lists.
    pub fn lists(&mut self) {
        let (short, long): (&[usize], &[usize]) = (&[1, 2], &[1, 2, 17, 18, MAX_LENGTH]);
        for (name, lengths, calls, hazards) in [
            ("Front", &short[..1], 140, Hazards::Network),
            ("Back", short, 160, Hazards::Network),
            ("Hut 4", long, 180, Hazards::Network),
            ("Hut 4, east door", long, 180, Hazards::Network),
            ("Gate", short, 130, Hazards::Forgers),
            ("Shed", short, 150, Hazards::Host),
        ] {
            self.one_list(name, lengths, calls, hazards);
        }
    }

    /// Lists in which halves are tried before they are loaded, and others are only tried.
    pub fn tried_lists(&mut self) {
        self.tries = true;
        self.one_list("Trials", &[1, 2, 17], 48, Hazards::Network);
        self.one_list("Tries", &[1, 2], 60, Hazards::Host);
        self.tries = false;
    }

    fn one_list(&mut self, name: &str, lengths: &[usize], calls: usize, hazards: Hazards) {
        let floors = [0, 1, 2, 3].map(|_| self.below(6) as u64);
        self.start(name, floors);
        self.claim.off = hazards == Hazards::Host;
        let before = self.list.len();
        while self.list.len() < before + calls {
            self.any_call(lengths, hazards);
            if self.tries && self.below(3) == 0 {
                self.odd_trial();
            }
        }
        self.show_all();
        let forged = !self.claim.forged.is_empty();
        match hazards {
            Hazards::Network => assert!(!forged, "{name}"),
            Hazards::Forgers => assert!(forged && self.joins_refused(before), "{name}"),
            Hazards::Host => {}
        }
    }

    /// Whether the sum of two answers was neither 0 nor 1 in a list.
    fn joins_refused(&self, from: usize) -> bool {
        let mut cases = self.list[from..].iter();
        cases.any(|case| case.line.starts_with("join ") && case.expected == "12")
    }

    /// A call that brings a check on, or some other one.
    fn any_call(&mut self, lengths: &[usize], hazards: Hazards) {
        let at = self.below(2);
        match self.below(100) {
            0..58 => self.right_call(at, lengths),
            58..64 => self.any_box_call(at, hazards),
            64..86 => self.odd_call(at, hazards),
            86..89 => self.odd_deal(lengths),
            89..94 => self.odd_join(),
            94..96 => {
                self.drop_set(at);
            }
            _ if hazards == Hazards::Host => self.any_state(at),
            _ => {
                self.show("lock");
            }
        }
        if self.below(4) == 0 {
            self.show(BOXES[at]);
        }
    }

    /// A call on a box that has its turn, with something that may be wrong. A load has its
    /// turn in every phase, unless a set waits.
    fn odd_call(&mut self, at: usize, hazards: Hazards) {
        let ahead = self.below(5) == 0;
        match self.replay.boxes[at].phase {
            IDLE => self.odd_load(at),
            _ if ahead => self.odd_load(at),
            LOADED => self.odd_mask(at),
            _ => self.odd_message(at, hazards),
        }
    }

    /// A call on a box in whatever phase it is.
    fn any_box_call(&mut self, at: usize, hazards: Hazards) {
        match self.below(4) {
            0 => self.odd_load(at),
            1 => self.odd_mask(at),
            2 => self.odd_message(at, hazards),
            _ => {
                self.drop_set(at);
            }
        }
    }

    /// The next call of a check at a box, or else of another part.
    fn right_call(&mut self, at: usize, lengths: &[usize]) {
        if self.below(2) == 0 && self.right_join() {
            return;
        }
        if self.below(3) == 0 && self.load_ahead(at, lengths) {
            return;
        }
        if !self.box_call(at) && !self.box_call(1 - at) {
            match self.replay.boxes[at].phase {
                IDLE => self.right_deal(lengths),
                _ => {
                    self.drop_set(self.behind(at));
                }
            }
        }
    }

    /// The box whose open set the other one has left behind, or else this one.
    fn behind(&self, at: usize) -> usize {
        let (own, other) = (self.open(at), self.open(1 - at));
        match self.replay.boxes[1 - at].phase {
            MASKED | SPOKEN if other < own => 1 - at,
            _ => at,
        }
    }

    /// The next half that a box has not seen, whatever its phase, or else a deal: whether
    /// there is room for it.
    fn load_ahead(&mut self, at: usize, lengths: &[usize]) -> bool {
        let waits = self.replay.boxes[at].waiting.length != 0;
        match (waits, self.unseen(at)) {
            (true, _) => {}
            (false, Some(line)) => {
                self.load(at, &line);
            }
            (false, None) => self.right_deal(lengths),
        }
        !waits
    }

    /// The line that loads the oldest half at hand that a box has not seen.
    fn unseen(&self, at: usize) -> Option<String> {
        let kept = self.claim.deals.len().min(self.replay.dealt.len());
        let numbers = self.claim.deals.keys().rev().take(kept).rev();
        let mut unseen = numbers.filter(|number| **number > self.replay.boxes[at].last);
        unseen.next().map(|number| self.half_line(at, *number))
    }

    fn right_deal(&mut self, lengths: &[usize]) {
        let (measure, length) = (self.pick(&Measure::ALL), self.pick(lengths));
        let rule = self.right_rule(measure, length);
        let step = self.pick(&[1, 1, 2, 7]);
        let number = self.replay.dealer.last + step;
        let mut deal = self.new_deal(number, measure, length, rule);
        deal.rooms[1] += self.below(2);
        self.deal(&deal);
    }

    /// A rule of the one kind or the other, near the measures of short vectors.
    fn right_rule(&mut self, measure: Measure, length: usize) -> Rule {
        let [one, other] = [(); 2].map(|()| match measure {
            Measure::Hamming => self.below(length + 2) as i32,
            Measure::Euclid => self.below(1 << 21) as i32,
            Measure::Scalar => self.below(1 << 19) as i32 - (1 << 18),
        });
        match self.below(2) {
            0 => Rule::Threshold(one),
            _ => Rule::Between(one.min(other), one.max(other)),
        }
    }

    /// Whether a box has something to do in turn, which is then done.
    fn box_call(&mut self, at: usize) -> bool {
        let (number, phase) = (self.open(at), self.replay.boxes[at].phase);
        match phase {
            IDLE => match self.unseen(at) {
                Some(line) => {
                    self.load(at, &line);
                }
                None => return false,
            },
            LOADED => self.right_mask(at),
            MASKED | SPOKEN => {
                let kind = if phase == MASKED { MASKED_VECTOR } else { WORD };
                let sent = self.sent().into_iter().find(|sent| {
                    let message = &sent.message;
                    let from = message.sender as usize == 1 - at;
                    from && message.number == number && u64::from(message.kind) == kind
                });
                return sent.is_some_and(|sent| self.hand_on(at, phase, &sent));
            }
            _ => return false,
        }
        true
    }

    fn right_mask(&mut self, at: usize) {
        let set = &self.replay.boxes[at].set;
        let length = set.length as usize;
        let measure = Measure::from_code(set.code).unwrap_or(Measure::Hamming);
        let vector = self.vector(measure, length);
        let room = length + self.below(3);
        self.mask(at, &vector, room);
    }

    /// Hands a message to call 3 or 4, if it can be written in a line.
    fn hand_on(&mut self, at: usize, phase: u32, sent: &Sent) -> bool {
        let newest = |script: &Script, from: usize| script.replay.sent[from].vector == sent.content;
        let from = (0..2).find(|from| newest(self, *from));
        match (phase, from) {
            (MASKED, Some(from)) => {
                self.take(at, &sent.message, BOXES[from]);
            }
            (MASKED, None) if sent.content.len() <= MAX_WRITTEN => {
                self.take(at, &sent.message, &hex_words(&sent.content));
            }
            (MASKED, None) => return false,
            _ => {
                self.finish(at, &sent.message, &sent.content[0].to_string());
            }
        }
        true
    }

    /// Everything that the boxes have sent, the newest last.
    fn sent(&self) -> Vec<Sent> {
        let mut all = Vec::new();
        for (sender, sent) in self.claim.boxes.iter().enumerate() {
            let mut add = |kind: u64, number: u64, content: &[u32]| {
                all.push(Sent {
                    message: self.message(kind, sender, number),
                    content: content.to_vec(),
                });
            };
            for (number, vector) in &sent.masked {
                add(MASKED_VECTOR, *number, vector);
            }
            for (number, word) in &sent.words {
                add(WORD, *number, &[*word]);
            }
            for (number, answer) in &sent.answers {
                add(ANSWER, *number, &[*answer]);
            }
        }
        all.sort_by_key(|sent| sent.message.number);
        all
    }

    /// Whether two answers are there to be joined, which is then done.
    fn right_join(&mut self) -> bool {
        let [answers0, answers1] = [0, 1].map(|at: usize| &self.claim.boxes[at].answers);
        let mut numbers = answers0
            .keys()
            .filter(|number| answers1.contains_key(number));
        let Some(number) = numbers.next_back().copied() else {
            return false;
        };
        if number <= self.replay.lock.last {
            return false;
        }
        let mut join = self.join_of(number);
        join.answers = [answers0[&number].to_string(), answers1[&number].to_string()];
        match self.below(3) {
            0 => self.host_and_join(&join),
            _ => self.join(&join),
        };
        true
    }

    fn odd_load(&mut self, at: usize) {
        let line = self.odd_half(at);
        self.load(at, &line);
    }

    /// Any half at any box, which is not loaded.
    fn odd_trial(&mut self) {
        let at = self.below(2);
        let line = self.odd_half(at);
        self.tried_only(at, &line);
    }

    /// The line that loads a half that is stale, damaged, cut, mixed or for the other box.
    fn odd_half(&mut self, at: usize) -> String {
        let kept = self.claim.deals.len().min(self.replay.dealt.len());
        if kept == 0 {
            return format!("bytes {} @1536:{}", BOXES[at], at);
        }
        let back = self.below(kept);
        let bytes = self.replay.dealt[back][at].len();
        let (blocks, newest) = (bytes / 512, self.replay.dealt[0][at].len() / 512);
        let name = BOXES[at];
        match self.below(7) {
            0 => format!("load {name} {} {back} {bytes} {NOWHERE}", BOXES[1 - at]),
            1 => format!("load {name} {name} {back} {bytes} {}", self.below(bytes)),
            2 => format!("load {name} {name} 0 1536 {}", self.below(12)),
            3 => format!(
                "load {name} {name} {back} {} {NOWHERE}",
                self.below(bytes + 512)
            ),
            4 => format!(
                "load {name} {name} {back} {} {NOWHERE}",
                512 * self.below(blocks + 2)
            ),
            5 => format!(
                "mixed {name} {} {back} {}",
                self.below(newest),
                self.below(blocks)
            ),
            _ => self.load_line(at, back),
        }
    }

    /// A message that was sent, to this box in any phase: some with a label that is not
    /// its own and must not be taken.
    fn odd_message(&mut self, at: usize, hazards: Hazards) {
        let sent = self.sent();
        if sent.is_empty() {
            return;
        }
        let near = sent.len().min(8);
        let from = sent.len() - near + self.below(near);
        let mut sent = sent[from].clone();
        let own = self.replay.boxes[at].phase;
        let phase = match (own, self.below(4)) {
            (MASKED | SPOKEN, 1..) => own,
            _ => self.pick(&[MASKED, SPOKEN]),
        };
        if hazards == Hazards::Forgers && self.below(4) > 0 {
            self.forge(at, phase, &mut sent);
        } else if self.below(2) == 0 {
            self.misdirect(at, phase, &mut sent.message);
        }
        self.hand_on(at, phase, &sent);
    }

    /// Another label, of which something is not what the box takes.
    fn misdirect(&mut self, at: usize, phase: u32, message: &mut Message) {
        let open = self.open(at);
        let kind = if phase == MASKED { MASKED_VECTOR } else { WORD };
        match self.below(5) {
            0 => message.name = "00".repeat(16),
            1 => message.name.truncate(2 * self.below(15) + 2),
            2 => message.sender = at as u32,
            3 => message.kind = (kind as u32 + 1) % 3,
            _ => message.number = open + 1,
        }
    }

    /// The label that the box takes, over any content.
    fn forge(&mut self, at: usize, phase: u32, sent: &mut Sent) {
        let number = self.open(at);
        let kind = if phase == MASKED { MASKED_VECTOR } else { WORD };
        sent.message = self.message(kind, 1 - at, number);
        let length = self.replay.boxes[at].set.length.clamp(1, 4) as usize;
        sent.content.resize(length, 7);
    }

    /// A deal with a number or length that may not do.
    fn odd_deal(&mut self, lengths: &[usize]) {
        let measure = self.pick(&Measure::ALL);
        let length = self.pick(lengths);
        let number = (self.replay.dealer.last + 1).saturating_sub(self.below(4) as u64);
        let mut deal = self.new_deal(number, measure, length, 0);
        match self.below(6) {
            0 => deal.code += 1,
            1 => deal.length += 510,
            2 => deal.rooms[0] = self.below(half_bytes(length) + 2),
            3 => deal.rule = self.odd_marks(),
            4 => deal.rule = self.pick(&[513, 514, 1 << 30, (1 << 30) + 1, -1]).into(),
            _ => {}
        }
        self.deal(&deal);
    }

    /// Marks that may be out of range, in the wrong order or too far apart.
    fn odd_marks(&mut self) -> Rule {
        let mut mark = || self.pick(&[-(1 << 30), -1, 0, 5, 513, 514, 1 << 30]);
        Rule::Between(mark(), mark())
    }

    /// A vector in any phase, which may be too long or too far.
    fn odd_mask(&mut self, at: usize) {
        let length = self.replay.boxes[at].set.length.clamp(1, MAX_LENGTH as u32) as usize;
        let length = length + self.pick(&[0, 0, 0, 1]);
        let low = self.pick(&[0, 0, 1022, u32::MAX - 1023, u32::MAX - 1024]);
        let mask = self.pick(&[0, 1, 1, 3]);
        let vector = format!("~{length}:{}:{low}:{mask}", self.seed());
        let room = length - self.pick(&[0, 0, 0, 1]);
        self.mask(at, &vector, room);
    }

    /// Answers of any numbers, in any order, or none at all.
    fn odd_join(&mut self) {
        let sent = self.sent();
        let answers: Vec<&Sent> = sent
            .iter()
            .filter(|sent| u64::from(sent.message.kind) == ANSWER)
            .collect();
        let near = answers.len().min(5);
        let answers = &answers[answers.len() - near..];
        let (first, second) = match near {
            0 => return,
            _ => (self.pick(answers), self.pick(answers)),
        };
        let mut join = Join {
            messages: [first.message.clone(), second.message.clone()],
            answers: [first, second].map(|sent| sent.content[0].to_string()),
        };
        match self.below(8) {
            0 => join.messages[0].kind = 1,
            1 => join.messages[1].name.truncate(30),
            2 => join.messages[1].name.replace_range(30.., "01"),
            3 => join.messages[0].number += 1,
            _ => {}
        }
        self.join(&join);
    }

    /// Some numbers put into a box's state or its waiting set, and a few calls on it.
    fn any_state(&mut self, at: usize) {
        match self.below(3) {
            0 => self.any_open_set(at),
            1 => self.any_width(at),
            _ => self.any_waiting_set(at),
        }
    }

    /// Any width and mark, in whatever phase. They stay until the set ends.
    fn any_width(&mut self, at: usize) {
        let width = self.pick(&[0, 1, MAX_WIDTH, MAX_WIDTH + 1, u32::MAX]);
        let mark = self.pick(&[0, 1, 2, u32::MAX]);
        self.put_width(at, width, mark);
        self.calls_on_any_state(at);
    }

    /// Calls on a state that a host has written to.
    fn calls_on_any_state(&mut self, at: usize) {
        self.show(BOXES[at]);
        for _ in 0..3 {
            self.any_box_call(at, Hazards::Forgers);
        }
        self.odd_call(at, Hazards::Forgers);
    }

    /// Numbers in the waiting set, and at times its own again.
    fn any_waiting_set(&mut self, at: usize) {
        let numbers = |script: &Script| {
            let waiting = &script.replay.boxes[at].waiting;
            (waiting.number, waiting.code, waiting.length)
        };
        let (own, open) = (numbers(self), self.open(at));
        let near = [0, open.saturating_sub(1), open, open + 1, open + 2, own.0];
        let mut put = own;
        match self.below(4) {
            0 => put.0 = self.pick(&near),
            1 => put.1 = self.pick(&[0, 1, 2, 3]),
            2 => put.2 = self.pick(&[0, 1, 2, 512, 513]),
            _ => put = (open + 1, self.pick(&[0, 1, 2]), self.pick(&[1, 2])),
        }
        self.put_waiting(at, put);
        self.calls_on_any_state(at);
        if numbers(self) == put {
            self.put_waiting(at, own);
        }
    }

    /// Numbers in the open set, and at times its own again. What calls 1 and 2 make of a
    /// word or vector that is in the state before its turn, 01 does not say: no such state
    /// is made.
    fn any_open_set(&mut self, at: usize) {
        let state = &self.replay.boxes[at];
        let own = [state.phase, at as u32, state.set.code, state.set.length];
        let mut put = own;
        match (self.below(6), own[0]) {
            (0 | 1, MASKED | SPOKEN) => put[0] = self.pick(&[MASKED, SPOKEN, 4]),
            (0, _) => put[0] = self.pick(&[IDLE, LOADED, MASKED, SPOKEN, 4, u32::MAX]),
            (1, _) => put = [IDLE, at as u32, 0, 0],
            (2, _) => put[1] = self.pick(&[0, 1, 2]),
            (3, _) => put[2] = self.pick(&[0, 1, 2, 3]),
            _ => put[3] = self.pick(&[0, 1, 2, 512, 513]),
        }
        self.put(at, put);
        self.calls_on_any_state(at);
        let state = &self.replay.boxes[at];
        let left = [state.phase, state.party, state.set.code, state.set.length];
        if left == put {
            self.put(at, own);
        }
    }
}
