//! A check at a door from the deal to the join, and the states and messages on its way.

use crate::calls::{Calls, Second, States, Step};
use crate::foreign::ours::Ours;
use crate::foreign::Key;
use second::content;
use second::day::{Table, MAX_ROWS, MINUTES};
use second::dealer::Order;
use second::lock::Answer;
use second::measure::Measure;
use second::message::{Label, ANSWER, MASKED_VECTOR, WORD};
use second::rule::Rule;
use second::sample::Source;
use second::sealed::BLOCK_BYTES;
use std::hint::black_box;
use std::mem::take;

const NAME: &[u8] = b"Hut 4";
const PADDED: &[u8; 16] = b"Hut 4\0\0\0\0\0\0\0\0\0\0\0";

/// Every part has spent this number.
pub const FLOOR: u64 = 10;
pub const NUMBER: u64 = FLOOR + 1;

/// Where the timed box with a set waiting stands, behind those after so many calls.
pub const FULL: usize = 4;

/// The box whose calls are timed one by one: it adds one sum of products more.
pub const PARTY: usize = 1;
pub const OTHER: usize = 1 - PARTY;

/// What a check is about.
pub struct Input {
    measure: Measure,
    length: usize,
    keys: [Key; 2],
    seed: Key,
    vectors: [Vec<u32>; 2],
}

impl Input {
    fn new(measure: Measure, length: usize) -> Input {
        let mut source = Source(0);
        let mut vector = || source.vector(measure, length).into_iter();
        let input = Input {
            measure,
            length,
            keys: [[1; 32], [2; 32]],
            seed: [3; 32],
            vectors: [(); 2].map(|()| vector().map(|x| x as u32).collect()),
        };
        // The compiler must not know the keys.
        black_box(input)
    }

    pub fn order(&self, rule: Rule) -> Order<'_> {
        Order {
            code: self.measure.code().into(),
            length: self.length as u64,
            rule,
            number: NUMBER,
            seed: &self.seed,
        }
    }

    /// The timed box's half of the next set.
    fn next_half(&self) -> Vec<u8> {
        let mut halves = Sent::nothing(self.length).halves;
        let [half0, half1] = &mut halves;
        let order = Order {
            number: NUMBER + 1,
            ..self.order(THRESHOLD)
        };
        let why = Second.deal(&self.dealer(Second), &order, [half0, half1]);
        assert_eq!(why, 0, "the next set's deal");
        take(&mut halves[PARTY])
    }

    fn dealer<C: Calls>(&self, who: C) -> C::Dealer {
        who.start_dealer(NAME, FLOOR, &self.keys)
    }

    fn boxes<C: Calls>(&self, who: C) -> [C::Party; 2] {
        [0, 1].map(|party| who.start_party(NAME, party, &self.keys[party], FLOOR))
    }
}

/// What goes from part to part in a check, at each place that of party 0 and that of party 1.
#[derive(Clone, PartialEq)]
pub struct Sent {
    pub halves: [Vec<u8>; 2],
    pub masked: [Vec<u32>; 2],
    pub words: [u32; 2],
    pub answers: [u32; 2],
    pub joined: u32,
}

impl Sent {
    /// Room for all of it.
    pub fn nothing(length: usize) -> Sent {
        let bytes = BLOCK_BYTES * content::blocks(length);
        Sent {
            halves: [(); 2].map(|()| vec![0; bytes]),
            masked: [(); 2].map(|()| vec![0; length]),
            words: [0; 2],
            answers: [0; 2],
            joined: 0,
        }
    }

    /// What the lock is handed.
    fn join(&self, who: impl Calls, number: u64) -> u32 {
        let [one, two] = [0, 1].map(|sender| Answer {
            label: Label {
                number,
                ..label(ANSWER, sender)
            },
            answer: self.answers[sender],
        });
        who.join(PADDED, FLOOR, [&one, &two])
    }
}

pub fn label(kind: u64, sender: usize) -> Label<'static> {
    Label {
        kind,
        name: PADDED,
        sender: sender as u64,
        number: NUMBER,
    }
}

/// What a box is handed in one of the four calls of a check, counted from 0.
fn step<'a>(
    call: usize,
    party: usize,
    input: &'a Input,
    sent: &'a Sent,
    out: &'a mut [u32],
) -> Step<'a> {
    let other = 1 - party;
    match call {
        0 => Step::Load(&sent.halves[party]),
        1 => Step::Mask(&input.vectors[party], out),
        2 => Step::Take(label(MASKED_VECTOR, other), &sent.masked[other]),
        _ => Step::Finish(label(WORD, other), sent.words[other]),
    }
}

/// A whole check, as four hosts do it: the deal, the four calls of both boxes, the join.
fn check<C: Calls>(
    who: C,
    input: &Input,
    dealer: &C::Dealer,
    boxes: &mut [C::Party; 2],
    sent: &mut Sent,
) {
    let [half0, half1] = &mut sent.halves;
    let why = who.deal(dealer, &input.order(THRESHOLD), [half0, half1]);
    assert_eq!(why, 0, "a check's deal");
    for call in 0..4 {
        for (party, state) in boxes.iter_mut().enumerate() {
            // Taken out, since the other messages are read meanwhile.
            let mut out = take(&mut sent.masked[party]);
            let said = who.step(state, step(call, party, input, sent, &mut out));
            assert_eq!(said.why, 0, "a check's call");
            sent.masked[party] = out;
            match call {
                2 => sent.words[party] = said.word,
                3 => sent.answers[party] = said.word,
                _ => {}
            }
        }
    }
    sent.joined = sent.join(who, NUMBER);
    assert!(sent.joined < 2, "a check's join");
}

/// In the range of every measure.
pub const THRESHOLD: Rule = Rule::Threshold(500);
pub const MARKS: Rule = Rule::Between(500, 510);

/// A table of the day, and the minute whose row is looked for.
pub struct Day {
    pub table: Table,
    pub minute: u32,
}

/// As many rows as there can be.
const ROWS: u32 = MAX_ROWS as u32;

impl Day {
    /// So many rows, each as long as the others. The last one has `THRESHOLD`, and is looked for.
    fn new(rows: u32) -> Day {
        let Rule::Threshold(threshold) = THRESHOLD else {
            unreachable!("it is a threshold")
        };
        let long = MINUTES / rows;
        let table = Table {
            firsts: (0..rows).map(|row| row * long).collect(),
            lasts: (1..=rows).map(|row| row * long - 1).collect(),
            thresholds: (1..=rows)
                .map(|row| threshold as u32 + rows - row)
                .collect(),
        };
        let minute = MINUTES - 1;
        Day { table, minute }
    }

    /// As many rows as there can be, and the day's last minute in none of them: all of it is looked
    /// at before it is refused.
    fn short() -> Day {
        let mut day = Day::new(ROWS);
        *day.table.lasts.last_mut().expect("a table has rows") -= 1;
        day
    }
}

/// All that a call may be handed: the messages of a good check, and some that are refused.
pub struct Known {
    pub input: Input,
    pub sent: Sent,
    /// The half of the next set, which can be loaded ahead.
    pub ahead: Vec<u8>,
    /// A half with a spent number, one with a bad last tag, and a vector with a bad last element.
    pub spent: Vec<u8>,
    pub broken: Vec<u8>,
    pub wide: Vec<u32>,
    /// With one row, with as many as there can be, and one that is refused.
    pub days: [Day; 3],
}

impl Known {
    fn new(input: Input) -> Known {
        let mut sent = Sent::nothing(input.length);
        let (dealer, mut boxes) = (input.dealer(Second), input.boxes(Second));
        check(Second, &input, &dealer, &mut boxes, &mut sent);
        let mut spent = sent.halves[PARTY].clone();
        spent[..8].copy_from_slice(&FLOOR.to_le_bytes());
        let mut broken = sent.halves[PARTY].clone();
        *broken.last_mut().expect("a half has bytes") ^= 1;
        let mut wide = input.vectors[PARTY].clone();
        *wide.last_mut().expect("a vector has elements") = 1024;
        Known {
            ahead: input.next_half(),
            input,
            sent,
            spent,
            broken,
            wide,
            days: black_box([Day::new(1), Day::new(ROWS), Day::short()]),
        }
    }

    /// What the timed box is handed in one of the four calls, counted from 0.
    pub fn step<'a>(&'a self, call: usize, out: &'a mut [u32]) -> Step<'a> {
        step(call, PARTY, &self.input, &self.sent, out)
    }

    pub fn join(&self, who: impl Calls, number: u64) -> u32 {
        self.sent.join(who, number)
    }
}

/// The parts of one implementation.
pub struct Parts<C: Calls> {
    pub dealer: C::Dealer,
    pub started: [C::Party; 2],
    /// The timed box after so many of the four calls, and at `FULL` with a set open and one waiting.
    pub phases: [C::Party; FULL + 1],
}

impl<C: Calls> Parts<C> {
    fn new(who: C, known: &Known) -> Parts<C> {
        let started = known.input.boxes(who);
        let mut party = started[PARTY].clone();
        let mut out = vec![0; known.input.length];
        let [started_one, loaded, masked, taken] = [0, 1, 2, 3].map(|phase| {
            if phase > 0 {
                let said = who.step(&mut party, known.step(phase - 1, &mut out));
                assert_eq!(said.why, 0, "{:?}: a call on the way", who.who());
            }
            party.clone()
        });
        let mut full = loaded.clone();
        let said = who.step(&mut full, Step::Load(&known.ahead));
        assert_eq!(said.why, 0, "{:?}: a load ahead", who.who());
        Parts {
            dealer: known.input.dealer(who),
            started,
            phases: [started_one, loaded, masked, taken, full],
        }
    }

    fn same(&self, other: &Parts<C>) -> bool {
        let Parts {
            dealer,
            started,
            phases,
        } = other;
        self.dealer == *dealer && self.started == *started && self.phases == *phases
    }

    /// A whole check, from the starts.
    pub fn check(&self, who: C, known: &Known, boxes: &mut [C::Party; 2], sent: &mut Sent) {
        boxes.clone_from(&self.started);
        check(who, &known.input, &self.dealer, boxes, sent);
    }
}

/// All that the calls of one measure and one length need.
pub struct Door {
    pub length: usize,
    pub known: Known,
    /// Of all levels: a copy takes longer between some addresses than between others, so each level
    /// starts from the same.
    pub ours: Parts<Ours>,
    pub second: Parts<Second>,
}

impl Door {
    pub fn new(measure: Measure, length: usize) -> Door {
        let known = Known::new(Input::new(measure, length));
        let ours = Parts::new(Ours::plain(), &known);
        for level in Ours::all() {
            let same = Parts::new(level, &known).same(&ours);
            assert!(same, "{:?} starts or goes on otherwise", level.who());
        }
        Door {
            length,
            ours,
            second: Parts::new(Second, &known),
            known,
        }
    }

    pub fn states(&self) -> States {
        States::new(&self.ours.started, &self.second.started)
    }
}
