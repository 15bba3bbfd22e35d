//! The calls that are timed, accepted and refused: one list for all that looks at them.

use crate::calls::{Calls, Said, Second, States, Step};
use crate::door::THRESHOLD;
use crate::door::{label, Door, Known, Parts, Sent, FLOOR, FULL, MARKS, NUMBER, OTHER, PARTY};
use crate::foreign::ours::Ours;
use crate::measure::{row, way, Row, Way};
use second::message::{Label, MASKED_VECTOR, WORD};
use second::party::Told;
use second::rule::Rule;

pub struct Case {
    pub name: &'static str,
    /// The refusal, 0 for an accepted call.
    pub why: u32,
    call: Call,
}

#[derive(Clone, Copy)]
enum Call {
    Deal {
        rule: Rule,
    },
    /// By that one of the days that are known.
    DealByClock {
        day: usize,
    },
    /// A call on the timed box after so many of a check's four, or with a set waiting (`FULL`).
    Box {
        phase: usize,
        step: MakeStep,
    },
    /// A trial there.
    Trial {
        phase: usize,
        half: FindHalf,
    },
    Join {
        number: u64,
    },
    WholeCheck,
    CopyState,
}

/// A masked vector would go to the words.
type MakeStep = for<'a> fn(&'a Known, &'a mut [u32]) -> Step<'a>;

type FindHalf = fn(&Known) -> &[u8];

const fn deal(name: &'static str, why: u32, rule: Rule) -> Case {
    let call = Call::Deal { rule };
    Case { name, why, call }
}

const fn on_box(name: &'static str, why: u32, phase: usize, step: MakeStep) -> Case {
    let call = Call::Box { phase, step };
    Case { name, why, call }
}

const fn trial(name: &'static str, why: u32, phase: usize, half: FindHalf) -> Case {
    let call = Call::Trial { phase, half };
    Case { name, why, call }
}

const fn join(name: &'static str, why: u32, number: u64) -> Case {
    let call = Call::Join { number };
    Case { name, why, call }
}

pub const WHOLE_CHECK: Case = Case {
    name: "whole check",
    why: 0,
    call: Call::WholeCheck,
};

/// The same at a door of squared Euclid.
pub const WHOLE_CHECK_EUCLID: Case = Case {
    name: "whole check, squared Euclid",
    ..WHOLE_CHECK
};

const MASK: Case = on_box("mask", 0, 1, |known, out| known.step(1, out));

/// What computes a vector's own term, at a door of squared Euclid.
pub const EUCLID: [Case; 2] = [
    Case {
        name: "mask, squared Euclid",
        ..MASK
    },
    WHOLE_CHECK_EUCLID,
];

/// No call, but in the time of every call on a box: once and more in ours, once in the second
/// implementation's.
pub const COPY_STATE: Case = Case {
    name: "copy of a state",
    why: 0,
    call: Call::CopyState,
};

pub const DEAL: Case = deal("deal", 0, THRESHOLD);

/// With a table of one row, and with as many as there can be.
pub const BY_CLOCK: [Case; 2] = [
    Case {
        name: "deal by the clock, 1 row",
        why: 0,
        call: Call::DealByClock { day: 0 },
    },
    Case {
        name: "deal by the clock, 32 rows",
        why: 0,
        call: Call::DealByClock { day: 1 },
    },
];

/// The calls of a check, in their order, and the trial of what is loaded.
pub const ACCEPTED: [Case; 12] = [
    DEAL,
    deal("deal between two marks", 0, MARKS),
    on_box("load", 0, 0, |known, out| known.step(0, out)),
    on_box("load ahead", 0, 1, |known, _| Step::Load(&known.ahead)),
    trial("trial", 0, 0, |known| &known.sent.halves[PARTY]),
    trial("trial ahead", 0, 1, |known| &known.ahead),
    MASK,
    on_box("take", 0, 2, |known, out| known.step(2, out)),
    on_box("finish", 0, 3, |known, out| known.step(3, out)),
    on_box("drop", 0, 3, |_, _| Step::Drop),
    join("join", 0, NUMBER),
    WHOLE_CHECK,
];

/// A refusal of each call, where it can be had one that comes late among its tests.
pub const REFUSED: [Case; 14] = [
    deal("deal, threshold out of range", 8, Rule::Threshold(i32::MIN)),
    deal("deal, marks out of order", 13, Rule::Between(1, 0)),
    Case {
        name: "deal by the clock, last minute in no row of 32",
        why: 15,
        call: Call::DealByClock { day: 2 },
    },
    on_box("load, a set waits", 3, FULL, |known, _| {
        Step::Load(&known.ahead)
    }),
    on_box("load, a spent number", 7, 0, |known, _| {
        Step::Load(&known.spent)
    }),
    on_box("load, a bad last tag", 10, 0, |known, _| {
        Step::Load(&known.broken)
    }),
    trial("trial, a set waits", 3, FULL, |known| &known.ahead),
    trial("trial, a spent number", 7, 0, |known| &known.spent),
    trial("trial, a bad last tag", 10, 0, |known| &known.broken),
    on_box("mask, last element out of range", 8, 1, |known, out| {
        Step::Mask(&known.wide, out)
    }),
    on_box("take, another sender", 6, 2, |known, _| {
        Step::Take(label(MASKED_VECTOR, PARTY), &known.sent.masked[OTHER])
    }),
    on_box("finish, another number", 7, 3, |known, _| {
        let number = NUMBER + 1;
        let label = Label {
            number,
            ..label(WORD, OTHER)
        };
        Step::Finish(label, known.sent.words[OTHER])
    }),
    on_box("drop, no set open", 3, 0, |_, _| Step::Drop),
    join("join, a spent number", 7, FLOOR),
];

/// What a call leaves: the buffer of its row.
#[derive(Clone, PartialEq)]
struct Left {
    said: Said,
    /// By an accepted trial.
    told: Option<Told>,
    sent: Sent,
    states: States,
}

impl Left {
    fn nothing(door: &Door) -> Left {
        // What no call says.
        let (why, word) = (u32::MAX, 0);
        Left {
            said: Said { why, word },
            told: None,
            sent: Sent::nothing(door.length),
            states: door.states(),
        }
    }
}

impl Case {
    /// What the row of this call is named at a length.
    pub fn at(&self, length: usize) -> String {
        format!("{}, L {length}", self.name)
    }

    pub fn row<'a>(&self, door: &'a Door) -> Box<dyn Row + 'a> {
        let Door {
            known,
            ours,
            second,
            ..
        } = door;
        let levels = Ours::all().map(|level| self.way(level, known, ours));
        let ways = levels.chain([self.way(Second, known, second)]);
        row(&self.at(door.length), Left::nothing(door), ways.collect())
    }

    fn way<'a, C: Calls + 'a>(
        &self,
        who: C,
        known: &'a Known,
        parts: &'a Parts<C>,
    ) -> Way<'a, Left> {
        let (name, why) = (self.name, self.why);
        let call = self.call;
        way(who.who(), move |left: &mut Left| {
            left.said = call.run(who, known, parts, left);
            assert_eq!(left.said.why, why, "{name}");
        })
    }
}

impl Call {
    fn run<C: Calls>(self, who: C, known: &Known, parts: &Parts<C>, left: &mut Left) -> Said {
        let (sent, states) = (&mut left.sent, &mut left.states);
        match self {
            Call::Deal { rule } => {
                let [half0, half1] = &mut sent.halves;
                let order = known.input.order(rule);
                let why = who.deal(&parts.dealer, &order, [half0, half1]);
                Said { why, word: 0 }
            }
            Call::DealByClock { day } => {
                let [half0, half1] = &mut sent.halves;
                let order = known.input.order(THRESHOLD);
                who.deal_by_clock(&parts.dealer, &order, &known.days[day], [half0, half1])
            }
            Call::Box { phase, step } => {
                let next = &mut states.of(who)[PARTY];
                let step = step(known, &mut sent.masked[PARTY]);
                who.step_to(&parts.phases[phase], next, step)
            }
            Call::Trial { phase, half } => {
                let tried = who.trial(&parts.phases[phase], half(known));
                left.told = tried.ok();
                let why = tried.err().unwrap_or(0);
                Said { why, word: 0 }
            }
            Call::Join { number } => {
                let word = known.join(who, number);
                let why = word.saturating_sub(100);
                Said { why, word }
            }
            Call::WholeCheck => {
                parts.check(who, known, states.of(who), sent);
                let (why, word) = (0, sent.joined);
                Said { why, word }
            }
            Call::CopyState => {
                states.of(who)[PARTY].clone_from(&parts.phases[0]);
                Said { why: 0, word: 0 }
            }
        }
    }
}
