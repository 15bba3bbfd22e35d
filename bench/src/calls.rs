//! The calls of a dealer, a box and a lock, as each implementation does them. Ours stand in
//! foreign.rs.

use crate::door::Day;
use crate::foreign::door::PartyAnswer;
use crate::foreign::Key;
use crate::measure::Who;
use second::dealer::{Clock, Dealer, Order};
use second::lock::{self, Answer};
use second::message::Label;
use second::party::{Party, Told};
use second::refusal;

/// What a box is handed in a call.
pub enum Step<'a> {
    Load(&'a [u8]),
    /// The box's vector, and where the masked one goes.
    Mask(&'a [u32], &'a mut [u32]),
    Take(Label<'a>, &'a [u32]),
    Finish(Label<'a>, u32),
    Drop,
}

/// Why a call was refused, 0 if it was not, and the word that it sends or reports.
#[derive(Clone, Copy, PartialEq, Debug)]
pub struct Said {
    pub why: u32,
    pub word: u32,
}

/// One implementation.
pub trait Calls: Copy {
    type Dealer: PartialEq;
    type Party: Clone + PartialEq;

    fn who(self) -> Who;
    fn start_dealer(self, name: &[u8], floor: u64, keys: &[Key; 2]) -> Self::Dealer;
    /// Writes both halves, and answers why not; the dealer's next state is not wanted.
    fn deal(self, dealer: &Self::Dealer, order: &Order, out: [&mut [u8]; 2]) -> u32;
    /// The same by the clock, in place of the order's rule. The word is the place.
    fn deal_by_clock(
        self,
        dealer: &Self::Dealer,
        order: &Order,
        day: &Day,
        out: [&mut [u8]; 2],
    ) -> Said;
    fn start_party(self, name: &[u8], party: usize, key: &Key, floor: u64) -> Self::Party;
    /// A call on a box, as a host makes it: the next state takes the place of this one.
    fn step(self, party: &mut Self::Party, step: Step) -> Said;
    /// The same, but the state stays and the next one goes elsewhere.
    fn step_to(self, party: &Self::Party, next: &mut Self::Party, step: Step) -> Said;
    /// What is told of a half that a load would take, or else why it would not.
    fn trial(self, party: &Self::Party, half: &[u8]) -> Result<Told, u32>;
    /// 0 or 1, or 100 plus the refusal's number.
    fn join(self, name: &[u8], last: u64, answers: [&Answer; 2]) -> u32;
    /// Where both boxes' states go.
    fn states(states: &mut States) -> &mut [Self::Party; 2];
}

#[derive(Clone, Copy)]
pub struct Second;

impl Calls for Second {
    type Dealer = Dealer;
    type Party = Party;

    fn who(self) -> Who {
        Who::Second
    }

    fn start_dealer(self, name: &[u8], floor: u64, keys: &[Key; 2]) -> Dealer {
        let [key0, key1] = keys;
        Dealer::start(name, floor, [key0, key1]).expect("a good start")
    }

    fn deal(self, dealer: &Dealer, order: &Order, out: [&mut [u8]; 2]) -> u32 {
        refusal::number(&dealer.clone().deal(order, out))
    }

    fn deal_by_clock(self, dealer: &Dealer, order: &Order, day: &Day, out: [&mut [u8]; 2]) -> Said {
        let Day { table, minute } = day;
        let order = Order {
            code: order.code,
            length: order.length,
            rule: Clock {
                table,
                minute: *minute,
            },
            number: order.number,
            seed: order.seed,
        };
        match dealer.clone().deal_by_clock(&order, out) {
            Ok(word) => Said { why: 0, word },
            Err(refused) => Said {
                why: refused.why as u32,
                word: refused.place,
            },
        }
    }

    fn start_party(self, name: &[u8], party: usize, key: &Key, floor: u64) -> Party {
        Party::start(name, party as u64, key, floor).expect("a good start")
    }

    fn step(self, party: &mut Party, step: Step) -> Said {
        let answer = match step {
            Step::Load(half) => party.load(half).map(|()| 0),
            Step::Mask(v, out) => party.mask(v, out).map(|()| 0),
            Step::Take(label, v) => party.take(&label, v),
            Step::Finish(label, word) => party.finish(&label, word),
            Step::Drop => party.drop_set().map(|()| 0),
        };
        Said {
            why: refusal::number(&answer),
            word: answer.unwrap_or(0),
        }
    }

    fn step_to(self, party: &Party, next: &mut Party, step: Step) -> Said {
        next.clone_from(party);
        self.step(next, step)
    }

    fn trial(self, party: &Party, half: &[u8]) -> Result<Told, u32> {
        party.trial(half).map_err(|why| why as u32)
    }

    fn join(self, name: &[u8], last: u64, answers: [&Answer; 2]) -> u32 {
        lock::host_join(name, last, answers)
    }

    fn states(states: &mut States) -> &mut [Party; 2] {
        &mut states.second
    }
}

/// The states of both boxes, as each implementation has them; all levels of ours have the same
/// place.
#[derive(Clone)]
pub struct States {
    pub ours: [PartyAnswer; 2],
    pub second: [Party; 2],
    /// Who has written last, if anyone has.
    last: Option<Who>,
}

impl States {
    pub fn new(ours: &[PartyAnswer; 2], second: &[Party; 2]) -> States {
        States {
            ours: *ours,
            second: second.clone(),
            last: None,
        }
    }

    /// Where this implementation's states go.
    pub fn of<C: Calls>(&mut self, who: C) -> &mut [C::Party; 2] {
        self.last = Some(who.who());
        C::states(self)
    }

    /// The states that were written last.
    fn plain(&self) -> Option<[Party; 2]> {
        self.last.map(|who| match who {
            Who::Ours(_) => self.ours.each_ref().map(PartyAnswer::plain),
            _ => self.second.clone(),
        })
    }
}

/// Two implementations leave the same states, whatever they look like.
impl PartialEq for States {
    fn eq(&self, other: &States) -> bool {
        self.plain() == other.plain()
    }
}
