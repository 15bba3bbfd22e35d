//! The dealer and its calls: 01, "Dealing a set" and "When a call is turned down", and 02,
//! "Between two marks" and "Strictness by the clock".

use crate::content::{self, Name};
use crate::day::{Refused, Table};
use crate::dealing;
use crate::measure::{Measure, MAX_LENGTH};
use crate::message::{padded, secret};
use crate::refusal::Refusal;
use crate::rule::Rule;
use crate::sealed::{self, BLOCK_BYTES};

/// A dealer's state.
#[derive(Clone, Debug, Default, PartialEq, Eq)]
pub struct Dealer {
    pub name: Name,
    /// The keys of the camera box and the office box.
    pub keys: [[u8; 32]; 2],
    pub last: u64,
}

/// What a deal is asked for: any numbers, any bytes.
#[derive(Clone, Copy, Debug)]
pub struct Order<'a, R = Rule> {
    pub code: u64,
    pub length: u64,
    pub rule: R,
    pub number: u64,
    pub seed: &'a [u8],
}

/// What a deal by the clock is handed in place of a rule.
#[derive(Clone, Copy, Debug)]
pub struct Clock<'a> {
    pub table: &'a Table,
    pub minute: u32,
}

impl<'a, R> Order<'a, R> {
    /// The same by this rule.
    fn by<S>(&self, rule: S) -> Order<'a, S> {
        Order {
            code: self.code,
            length: self.length,
            rule,
            number: self.number,
            seed: self.seed,
        }
    }
}

impl Dealer {
    pub fn start(name: &[u8], floor: u64, keys: [&[u8]; 2]) -> Result<Dealer, Refusal> {
        let name = padded(name)?;
        let keys = [secret(keys[0])?, secret(keys[1])?];
        Refusal::EqualKeys.unless(keys[0] != keys[1])?;
        Ok(Dealer {
            name,
            keys,
            last: floor,
        })
    }

    /// Writes the half of each party at the start of its buffer.
    pub fn deal(&mut self, order: &Order, buffers: [&mut [u8]; 2]) -> Result<(), Refusal> {
        self.deal_if_there(&order.by(Some(order.rule)), buffers)
    }

    /// The deal by the threshold of the minute's row: the row's place, counted from 1. The
    /// table comes before all else that is tested.
    pub fn deal_by_clock(
        &mut self,
        order: &Order<Clock>,
        buffers: [&mut [u8]; 2],
    ) -> Result<u32, Refused> {
        let Clock { table, minute } = order.rule;
        table.check()?;
        let row = table.row_of(minute);
        let rule = row.map(|row| Rule::Threshold(row.threshold as i32));
        self.deal_if_there(&order.by(rule), buffers)
            .map_err(|why| Refused { why, place: 0 })?;
        Ok(row.expect("a deal by no row is refused").place)
    }

    /// The deal by a rule. Where there is none, for a minute above the day, it is refused in
    /// the turn of a rule that is out of range.
    fn deal_if_there(
        &mut self,
        order: &Order<Option<Rule>>,
        buffers: [&mut [u8]; 2],
    ) -> Result<(), Refusal> {
        let code = u32::try_from(order.code).ok();
        let measure = code.and_then(Measure::from_code);
        let measure = measure.ok_or(Refusal::PartyOrCode)?;
        let seed = secret(order.seed)?;
        Refusal::Length.unless((1..=MAX_LENGTH as u64).contains(&order.length))?;
        let length = order.length as usize;
        let bytes = BLOCK_BYTES * content::blocks(length);
        Refusal::Room.unless(buffers.iter().all(|buffer| buffer.len() >= bytes))?;
        Refusal::Number.unless(order.number > self.last)?;
        let rule = order.rule.ok_or(Refusal::Range)?;
        Refusal::Range.unless(rule.is_in_range(measure))?;
        Refusal::Marks.unless(rule.width().is_some())?;

        let parts = dealing::deal(measure, length, rule, &seed);
        for (party, buffer) in buffers.into_iter().enumerate() {
            let half = sealed::half(&self.name, &self.keys[party], order.number, &parts[party]);
            buffer[..bytes].copy_from_slice(&half);
        }
        self.last = order.number;
        Ok(())
    }
}

#[cfg(test)]
mod tests {
    use super::*;
    use crate::refusal;
    use crate::rule::Rule::{Between, Threshold};
    use crate::sealed::{examine, Holder};

    const KEYS: [[u8; 32]; 2] = [[1; 32], [2; 32]];

    fn dealer() -> Dealer {
        Dealer::start(b"Hut 4", 10, [&KEYS[0], &KEYS[1]]).unwrap()
    }

    #[test]
    fn starts() {
        let start = |name: &[u8], key0: usize, key1: usize| {
            let keys = [&[5; 33][..key0], &[5; 33][..key1]];
            refusal::number(&Dealer::start(name, 0, keys))
        };
        assert_eq!(start(b"", 31, 31), 1);
        assert_eq!(start(b"door", 32, 31), 4);
        assert_eq!(start(b"door", 33, 32), 4);
        assert_eq!(start(b"door", 31, 31), 4);
        assert_eq!(start(b"door", 32, 32), 9);
        assert_eq!(dealer().last, 10);
    }

    /// Orders with everything wrong at first; then one thing after the other is put right, the
    /// lowest refusal first. With the sizes of the buffers.
    fn wrong_orders() -> [(Order<'static>, [usize; 2], u32); 8] {
        let marks = Order {
            code: 2,
            length: 18,
            rule: Between(9, 8),
            number: 11,
            seed: &[7; 32],
        };
        let range = Order {
            rule: Between(514, 513),
            ..marks
        };
        let number = Order {
            number: 10,
            ..range
        };
        let length = Order {
            length: 513,
            ..number
        };
        let seed = Order {
            seed: &[7; 31],
            ..number
        };
        let code = Order {
            code: 1 << 32,
            ..seed
        };
        [
            (code, [0, 0], 2),
            (seed, [0, 0], 4),
            (length, [0, 0], 4),
            (number, [2048, 2047], 5),
            (number, [2047, 2048], 5),
            (number, [2048, 2048], 7),
            (range, [2048, 2048], 8),
            (marks, [2048, 2048], 13),
        ]
    }

    #[test]
    fn refusals_come_in_order_and_change_nothing() {
        let mut dealer = dealer();
        for (order, bytes, refusal) in wrong_orders() {
            let mut buffers = [vec![9; bytes[0]], vec![9; bytes[1]]];
            let [buffer0, buffer1] = &mut buffers;
            let answer = dealer.deal(&order, [buffer0, buffer1]);
            assert_eq!(refusal::number(&answer), refusal);
            assert!(buffers.concat().iter().all(|&byte| byte == 9));
            assert_eq!(dealer, super::tests::dealer());
        }
    }

    /// 13 comes behind 8, and only where there are marks; the ends of what both let through
    /// are dealt.
    #[test]
    fn marks_are_refused_in_order() {
        let (lowest, highest) = (-(1 << 30), 1 << 30);
        let most = i32::MAX;
        for (code, rule, refusal) in [
            (0, Between(lowest, highest), 13),
            (0, Between(lowest, highest - 1), 0),
            (0, Between(lowest + 1, highest), 0),
            (0, Between(5, 4), 13),
            (0, Between(5, 5), 0),
            (0, Between(highest, lowest), 13),
            (0, Between(highest + 1, highest), 8),
            (0, Between(lowest, lowest - 1), 8),
            (0, Between(highest + 1, lowest - 1), 8),
            (0, Threshold(lowest), 0),
            (0, Threshold(highest + 1), 8),
            (1, Between(0, most), 0),
            (1, Between(most, most), 0),
            (1, Between(most, 0), 13),
            (1, Between(-1, 5), 8),
            (1, Between(5, -1), 8),
            (2, Between(0, 513), 0),
            (2, Between(0, 514), 8),
            (2, Between(514, 0), 8),
            (2, Between(513, 512), 13),
        ] {
            let order = Order {
                code,
                length: 1,
                rule,
                number: 11,
                seed: &[7; 32],
            };
            let (mut dealer, mut buffers) = (dealer(), [[9; 1536]; 2]);
            let [buffer0, buffer1] = &mut buffers;
            let answer = dealer.deal(&order, [buffer0, buffer1]);
            assert_eq!(refusal::number(&answer), refusal, "{code} {rule}");
            assert_eq!(buffers == [[9; 1536]; 2], refusal != 0);
            assert_eq!(dealer == super::tests::dealer(), refusal != 0);
        }
    }

    #[test]
    fn only_whole_blocks_are_written() {
        let mut dealer = dealer();
        let order = Order {
            code: 0,
            length: 18,
            rule: Threshold(-(1 << 30)),
            number: u64::MAX,
            seed: &[7; 32],
        };
        let (mut buffer0, mut buffer1) = (vec![9; 2048], vec![9; 9000]);
        let answer = dealer.deal(&order, [&mut buffer0, &mut buffer1]);
        assert_eq!(answer, Ok(()));
        assert!(buffer1[2048..].iter().all(|&byte| byte == 9));
        for (party, half) in [(0, &buffer0), (1, &buffer1)] {
            let holder = Holder {
                name: &dealer.name,
                party,
                key: &KEYS[party],
            };
            let set = examine(&half[..2048], &holder, u64::MAX - 1).unwrap();
            assert_eq!(set.half.party, party);
        }
        let again = dealer.deal(&order, [&mut buffer0, &mut buffer1]);
        assert_eq!(again, Err(Refusal::Number));
    }
}
