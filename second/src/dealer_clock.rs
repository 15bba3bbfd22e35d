//! The tests of the dealer on 02, "Strictness by the clock".

use crate::day::tests::table;
use crate::day::{Refused, Table, MINUTES};
use crate::dealer::{Clock, Dealer, Order};
use crate::measure::Measure;
use crate::refusal::Refusal;
use crate::rule::Rule;

const KEYS: [[u8; 32]; 2] = [[1; 32], [2; 32]];

/// The dealer's last number, and one that it may deal under.
const LAST: u64 = 10;
const NUMBER: u64 = 11;

/// The bytes of a half of the length that is dealt here.
const LENGTH: u64 = 18;
const BYTES: usize = 2048;

/// What a buffer holds before.
const BEFORE: u8 = 9;

fn dealer() -> Dealer {
    Dealer::start(b"Hut 4", LAST, [&KEYS[0], &KEYS[1]]).unwrap()
}

/// A table of three rows, of which the second is for working hours: 420 to 1,079.
fn working_day(thresholds: [i32; 3]) -> Table {
    Table {
        thresholds: thresholds.map(|threshold| threshold as u32).to_vec(),
        ..table(&[(1080, 1439), (420, 1079), (0, 419)])
    }
}

/// A good deal at a minute, by a table.
fn order(code: u64, table: &Table, minute: u32) -> Order<'_, Clock<'_>> {
    Order {
        code,
        length: LENGTH,
        rule: Clock { table, minute },
        number: NUMBER,
        seed: &[7; 32],
    }
}

/// What a deal is answered by, number and place. Refused it has changed nothing.
fn answer(order: &Order<Clock>, bytes: [usize; 2]) -> (u32, u32) {
    let (mut dealer, before) = (dealer(), dealer());
    let mut buffers = bytes.map(|bytes| vec![BEFORE; bytes]);
    let [buffer0, buffer1] = &mut buffers;
    match dealer.deal_by_clock(order, [buffer0, buffer1]) {
        Ok(place) => {
            assert_eq!(dealer.last, order.number);
            (0, place)
        }
        Err(Refused { why, place }) => {
            assert!(buffers.concat().iter().all(|&byte| byte == BEFORE));
            assert_eq!(dealer, before);
            (why as u32, place)
        }
    }
}

/// The halves and the state are those of the deal by the row's threshold, byte for byte.
#[test]
fn it_is_the_deal_by_the_row() {
    let thresholds = [3, 5, 513];
    let day = working_day(thresholds);
    for code in 0..3 {
        for (minute, place) in [
            (0, 3),
            (419, 3),
            (420, 2),
            (700, 2),
            (1079, 2),
            (1080, 1),
            (1439, 1),
        ] {
            let rule = Rule::Threshold(thresholds[place - 1]);
            let by_clock = order(code, &day, minute);
            let plain = Order {
                code,
                length: LENGTH,
                rule,
                number: NUMBER,
                seed: &[7; 32],
            };
            let (mut one, mut other) = (dealer(), dealer());
            let mut buffers = [(); 4].map(|()| vec![BEFORE; BYTES + 100]);
            let [buffer0, buffer1, buffer2, buffer3] = &mut buffers;
            let answer = one.deal_by_clock(&by_clock, [buffer0, buffer1]);
            assert_eq!(answer, Ok(place as u32));
            other.deal(&plain, [buffer2, buffer3]).unwrap();
            assert_eq!(one, other);
            assert_eq!(buffers[..2], buffers[2..]);
        }
    }
}

/// A state that is all zero, which no start leaves, is dealt from too.
#[test]
fn a_state_of_zeros() {
    let day = working_day([1, 2, 3]);
    let (mut one, mut other) = (Dealer::default(), Dealer::default());
    let mut buffers = [(); 4].map(|()| vec![BEFORE; BYTES]);
    let [buffer0, buffer1, buffer2, buffer3] = &mut buffers;
    let by_clock = order(0, &day, 0);
    assert_eq!(one.deal_by_clock(&by_clock, [buffer0, buffer1]), Ok(3));
    let plain = Order {
        code: 0,
        length: LENGTH,
        rule: Rule::Threshold(3),
        number: NUMBER,
        seed: &[7; 32],
    };
    other.deal(&plain, [buffer2, buffer3]).unwrap();
    assert_eq!((one, &buffers[..2]), (other, &buffers[2..]));
}

/// Bad tables, and what they are answered by: lists, rows, a gap below an overlap and an
/// overlap below a gap.
fn bad_tables() -> [(Table, (u32, u32)); 6] {
    let mut short = working_day([1, 2, 3]);
    short.thresholds.pop();
    [
        (short, (14, 0)),
        (Table::default(), (14, 0)),
        (table(&[(0, 99), (100, 99), (100, 1440)]), (14, 2)),
        (table(&[(0, 299), (301, 900), (900, 1439)]), (15, 300)),
        (table(&[(1, 1439)]), (15, 0)),
        (table(&[(0, 300), (300, 899), (901, 1439)]), (16, 300)),
    ]
}

/// An order, the sizes of its buffers and what it is answered by.
type Answered<'a> = (Order<'a, Clock<'a>>, [usize; 2], (u32, u32));

/// Orders with everything wrong at first; then one thing after the other is put right in the
/// order of the tests.
fn wrong_orders(table: &Table, minute: u32) -> [Answered<'_>; 8] {
    let right = order(2, table, 700);
    let minute = Order {
        rule: Clock { table, minute },
        ..right
    };
    let number = Order {
        number: LAST,
        ..minute
    };
    let length = Order {
        length: 513,
        ..number
    };
    let seed = Order {
        seed: &[7; 31],
        ..number
    };
    let code = Order { code: 3, ..seed };
    [
        (code, [0, 0], (2, 0)),
        (seed, [0, 0], (4, 0)),
        (length, [0, 0], (4, 0)),
        (number, [BYTES, BYTES - 1], (5, 0)),
        (number, [BYTES - 1, BYTES], (5, 0)),
        (number, [BYTES, BYTES], (7, 0)),
        (minute, [BYTES, BYTES], (8, 0)),
        (right, [BYTES, BYTES], (0, 2)),
    ]
}

/// 8, by a minute above the day or by the row's threshold, comes in its usual turn; the table
/// comes before all of it. The place is 0 beside every refusal but the table's.
#[test]
fn refusals_come_in_order() {
    let day = working_day([-1, 5, 514]);
    let cut_to_noon = [MINUTES + 700, 65_536 + 700, (1 << 31) + 700];
    for minute in [MINUTES, u32::MAX, 0, 1439].into_iter().chain(cut_to_noon) {
        for (order, bytes, expected) in wrong_orders(&day, minute) {
            assert_eq!(answer(&order, bytes), expected, "{order:?}");
            for (table, refused) in bad_tables() {
                let clock = Clock {
                    table: &table,
                    ..order.rule
                };
                let bad = Order {
                    rule: clock,
                    ..order
                };
                assert_eq!(answer(&bad, bytes), refused, "{bad:?}");
            }
        }
    }
}

/// Only the chosen row's threshold is tested, at both ends of each measure's range.
#[test]
fn only_the_chosen_threshold_is_tested() {
    for measure in Measure::ALL {
        let (lowest, highest) = measure.thresholds().into_inner();
        let (below, above) = (lowest.wrapping_sub(1), highest.wrapping_add(1));
        for (threshold, good) in [
            (below, false),
            (lowest, true),
            (highest, true),
            (above, false),
        ] {
            for (minute, place) in [(0, 3), (420, 2), (1439, 1)] {
                let mut thresholds = [i32::MIN; 3];
                thresholds[place as usize - 1] = threshold;
                let day = working_day(thresholds);
                let order = order(measure.code().into(), &day, minute);
                let expected = if good { (0, place) } else { (8, 0) };
                assert_eq!(answer(&order, [BYTES; 2]), expected, "{order:?}");
            }
        }
    }
}

/// Numbers are compared and dealt in all of their 64 bits, up to the last one.
#[test]
fn numbers_of_64_bits() {
    let day = working_day([1, 2, 3]);
    let (mut dealer, mut buffers) = (dealer(), [[BEFORE; BYTES]; 2]);
    // The first is below the dealer's last number in 32 bits; the third is above it so.
    let high = (1 << 32) + LAST - 1;
    for (number, taken) in [
        (high, true),
        (high, false),
        (u32::MAX.into(), false),
        (u64::MAX, true),
        (u64::MAX, false),
        (0, false),
    ] {
        let order = Order {
            number,
            ..order(0, &day, 700)
        };
        let [buffer0, buffer1] = &mut buffers;
        let answer = dealer.deal_by_clock(&order, [buffer0, buffer1]);
        let refused = Refused {
            why: Refusal::Number,
            place: 0,
        };
        let expected = if taken { Ok(2) } else { Err(refused) };
        assert_eq!(answer, expected, "{number}");
        if taken {
            let begin = number.to_le_bytes();
            assert!(buffers.iter().all(|half| half.starts_with(&begin)));
            assert_eq!(dealer.last, number);
        }
    }
}
