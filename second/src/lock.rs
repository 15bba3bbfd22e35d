//! The lock and its join: 01, "One check at a box" and "When a call is turned down".

use crate::content::Name;
use crate::message::{padded, Label, ANSWER};
use crate::refusal::Refusal;

/// A lock's state.
#[derive(Clone, Debug, Default, PartialEq, Eq)]
pub struct Lock {
    pub name: Name,
    pub last: u64,
}

/// A box's answer as it is handed in.
#[derive(Clone, Copy, Debug)]
pub struct Answer<'a> {
    pub label: Label<'a>,
    pub answer: u32,
}

impl Lock {
    pub fn start(name: &[u8], floor: u64) -> Result<Lock, Refusal> {
        Ok(Lock {
            name: padded(name)?,
            last: floor,
        })
    }

    /// Joins the answers of party 0 and party 1: 1 if the rule is met, else 0.
    pub fn join(&mut self, answers: [&Answer; 2]) -> Result<u32, Refusal> {
        let [first, second] = answers.map(|answer| answer.label);
        Refusal::Length.unless(first.is_whole() && second.is_whole())?;
        let (name, number) = (&self.name, first.number);
        Refusal::Label.unless(first.is(ANSWER, name, 0) && second.is(ANSWER, name, 1))?;
        Refusal::Number.unless(number > self.last && second.number == number)?;
        let sum = answers[0].answer.wrapping_add(answers[1].answer);
        Refusal::Sum.unless(sum < 2)?;
        self.last = number;
        Ok(sum)
    }
}

/// The join of the C host, which keeps the padded name and the last number itself: 0
/// or 1, or 100 plus the refusal. After a 0 or 1 the joined number is the last one.
pub fn host_join(name: &[u8], last: u64, answers: [&Answer; 2]) -> u32 {
    let joined = match name.try_into() {
        Ok(name) => Lock { name, last }.join(answers),
        Err(_) => Err(Refusal::Length),
    };
    joined.unwrap_or_else(|refusal| 100 + refusal as u32)
}

/// The C host's last number after that join: the joined one, or the same as before if
/// the join was turned down.
pub fn host_last(name: &[u8], last: u64, answers: [&Answer; 2]) -> u64 {
    match host_join(name, last, answers) {
        0 | 1 => answers[0].label.number,
        _ => last,
    }
}

#[cfg(test)]
mod tests {
    use super::*;
    use crate::refusal;

    const NAME: Name = *b"Hut 4\0\0\0\0\0\0\0\0\0\0\0";

    fn lock() -> Lock {
        Lock::start(b"Hut 4", 10).unwrap()
    }

    fn answer(sender: u64, number: u64, answer: u32) -> Answer<'static> {
        let label = Label {
            kind: ANSWER,
            name: &NAME,
            sender,
            number,
        };
        Answer { label, answer }
    }

    /// 01: sums are taken modulo 2^32.
    #[test]
    fn sums() {
        for (first, second, joined) in [
            (4_294_967_295, 2, Ok(1)),
            (4_294_967_295, 1, Ok(0)),
            (0, 1, Ok(1)),
            (0, 0, Ok(0)),
            (1, 1, Err(Refusal::Sum)),
            (4_294_967_295, 0, Err(Refusal::Sum)),
        ] {
            let mut lock = lock();
            let answers = [answer(0, 11, first), answer(1, 11, second)];
            let answers = [&answers[0], &answers[1]];
            assert_eq!(lock.join(answers), joined);
            assert_eq!(lock.last, if joined.is_ok() { 11 } else { 10 });
            let host = joined.unwrap_or(112);
            assert_eq!(host_join(&NAME, 10, answers), host);
            assert_eq!(host_last(&NAME, 10, answers), lock.last);
            assert_eq!(host_last(&NAME[..15], 10, answers), 10);
            assert_eq!(host_join(&NAME[..15], 10, answers), 104);
        }
    }

    /// Each thing wrong with everything above it wrong too.
    #[test]
    fn refusals_come_in_order_and_change_nothing() {
        let wrong_sum = [answer(0, 11, 5), answer(1, 11, 5)];
        let stale = [answer(0, 10, 5), answer(1, 10, 5)];
        let unequal = [answer(0, 11, 5), answer(1, 12, 5)];
        let exchanged = [answer(1, 10, 5), answer(0, 10, 5)];
        let mut other_kind = stale;
        other_kind[1].label.kind = ANSWER + (1 << 32);
        let mut other_name = stale;
        other_name[1].label.name = b"Hut 4\0\0\0\0\0\0\0\0\0\0 ";
        let mut short = exchanged;
        short[1].label.name = &NAME[..15];
        for (answers, refusal) in [
            (short, 4),
            (exchanged, 6),
            (other_kind, 6),
            (other_name, 6),
            (stale, 7),
            (unequal, 7),
            (wrong_sum, 12),
        ] {
            let mut lock = lock();
            let answers = [&answers[0], &answers[1]];
            assert_eq!(refusal::number(&lock.join(answers)), refusal);
            assert_eq!(lock, super::tests::lock());
            assert_eq!(host_join(&NAME, 10, answers), 100 + refusal);
        }
    }

    #[test]
    fn the_highest_number_is_the_last() {
        let mut lock = lock();
        let answers = [answer(0, u64::MAX, 0), answer(1, u64::MAX, 0)];
        assert_eq!(lock.join([&answers[0], &answers[1]]), Ok(0));
        let again = lock.join([&answers[0], &answers[1]]);
        assert_eq!(again, Err(Refusal::Number));
        assert_eq!(Lock::start(b"", 0), Err(Refusal::Name));
    }
}
