//! The script of the program `test_replay`: whole checks (`replay_checks`), every refusal of
//! every call with every other one that may apply beside it (here, and `replay_boxes`),
//! states that no call leaves, sets loaded ahead (`replay_ahead`, `replay_pairs`), sets
//! between two marks (`replay_marks`) and by the clock (`replay_clock`, `replay_days`), lists
//! of calls as a bad network and a careless host make them (`replay_lists`), halves from
//! before (`replay_older`), and trials (`replay_trial`). What is refused, and by which number,
//! stands here and is not asked of this implementation; so does every joined bit.

use crate::field;
use crate::measure::{Measure, MAX_LENGTH};
use crate::replay::BOXES;
use crate::replay_script::{choices, half_bytes, other_names, Deal, Join, Message, Script};
use crate::rule::Rule;
use crate::script::Case;

/// What is no line of a script.
const BAD_LINES: [&str; 46] = [
    "bad",
    "drop",
    "drop door",
    "drop camera office",
    "drop  camera",
    "drop camera ",
    " drop camera",
    "lock 4a -1",
    "lock 4a 18446744073709551616",
    "lock 4 1",
    "lock 4A 1",
    "party camera 4a 4294967296 @32:1 0",
    "deal 90000000 @32:1 0 1 0 1536 8705",
    "deal 90000000 @32:1 0 1 4294967296 1536 1536",
    "deal 90000000 @32:1 0 1 0 1536",
    "load camera camera 4 1536 0",
    "load camera lock 0 1536 0",
    "load camera camera 0 8705 0",
    "mask camera 010000 1",
    "mask camera 01000000 521",
    "take camera 0 - 1 1 lock",
    "finish camera 1 - 1 1 4294967296",
    "join 2 - 0 1 camera 2 - 1 1",
    "deal 90000000 @32:1 0 1 5: 1536 1536",
    "deal 90000000 @32:1 0 1 :5 1536 1536",
    "deal 90000000 @32:1 0 1 5:6:7 1536 1536",
    "deal 90000000 @32:1 0 1 4294967296:5 1536 1536",
    "deal 90000000 @32:1 0 1 5:4294967296 1536 1536",
    "deal 90000000 @32:1 0 1 -1:5 1536 1536",
    "deal 90000000 @32:1 0 1 5 6 1536 1536",
    "put camera 0 0 0",
    "width camera 0",
    "width camera 0 0 0",
    "width lock 0 0",
    "width office 4294967296 0",
    "width office 0 4294967296",
    "width office 0 -",
    "waiting camera 1 0",
    "waiting camera 1 0 1 0",
    "waiting lock 1 0 1",
    "waiting office 18446744073709551616 0 1",
    "waiting office 1 4294967296 1",
    "waiting office 1 0 4294967296",
    "waiting office 1 0 -",
    "show door",
    "show",
];

impl Script {
    /// Calls on states that are all zero.
    fn before_the_first_start(&mut self) {
        self.claim.off = true;
        self.say("# Before the first start every state is zero.");
        self.say("");
        self.show_all();
        let zeros = "00".repeat(16);
        for call in ["drop camera", "drop office", "mask camera 01000000 1"] {
            self.answered(call, 3);
        }
        self.answered(format!("take office 0 {zeros} 1 0 camera"), 3);
        self.answered(format!("finish camera 1 {zeros} 1 0 office"), 3);
        self.answered(format!("bytes camera {}", "00".repeat(1536)), 7);
        self.answered(format!("join 2 {zeros} 0 0 camera 2 {zeros} 1 0 office"), 7);
        let join = format!("2 {zeros} 0 1 camera 2 {zeros} 1 1 office");
        self.answered(format!("host {zeros} 0 {join}"), "0 1");
        self.answered(format!("join {join}"), "0 0");
        self.answered("deal 0 @32:1 0 1 0 1536 1536", 7);
        self.accepted("deal 1 @32:1 0 1 0 1536 1536");
        self.answered("load camera office 0 1536 9999", 11);
        self.answered("load camera camera 0 1536 9999", 0);
        self.answered("load office camera 0 1536 9999", 0);
        self.show_all();
        self.by_the_clock_before_the_first_start();
    }

    /// Names that no start takes, and some that are taken.
    fn names(&mut self) -> [String; 6] {
        let long = field::format(b"Hut 4, east doors");
        assert_eq!(long.len(), 34);
        let bad = ["-", &long, "41421f", "7f", "4100", "41ff42"].map(str::to_string);
        for (name, refusal) in [
            (field::format(b"Hut 4, east door"), 0),
            (long, 1),
            (field::format(b" ~"), 0),
            (field::format(b" "), 0),
        ] {
            self.answered(format!("lock {name} 7"), refusal);
            self.answered(format!("dealer {name} @32:5 @32:6 7"), refusal);
            self.answered(format!("party camera {name} 0 @32:5 7"), refusal);
            self.answered(format!("party office {name} 1 @32:6 7"), refusal);
            self.show_all();
        }
        bad
    }

    fn wrong_starts(&mut self) {
        let bad_names = self.names();
        self.start("Hut 4", [3, 4, 5, 6]);
        let before = self.show_all();
        for (variant, bad_name) in bad_names.iter().enumerate() {
            let name = |wrong: &[u32]| match wrong.contains(&1) {
                true => bad_name,
                false => "4875742034",
            };
            let short = ["@31:1", "@33:1", "-"][variant % 3];
            for wrong in choices(&[1, 4, 9]) {
                let equal = wrong.contains(&9);
                let keys = match (wrong.contains(&4), equal) {
                    (true, true) => [short, short],
                    (true, false) if variant % 2 == 0 => ["@32:1", short],
                    (true, false) => [short, "@32:1"],
                    (false, true) => ["@32:1", "@32:1"],
                    (false, false) => ["@32:1", "@32:2"],
                };
                let line = format!("dealer {} {} {} 0", name(&wrong), keys[0], keys[1]);
                self.answered(line, wrong[0]);
            }
            for wrong in choices(&[1, 2, 4]) {
                let party = match wrong.contains(&2) {
                    true => [2, 256, u32::MAX][variant % 3],
                    false => variant as u32 % 2,
                };
                let key = if wrong.contains(&4) { short } else { "@32:1" };
                let (at, name) = (BOXES[variant % 2], name(&wrong));
                self.answered(format!("party {at} {name} {party} {key} 0"), wrong[0]);
            }
            self.answered(format!("lock {bad_name} 0"), 1);
        }
        assert_eq!(self.show_all(), before);
        self.answered("party office 4875742034 0 @32:1 9", 0);
        self.show("office");
    }

    /// What makes a deal one that is refused by this number.
    pub fn spoil_deal(&self, deal: &mut Deal, refusal: u32, variant: usize) {
        let last = self.replay.dealer.last;
        match (refusal, variant) {
            (2, _) => deal.code = [3, 256, u32::MAX][variant],
            (4, 0) => deal.seed = "@31:5".to_string(),
            (4, 1) => (deal.length, deal.seed) = (0, "@33:5".to_string()),
            (4, _) => deal.length = 513,
            (5, 0) => deal.rooms[0] -= 1,
            (5, 1) => deal.rooms[1] -= 1,
            (5, _) => deal.rooms = [0, 0],
            (7, _) => deal.number = [last, 0, last - 1][variant],
            (8, _) => deal.rule = [(1 << 30) + 1, i32::MIN, 514][variant].into(),
            _ => unreachable!("a deal has no refusal {refusal}"),
        }
    }

    fn wrong_deals(&mut self) {
        self.start("A dealer's door", [40, 0, 0, 0]);
        self.dealt(Measure::Scalar, 3, 5);
        let before = self.show("dealer");
        for (variant, length) in [(0, 18), (1, 1), (2, 512)] {
            for wrong in choices(&[2, 4, 5, 7, 8]) {
                let measure = Measure::ALL[variant];
                let mut deal = self.new_deal(self.next_number(), measure, length, 5);
                for refusal in &wrong {
                    self.spoil_deal(&mut deal, *refusal, variant);
                }
                self.answered(deal, wrong[0]);
            }
        }
        for (measure, threshold) in [
            (Measure::Scalar, -(1 << 30) - 1),
            (Measure::Scalar, i32::MAX),
            (Measure::Scalar, i32::MIN),
            (Measure::Euclid, -1),
            (Measure::Hamming, -1),
            (Measure::Hamming, 1 << 16),
        ] {
            let deal = self.new_deal(self.next_number(), measure, 1, threshold);
            self.answered(deal, 8);
        }
        assert_eq!(self.show("dealer"), before);
        self.rooms();
    }

    /// Just as much room as is needed, a byte less, and more.
    fn rooms(&mut self) {
        for length in [1, 16, 17, 56, 57, 138, 501, MAX_LENGTH] {
            let rule = match length % 2 {
                0 => Rule::Threshold(7),
                _ => Rule::Between(7, 9),
            };
            let deal = self.new_deal(self.next_number() + 2, Measure::Hamming, length, rule);
            for (rooms, refusal) in [
                ([half_bytes(length) - 1, 8704], 5),
                ([8704, half_bytes(length) - 1], 5),
                ([half_bytes(length), half_bytes(length) + 1], 0),
            ] {
                let deal = Deal {
                    rooms,
                    ..deal.clone()
                };
                assert_eq!(self.deal(&deal), refusal, "{deal}");
            }
            self.show("dealer");
        }
    }

    /// Spoils a message that is as it should be.
    pub fn spoil_message(&self, message: &mut Message, refusal: u32, variant: usize) {
        let (kind, sender, number) = (message.kind, message.sender, message.number);
        match (refusal, variant) {
            (4, 0) => message.name = "-".to_string(),
            (4, 1) => message.name.truncate(30),
            (4, 2) => message.name.push_str("00"),
            (4, _) => message.name = self.door.bare.clone(),
            (6, 0) => message.kind = (kind + 1) % 3,
            (6, 1) => message.kind = (kind + 2) % 3,
            (6, 2) => message.kind = kind + 256,
            (6, 3) => message.sender = 1 - sender,
            (6, 4) => message.sender = sender + 2,
            (6, 5) => message.sender = u32::MAX - 255 + sender,
            (6, _) => message.name = other_names(&self.door.padded)[variant % 4].clone(),
            (7, 0) => message.number = number.wrapping_sub(1),
            (7, 1) => message.number = number.wrapping_add(1),
            (7, 2) => message.number = 0,
            (7, 3) => message.number = number.wrapping_add(1 << 32),
            (7, _) => message.number = u64::MAX,
            _ => unreachable!("a message has no refusal {refusal}"),
        }
    }

    /// Joins with these things wrong with the first message, the second, or both.
    fn wrong_join(&self, good: &Join, wrong: &[u32], variant: usize) -> Join {
        let mut join = good.clone();
        let spoilt = wrong.iter().filter(|refusal| **refusal != 12);
        for (turn, refusal) in spoilt.enumerate().collect::<Vec<_>>().into_iter().rev() {
            let message = &mut join.messages[(variant + turn) % 2];
            self.spoil_message(message, *refusal, variant);
        }
        if wrong.contains(&12) {
            let sums = [[1, 1], [u32::MAX, 0], [1 << 31, 5]];
            join.answers = sums[variant % 3].map(|answer| answer.to_string());
        }
        join
    }

    /// Joins of two boxes that have both answered.
    fn wrong_joins(&mut self) {
        let before = self.show("lock");
        let good = self.join_of(self.replay.dealer.last);
        for wrong in choices(&[4, 6, 7, 12]) {
            for variant in 0..4 {
                let join = self.wrong_join(&good, &wrong, variant);
                self.answered(format!("join {join}"), wrong[0]);
            }
            let join = self.wrong_join(&good, &wrong, wrong.len());
            self.wrong_host(&join, wrong[0], wrong.len());
        }
        for variant in 4..10 {
            for wrong in [&[6][..], &[6, 7]] {
                let join = self.wrong_join(&good, wrong, variant);
                self.answered(format!("join {join}"), 6);
            }
        }
        self.stale_joins(&good);
        assert_eq!(self.show("lock"), before);
        assert_eq!(self.host_and_join(&good), 0);
        assert_eq!(self.host_and_join(&good), 7);
        self.show_all();
    }

    /// Both messages stale, or exchanged.
    fn stale_joins(&mut self, good: &Join) {
        let Join { messages, answers } = good;
        let [first, second] = messages.clone();
        let exchanged = Join {
            messages: [second.clone(), first.clone()],
            answers: answers.clone(),
        };
        let doubled = Join {
            messages: [first.clone(), first.clone()],
            answers: answers.clone(),
        };
        for (join, refusal) in [(exchanged, 6), (doubled, 6)] {
            assert_eq!(self.host_and_join(&join), refusal);
        }
        for back in [1, 5, 1 << 33] {
            let mut stale = good.clone();
            for message in &mut stale.messages {
                message.number -= back;
            }
            assert_eq!(self.host_and_join(&stale), 7);
        }
    }

    /// A refused join at the C host, and the same under a name of a wrong length.
    fn wrong_host(&mut self, join: &Join, refusal: u32, variant: usize) {
        let (name, last) = (self.door.padded.clone(), self.replay.lock.last);
        let answer = format!("{} {last}", 100 + refusal);
        self.answered(format!("host {name} {last} {join}"), answer);
        let long = format!("{name}00");
        let other = ["-", &self.door.bare, &name[..30], &long][variant % 4];
        self.answered(format!("host {other} {last} {join}"), format!("104 {last}"));
    }

    /// 01: sums are taken modulo 2^32.
    fn sums(&mut self) {
        self.start("A lock's door", [0, 0, 0, 5]);
        for (turn, (first, second, bit)) in [
            (u32::MAX, 2, 1),
            (2, u32::MAX, 1),
            (u32::MAX, 1, 0),
            (0, 1, 1),
            (1, 0, 1),
            (0, 0, 0),
            (1 << 31, 1 << 31, 0),
            ((1 << 31) + 1, 1 << 31, 1),
        ]
        .into_iter()
        .enumerate()
        {
            let number = 6 + 3 * turn as u64;
            let mut join = self.join_of(number);
            join.answers = [first.to_string(), second.to_string()];
            let name = self.door.padded.clone();
            self.answered(format!("host {name} 0 {join}"), format!("{bit} {number}"));
            self.answered(format!("join {join}"), format!("0 {bit}"));
            self.answered(format!("join {join}"), 7);
            self.answered(
                format!("host {name} {number} {join}"),
                format!("107 {number}"),
            );
            let other = other_names(&name)[turn % 4].clone();
            self.answered(format!("host {other} 0 {join}"), "106 0");
            self.show("lock");
        }
    }

    /// None of them changes a state.
    fn bad_lines(&mut self) {
        let before = self.show_all();
        for line in BAD_LINES {
            let place = self.list.len() + 1;
            self.answered(line, format!("bad line {place}"));
        }
        self.answered("#drop camera", "");
        self.answered("", "");
        assert_eq!(self.show_all(), before);
    }
}

/// Every line of the script, the same ones at each call.
pub fn cases() -> Vec<Case> {
    let mut script = Script::default();
    script.before_the_first_start();
    script.first_messages();
    script.wrong_starts();
    script.whole_checks();
    script.checks_of_01();
    script.wrong_deals();
    script.wrong_loads(0);
    script.wrong_loads(1);
    script.wrong_numbers();
    script.other_boxes();
    script.wrong_contents();
    script.wrong_masks();
    script.wrong_messages();
    script.wrong_joins();
    script.sums();
    script.floors();
    script.turns(0);
    script.turns(1);
    script.drops();
    script.edges_of_load_ahead();
    script.pairs();
    script.pairs_with_drops();
    script.bad_lines();
    script.lists();
    script.distances();
    script.older_sets();
    script.between_marks();
    script.by_the_clock();
    script.trials();
    script.list
}

#[cfg(test)]
mod tests {
    use super::*;
    use crate::replay::Replay;
    use crate::script::{MAX_LINE, MAX_STDIN};
    use std::collections::BTreeMap;

    /// The most bytes of the answers.
    const MAX_STDOUT: usize = 200_000;

    #[test]
    fn cases_are_right_and_not_too_long() {
        let (cases, again) = (cases(), cases());
        let mut replay = Replay::default();
        for (case, again) in cases.iter().zip(&again) {
            case.check(|line| Ok(replay.answer(line))).unwrap();
            assert_eq!(case.line, again.line);
            assert!(case.line.len() <= MAX_LINE);
        }
        let size = |side: fn(&Case) -> &str| cases.iter().map(|case| side(case).len() + 1).sum();
        assert!((0..=MAX_STDIN).contains(&size(|case| &case.line)));
        assert!((0..=MAX_STDOUT).contains(&size(|case| &case.expected)));
    }

    /// How often each call is answered by each number. A deal between two marks is a call of
    /// its own.
    fn answers() -> BTreeMap<(String, u32), usize> {
        let mut answers = BTreeMap::new();
        for case in cases() {
            let fields: Vec<&str> = case.line.split(' ').collect();
            let number = case.expected.split(' ').next().unwrap();
            let command = match fields[0] {
                "mixed" | "bytes" => "load",
                "trial-mixed" | "trial-bytes" => "trial",
                "deal" if fields[5].contains(':') => "deal between",
                command => command,
            };
            if let Ok(number) = number.parse() {
                *answers.entry((command.to_string(), number)).or_default() += 1;
            }
        }
        answers
    }

    /// The table of refusals: every call meets just those that fit it.
    #[test]
    fn every_refusal_of_every_call_is_there() {
        let answers = answers();
        let mut expected = Vec::new();
        for (command, numbers) in [
            ("clock", &[0, 2, 4, 5, 7, 8, 14, 15, 16][..]),
            ("deal", &[0, 2, 4, 5, 7, 8]),
            ("deal between", &[0, 2, 4, 5, 7, 8, 13]),
            ("dealer", &[0, 1, 4, 9]),
            ("drop", &[0, 3]),
            ("finish", &[0, 3, 4, 6, 7]),
            ("host", &[0, 1, 104, 106, 107, 112]),
            ("join", &[0, 4, 6, 7, 12]),
            ("load", &[0, 3, 4, 7, 10, 11]),
            ("lock", &[0, 1]),
            ("mask", &[0, 3, 4, 5, 8]),
            ("party", &[0, 1, 2, 4]),
            ("take", &[0, 3, 4, 6, 7]),
            ("trial", &[0, 3, 4, 7, 10, 11]),
        ] {
            expected.extend(numbers.iter().map(|number| (command.to_string(), *number)));
        }
        let found: Vec<(String, u32)> = answers.into_keys().collect();
        // A tag may begin with digits alone only where a part is shown.
        let found: Vec<_> = found
            .into_iter()
            .filter(|(name, _)| name != "show")
            .collect();
        assert_eq!(found, expected);
    }
}
