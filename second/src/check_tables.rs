//! The cases of the program `test_checks` on 02, "Strictness by the clock": tables of the day,
//! good ones asked around the ends of their rows, and bad ones of every kind. What they are
//! answered by stands here and is not asked of this implementation. Generated tables are in
//! `check_tilings`.

use crate::cases::Cases;
use crate::checks::{words, MAX_LIST};
use crate::day::{MAX_ROWS, MINUTES};
use crate::replay_script::hex_words;
use std::collections::BTreeSet;

/// A row's first minute and its last one. Its threshold comes from its place.
pub type Ends = (u32, u32);

/// A refusal and the place beside it.
pub type Why = (u32, u32);

const MOST: u32 = u32::MAX;

/// Good tables: the day in one row; a night around a working day, in every order; rows of one
/// minute at both ends; and many of them.
const GOOD: [&[Ends]; 12] = [
    &[(0, 1439)],
    &[(0, 0), (1, 1439)],
    &[(1439, 1439), (0, 1438)],
    &[(0, 419), (420, 1079), (1080, 1439)],
    &[(0, 419), (1080, 1439), (420, 1079)],
    &[(420, 1079), (0, 419), (1080, 1439)],
    &[(420, 1079), (1080, 1439), (0, 419)],
    &[(1080, 1439), (0, 419), (420, 1079)],
    &[(1080, 1439), (420, 1079), (0, 419)],
    &[(1439, 1439), (1, 719), (0, 0), (720, 720), (721, 1438)],
    &[(0, 719), (720, 1439)],
    &[(5, 1435), (4, 4), (1436, 1436), (0, 3), (1437, 1439)],
];

/// Rows that run backwards or past the day: the first such row is the place.
const BAD_ROWS: [(&[Ends], u32); 33] = [
    (&[(1, 0)], 1),
    (&[(0, 1440)], 1),
    (&[(1, 1440)], 1),
    (&[(1439, 1440)], 1),
    (&[(1440, 1440)], 1),
    (&[(1440, 1439)], 1),
    (&[(1439, 1438)], 1),
    (&[(1439, 0)], 1),
    (&[(MOST, 0)], 1),
    (&[(MOST, 1439)], 1),
    (&[(0, MOST)], 1),
    (&[(1, MOST)], 1),
    (&[(MOST, MOST)], 1),
    (&[(MOST - 1, MOST)], 1),
    (&[(MOST, MOST - 1)], 1),
    // Words that are 1,439 or 0 in fewer bits, or below 0 as numbers with a sign.
    (&[(0, 65_536 + 1439)], 1),
    (&[(65_536, 1439)], 1),
    (&[(1 << 31, 1439)], 1),
    (&[(0, (1 << 31) + 1439)], 1),
    (&[(1 << 31, 1 << 31)], 1),
    // At each place of three, and more than one of them.
    (&[(420, 419), (0, 419), (420, 1439)], 1),
    (&[(0, 419), (421, 420), (420, 1439)], 2),
    (&[(0, 419), (420, 1439), (700, 699)], 3),
    (&[(0, 1440), (421, 420), (420, 1439)], 1),
    (&[(0, 419), (420, 1440), (1440, 1440)], 2),
    (&[(1, 0), (0, 1439), (1, 0)], 1),
    (&[(0, 1439), (MOST, 0), (0, MOST)], 2),
    (&[(2, 1), (1, 0), (MOST, 0)], 1),
    // Gaps and overlaps beside it do not count.
    (&[(1, 1439), (1440, 1440)], 2),
    (&[(0, 1439), (0, 1439), (9, 8)], 3),
    (&[(0, 0), (0, 0), (5, 5), (5, 1440)], 4),
    (&[(7, 7), (8, 7), (0, 3), (3, 2), (0, 1440)], 2),
    (&[(100, 200), (150, 300), (200, 1440), (0, 1439)], 3),
];

/// Minutes in no row: the lowest is the place.
const GAPS: [(&[Ends], u32); 16] = [
    (&[(1, 1439)], 0),
    (&[(1439, 1439)], 0),
    (&[(2, 1439), (1, 1)], 0),
    (&[(0, 0)], 1),
    (&[(0, 0), (2, 1439)], 1),
    (&[(0, 719), (721, 1439)], 720),
    (&[(0, 719), (1080, 1439)], 720),
    (&[(0, 899), (901, 1439)], 900),
    (&[(0, 1437)], 1438),
    (&[(0, 1437), (1439, 1439)], 1438),
    (&[(0, 1438)], 1439),
    (&[(0, 719), (720, 1438)], 1439),
    // More than one gap.
    (&[(1, 719), (721, 1438)], 0),
    (&[(0, 299), (301, 899), (901, 1439)], 300),
    (&[(0, 299), (310, 899), (901, 1438)], 300),
    (&[(0, 254), (257, 1439)], 255),
];

/// Minutes in two rows or more: the lowest is the place.
const OVERLAPS: [(&[Ends], u32); 20] = [
    (&[(0, 0), (0, 1439)], 0),
    (&[(0, 1439), (0, 1439)], 0),
    (&[(0, 1), (1, 1439)], 1),
    (&[(0, 1439), (1, 1)], 1),
    (&[(0, 720), (720, 1439)], 720),
    (&[(0, 1439), (420, 1079)], 420),
    (&[(0, 1079), (420, 1439)], 420),
    (&[(0, 1438), (1438, 1439)], 1438),
    (&[(0, 1439), (1438, 1438)], 1438),
    (&[(0, 1439), (1439, 1439)], 1439),
    (&[(0, 255), (255, 1439)], 255),
    (&[(0, 256), (256, 1439)], 256),
    // More than one overlap, and minutes in three rows and in all of four.
    (&[(0, 300), (300, 900), (900, 1439)], 300),
    (&[(0, 900), (300, 1439), (900, 900)], 300),
    (&[(0, 600), (600, 600), (600, 1439)], 600),
    (&[(0, 1439), (600, 600), (600, 600), (600, 600)], 600),
    (&[(0, 700), (600, 1439), (650, 650), (650, 1000)], 600),
    (&[(0, 1439), (1439, 1439), (1439, 1439)], 1439),
    (&[(0, 719), (720, 1439), (0, 719), (720, 1439)], 0),
    (&[(0, 719), (720, 1439), (719, 720)], 719),
];

/// Both in one table: the lowest bad minute decides.
const GAPS_AND_OVERLAPS: [(&[Ends], Why); 16] = [
    (&[(0, 300), (300, 899), (901, 1439)], (16, 300)),
    (&[(0, 299), (301, 900), (900, 1439)], (15, 300)),
    (&[(0, 0), (0, 0), (2, 1439)], (16, 0)),
    (&[(1, 1), (1, 1439)], (15, 0)),
    (&[(0, 0), (2, 2), (2, 1439)], (15, 1)),
    (&[(0, 1), (1, 1), (3, 1439)], (16, 1)),
    (&[(0, 1438), (1438, 1438)], (16, 1438)),
    (&[(0, 1437), (1439, 1439), (1439, 1439)], (15, 1438)),
    (&[(0, 1437), (1437, 1437), (1439, 1439)], (16, 1437)),
    (&[(0, 700), (702, 1439), (702, 702)], (15, 701)),
    (&[(0, 701), (701, 701), (703, 1439)], (16, 701)),
    // As many minutes as a day has, but not each once.
    (&[(0, 719), (0, 719)], (16, 0)),
    (&[(0, 719), (719, 1438)], (16, 719)),
    (&[(1, 720), (720, 1439)], (15, 0)),
    (&[(0, 999), (1000, 1219), (1220, 1438), (7, 7)], (16, 7)),
    (&[(0, 6), (8, 1439), (1439, 1439)], (15, 7)),
];

/// How many words the three lists have where they are not of one length, or of none.
const LENGTHS: [[usize; 3]; 23] = [
    [0, 0, 0],
    [0, 0, 1],
    [0, 1, 0],
    [1, 0, 0],
    [1, 1, 0],
    [1, 0, 1],
    [0, 1, 1],
    [2, 1, 1],
    [1, 2, 1],
    [1, 1, 2],
    [1, 2, 3],
    [32, 32, 33],
    [32, 33, 32],
    [33, 32, 32],
    [33, 33, 32],
    [32, 32, 31],
    [31, 32, 32],
    [32, 31, 32],
    [33, 33, 33],
    [MAX_LIST, 1, 1],
    [1, MAX_LIST, 1],
    [1, 1, MAX_LIST],
    [MAX_LIST; 3],
];

/// A count that is 1 in 8 bits, and the lists that have it.
const CUT_TO_1: usize = 257;
const CUT_LENGTHS: [[usize; 3]; 4] = [
    [CUT_TO_1; 3],
    [CUT_TO_1, 1, 1],
    [1, CUT_TO_1, 1],
    [1, 1, CUT_TO_1],
];

/// How many minutes of the day each of 32 rows has where all have as many.
const MINUTES_OF_32: u32 = MINUTES / MAX_ROWS as u32;

/// The most rows whose thresholds are written out.
const MAX_WRITTEN: usize = 5;

/// The thresholds of that many rows as a field: any words, below 0 and above it, and no two
/// alike. Most are in no measure's range.
fn thresholds(count: usize) -> String {
    if count > MAX_WRITTEN {
        return format!("~{count}:7:4294934528:65535");
    }
    let words = (1..=count as u32).map(|place| place.wrapping_mul(0x9e37_79b9));
    hex_words(&words.collect::<Vec<u32>>())
}

/// A list of as many of one word.
fn repeated(count: usize, word: u32) -> String {
    match count {
        0 => "-".to_string(),
        _ => format!("~{count}:0:{word}:0"),
    }
}

/// The field of a list of minutes.
fn minutes(list: &[u32]) -> String {
    match list {
        [first, _, ..] if list.iter().all(|minute| minute == first) => repeated(list.len(), *first),
        _ => hex_words(list),
    }
}

/// The line of a table with this field of thresholds.
pub fn line_with(rows: &[Ends], thresholds: &str, minute: u32) -> String {
    let (firsts, lasts): (Vec<u32>, Vec<u32>) = rows.iter().copied().unzip();
    let (firsts, lasts) = (minutes(&firsts), minutes(&lasts));
    format!("table {firsts} {lasts} {thresholds} {minute}")
}

/// Where the minute is in a row: the place of the row, counted from 1.
pub fn place_of(rows: &[Ends], minute: u32) -> Option<usize> {
    let around = |(first, last): &Ends| (*first..=*last).contains(&minute);
    rows.iter().position(around).map(|place| place + 1)
}

/// Minutes around the ends of every row, those around the ends of the day and some far above.
fn minutes_around(rows: &[Ends]) -> BTreeSet<u32> {
    let mut minutes = BTreeSet::from([0, 1439, 1440, 1441, 65_536, MOST]);
    for (first, last) in rows {
        minutes.extend([first.saturating_sub(1), *first, *last, last + 1]);
    }
    minutes
}

/// As many rows as there are lengths, one behind the other.
fn rows_of(lengths: &[u32]) -> Vec<Ends> {
    let mut next = 0;
    let mut row = |length: &u32| {
        next += length;
        (next - length, next - 1)
    };
    lengths.iter().map(&mut row).collect()
}

/// That many rows which are the day: all of one minute but for the last.
pub fn rows_to(count: usize) -> Vec<Ends> {
    let mut lengths = vec![1; count - 1];
    lengths.push(MINUTES - count as u32 + 1);
    rows_of(&lengths)
}

impl Cases {
    /// A good table asked for the row of a minute.
    fn good_table(&mut self, rows: &[Ends], minute: u32) {
        let thresholds = thresholds(rows.len());
        let expected = match place_of(rows, minute) {
            Some(place) => {
                let words = words(&thresholds).expect("a list");
                format!("0 {place} {}", words[place - 1])
            }
            None => "0 0 0".to_string(),
        };
        let line = line_with(rows, &thresholds, minute);
        self.add_expecting("02, 5: a good table", line, expected);
    }

    /// A bad table, whatever minute is asked for.
    fn bad_table(&mut self, rows: &[Ends], minute: u32, (why, place): Why) {
        let line = line_with(rows, &thresholds(rows.len()), minute);
        self.add_expecting("02, 5: a bad table", line, format!("{why} {place} 0"));
    }

    /// Good tables at every minute worth a look.
    fn good_tables(&mut self) {
        for rows in GOOD {
            for minute in minutes_around(rows) {
                self.good_table(rows, minute);
            }
        }
        for count in MAX_WRITTEN - 1..=MAX_ROWS {
            let minute = count as u32 - 1 - count as u32 % 2;
            self.good_table(&rows_to(count), minute);
        }
        // 32 rows of one length, each asked at one of its ends, and some backwards.
        let mut rows = rows_of(&[MINUTES_OF_32; MAX_ROWS]);
        for (place, (first, last)) in rows.clone().into_iter().enumerate() {
            let minute = if place % 2 == 0 { first } else { last };
            self.good_table(&rows, minute);
        }
        self.good_table(&rows, 1440);
        rows.reverse();
        for place in [0, 1, 15, 16, 30, 31] {
            self.good_table(&rows, rows[place].0);
        }
    }

    /// Bad minutes, the rows in both orders.
    fn bad_minutes(&mut self, rows: &[Ends], (why, place): Why) {
        let backwards: Vec<Ends> = rows.iter().rev().copied().collect();
        let other = [0, 1439, 1440, MOST][self.list.len() / 2 % 4];
        self.bad_table(rows, place, (why, place));
        if rows.len() > 1 && backwards != rows {
            self.bad_table(&backwards, other, (why, place));
        }
    }

    fn bad_tables(&mut self) {
        for (turn, (rows, place)) in BAD_ROWS.into_iter().enumerate() {
            let minute = [0, 1439, 1440, 700, MOST][turn % 5];
            self.bad_table(rows, minute, (14, place));
        }
        for (rows, place) in GAPS {
            self.bad_minutes(rows, (15, place));
        }
        for (rows, place) in OVERLAPS {
            self.bad_minutes(rows, (16, place));
        }
        for (rows, why) in GAPS_AND_OVERLAPS {
            self.bad_minutes(rows, why);
        }
    }

    /// 33 rows that are the day; 32 rows of which one is bad, at both ends and between, and
    /// more than one; and minutes in all of the rows there may be.
    fn many_rows(&mut self) {
        self.bad_table(&rows_to(MAX_ROWS + 1), 0, (14, 0));
        self.bad_table(&rows_to(MAX_ROWS + 2), 1440, (14, 0));
        let last = MAX_ROWS - 1;
        for (ends, bad) in [
            ((9, 8), &[0][..]),
            ((0, 1440), &[1]),
            ((9, 8), &[16]),
            ((0, 1440), &[30]),
            ((9, 8), &[last]),
            ((0, 1440), &[last]),
            ((9, 8), &[30, last]),
            ((0, 1440), &[0, last]),
        ] {
            let mut rows = rows_to(MAX_ROWS);
            for place in bad {
                rows[*place] = ends;
            }
            self.bad_table(&rows, 5, (14, bad[0] as u32 + 1));
        }
        for count in [3, MAX_ROWS - 1, MAX_ROWS] {
            self.bad_table(&vec![(0, 1439); count], 0, (16, 0));
            self.bad_table(&vec![(700, 700); count], 700, (15, 0));
        }
        let mut rows = vec![(700, 700); MAX_ROWS];
        rows[last] = (0, 1439);
        self.bad_table(&rows, 700, (16, 700));
        rows[last] = (0, 700);
        rows[0] = (701, 1439);
        self.bad_table(&rows, 701, (16, 700));
    }

    /// Lists of unequal lengths, and of one length that no table has. With rows that are good
    /// as far as they go, and with such as are bad too.
    fn lists(&mut self) {
        for lengths in LENGTHS {
            for (first, last) in [(0, 1439), (5, 1440)] {
                let [firsts, lasts, thresholds] = [(0, first), (1, last), (2, 7)]
                    .map(|(list, word): (usize, u32)| repeated(lengths[list], word));
                let expected = "14 0 0".to_string();
                let minute = self.minute();
                let line = format!("table {firsts} {lasts} {thresholds} {minute}");
                self.add_expecting("02, 5: lists", line, expected);
            }
        }
        // A good table, and each of its lists with a word too few or too many.
        let words = [[0, 420, 1080, 5], [419, 1079, 1439, 5], [1, 2, 3, 4]];
        for list in 0..3 {
            for count in [2, 4] {
                let mut lists = words.map(|words| hex_words(&words[..3]));
                lists[list] = hex_words(&words[list][..count]);
                let line = format!("table {} 500", lists.join(" "));
                self.add_expecting("02, 5: lists", line, "14 0 0".to_string());
            }
        }
    }

    /// Lists that are a good table if a length is cut to 8 bits: the first row is the day.
    fn cut_lists(&mut self) {
        for [firsts, lasts, thresholds] in CUT_LENGTHS {
            let (firsts, lasts) = (repeated(firsts, 0), repeated(lasts, 1439));
            let line = format!("table {firsts} {lasts} {} 700", repeated(thresholds, 7));
            self.add_expecting("02, 5: lists", line, "14 0 0".to_string());
        }
    }

    /// All of it.
    pub fn tables_of_the_day(&mut self) {
        self.good_tables();
        self.bad_tables();
        self.many_rows();
        self.lists();
        self.generated_tables();
        self.more_generated_tables();
        self.cut_lists();
    }
}

#[cfg(test)]
mod tests {
    use super::*;
    use crate::checks::run;
    use crate::day::tests::answer_by_order;
    use crate::day::Table;
    use std::collections::HashSet;

    /// Every table of the script with its minute and the three numbers that answer it.
    fn tables() -> Vec<(Table, u32, [u32; 3])> {
        let mut cases = Cases::new(run);
        cases.tables_of_the_day();
        let tables = cases.list.iter().map(|case| {
            let fields: Vec<&str> = case.line.split(' ').collect();
            let [firsts, lasts, thresholds] = [1, 2, 3].map(|at: usize| words(fields[at]).unwrap());
            let table = Table {
                firsts,
                lasts,
                thresholds,
            };
            let answer: Vec<u32> = case
                .expected
                .split(' ')
                .map(|number| number.parse().unwrap())
                .collect();
            (
                table,
                fields[4].parse().unwrap(),
                answer.try_into().unwrap(),
            )
        });
        tables.collect()
    }

    /// Each is answered as it is by the other way to look at a table, and a good one by the
    /// row around the minute.
    #[test]
    fn tables_are_answered_by_order() {
        for (table, minute, [why, place, threshold]) in tables() {
            let (by_order, bad_place) = answer_by_order(&table);
            assert_eq!(why, by_order, "{table:?}");
            if why != 0 || minute >= MINUTES {
                assert_eq!((place, threshold), (bad_place, 0), "{table:?}");
            } else {
                let row = place as usize - 1;
                assert!(table.firsts[row] <= minute && minute <= table.lasts[row]);
                assert_eq!(threshold, table.thresholds[row]);
            }
        }
    }

    /// Good tables of every count of rows and with every row of 32, and every refusal at the
    /// ends of its places, with minutes in the day and above it.
    #[test]
    fn every_place_is_there() {
        let (mut counts, mut rows_of_32) = (HashSet::new(), HashSet::new());
        let (mut bad, mut asked) = (HashSet::new(), HashSet::new());
        for (table, minute, [why, place, _]) in tables() {
            let count = table.firsts.len();
            match why {
                0 => {
                    counts.insert((count, minute < MINUTES));
                    if count == MAX_ROWS {
                        rows_of_32.insert(place);
                    }
                }
                _ => {
                    bad.insert((why, place));
                    asked.insert((why, minute < MINUTES));
                }
            }
        }
        assert!((1..=MAX_ROWS).all(|count| counts.contains(&(count, true))));
        assert!(counts.contains(&(1, false)) && counts.contains(&(MAX_ROWS, false)));
        assert!((0..=MAX_ROWS as u32).all(|row| rows_of_32.contains(&row)));
        let (rows, minutes) = ([0, 1, 2, 17, 31, 32], [0, 1, 300, 1438, 1439, 720]);
        for (why, places) in [(14, rows), (15, minutes), (16, minutes)] {
            for place in places {
                assert!(bad.contains(&(why, place)), "{why} {place}");
            }
            assert!(asked.contains(&(why, true)) && asked.contains(&(why, false)));
        }
    }

    /// Three lists of 257 words, and each alone beside lists of 1: they begin with the day and
    /// are asked for a minute in it.
    #[test]
    fn lengths_that_are_cut() {
        let mut found = Vec::new();
        for (table, minute, answer) in tables() {
            let lists = [&table.firsts, &table.lasts, &table.thresholds];
            let lengths = lists.map(Vec::len);
            if lengths.contains(&CUT_TO_1) {
                let [first, last, _] = lists.map(|list| list[0]);
                assert_eq!((first, last, answer), (0, 1439, [14, 0, 0]));
                assert!(lengths.iter().all(|length| length % 256 == 1));
                assert!(minute < MINUTES);
                found.push(lengths);
            }
        }
        assert_eq!(found, [[257; 3], [257, 1, 1], [1, 257, 1], [1, 1, 257]]);
    }

    /// Lists of more words than the script may have, or of parts of words, are none.
    #[test]
    fn fields() {
        let full = repeated(MAX_LIST, 0);
        let good = format!("table {full} - 00000000 1");
        assert_eq!(run(&good), Ok("14 0 0".to_string()));
        for bad in [
            format!("table {} - - 1", repeated(MAX_LIST + 1, 0)),
            format!("table - {} - 1", repeated(MAX_LIST + 1, 0)),
            "table - - 000000 1".to_string(),
            "table - - - -".to_string(),
            "table - - - 4294967296".to_string(),
            "table - - -".to_string(),
        ] {
            assert!(run(&bad).is_err(), "{bad}");
        }
    }

    /// From the threshold alone it can be told which row was found.
    #[test]
    fn thresholds_are_not_alike() {
        for count in 1..=MAX_ROWS {
            let words = words(&thresholds(count)).unwrap();
            assert_eq!(words.iter().collect::<HashSet<_>>().len(), count);
        }
    }
}
