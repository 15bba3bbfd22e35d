//! The table of the day: 02, "Strictness by the clock". Its rows say by which threshold a set
//! is dealt at which minute.

use crate::refusal::Refusal;

/// The minutes of a day: 0 to 1,439.
pub const MINUTES: u32 = 1440;

/// The most rows of a table.
pub const MAX_ROWS: usize = 32;

/// A table as it is handed in: any words, in lists of any lengths.
#[derive(Clone, Debug, Default, PartialEq, Eq)]
pub struct Table {
    pub firsts: Vec<u32>,
    pub lasts: Vec<u32>,
    pub thresholds: Vec<u32>,
}

/// The row of a minute.
#[derive(Clone, Copy, Debug, PartialEq, Eq)]
pub struct Row {
    /// Counted from 1.
    pub place: u32,
    /// The threshold as a word.
    pub threshold: u32,
}

/// Why a deal by the clock is turned down, and the place beside it: beside 14 a row, counted
/// from 1, or 0; beside 15 and 16 a minute; else 0.
#[derive(Clone, Copy, Debug, PartialEq, Eq)]
pub struct Refused {
    pub why: Refusal,
    pub place: u32,
}

impl Table {
    /// The places, counted from 0, of the rows in which a minute lies. Both ends count.
    fn places_of(&self, minute: u32) -> Vec<usize> {
        let rows = self.firsts.iter().zip(&self.lasts).enumerate();
        let around = rows.filter(|(_, (first, last))| **first <= minute && minute <= **last);
        around.map(|(place, _)| place).collect()
    }

    /// Whether the table is good. The lists come before the rows, and the rows before the
    /// minutes; of bad rows the first is reported, and of bad minutes the lowest.
    pub fn check(&self) -> Result<(), Refused> {
        let refused = |why, place| Err(Refused { why, place });
        let rows = self.firsts.len();
        let equal = self.lasts.len() == rows && self.thresholds.len() == rows;
        if !equal || !(1..=MAX_ROWS).contains(&rows) {
            return refused(Refusal::Table, 0);
        }
        for row in 0..rows {
            let (first, last) = (self.firsts[row], self.lasts[row]);
            if first > last || last >= MINUTES {
                return refused(Refusal::Table, row as u32 + 1);
            }
        }
        for minute in 0..MINUTES {
            match self.places_of(minute).len() {
                0 => return refused(Refusal::Gap, minute),
                1 => {}
                _ => return refused(Refusal::Overlap, minute),
            }
        }
        Ok(())
    }

    /// The row of a minute, in a good table. There is none for a minute above the day.
    pub fn row_of(&self, minute: u32) -> Option<Row> {
        let place = *self.places_of(minute).first()?;
        Some(Row {
            place: place as u32 + 1,
            threshold: self.thresholds[place],
        })
    }
}

#[cfg(test)]
pub mod tests {
    use super::*;
    use crate::sample::Source;

    /// A table of these rows with thresholds that no measure takes: a good one is taken all
    /// the same.
    pub fn table(rows: &[(u32, u32)]) -> Table {
        Table {
            firsts: rows.iter().map(|row| row.0).collect(),
            lasts: rows.iter().map(|row| row.1).collect(),
            thresholds: (1..=rows.len() as u32).map(|row| (1 << 31) + row).collect(),
        }
    }

    /// What the table is answered by: a number and a place, zeros for a good one.
    pub fn answer(table: &Table) -> (u32, u32) {
        match table.check() {
            Ok(()) => (0, 0),
            Err(Refused { why, place }) => (why as u32, place),
        }
    }

    fn answer_to(rows: &[(u32, u32)]) -> (u32, u32) {
        answer(&table(rows))
    }

    /// Rows of these lengths, one behind the other.
    fn rows_of(lengths: &[u32]) -> Vec<(u32, u32)> {
        let mut next = 0;
        let mut row = |length: &u32| {
            next += length;
            (next - length, next - 1)
        };
        lengths.iter().map(&mut row).collect()
    }

    /// As many rows as are asked for, one minute each but for the last.
    fn rows_to(count: u32) -> Vec<(u32, u32)> {
        let mut lengths = vec![1; count as usize - 1];
        lengths.push(MINUTES + 1 - count);
        rows_of(&lengths)
    }

    #[test]
    fn counts_of_rows() {
        for count in 1..=32 {
            assert_eq!(answer_to(&rows_to(count)), (0, 0), "{count}");
        }
        for bad in [33, 34, 64, 1440] {
            assert_eq!(answer_to(&rows_to(bad)), (14, 0), "{bad}");
        }
        assert_eq!(answer_to(&[]), (14, 0));
    }

    /// 257 rows are not one, nor is any list of 257 words a list of one, where the first row is
    /// the day.
    #[test]
    fn lengths_are_not_cut() {
        for lengths in [[257; 3], [257, 1, 1], [1, 257, 1], [1, 1, 257], [65_537; 3]] {
            let [firsts, lasts, thresholds]: [usize; 3] = lengths;
            let table = Table {
                firsts: vec![0; firsts],
                lasts: vec![1439; lasts],
                thresholds: vec![7; thresholds],
            };
            assert_eq!(answer(&table), (14, 0), "{lengths:?}");
        }
    }

    /// Each list shorter or longer by one, in a good table and in tables that have bad rows,
    /// gaps and overlaps beside it.
    #[test]
    fn lists_of_unequal_length() {
        for rows in [
            &[(0, 719), (720, 1439)][..],
            &[(0, 1439)],
            &[(1, 0), (0, 1440)],
            &[(1, 1439)],
            &[(0, 1439), (0, 1439)],
        ] {
            for place in 0..3 {
                for longer in [false, true] {
                    let mut table = table(rows);
                    let list = match place {
                        0 => &mut table.firsts,
                        1 => &mut table.lasts,
                        _ => &mut table.thresholds,
                    };
                    match longer {
                        true => list.push(0),
                        false => list.truncate(list.len() - 1),
                    }
                    assert_eq!(answer(&table), (14, 0), "{table:?}");
                }
            }
        }
    }

    /// The first bad row is reported, whatever else is wrong. A row may not end at 1,440.
    #[test]
    fn bad_rows() {
        let most = u32::MAX;
        for (rows, place) in [
            (&[(0, 1440)][..], 1),
            (&[(1, 0)], 1),
            (&[(0, most)], 1),
            (&[(most, 0)], 1),
            (&[(most, most)], 1),
            (&[(1440, 1440)], 1),
            (&[(1440, 1439)], 1),
            (&[(0, 65_536 + 1439)], 1),
            (&[(0, 719), (720, 1440)], 2),
            (&[(720, 1440), (0, 719)], 1),
            (&[(0, 99), (100, 99), (100, 1440)], 2),
            (&[(0, 1439), (0, 1439), (7, 6)], 3),
            (&[(5, 5), (5, 5), (9, 8), (1, 0), (0, 9999)], 3),
        ] {
            assert_eq!(answer_to(rows), (14, place), "{rows:?}");
        }
        for place in 1..=32 {
            let mut rows = rows_to(32);
            rows[place - 1].1 = 1440;
            assert_eq!(answer_to(&rows), (14, place as u32));
            rows[31] = (1439, 1438);
            assert_eq!(answer_to(&rows), (14, place as u32));
        }
    }

    /// The lowest bad minute decides between 15 and 16, and is counted from 0.
    #[test]
    fn bad_minutes() {
        for (rows, answer) in [
            (&[(1, 1439)][..], (15, 0)),
            (&[(0, 1438)], (15, 1439)),
            (&[(0, 0), (2, 1439)], (15, 1)),
            (&[(0, 899), (901, 1439)], (15, 900)),
            (&[(0, 1439), (0, 0)], (16, 0)),
            (&[(0, 1439), (1439, 1439)], (16, 1439)),
            (&[(0, 300), (300, 1439)], (16, 300)),
            (&[(0, 300), (300, 899), (901, 1439)], (16, 300)),
            (&[(0, 299), (301, 900), (900, 1439)], (15, 300)),
            (&[(0, 0), (0, 0), (2, 1439)], (16, 0)),
            (&[(1, 1), (1, 1439)], (15, 0)),
            (&[(0, 1438), (1438, 1438)], (16, 1438)),
            (&[(0, 1437), (1439, 1439), (1439, 1439)], (15, 1438)),
            (&[(0, 719), (719, 1438)], (16, 719)),
            (&[(1, 720), (720, 1439)], (15, 0)),
            (&[(0, 1439), (7, 7), (7, 7), (7, 7)], (16, 7)),
            (&[(0, 1439); 32], (16, 0)),
        ] {
            assert_eq!(answer_to(rows), answer, "{rows:?}");
            let backwards: Vec<(u32, u32)> = rows.iter().rev().copied().collect();
            assert_eq!(answer_to(&backwards), answer, "{backwards:?}");
        }
    }

    /// Every minute's row, in a table that is not sorted and has rows of one minute.
    #[test]
    fn rows_of_minutes() {
        let table = table(&[(720, 1438), (0, 0), (1439, 1439), (1, 719)]);
        assert_eq!(answer(&table), (0, 0));
        for minute in 0..MINUTES {
            let place = match minute {
                0 => 2,
                1..=719 => 4,
                720..=1438 => 1,
                _ => 3,
            };
            let threshold = (1 << 31) + place;
            assert_eq!(table.row_of(minute), Some(Row { place, threshold }));
        }
        for above in [1440, 1441, 65_536, 1 << 31, u32::MAX] {
            assert_eq!(table.row_of(above), None);
        }
    }

    /// The answer to a table by another way: the rows in the order of their first minutes
    /// must each begin where the one before has ended.
    pub fn answer_by_order(table: &Table) -> (u32, u32) {
        let rows = table.firsts.len();
        let others = [table.lasts.len(), table.thresholds.len()];
        if others != [rows; 2] || rows == 0 || rows >= 33 {
            return (14, 0);
        }
        let firsts = table.firsts.iter().copied();
        let mut rows: Vec<(u32, u32)> = firsts.zip(table.lasts.iter().copied()).collect();
        let bad = rows.iter().position(|row| row.1 < row.0 || row.1 > 1439);
        if let Some(place) = bad {
            return (14, place as u32 + 1);
        }
        rows.sort_unstable();
        let mut next = 0;
        for (first, last) in rows {
            if first < next {
                return (16, first);
            }
            if first > next {
                break;
            }
            next = last + 1;
        }
        match next {
            1440 => (0, 0),
            gap => (15, gap),
        }
    }

    /// Rows without a pattern that all but tile the day: some of their ends are off by some
    /// minutes, on either side, and some of them are exchanged.
    fn any_rows(source: &mut Source) -> Vec<(u32, u32)> {
        let words = source.words(200);
        let count = 1 + words[0] as usize % 32;
        let mut cuts: Vec<u32> = words[1..count].iter().map(|word| word % 1440).collect();
        cuts.sort_unstable();
        cuts.dedup();
        cuts.retain(|cut| *cut > 0);
        let ends = cuts.iter().copied().chain([1440]);
        let starts = [0].into_iter().chain(cuts.iter().copied());
        let mut rows: Vec<(u32, u32)> = starts.zip(ends).map(|(from, to)| (from, to - 1)).collect();
        for (turn, word) in words[40..].chunks(2).take(30).enumerate() {
            let (one, other) = (word[0] as usize % rows.len(), turn % rows.len());
            rows.swap(one, other);
            let (row, by) = (&mut rows[one], word[1] >> 30);
            match word[1] % 64 {
                0 => row.0 = row.0.wrapping_sub(by),
                1 => row.0 = row.0.wrapping_add(by),
                2 => row.1 = row.1.wrapping_sub(by),
                3 => row.1 = row.1.wrapping_add(by),
                _ => {}
            }
        }
        rows
    }

    /// Both ways come to the same, and to each answer more than a few times.
    #[test]
    fn counting_is_as_good_as_sorting() {
        let (mut source, mut found) = (Source(500), [0; 17]);
        for _ in 0..4000 {
            let table = table(&any_rows(&mut source));
            let answer = answer(&table);
            assert_eq!(answer, answer_by_order(&table), "{table:?}");
            found[answer.0 as usize] += 1;
        }
        for number in [0, 14, 15, 16] {
            assert!(found[number] > 300, "{number}: {}", found[number]);
        }
    }
}
