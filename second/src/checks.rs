//! The commands of the script of the program `test_checks`, one a line, and what this
//! implementation answers to them, one line each.
//!
//! One space stands between two fields, and none at an end. A number is decimal
//! and below 2^32; a negative one stands there plus 2^32. A bytes field has a
//! format of `field`: a seed is hex or `@N:S`, a vector hex or `~N:S:LOW:MASK`,
//! masks and lists any of the three. Words in it are little-endian.
//!
//! - `key SEED0 SEED1 POINT`: the key for a point under the parties' seeds of 32
//!   bytes. The answer is its 1,188 bytes as hex, as a sealed half stores them.
//! - `value PARTY SEED0 SEED1 POINT U`: the value of that key at U for the party,
//!   0 or 1. The answer is a number.
//! - `run CODE RULE X Y MASKS C0 R R0 SEED0 SEED1`: a whole check, from measure code
//!   and rule, a threshold `T` or two marks `P:Q`, the vectors (L words each, L from 1
//!   to 512), the shares x0, x1, y0, y1 of their masks (4 L words), and what else the
//!   dealer draws. The answer is ten numbers: the first and the last word of X masked,
//!   the same of Y, word 0 and 1, Z, answer 0 and 1, and their sum. A wrong masked word
//!   in between shows in words 0 and 1.
//! - `own CODE V`: the own term of a vector of 1 to 512 words in any of the formats. They may
//!   be any words, in the measure's range or not. The answer is a number.
//! - `table FIRSTS LASTS THRESHOLDS MINUTE`: the table of the day of these three lists and
//!   the row of a minute. A list has any of the formats, `-` for none, and at most 512
//!   words; the three may differ in length. The answer is three numbers: for a bad table
//!   its refusal, the place beside it and 0; for a good one 0, the row's place, counted
//!   from 1, and its threshold, both 0 for a minute above 1,439.

use crate::day::{Refused, Row, Table};
use crate::dcf::{self, Key, Seed};
use crate::measure::{Measure, MAX_LENGTH};
use crate::rule::Rule;
use crate::script::number;
use crate::share::{self, Draws, Run};
use crate::{chacha20, field};

/// The most words of a list of a table.
pub const MAX_LIST: usize = 512;

/// The answer to one line of the script, and none if it is not what the meaning
/// of the command allows.
pub fn run(line: &str) -> Result<String, String> {
    let fields: Vec<&str> = line.split(' ').collect();
    match fields[..] {
        ["key", seed0, seed1, point] => {
            let (seeds, point) = (seeds(seed0, seed1)?, number(point)?);
            let key = Key::new(&seeds, point);
            for u in edges(point) {
                values(&seeds, &key, point, u)?;
            }
            Ok(field::format(&key.to_bytes()))
        }
        ["value", party, seed0, seed1, point, u] => {
            let (seeds, point) = (seeds(seed0, seed1)?, number(point)?);
            let values = values(&seeds, &Key::new(&seeds, point), point, number(u)?)?;
            let value = values.get(number(party)? as usize);
            Ok(value.ok_or("no such party")?.to_string())
        }
        ["run", code, rule, x, y, ref draws @ ..] => {
            let measure = Measure::from_code(number(code)?).ok_or("no such code")?;
            let rule = parse_rule(measure, rule)?;
            let (x, y) = (vector(x)?, vector(y)?);
            check_ranges(measure, &x, &y)?;
            let draws = parse_draws(draws, x.len())?;
            run_check(measure, rule, &x, &y, &draws).map(|run| format_run(&run))
        }
        ["own", code, vector_field] => {
            let measure = Measure::from_code(number(code)?).ok_or("no such code")?;
            own_word(measure, &vector(vector_field)?)
        }
        ["table", firsts, lasts, thresholds, minute] => {
            let table = Table {
                firsts: list(firsts)?,
                lasts: list(lasts)?,
                thresholds: list(thresholds)?,
            };
            Ok(format_table(&table, number(minute)?))
        }
        _ => Err(format!("unknown command: {line}")),
    }
}

/// Inputs at which a key for this point is worth a look: its neighbours and the
/// ends of both halves of the range.
pub fn edges(point: u32) -> Vec<u32> {
    let near = [point.wrapping_sub(1), point, point.wrapping_add(1)];
    let mut edges = [&near[..], &[0, (1 << 31) - 1, 1 << 31, u32::MAX]].concat();
    edges.sort_unstable();
    edges.dedup();
    edges
}

/// Both parties' values, which must add up to whether u is below the point.
fn values(seeds: &[Seed; 2], key: &Key, point: u32, u: u32) -> Result<[u32; 2], String> {
    let values = [0, 1].map(|party| key.value(party, &seeds[party], u));
    match values[0].wrapping_add(values[1]) == u32::from(u < point) {
        true => Ok(values),
        false => Err(format!("values of point {point} at {u}: {values:?}")),
    }
}

/// A whole check, whose Z must be the difference, with the measure's sign under the set's
/// mark, plus r and whose sum must be whether the rule is met.
fn run_check(
    measure: Measure,
    rule: Rule,
    x: &[i32],
    y: &[i32],
    draws: &Draws,
) -> Result<Run, String> {
    let run = share::run(&share::deal(measure, rule, draws), x, y);
    let sign = measure.sign(rule.mark());
    let difference = sign * (measure.of(x, y) - i64::from(rule.offset()));
    if run.z.wrapping_sub(draws.r) != difference as u32 {
        return Err(format!("difference {difference}, r {}: {}", draws.r, run.z));
    }
    if run.joined != u32::from(measure.meets(x, y, rule)) {
        return Err(format!("difference {difference}: {}", run.joined));
    }
    Ok(run)
}

fn format_run(run: &Run) -> String {
    let ends = |words: &[u32]| [words[0], words[words.len() - 1]];
    let [mx, my] = &run.masked;
    let vectors = [ends(mx), ends(my)].concat();
    let numbers = [
        &vectors[..],
        &run.words,
        &[run.z],
        &run.answers,
        &[run.joined],
    ]
    .concat();
    let numbers: Vec<String> = numbers.iter().map(u32::to_string).collect();
    numbers.join(" ")
}

/// The own term of any elements. The sum of their squares may be above 2^63, so it is one of words.
fn own_word(measure: Measure, vector: &[i32]) -> Result<String, String> {
    if !(1..=MAX_LENGTH).contains(&vector.len()) {
        return Err("1 to 512 words wanted".to_string());
    }
    let terms = vector.iter().map(|&element| measure.own(&[element]) as u32);
    Ok(terms.fold(0, u32::wrapping_add).to_string())
}

fn format_table(table: &Table, minute: u32) -> String {
    if let Err(Refused { why, place }) = table.check() {
        return format!("{} {place} 0", why as u32);
    }
    match table.row_of(minute) {
        Some(Row { place, threshold }) => format!("0 {place} {threshold}"),
        None => "0 0 0".to_string(),
    }
}

/// A rule field that may be dealt for the measure.
pub fn parse_rule(measure: Measure, field: &str) -> Result<Rule, String> {
    let rule = Rule::parse(field).ok_or_else(|| format!("bad rule: {field}"))?;
    match rule.is_in_range(measure) && rule.width().is_some() {
        true => Ok(rule),
        false => Err("out of range".to_string()),
    }
}

fn check_ranges(measure: Measure, x: &[i32], y: &[i32]) -> Result<(), String> {
    let elements = measure.elements();
    let good = (1..=MAX_LENGTH).contains(&x.len())
        && x.len() == y.len()
        && x.iter().chain(y).all(|element| elements.contains(element));
    good.then_some(()).ok_or("out of range".to_string())
}

fn parse_draws(fields: &[&str], length: usize) -> Result<Draws, String> {
    let [masks, c0, r, r0, seed0, seed1] = fields[..] else {
        return Err("six fields wanted after the vectors".to_string());
    };
    let masks = words(masks)?;
    if masks.len() != 4 * length {
        return Err(format!("{} words of masks wanted", 4 * length));
    }
    let share = |place| masks[place * length..][..length].to_vec();
    Ok(Draws {
        x: [share(0), share(1)],
        y: [share(2), share(3)],
        c0: number(c0)?,
        r: number(r)?,
        r0: number(r0)?,
        seeds: seeds(seed0, seed1)?,
    })
}

fn seeds(seed0: &str, seed1: &str) -> Result<[Seed; 2], String> {
    Ok([
        dcf::seed(&field::parse_array(seed0)?),
        dcf::seed(&field::parse_array(seed1)?),
    ])
}

/// The words of a bytes field.
pub fn words(text: &str) -> Result<Vec<u32>, String> {
    let bytes = field::parse(text)?;
    if bytes.len() % 4 != 0 {
        return Err(format!("whole words wanted: {text}"));
    }
    let mut words = vec![0; bytes.len() / 4];
    chacha20::load_words(&mut words, &bytes);
    Ok(words)
}

/// The words of a list of a table.
fn list(text: &str) -> Result<Vec<u32>, String> {
    let words = words(text)?;
    match words.len() <= MAX_LIST {
        true => Ok(words),
        false => Err(format!("at most {MAX_LIST} words wanted: {text}")),
    }
}

/// The elements of a vector field.
pub fn vector(text: &str) -> Result<Vec<i32>, String> {
    Ok(words(text)?.into_iter().map(|word| word as i32).collect())
}
