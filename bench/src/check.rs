//! The rows of a check: the making of a key, and what a box computes.

use crate::calls::Calls;
use crate::foreign::ours::{ComparisonKey, Ours, Word};
use crate::measure::{row, way, Row, Who};
use second::dcf::{self, Seed};
use second::measure::Measure;
use second::rule::Rule;
use second::sample::Source;
use second::share::{self, Half};

/// The party that is timed: it adds one sum of products more.
const PARTY: usize = 1;

/// The input of the rows of one measure and one length.
pub struct Check {
    measure: Measure,
    /// Party 1's half of a set, as the second implementation deals it.
    half: Half,
    key: ComparisonKey,
    seeds: [Seed; 2],
    point: u32,
    /// Party 1's vector, as numbers and as words.
    numbers: Vec<i32>,
    words: Vec<u32>,
    masked: [Vec<u32>; 2],
    z: u32,
}

impl Check {
    pub fn new(measure: Measure, length: usize) -> Check {
        let mut source = Source(0);
        let vectors = [(); 2].map(|()| source.vector(measure, length));
        let draws = source.draws(length);
        let (seeds, point) = (draws.seeds, draws.r);
        let halves = share::deal(measure, Rule::Threshold(1000), &draws);
        let run = share::run(&halves, &vectors[0], &vectors[1]);
        let [_, half] = halves;
        let [_, numbers] = vectors;
        Check {
            measure,
            half,
            key: Ours::plain().key(&seeds, point),
            seeds,
            point,
            words: numbers.iter().map(|&x| x as u32).collect(),
            numbers,
            masked: run.masked,
            z: run.z,
        }
    }
}

/// The buffer of key making: each implementation leaves the key as it has it.
#[repr(align(64))]
#[derive(Clone)]
enum Made {
    Nothing,
    Ours(ComparisonKey),
    Second(dcf::Key),
}

impl Made {
    fn plain(&self) -> Option<dcf::Key> {
        match self {
            Made::Nothing => None,
            Made::Ours(key) => Some(key.plain()),
            Made::Second(key) => Some(key.clone()),
        }
    }
}

impl PartialEq for Made {
    fn eq(&self, other: &Made) -> bool {
        self.plain() == other.plain()
    }
}

/// A row with a way of ours at each level, and of the second implementation.
fn compared<'a, T: Clone + PartialEq + 'a>(
    name: &str,
    buffer: T,
    ours: impl Fn(Ours, &mut T) + Copy + 'a,
    second: impl Fn(&mut T) + 'a,
) -> Box<dyn Row + 'a> {
    let levels = Ours::all().map(|level| way(level.who(), move |out: &mut T| ours(level, out)));
    let ways = levels.chain([way(Who::Second, second)]);
    row(name, buffer, ways.collect())
}

pub fn key<'a>(name: &str, check: &'a Check) -> Box<dyn Row + 'a> {
    let Check { seeds, point, .. } = check;
    compared(
        name,
        Made::Nothing,
        |ours, made| *made = Made::Ours(ours.key(seeds, *point)),
        |made| *made = Made::Second(dcf::Key::new(seeds, *point)),
    )
}

pub fn value<'a>(name: &str, check: &'a Check) -> Box<dyn Row + 'a> {
    let Check { half, key, z, .. } = check;
    compared(
        name,
        0,
        |ours, out| *out = ours.value(key, &half.seed, PARTY as u32, *z),
        |out| *out = half.key.value(PARTY, &half.seed, *z),
    )
}

pub fn answer<'a>(name: &str, check: &'a Check) -> Box<dyn Row + 'a> {
    let Check { half, key, z, .. } = check;
    compared(
        name,
        0,
        |ours, out| *out = ours.answer(key, &half.seed, PARTY as u32, *z),
        |out| *out = half.answer(*z),
    )
}

pub fn mask<'a>(name: &str, check: &'a Check) -> Box<dyn Row + 'a> {
    let Check {
        half,
        numbers,
        words,
        ..
    } = check;
    compared(
        name,
        vec![0; words.len()],
        |ours, out| ours.mask(words, &half.own_mask, out),
        |out| half.masked_into(numbers, out),
    )
}

/// The word with the own term.
pub fn word<'a>(name: &str, check: &'a Check) -> Box<dyn Row + 'a> {
    let Check {
        half,
        numbers,
        words,
        masked: [mx, my],
        ..
    } = check;
    let word = Word {
        code: check.measure.code(),
        party: PARTY as u32,
        c: half.c,
        r: half.r,
        v: words,
        mx,
        my,
        sx: &half.x_share,
        sy: &half.y_share,
    };
    compared(
        name,
        0,
        move |ours, out| *out = ours.word(&word),
        |out| *out = half.word(numbers, mx, my),
    )
}
