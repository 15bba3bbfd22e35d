//! Times rows: operations that several implementations can do, in short slices that take turns.

use crate::foreign::vectors;
use crate::level::Level;
use std::time::{Duration, Instant};

/// A slice lasts from half of this to all of it, or one call where that takes longer: long beside
/// a look at the clock, and short enough that nothing disturbs many of them.
const SLICE: Duration = Duration::from_micros(100);

/// After code with AVX-512 a processor's clock may be slower for most of a millisecond: so long
/// nothing is timed.
const WIDE_PAUSE: Duration = Duration::from_micros(1000);

const LONG_TURN: Duration = Duration::from_millis(2);

/// Some processors take a load for one of a store just before if the lowest 12 bits of their
/// addresses are alike, and a loop over two vectors can take several times as long at such places. So
/// a row has several buffers, and its slices go from one to the next.
const BUFFERS: usize = 4;

#[derive(Clone, Copy, PartialEq, Debug)]
pub enum Who {
    Ours(Level),
    Sodium,
    OpenSsl,
    Second,
    /// What plain C is compiled to at a level.
    PlainC(Level),
}

/// Who has a turn after whom: those that may use AVX-512 come last.
const ORDER: [Who; 9] = [
    Who::Ours(Level::Plain),
    Who::PlainC(Level::Plain),
    Who::Second,
    Who::Ours(Level::V3),
    Who::PlainC(Level::V3),
    Who::Ours(Level::V4),
    Who::PlainC(Level::V4),
    Who::Sodium,
    Who::OpenSsl,
];

impl Who {
    fn may_use_avx512(self) -> bool {
        matches!(
            self,
            Who::Ours(Level::V4) | Who::PlainC(Level::V4) | Who::Sodium | Who::OpenSsl
        )
    }
}

/// How one implementation does the operation of a row: it leaves its answer in the buffer.
pub struct Way<'a, T> {
    who: Who,
    /// The place of the buffer of its last slice.
    buffer: usize,
    run: Box<dyn FnMut(&mut T) + 'a>,
}

pub fn way<'a, T>(who: Who, run: impl FnMut(&mut T) + 'a) -> Way<'a, T> {
    let (buffer, run) = (0, Box::new(run));
    Way { who, buffer, run }
}

/// An operation and the ways to do it. They share the buffers, so that none has a better place in
/// memory than another.
struct Operation<'a, T> {
    name: String,
    buffers: Vec<T>,
    ways: Vec<Way<'a, T>>,
}

/// An operation whatever its buffer is.
pub trait Row {
    fn name(&self) -> &str;
    fn whos(&self) -> Vec<Who>;
    /// Whether all ways leave the same answer.
    fn check(&mut self) -> Result<(), String>;
    /// The time of some calls of one way. One more is made before, which does not count.
    fn time(&mut self, way: usize, calls: u32) -> Duration;
    /// The place of this implementation's way.
    fn way(&self, who: Who) -> usize {
        let place = self.whos().into_iter().position(|name| name == who);
        place.expect("the row has such a way")
    }
}

/// A row. The buffer must not begin with the answer in it, or the check would be worth nothing.
pub fn row<'a, T: Clone + PartialEq + 'a>(
    name: &str,
    buffer: T,
    ways: Vec<Way<'a, T>>,
) -> Box<dyn Row + 'a> {
    Box::new(Operation {
        name: name.to_string(),
        buffers: vec![buffer; BUFFERS],
        ways,
    })
}

impl<T: Clone + PartialEq> Row for Operation<'_, T> {
    fn name(&self) -> &str {
        &self.name
    }

    fn whos(&self) -> Vec<Who> {
        self.ways.iter().map(|way| way.who).collect()
    }

    fn check(&mut self) -> Result<(), String> {
        let mut answers = Vec::new();
        for way in &mut self.ways {
            let mut buffer = self.buffers[0].clone();
            (way.run)(&mut buffer);
            if buffer == self.buffers[0] {
                return Err(format!("{}: {:?} did nothing", self.name, way.who));
            }
            answers.push((way.who, buffer));
        }
        let (first, expected) = &answers[0];
        match answers.iter().find(|(_, answer)| answer != expected) {
            None => Ok(()),
            Some((who, _)) => Err(format!("{}: {first:?} and {who:?} differ", self.name)),
        }
    }

    fn time(&mut self, way: usize, calls: u32) -> Duration {
        let Way { buffer, run, .. } = &mut self.ways[way];
        *buffer = (*buffer + 1) % BUFFERS;
        let buffer = &mut self.buffers[*buffer];
        vectors::clear_upper();
        // One call before the clock starts: another implementation has just been using the caches.
        run(buffer);
        let start = Instant::now();
        for _ in 0..calls {
            run(buffer);
        }
        start.elapsed()
    }
}

/// How many calls of a way make a slice, and how long the best slice took.
struct Clock {
    calls: u32,
    best: Duration,
}

impl Clock {
    fn new(row: &mut dyn Row, way: usize) -> Clock {
        let mut clock = Clock::with_calls(row, way, 1);
        while clock.best < SLICE / 2 {
            clock = Clock::with_calls(row, way, 2 * clock.calls);
        }
        clock
    }

    /// Several slices: a single one that was disturbed would make all that follow too short.
    fn with_calls(row: &mut dyn Row, way: usize, calls: u32) -> Clock {
        let best = Duration::MAX;
        let mut clock = Clock { calls, best };
        for _ in 0..5 {
            clock.slice(row, way);
        }
        clock
    }

    fn slice(&mut self, row: &mut dyn Row, way: usize) {
        self.best = self.best.min(row.time(way, self.calls));
    }

    fn nanoseconds(&self) -> f64 {
        self.best.as_nanos() as f64 / f64::from(self.calls)
    }
}

pub struct Timing {
    pub name: String,
    /// How many slices there were of each way.
    pub slices: usize,
    /// The time of a call in the best slice, in nanoseconds.
    pub best: Vec<(Who, f64)>,
}

impl Timing {
    pub fn of(&self, who: Who) -> Option<f64> {
        let found = self.best.iter().find(|(name, _)| *name == who);
        found.map(|(_, time)| *time)
    }

    pub fn ours(&self, level: Level) -> f64 {
        let ours = self.of(Who::Ours(level));
        ours.expect("every row has ours at the levels of this processor")
    }
}

/// A row being timed.
struct Turns<'a, 'b> {
    row: &'a mut (dyn Row + 'b),
    whos: Vec<Who>,
    clocks: Vec<Clock>,
    /// The row has a turn in every so many rounds.
    every: usize,
}

impl<'a, 'b> Turns<'a, 'b> {
    fn new(row: &'a mut (dyn Row + 'b)) -> Turns<'a, 'b> {
        let whos = row.whos();
        let ways = 0..whos.len();
        let clocks: Vec<Clock> = ways.map(|way| Clock::new(row, way)).collect();
        let turn: Duration = clocks.iter().map(|clock| clock.best).sum();
        let every = turn.as_nanos().div_ceil(LONG_TURN.as_nanos()) as usize;
        Turns {
            row,
            whos,
            clocks,
            every,
        }
    }

    /// A slice of this implementation, if it has the operation.
    fn take(&mut self, who: Who) {
        if let Some(way) = self.whos.iter().position(|name| *name == who) {
            self.clocks[way].slice(self.row, way);
        }
    }

    fn timing(&self, rounds: usize) -> Timing {
        let times = self.clocks.iter().map(Clock::nanoseconds);
        Timing {
            name: self.row.name().to_string(),
            slices: rounds.div_ceil(self.every),
            best: self.whos.iter().copied().zip(times).collect(),
        }
    }
}

/// Times all rows. In every round each implementation in its turn has a slice of each row, so that
/// what disturbs for a while disturbs all alike.
pub fn measure(rows: &mut [Box<dyn Row + '_>], rounds: usize) -> Vec<Timing> {
    let mut turns: Vec<Turns> = rows.iter_mut().map(|row| Turns::new(&mut **row)).collect();
    for round in 0..rounds {
        for who in ORDER {
            for row in turns.iter_mut().filter(|row| round % row.every == 0) {
                row.take(who);
            }
            if who.may_use_avx512() {
                wait(WIDE_PAUSE);
            }
        }
    }
    turns.iter().map(|row| row.timing(rounds)).collect()
}

/// Awake, so that the clock does not rest either.
fn wait(time: Duration) {
    let start = Instant::now();
    while start.elapsed() < time {}
}
