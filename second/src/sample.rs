//! Vectors and draws with no meaning, for tests and benchmarks.

use crate::chacha20;
use crate::measure::Measure;
use crate::share::Draws;

/// A source of words without a pattern. The number is that of its last key: each call takes the
/// next one, so that no two calls give the same words.
pub struct Source(pub u32);

impl Source {
    pub fn words(&mut self, count: usize) -> Vec<u32> {
        let mut words = vec![0; count];
        self.0 += 1;
        let mut key = [0; 32];
        key[..4].copy_from_slice(&self.0.to_le_bytes());
        chacha20::stream_words(&key, &[9; 12], &mut words);
        words
    }

    /// A vector whose elements are in the measure's range.
    pub fn vector(&mut self, measure: Measure, length: usize) -> Vec<i32> {
        let (low, high) = measure.elements().into_inner();
        let count = (high - low + 1) as u32;
        let words = self.words(length).into_iter();
        words.map(|word| low + (word % count) as i32).collect()
    }

    pub fn draws(&mut self, length: usize) -> Draws {
        let words = self.words(19);
        let mut share = || self.words(length);
        Draws {
            x: [share(), share()],
            y: [share(), share()],
            c0: words[0],
            r: words[1],
            r0: words[2],
            seeds: [3, 11].map(|from| words[from..from + 8].try_into().unwrap()),
        }
    }
}
