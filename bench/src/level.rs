//! The levels of x86-64 that ours is compiled for.

use std::arch::is_x86_feature_detected;

/// Whether the processor says that it has all of these.
macro_rules! has_all {
    ($($feature:tt)*) => { true $(&& is_x86_feature_detected!($feature))* };
}

pub const LACKING: &str = "this processor does not have all of the level's instructions";

#[derive(Clone, Copy, PartialEq, Debug)]
pub enum Level {
    /// SSE2, which every x86-64 has.
    Plain,
    /// AVX2 and what came with it.
    V3,
    /// AVX-512, at the widths that it has.
    V4,
}

impl Level {
    const ALL: [Level; 3] = [Level::Plain, Level::V3, Level::V4];

    /// The levels that this processor has.
    pub fn present() -> Vec<Level> {
        Level::ALL
            .into_iter()
            .filter(|level| level.fits())
            .collect()
    }

    /// What is to be said of the others.
    pub fn left_out() -> Vec<String> {
        let others = Level::ALL.into_iter().filter(|level| !level.fits());
        let note = |level: Level| format!("{} is left out: {LACKING}", level.name());
        others.map(note).collect()
    }

    pub fn name(self) -> &'static str {
        match self {
            Level::Plain => "x86-64",
            Level::V3 => "x86-64-v3",
            Level::V4 => "x86-64-v4",
        }
    }

    /// Whether this processor has all of the level's instructions: without one of them a call would
    /// end the program, or worse.
    pub fn fits(self) -> bool {
        match self {
            Level::Plain => true,
            Level::V3 => {
                has_all!("sse3" "ssse3" "sse4.1" "sse4.2" "popcnt" "cmpxchg16b")
                    && has_all!("avx" "avx2" "bmi1" "bmi2" "f16c" "fma" "lzcnt" "movbe")
            }
            Level::V4 => {
                Level::V3.fits() && has_all!("avx512f" "avx512bw" "avx512cd" "avx512dq" "avx512vl")
            }
        }
    }
}
