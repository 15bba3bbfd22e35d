//! What a load has brought into a box's state: the half it opened, in arrays of one size.

use crate::dcf::{self, Key, Seed};
use crate::measure::{Measure, MAX_LENGTH};
use crate::sealed::Set;
use crate::share::Half;

/// Words of which the first L are used, the others zero.
pub type Words = [u32; MAX_LENGTH];

/// A set as a state holds it. It is plain data, as a host hands it in.
#[derive(Clone, Debug, PartialEq, Eq)]
pub struct OpenedSet {
    pub number: u64,
    pub code: u32,
    pub length: u32,
    pub own_mask: Words,
    pub x_share: Words,
    pub y_share: Words,
    pub c: u32,
    pub r: u32,
    pub seed: Seed,
    pub key: Key,
    pub width: u32,
    pub mark: u32,
}

pub const NO_SET: OpenedSet = OpenedSet {
    number: 0,
    code: 0,
    length: 0,
    own_mask: [0; MAX_LENGTH],
    x_share: [0; MAX_LENGTH],
    y_share: [0; MAX_LENGTH],
    c: 0,
    r: 0,
    seed: [0; 8],
    key: dcf::NO_KEY,
    width: 0,
    mark: 0,
};

/// Words with zeros behind them.
pub fn spread(words: &[u32]) -> Words {
    let mut spread = [0; MAX_LENGTH];
    spread[..words.len()].copy_from_slice(words);
    spread
}

impl OpenedSet {
    pub fn new(set: &Set) -> OpenedSet {
        let half = &set.half;
        OpenedSet {
            number: set.number,
            code: half.measure.code(),
            length: half.own_mask.len() as u32,
            own_mask: spread(&half.own_mask),
            x_share: spread(&half.x_share),
            y_share: spread(&half.y_share),
            c: half.c,
            r: half.r,
            seed: half.seed,
            key: half.key.clone(),
            width: half.width,
            mark: half.mark,
        }
    }

    /// Whether code and L are such as a load leaves.
    pub fn is_loadable(&self) -> bool {
        self.code < 3 && (1..=MAX_LENGTH).contains(&self.length())
    }

    /// Whether code and L are such as stand where there is no set.
    pub fn is_none(&self) -> bool {
        self.code == 0 && self.length == 0
    }

    pub fn length(&self) -> usize {
        self.length as usize
    }

    pub fn measure(&self) -> Measure {
        Measure::from_code(self.code).expect("the code is tested first")
    }

    /// The part of a set that this is, cut to its length.
    pub fn half(&self, party: u32) -> Half {
        let cut = |words: &Words| words[..self.length()].to_vec();
        Half {
            party: party as usize,
            measure: self.measure(),
            own_mask: cut(&self.own_mask),
            x_share: cut(&self.x_share),
            y_share: cut(&self.y_share),
            c: self.c,
            r: self.r,
            seed: self.seed,
            key: self.key.clone(),
            width: self.width,
            mark: self.mark,
        }
    }
}
