//! A half as it is handed on: content sealed in blocks, and blocks examined before
//! a load. 01, "The sealed half" and refusals 4, 7, 10 and 11.

use crate::aead;
use crate::content::{self, Name, TEXT_BYTES};
use crate::refusal::Refusal;
use crate::share::Half;
use std::ops::RangeInclusive;

/// The bytes of a block: label, sealed text, tag.
pub const BLOCK_BYTES: usize = LABEL_BYTES + TEXT_BYTES + 16;

/// The blocks that a half may have.
pub const BLOCKS: RangeInclusive<usize> = 3..=16;

/// Set number and block index.
const LABEL_BYTES: usize = 12;

/// Whom a half is for.
pub struct Holder<'a> {
    pub name: &'a Name,
    /// 0 or 1.
    pub party: usize,
    pub key: &'a [u8; 32],
}

/// A set as a box has it open.
#[derive(Clone, Debug, PartialEq, Eq)]
pub struct Set {
    pub number: u64,
    pub half: Half,
}

/// The first twelve bytes of a block: nonce and additional data.
fn label(number: u64, index: usize) -> [u8; LABEL_BYTES] {
    let mut label = [0; LABEL_BYTES];
    label[..8].copy_from_slice(&number.to_le_bytes());
    label[8..].copy_from_slice(&(index as u32).to_le_bytes());
    label
}

/// The half of a party, for a door's name and the key of the party's box.
pub fn half(name: &Name, key: &[u8; 32], number: u64, half: &Half) -> Vec<u8> {
    seal(key, number, &content::lay_out(name, half))
}

/// Content that fills its blocks, sealed.
pub fn seal(key: &[u8; 32], number: u64, content: &[u8]) -> Vec<u8> {
    let mut blocks = Vec::with_capacity(content.len() / TEXT_BYTES * BLOCK_BYTES);
    for (index, text) in content.chunks_exact(TEXT_BYTES).enumerate() {
        let label = label(number, index);
        let start = blocks.len();
        blocks.extend(label);
        blocks.extend(text);
        let tag = aead::seal(key, &label, &label, &mut blocks[start + LABEL_BYTES..]);
        blocks.extend(tag);
    }
    blocks
}

/// What a load of these bytes would open, at a box whose last number this is.
pub fn examine(half: &[u8], holder: &Holder, last: u64) -> Result<Set, Refusal> {
    let whole = half.len().is_multiple_of(BLOCK_BYTES);
    Refusal::Length.unless(whole && BLOCKS.contains(&(half.len() / BLOCK_BYTES)))?;
    let number = u64::from_le_bytes(half[..8].try_into().expect("eight bytes"));
    Refusal::Number.unless(number > last)?;
    let content = open(holder.key, number, half).ok_or(Refusal::Block)?;
    let half = content::read(&content, holder.name, holder.party).ok_or(Refusal::Content)?;
    Ok(Set { number, half })
}

/// The content of all blocks, if each has this number and its place's index and
/// its tag fits.
fn open(key: &[u8; 32], number: u64, blocks: &[u8]) -> Option<Vec<u8>> {
    let mut content = Vec::with_capacity(blocks.len());
    for (index, block) in blocks.chunks_exact(BLOCK_BYTES).enumerate() {
        let label = label(number, index);
        let (sealed, tag) = block.split_at(LABEL_BYTES + TEXT_BYTES);
        let (found, text) = sealed.split_at(LABEL_BYTES);
        if found != label {
            return None;
        }
        let start = content.len();
        content.extend(text);
        let tag = tag.try_into().expect("16 bytes");
        if !aead::open(key, &label, &label, &mut content[start..], tag) {
            return None;
        }
    }
    Some(content)
}

#[cfg(test)]
mod tests {
    use super::*;
    use crate::dealing::deal;
    use crate::measure::Measure;
    use crate::rule::Rule::{Between, Threshold};

    const NAME: Name = *b"Hut 4\0\0\0\0\0\0\0\0\0\0\0";
    const KEY: [u8; 32] = [8; 32];
    const HOLDER: Holder = Holder {
        name: &NAME,
        party: 1,
        key: &KEY,
    };

    fn sealed(length: usize, number: u64) -> Vec<u8> {
        let [_, part] = deal(Measure::Euclid, length, Threshold(100), &[6; 32]);
        half(&NAME, &KEY, number, &part)
    }

    fn refusal(bytes: &[u8], last: u64) -> Option<Refusal> {
        examine(bytes, &HOLDER, last).err()
    }

    #[test]
    fn a_half_opens_to_what_was_dealt() {
        for length in [1, 17, 18, 512] {
            let [_, part] = deal(Measure::Euclid, length, Threshold(100), &[6; 32]);
            let set = examine(&sealed(length, 9), &HOLDER, 8).unwrap();
            assert_eq!((set.number, set.half), (9, part));
            let [_, part] = deal(Measure::Euclid, length, Between(100, 107), &[6; 32]);
            let set = examine(&half(&NAME, &KEY, 9, &part), &HOLDER, 8).unwrap();
            assert_eq!((set.number, set.half), (9, part));
        }
    }

    #[test]
    fn the_lowest_refusal_is_the_answer() {
        let whole = sealed(18, 9);
        let mut broken = whole.clone();
        broken[600] ^= 1;
        assert_eq!(refusal(&broken[..2047], 9), Some(Refusal::Length));
        assert_eq!(refusal(&broken, 9), Some(Refusal::Number));
        assert_eq!(refusal(&broken, 8), Some(Refusal::Block));
        assert_eq!(refusal(&whole[..1536], 8), Some(Refusal::Content));
        assert_eq!(refusal(&whole, 8), None);
        let many = [&sealed(512, 9)[..], &whole[..512]].concat();
        assert_eq!(refusal(&many, 8), Some(Refusal::Length));
    }

    #[test]
    fn every_byte_counts() {
        let whole = sealed(1, 0x0101);
        for at in 0..whole.len() {
            let mut broken = whole.clone();
            broken[at] ^= 1;
            let expected = match at {
                0 | 1 => Refusal::Number,
                _ => Refusal::Block,
            };
            assert_eq!(refusal(&broken, 0x0100), Some(expected), "{at}");
        }
    }
}
