//! The plain content of a half: 01, "The sealed half", and 02, "Between two marks".

use crate::chacha20;
use crate::dcf::{self, Key, Seed, KEY_BYTES};
use crate::measure::{Measure, MAX_LENGTH};
use crate::rule::is_carried;
use crate::share::Half;

/// The plain bytes of a block.
pub const TEXT_BYTES: usize = 484;

/// A door's name, zero after its end.
pub type Name = [u8; 16];

/// The bytes before the masks: name, party, code, L.
const HEAD_BYTES: usize = 16 + 1 + 1 + 2;

/// The bytes after the masks: c, r, key seed, key, width, mark.
const TAIL_BYTES: usize = 4 + 4 + 32 + KEY_BYTES + WIDTH_AND_MARK_BYTES;

/// The bytes of width and mark, the last of the content.
pub const WIDTH_AND_MARK_BYTES: usize = 4 + 1;

/// The bytes of the content for vectors of this length, without the fill.
pub fn bytes(length: usize) -> usize {
    HEAD_BYTES + 3 * 4 * length + TAIL_BYTES
}

/// The blocks of a half for vectors of this length.
pub fn blocks(length: usize) -> usize {
    bytes(length).div_ceil(TEXT_BYTES)
}

/// The content with its fill: whole blocks.
pub fn lay_out(name: &Name, half: &Half) -> Vec<u8> {
    let length = half.own_mask.len();
    let mut content = Vec::with_capacity(TEXT_BYTES * blocks(length));
    content.extend(name);
    content.extend([half.party as u8, half.measure.code() as u8]);
    content.extend((length as u16).to_le_bytes());
    for words in [&half.own_mask, &half.x_share, &half.y_share] {
        put_words(&mut content, words);
    }
    put_words(&mut content, &[half.c, half.r]);
    put_words(&mut content, &half.seed);
    content.extend(half.key.to_bytes());
    put_words(&mut content, &[half.width]);
    content.push(half.mark as u8);
    content.resize(TEXT_BYTES * blocks(length), 0);
    content
}

fn put_words(bytes: &mut Vec<u8>, words: &[u32]) {
    bytes.extend(words.iter().flat_map(|word| word.to_le_bytes()));
}

/// The half of a content with its fill, if it is one of this door and party and
/// nothing in it is out of range (the tests of refusal 11).
pub fn read(content: &[u8], name: &Name, party: usize) -> Option<Half> {
    let (head, rest) = content.split_at(HEAD_BYTES);
    let measure = Measure::from_code(u32::from(head[17]))?;
    let length = usize::from(u16::from_le_bytes([head[18], head[19]]));
    let good = head[..16] == name[..]
        && usize::from(head[16]) == party
        && (1..=MAX_LENGTH).contains(&length)
        && content.len() == TEXT_BYTES * blocks(length)
        && content[bytes(length)..].iter().all(|&byte| byte == 0);
    if !good {
        return None;
    }
    let (masks, rest) = rest.split_at(3 * 4 * length);
    let (words, rest) = rest.split_at(8);
    let (seed, rest) = rest.split_at(32);
    let (key, rest) = rest.split_at(KEY_BYTES);
    let (width, mark) = (get_words(&rest[..4])[0], u32::from(rest[4]));
    if !is_carried(width, mark) {
        return None;
    }
    let mask = |place: usize| get_words(&masks[4 * length * place..][..4 * length]);
    let words = get_words(words);
    Some(Half {
        party,
        measure,
        own_mask: mask(0),
        x_share: mask(1),
        y_share: mask(2),
        c: words[0],
        r: words[1],
        seed: get_seed(seed),
        key: Key::from_bytes(key.try_into().expect("a key's bytes"))?,
        width,
        mark,
    })
}

fn get_words(bytes: &[u8]) -> Vec<u32> {
    let mut words = vec![0; bytes.len() / 4];
    chacha20::load_words(&mut words, bytes);
    words
}

fn get_seed(bytes: &[u8]) -> Seed {
    dcf::seed(bytes.try_into().expect("32 bytes"))
}

#[cfg(test)]
mod tests {
    use super::*;
    use crate::dealing::deal;
    use crate::rule::Rule::{Between, Threshold};

    const NAME: Name = *b"Hut 4, east door";

    /// The numbers of 02: 1,253 + 12 L bytes, and the blocks where their count changes.
    #[test]
    fn bytes_and_blocks() {
        assert_eq!(bytes(1), 1265);
        assert_eq!(bytes(512), 1253 + 12 * 512);
        for (length, count) in [
            (1, 3),
            (16, 3),
            (17, 4),
            (18, 4),
            (56, 4),
            (57, 5),
            (512, 16),
        ] {
            assert_eq!(blocks(length), count, "{length}");
        }
        let changes = (2..=MAX_LENGTH).filter(|&length| blocks(length) > blocks(length - 1));
        let changes: Vec<usize> = changes.collect();
        let expected = [17, 57, 98, 138, 178, 219, 259, 299, 340, 380, 420, 461, 501];
        assert_eq!(changes, expected);
        for length in 1..=MAX_LENGTH {
            assert_ne!(bytes(length) % TEXT_BYTES, 0, "{length}");
        }
    }

    #[test]
    fn content_is_laid_out_in_order() {
        let [_, half] = deal(Measure::Hamming, 3, Between(2, 0x0107), &[1; 32]);
        let content = lay_out(&NAME, &half);
        assert_eq!(content.len(), 3 * TEXT_BYTES);
        assert_eq!(content[..20], [&NAME[..], &[1, 2, 3, 0]].concat());
        let word = |at: usize| u32::from_le_bytes(content[at..at + 4].try_into().unwrap());
        assert_eq!([word(20), word(28)], [half.own_mask[0], half.own_mask[2]]);
        assert_eq!([word(32), word(44)], [half.x_share[0], half.y_share[0]]);
        assert_eq!(
            [word(56), word(60), word(64)],
            [half.c, half.r, half.seed[0]]
        );
        assert_eq!(word(96), half.key.corrections[0].seed[0]);
        assert_eq!(word(96 + 32 * 37), half.key.final_word);
        assert_eq!(content[1284..][..5], [5, 1, 0, 0, 1]);
        assert!(content[1289..].iter().all(|&byte| byte == 0));
    }

    /// The last five bytes of an ordinary set's content are the same for every threshold.
    #[test]
    fn an_ordinary_set_has_the_greatest_width() {
        for measure in Measure::ALL {
            for threshold in [0, 1, 513] {
                for half in deal(measure, 2, Threshold(threshold), &[1; 32]) {
                    let content = lay_out(&NAME, &half);
                    assert_eq!(content[bytes(2) - 5..bytes(2)], [255, 255, 255, 127, 0]);
                }
            }
        }
    }

    #[test]
    fn content_is_read_back() {
        for measure in Measure::ALL {
            for length in [1, 17, 18, 256, 512] {
                for rule in [Threshold(7), Between(7, 7), Between(7, 513)] {
                    for half in deal(measure, length, rule, &[length as u8; 32]) {
                        let content = lay_out(&NAME, &half);
                        assert_eq!(read(&content, &NAME, half.party), Some(half));
                    }
                }
            }
        }
    }

    /// Each byte set to 4 in turn: just those that are tested refuse it. Any byte of the width
    /// is one of them in an ordinary set, and none between two marks.
    #[test]
    fn every_tested_byte_is_tested() {
        for (rule, first_tested) in [(Threshold(0), 1260), (Between(0, 9), 1264)] {
            let [half, _] = deal(Measure::Scalar, 1, rule, &[3; 32]);
            let content = lay_out(&NAME, &half);
            for at in 0..content.len() {
                let mut changed = content.clone();
                changed[at] = 4;
                let flag = (72..72 + 32 * 37).contains(&at) && (at - 72) % 37 == 36;
                let tested = at < 20 || flag || at >= first_tested;
                assert_eq!(read(&changed, &NAME, 0).is_none(), tested, "{at}");
            }
        }
    }

    /// Width and mark as a host may seal them: a Hamming set may have any width under mark 1,
    /// also one that no marks give.
    #[test]
    fn widths_and_marks_are_read() {
        let [half, _] = deal(Measure::Hamming, 1, Threshold(3), &[3; 32]);
        for (width, mark, taken) in [
            (0x7fff_ffff, 0, true),
            (0x7fff_fffe, 0, false),
            (0, 0, false),
            (0x8000_0000, 0, false),
            (0x7fff_ffff, 1, true),
            (1_000_000, 1, true),
            (0, 1, true),
            (0x8000_0000, 1, false),
            (0xffff_ffff, 1, false),
            (0x7fff_ffff, 2, false),
            (0x7fff_ffff, 255, false),
            (0, 128, false),
        ] {
            let half = Half {
                width,
                mark,
                ..half.clone()
            };
            let read = read(&lay_out(&NAME, &half), &NAME, 0);
            assert_eq!(read, taken.then_some(half), "{width} {mark}");
        }
    }
}
