//! Dealing a set from its seed: 01, "Dealing a set".

use crate::chacha20;
use crate::measure::Measure;
use crate::rule::Rule;
use crate::share::{self, Draws, Half};

/// The words of a set besides its masks: c0, r, r0 and two key seeds.
const OTHER_WORDS: usize = 3 + 2 * 8;

/// The nonce of a set's key stream.
const NONCE: [u8; 12] = [1, 0, 0, 0, 0, 0, 0, 0, 0, 0, 0, 0];

/// What the dealer draws for a set: one run of words, from x0 to the seed of party 1.
pub fn draw(seed: &[u8; 32], length: usize) -> Draws {
    let mut stream = vec![0; 4 * length + OTHER_WORDS];
    chacha20::stream_words(seed, &NONCE, &mut stream);
    let mut rest = &stream[..];
    let mut next = |count| {
        let (words, after) = rest.split_at(count);
        rest = after;
        words
    };
    Draws {
        x: [next(length).to_vec(), next(length).to_vec()],
        y: [next(length).to_vec(), next(length).to_vec()],
        c0: next(1)[0],
        r: next(1)[0],
        r0: next(1)[0],
        seeds: [(); 2].map(|()| next(8).try_into().expect("eight words")),
    }
}

/// Both parties' parts of the set of this seed.
pub fn deal(measure: Measure, length: usize, rule: Rule, seed: &[u8; 32]) -> [Half; 2] {
    share::deal(measure, rule, &draw(seed, length))
}

#[cfg(test)]
mod tests {
    use super::*;
    use crate::rule::Rule::{Between, Threshold};

    /// Every word has its place: 4 L for the masks, then c0, r, r0 and the seeds.
    #[test]
    fn words_are_drawn_in_order() {
        let (seed, length) = ([5; 32], 7);
        let mut stream = [0; 4 * 7 + 19];
        chacha20::stream_words(&seed, &NONCE, &mut stream);
        let draws = draw(&seed, length);
        let masks = [draws.x.concat(), draws.y.concat()].concat();
        let others = [draws.c0, draws.r, draws.r0];
        let drawn = [&masks[..], &others, &draws.seeds.concat()].concat();
        assert_eq!(drawn, stream);
    }

    /// The first word is that of block 0 under the nonce whose byte 0 is 1.
    #[test]
    fn the_stream_is_that_of_the_nonce_01() {
        let nonce = [1, 0, 0, 0, 0, 0, 0, 0, 0, 0, 0, 0];
        let block = chacha20::block(&[9; 32], 0, &nonce);
        let first = u32::from_le_bytes(block[..4].try_into().unwrap());
        assert_eq!(draw(&[9; 32], 1).x[0], [first]);
    }

    /// c1 and the masks of 01, word by word, and r1 of 01 and 02: between two marks it has the
    /// plain sign for every code, and Q is not in it.
    #[test]
    fn words_of_party_1_come_from_the_others() {
        let seed = [77; 32];
        let draws = draw(&seed, 2);
        let [half0, half1] = deal(Measure::Euclid, 2, Threshold(1000), &seed);
        let mask = |share: &[Vec<u32>; 2], i: usize| share[0][i].wrapping_add(share[1][i]);
        let product = |i| mask(&draws.x, i).wrapping_mul(mask(&draws.y, i));
        let c = half0.c.wrapping_add(half1.c);
        assert_eq!(c, product(0).wrapping_add(product(1)));
        assert_eq!(half0.c, draws.c0);
        assert_eq!(half0.r, draws.r0);
        assert_eq!(half0.own_mask[1], mask(&draws.x, 1));
        assert_eq!(half1.own_mask[1], mask(&draws.y, 1));
        assert_eq!((&half1.x_share, &half1.y_share), (&draws.x[1], &draws.y[1]));
        let (above, below) = (draws.r.wrapping_add(1000), draws.r.wrapping_sub(1000));
        for (measure, rule, with) in [
            (Measure::Scalar, Threshold(1000), below),
            (Measure::Euclid, Threshold(1000), above),
            (Measure::Hamming, Threshold(1000), above),
            (Measure::Scalar, Between(1000, 1007), below),
            (Measure::Euclid, Between(1000, 1007), below),
            (Measure::Hamming, Between(1000, 1000), below),
        ] {
            let [half0, half1] = deal(measure, 2, rule, &seed);
            assert_eq!(half0.r.wrapping_add(half1.r), with, "{measure:?} {rule}");
        }
    }
}
