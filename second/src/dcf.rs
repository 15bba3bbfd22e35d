//! Comparison keys: 01, "Dealing a set", from "Node" to "Value of a key at u", with
//! the nonces of 02, "Each level its own nonce". Two parties hold one key and a seed
//! each, and their values at u add up to 1 if u is below the key's point, else to 0.

use crate::chacha20;

/// One level for each bit of a point. They count from 1, the highest bit's.
pub const LEVELS: usize = 32;

/// The bytes of a stored correction: seed, word, flag byte (01, "The sealed half").
pub const CORRECTION_BYTES: usize = 37;

/// The bytes of a stored key: every correction, then the final word.
pub const KEY_BYTES: usize = LEVELS * CORRECTION_BYTES + 4;

/// The 32 bytes of a seed as words, which is how the cipher takes and gives them.
pub type Seed = [u32; 8];

/// The sides of a node, each the bit that leads there and the block's counter.
const LEFT: usize = 0;
const RIGHT: usize = 1;

/// Where a party stands in the tree.
#[derive(Clone, Copy)]
struct Node {
    seed: Seed,
    flag: bool,
}

/// What a seed holds on one side.
pub(crate) struct Child {
    seed: Seed,
    word: u32,
    flag: bool,
}

/// What both parties apply at one level ("Key for a point").
#[derive(Clone, Copy, Debug, PartialEq, Eq)]
pub struct Correction {
    pub seed: Seed,
    pub word: u32,
    pub left: bool,
    pub right: bool,
}

/// What changes nothing.
const NO_CORRECTION: Correction = Correction {
    seed: [0; 8],
    word: 0,
    left: false,
    right: false,
};

/// A key for a point, without the two parties' seeds.
#[derive(Clone, Debug, PartialEq, Eq)]
pub struct Key {
    pub corrections: [Correction; LEVELS],
    pub final_word: u32,
}

/// A key of zeros.
pub const NO_KEY: Key = Key {
    corrections: [NO_CORRECTION; LEVELS],
    final_word: 0,
};

/// The seed of 32 bytes.
pub fn seed(bytes: &[u8; 32]) -> Seed {
    let mut words = [0; 8];
    chacha20::load_words(&mut words, bytes);
    words
}

/// The nonce of a level, as words: 02 §3, "Each level its own nonce". Bytes 4 to 7
/// hold the level, and the others are zero.
#[inline]
fn nonce(level: usize) -> [u32; 3] {
    [0, level as u32, 0]
}

/// One child of a seed, which is of this level: 1 for the root's children, up to 32.
#[inline]
fn open(seed: &Seed, level: usize, side: usize) -> Child {
    open_under(&nonce(level), seed, side)
}

/// One child of a seed ("Node"): words 0 to 7 of the block are bytes 0 to 31,
/// word 8 is bytes 32 to 35, and word 9 begins with byte 36.
#[inline]
pub(crate) fn open_under(nonce: &[u32; 3], seed: &Seed, side: usize) -> Child {
    let block = chacha20::block_of_words(seed, side as u32, nonce);
    Child {
        seed: block[..8].try_into().unwrap(),
        word: block[8],
        flag: block[9] & 1 == 1,
    }
}

/// The bit of a level, the side that it leads to: level 1 has the highest.
fn bit(number: u32, level: usize) -> usize {
    (number >> (LEVELS - level) & 1) as usize
}

/// Sign × word.
fn signed(negative: bool, word: u32) -> u32 {
    if negative {
        word.wrapping_neg()
    } else {
        word
    }
}

/// The word if the flag is 1, else 0. By a mask: the flags are as good as random,
/// so a branch on one would be mispredicted half of the time.
fn if_flag(flag: bool, word: u32) -> u32 {
    word & u32::from(flag).wrapping_neg()
}

fn xor(one: &Seed, other: &Seed) -> Seed {
    std::array::from_fn(|i| one[i] ^ other[i])
}

/// The two nodes that every key starts with: flag 0 for party 0, 1 for party 1.
fn start(party: usize, seed: &Seed) -> Node {
    Node {
        seed: *seed,
        flag: party == 1,
    }
}

impl Child {
    /// Where a party goes on: seed and flag, each xored with its correction if
    /// the party's old flag was 1.
    #[inline]
    fn corrected(&self, correction: &Correction, side: usize, old_flag: bool) -> Node {
        let seed = correction.seed.map(|word| if_flag(old_flag, word));
        let flag = [correction.left, correction.right][side];
        Node {
            seed: xor(&self.seed, &seed),
            flag: self.flag ^ (old_flag & flag),
        }
    }
}

/// One level of "Key for a point": the correction, with both parties moved to
/// the Keep side and V brought up to date.
#[inline]
fn make_level(
    open: impl Fn(&Seed, usize) -> Child,
    nodes: &mut [Node; 2],
    v: &mut u32,
    bit: usize,
) -> Correction {
    let [party0, party1] = nodes.map(|node| [LEFT, RIGHT].map(|side| open(&node.seed, side)));
    let (keep, lose) = (bit, 1 - bit);
    let negative = nodes[1].flag;

    let lost = party1[lose].word.wrapping_sub(party0[lose].word);
    let mut word = signed(negative, lost.wrapping_sub(*v));
    if lose == LEFT {
        word = word.wrapping_add(signed(negative, 1));
    }
    *v = v
        .wrapping_sub(party1[keep].word)
        .wrapping_add(party0[keep].word)
        .wrapping_add(signed(negative, word));
    let correction = Correction {
        seed: xor(&party0[lose].seed, &party1[lose].seed),
        word,
        left: party0[LEFT].flag ^ party1[LEFT].flag ^ (bit == 1) ^ true,
        right: party0[RIGHT].flag ^ party1[RIGHT].flag ^ (bit == 1),
    };

    *nodes = [
        party0[keep].corrected(&correction, keep, nodes[0].flag),
        party1[keep].corrected(&correction, keep, nodes[1].flag),
    ];
    correction
}

impl Correction {
    fn from_bytes(bytes: &[u8; CORRECTION_BYTES]) -> Option<Correction> {
        let flags = bytes[36];
        (flags < 4).then(|| Correction {
            seed: seed(bytes[..32].try_into().unwrap()),
            word: u32::from_le_bytes(bytes[32..36].try_into().unwrap()),
            left: flags & 1 == 1,
            right: flags & 2 == 2,
        })
    }
}

impl Key {
    /// The key for a point under the key seeds of party 0 and 1 ("Key for a point").
    pub fn new(seeds: &[Seed; 2], point: u32) -> Key {
        Key::new_over(open, seeds, point)
    }

    /// The same over an opening that is handed in: `older` has another one.
    #[inline]
    pub(crate) fn new_over(
        open: impl Fn(&Seed, usize, usize) -> Child,
        seeds: &[Seed; 2],
        point: u32,
    ) -> Key {
        let mut nodes = [start(0, &seeds[0]), start(1, &seeds[1])];
        let mut v = 0;
        let corrections = std::array::from_fn(|place| {
            let level = place + 1;
            let open = |seed: &Seed, side| open(seed, level, side);
            make_level(open, &mut nodes, &mut v, bit(point, level))
        });
        let [s0, s1] = nodes.map(|node| node.seed[0]);
        Key {
            corrections,
            final_word: signed(nodes[1].flag, s1.wrapping_sub(s0).wrapping_sub(v)),
        }
    }

    /// The value at u of the party, 0 or 1, that has this seed ("Value of a key at u").
    pub fn value(&self, party: usize, seed: &Seed, u: u32) -> u32 {
        self.value_over(open, party, seed, u)
    }

    /// The same over an opening that is handed in.
    #[inline]
    pub(crate) fn value_over(
        &self,
        open: impl Fn(&Seed, usize, usize) -> Child,
        party: usize,
        seed: &Seed,
        u: u32,
    ) -> u32 {
        let mut node = start(party, seed);
        let mut total = 0u32;
        for (level, correction) in (1..).zip(&self.corrections) {
            let side = bit(u, level);
            let child = open(&node.seed, level, side);
            total = total
                .wrapping_add(child.word)
                .wrapping_add(if_flag(node.flag, correction.word));
            node = child.corrected(correction, side, node.flag);
        }
        total = total
            .wrapping_add(node.seed[0])
            .wrapping_add(if_flag(node.flag, self.final_word));
        signed(party == 1, total)
    }

    /// The corrections and the final word as a sealed half stores them.
    pub fn to_bytes(&self) -> Vec<u8> {
        let mut bytes = Vec::with_capacity(KEY_BYTES);
        for correction in &self.corrections {
            bytes.extend(correction.seed.iter().flat_map(|word| word.to_le_bytes()));
            bytes.extend(correction.word.to_le_bytes());
            bytes.push(u8::from(correction.left) | u8::from(correction.right) << 1);
        }
        bytes.extend(self.final_word.to_le_bytes());
        bytes
    }

    /// The key stored in these bytes, if no flag byte is above 3.
    pub fn from_bytes(bytes: &[u8; KEY_BYTES]) -> Option<Key> {
        let (stored, final_word) = bytes.split_at(LEVELS * CORRECTION_BYTES);
        let mut key = NO_KEY;
        let levels = key.corrections.iter_mut();
        for (correction, bytes) in levels.zip(stored.chunks_exact(CORRECTION_BYTES)) {
            *correction = Correction::from_bytes(bytes.try_into().unwrap())?;
        }
        key.final_word = u32::from_le_bytes(final_word.try_into().unwrap());
        Some(key)
    }
}

#[cfg(test)]
mod tests {
    use super::*;
    use crate::checks::edges;
    use crate::{field, older};
    use std::collections::HashSet;

    const POINTS: [u32; 5] = [0, 1, (1 << 31) - 1, 1 << 31, u32::MAX];

    fn test_seed(number: u32) -> Seed {
        seed(&field::generate(32, number).try_into().unwrap())
    }

    /// Some words without a pattern.
    fn numbers(count: usize, number: u32) -> Vec<u32> {
        let mut words = vec![0; count];
        chacha20::load_words(&mut words, &field::generate(4 * count, number));
        words
    }

    fn check_sum(seeds: &[Seed; 2], key: &Key, point: u32, u: u32) {
        let [value0, value1] = [0, 1].map(|party| key.value(party, &seeds[party], u));
        let sum = value0.wrapping_add(value1);
        assert_eq!(sum, u32::from(u < point), "point {point} at {u}");
    }

    #[test]
    fn values_add_up_to_whether_the_input_is_below_the_point() {
        for (i, point) in POINTS.into_iter().chain(numbers(60, 5)).enumerate() {
            let seeds = [test_seed(2 * i as u32), test_seed(2 * i as u32 + 1)];
            let key = Key::new(&seeds, point);
            for u in edges(point).into_iter().chain(numbers(20, i as u32)) {
                check_sum(&seeds, &key, point, u);
            }
            // Inputs that leave the point's path at each of the levels.
            for level in 1..=LEVELS {
                check_sum(&seeds, &key, point, point ^ 1 << (LEVELS - level));
            }
        }
    }

    #[test]
    fn any_two_seeds_will_do() {
        let seeds = [[0; 8], [u32::MAX; 8], test_seed(1)];
        for seeds in seeds.iter().flat_map(|a| seeds.map(|b| [*a, b])) {
            for point in POINTS {
                let key = Key::new(&seeds, point);
                for u in edges(point) {
                    check_sum(&seeds, &key, point, u);
                }
            }
        }
    }

    /// What both sides of the seed of bytes 0 to 31 hold at some levels: bytes 0 to 36 of
    /// what OpenSSL 3.0.19 made of zeros by `openssl enc -chacha20 -K KEY -iv IV`. IV is the
    /// counter, four little-endian bytes, and then the nonce as the paper has it: four zeros,
    /// the level, four zeros.
    const OPENED: [(usize, [&str; 2]); 4] = [
        (
            1,
            [
                "2fa4f10250808e89a25231e50fdf6ee071c65f21ef9eee784c3f2d89061ae8951eebde5904",
                "9f57f35fb52aaf1829b6ae5c52959987c57deb0e476b60adc364b55b8de8dda4d84ad6ace4",
            ],
        ),
        (
            2,
            [
                "54b275d14c65d8174ac3a499cf3e8406a93cc77ac646cbca744fdf1876ad1a39c2f88e38d3",
                "a9a3fe55e7eaac6ecb4f3f70ccce61b5c490ac2b84b34fe1bda721d1cda42cf590195ab77c",
            ],
        ),
        (
            31,
            [
                "877162d0174a0adfe45fe369188743e68e9c1ec31b376089f9053ea16f45ef18cf4b1edc4a",
                "13b827bbc48d14575664c7de331e8a7f6b463a9472207d5ef3b45758ec7e35d5ec3be2b238",
            ],
        ),
        (
            32,
            [
                "2efb450880660b3ad565a64ba6a8c0f4d31f08a14267e616040b9450cdcf7881437c372066",
                "b25db59cc22e481aea53ebf68ca0347078b2eee4f0e5901e6f9e3a60000296f9ecac9ca36f",
            ],
        ),
    ];

    #[test]
    fn a_seed_opens_under_its_level_s_nonce() {
        let root = seed(&std::array::from_fn(|i| i as u8));
        for (level, sides) in OPENED {
            for (side, block) in sides.into_iter().enumerate() {
                let block: [u8; 37] = field::parse_array(block).unwrap();
                let child = open(&root, level, side);
                assert_eq!(child.seed, seed(block[..32].try_into().unwrap()));
                assert_eq!(child.word.to_le_bytes(), block[32..36]);
                assert_eq!(child.flag, block[36] & 1 == 1, "level {level}, side {side}");
            }
        }
    }

    /// Sides and levels differ in what they hold: no two have one block.
    #[test]
    fn no_two_levels_open_alike() {
        let levels = (1..=LEVELS).flat_map(|level| [LEFT, RIGHT].map(|side| (level, side)));
        let seeds = levels.map(|(level, side)| open(&[7; 8], level, side).seed);
        assert_eq!(seeds.collect::<HashSet<Seed>>().len(), 2 * LEVELS);
    }

    type Opening = fn(&Seed, usize, usize) -> Child;

    /// The opening of 02 §3, and others that it is not.
    const OPENINGS: [(&str, Opening); 9] = [
        ("right", open),
        ("from 0", |seed, level, side| open(seed, level - 1, side)),
        ("from 2", |seed, level, side| open(seed, level + 1, side)),
        ("1 on all", |seed, _, side| open(seed, 1, side)),
        ("from the lowest bit", |seed, level, side| {
            open(seed, LEVELS + 1 - level, side)
        }),
        ("bytes 0 to 3", |seed, level, side| {
            open_under(&[level as u32, 0, 0], seed, side)
        }),
        ("bytes 8 to 11", |seed, level, side| {
            open_under(&[0, 0, level as u32], seed, side)
        }),
        ("big-endian", |seed, level, side| {
            open_under(&[0, (level as u32).swap_bytes(), 0], seed, side)
        }),
        ("before", older::open),
    ];

    /// Where maker and walker slip alike, every sum is right and the key's bytes tell it. Where
    /// one of them slips, some sum is wrong: not those of inputs that leave the point's path
    /// while the two still open alike.
    #[test]
    fn a_slip_shows_in_the_bytes_or_in_a_sum() {
        let (seeds, point) = ([test_seed(3), test_seed(4)], 0x1234_5678);
        for (maker, make) in OPENINGS {
            let key = Key::new_over(make, &seeds, point);
            assert_eq!(key == Key::new(&seeds, point), maker == "right", "{maker}");
            for (walker, walk) in OPENINGS {
                let value = |party: usize, u| key.value_over(walk, party, &seeds[party], u);
                let right = edges(point).into_iter().all(|u| {
                    let sum = value(0, u).wrapping_add(value(1, u));
                    sum == u32::from(u < point)
                });
                assert_eq!(right, maker == walker, "{maker} and {walker}");
            }
        }
    }

    /// The block under key 0, nonce 0 and counters 0 and 1 is printed in RFC 8439,
    /// A.1 #1 and #2. Before 02 §3 a seed opened into these at every level.
    #[test]
    fn a_seed_opened_into_the_published_blocks() {
        for level in 1..=LEVELS {
            let [left, right] = [LEFT, RIGHT].map(|side| older::open(&[0; 8], level, side));
            assert_eq!((left.seed[0], left.word), (0xade0b876, 0x7c5941da));
            assert_eq!((left.seed[7], left.flag), (0xc70d778b, true));
            assert_eq!((right.seed[0], right.word), (0xbee7079f, 0x7621b729));
            assert_eq!((right.seed[7], right.flag), (0xed7aee32, false));
        }
    }

    #[test]
    fn a_key_is_stored_as_the_sealed_half_wants_it() {
        let mut key = Key::new(&[test_seed(1), test_seed(2)], 77);
        key.corrections[31] = Correction {
            seed: [0x04030201; 8],
            word: 0x08070605,
            left: false,
            right: true,
        };
        key.final_word = 0x0c0b0a09;
        let mut bytes = key.to_bytes();
        assert_eq!(bytes.len(), KEY_BYTES);
        let last = &bytes[31 * CORRECTION_BYTES..];
        assert_eq!(last[..32], [1, 2, 3, 4].repeat(8));
        assert_eq!(last[32..], [5, 6, 7, 8, 2, 9, 10, 11, 12]);

        let read = |bytes: &[u8]| Key::from_bytes(bytes.try_into().unwrap());
        assert_eq!(read(&bytes), Some(key));
        bytes[36] = 4;
        assert_eq!(read(&bytes), None);
    }
}
