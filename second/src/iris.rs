//! Iris codes: 02, "Iris codes in their own order". A code has a bit for each angle and ring.
//! It is packed in bytes, in the scanner's order or in ours, or unpacked to a vector.
//!
//! A call tests what it is handed, then what it is lent, then the elements, and writes only
//! after the last test: a refused call leaves its buffer as it was, an accepted one what
//! stands behind the code.

use crate::measure::Measure;
use crate::refusal::Refusal;

pub const ANGLES: usize = 64;
pub const RINGS: usize = 8;

/// The bits of a code, and the elements of its vector.
pub const CODE_BITS: usize = ANGLES * RINGS;

/// The bits of a byte. That they are as many as the rings is chance.
const BYTE: usize = 8;

/// The bytes of a packed code.
pub const CODE_BYTES: usize = CODE_BITS / BYTE;

/// Where the scanner sends a bit: angle by angle.
fn sent_at(angle: usize, ring: usize) -> usize {
    angle * RINGS + ring
}

/// Where we store it: ring by ring.
fn stored_at(angle: usize, ring: usize) -> usize {
    ring * ANGLES + angle
}

/// Every angle with every ring.
fn angles_and_rings() -> impl Iterator<Item = (usize, usize)> {
    (0..ANGLES).flat_map(|angle| (0..RINGS).map(move |ring| (angle, ring)))
}

/// A bit of packed bytes, 0 or 1. The lowest of a byte comes first.
fn bit(bytes: &[u8], place: usize) -> u8 {
    bytes[place / BYTE] >> (place % BYTE) & 1
}

/// Sets a bit of packed bytes to 0 or 1, whatever it was, and no other.
fn set_bit(bytes: &mut [u8], place: usize, bit: u8) {
    let byte = &mut bytes[place / BYTE];
    *byte &= !(1 << (place % BYTE));
    *byte |= bit << (place % BYTE);
}

fn check_packed(code: &[u8]) -> Result<(), Refusal> {
    Refusal::Length.unless(code.len() == CODE_BYTES)
}

/// Writes a code of the scanner's order in ours.
pub fn to_rings(code: &[u8], buffer: &mut [u8]) -> Result<(), Refusal> {
    check_packed(code)?;
    Refusal::Room.unless(buffer.len() >= CODE_BYTES)?;
    for (angle, ring) in angles_and_rings() {
        let bit = bit(code, sent_at(angle, ring));
        set_bit(buffer, stored_at(angle, ring), bit);
    }
    Ok(())
}

/// Writes a code of our order in the scanner's.
pub fn to_angles(code: &[u8], buffer: &mut [u8]) -> Result<(), Refusal> {
    check_packed(code)?;
    Refusal::Room.unless(buffer.len() >= CODE_BYTES)?;
    for (angle, ring) in angles_and_rings() {
        let bit = bit(code, stored_at(angle, ring));
        set_bit(buffer, sent_at(angle, ring), bit);
    }
    Ok(())
}

/// Writes the vector of a code: element i is bit i of the bytes, in the order that they have.
pub fn unpack(code: &[u8], buffer: &mut [u32]) -> Result<(), Refusal> {
    check_packed(code)?;
    Refusal::Room.unless(buffer.len() >= CODE_BITS)?;
    for (place, element) in buffer[..CODE_BITS].iter_mut().enumerate() {
        *element = bit(code, place).into();
    }
    Ok(())
}

/// Whether a word is an element of code 2's vectors. It may stand for a negative number.
fn is_element(word: u32) -> bool {
    Measure::Hamming.elements().contains(&(word as i32))
}

/// Writes the bytes of a vector: bit i is element i.
pub fn pack(vector: &[u32], buffer: &mut [u8]) -> Result<(), Refusal> {
    Refusal::Length.unless(vector.len() == CODE_BITS)?;
    Refusal::Room.unless(buffer.len() >= CODE_BYTES)?;
    Refusal::Range.unless(vector.iter().all(|&word| is_element(word)))?;
    for (place, &word) in vector.iter().enumerate() {
        // Nothing is cut: the word was tested to be 0 or 1.
        set_bit(buffer, place, word as u8);
    }
    Ok(())
}

/// How many bits of the xor of two codes are 1.
pub fn hamming(first: &[u8], second: &[u8]) -> Result<u32, Refusal> {
    check_packed(first)?;
    check_packed(second)?;
    let differing = |&place: &usize| bit(first, place) ^ bit(second, place) == 1;
    Ok((0..CODE_BITS).filter(differing).count() as u32)
}

#[cfg(test)]
pub mod tests {
    use super::*;
    use crate::sample::Source;

    pub type Code = [u8; CODE_BYTES];
    pub type Vector = [u32; CODE_BITS];

    /// The bytes in which this bit alone is 1.
    pub fn single(place: usize) -> Code {
        let mut code = [0; CODE_BYTES];
        code[place / 8] = 1 << (place % 8);
        code
    }

    /// What an accepted rearrangement writes, whatever stood in the buffer.
    fn written(call: fn(&[u8], &mut [u8]) -> Result<(), Refusal>, code: &[u8]) -> Code {
        let (mut zeros, mut ones) = ([0; CODE_BYTES], [255; CODE_BYTES]);
        assert_eq!(call(code, &mut zeros), Ok(()));
        assert_eq!(call(code, &mut ones), Ok(()));
        assert_eq!(zeros, ones);
        zeros
    }

    fn in_rings(code: &[u8]) -> Code {
        written(to_rings, code)
    }

    fn in_angles(code: &[u8]) -> Code {
        written(to_angles, code)
    }

    pub fn unpacked(code: &[u8]) -> Vector {
        let mut vector = [9; CODE_BITS];
        assert_eq!(unpack(code, &mut vector), Ok(()));
        vector
    }

    fn packed(vector: &[u32]) -> Code {
        let (mut zeros, mut ones) = ([0; CODE_BYTES], [255; CODE_BYTES]);
        assert_eq!(pack(vector, &mut zeros), Ok(()));
        assert_eq!(pack(vector, &mut ones), Ok(()));
        assert_eq!(zeros, ones);
        zeros
    }

    /// Codes without a pattern.
    fn generated(count: usize) -> Vec<Code> {
        let mut source = Source(10_000);
        let mut code = |_| {
            let words = source.words(CODE_BYTES / 4).into_iter();
            let bytes: Vec<u8> = words.flat_map(u32::to_le_bytes).collect();
            bytes.try_into().unwrap()
        };
        (0..count).map(&mut code).collect()
    }

    /// Codes that have each byte value at each place.
    fn byte_values() -> Vec<Code> {
        let code = |first| std::array::from_fn(|place| (first + place) as u8);
        (0..256).map(code).collect()
    }

    /// Single bits, single zeros, all zeros, all ones, every byte value, and many more.
    fn codes() -> Vec<Code> {
        let singles: Vec<Code> = (0..CODE_BITS).map(single).collect();
        let zeros = singles.iter().map(|code| code.map(|byte| !byte)).collect();
        let same = vec![[0; CODE_BYTES], [255; CODE_BYTES]];
        [singles, zeros, same, byte_values(), generated(2000)].concat()
    }

    /// Angle, ring, then byte and value in the scanner's order and the same in ours, worked
    /// out by hand from angle × 8 + ring and ring × 64 + angle.
    const BY_HAND: [(usize, usize, usize, u8, usize, u8); 12] = [
        (0, 0, 0, 1, 0, 1),
        (1, 0, 1, 1, 0, 2),
        (7, 0, 7, 1, 0, 128),
        (8, 0, 8, 1, 1, 1),
        (63, 0, 63, 1, 7, 128),
        (0, 1, 0, 2, 8, 1),
        (0, 7, 0, 128, 56, 1),
        (63, 7, 63, 128, 63, 128),
        // The scanner's bit 74, our bit 137.
        (9, 2, 9, 4, 17, 2),
        // The scanner's bit 163, our bit 212.
        (20, 3, 20, 8, 26, 16),
        // The scanner's bit 301, our bit 357.
        (37, 5, 37, 32, 44, 32),
        // The scanner's bit 502, our bit 446.
        (62, 6, 62, 64, 55, 64),
    ];

    #[test]
    fn single_bits_by_hand() {
        for (angle, ring, byte, value, our_byte, our_value) in BY_HAND {
            let (mut sent, mut stored) = ([0; CODE_BYTES], [0; CODE_BYTES]);
            sent[byte] = value;
            stored[our_byte] = our_value;
            assert_eq!(in_rings(&sent), stored, "angle {angle}, ring {ring}");
            assert_eq!(in_angles(&stored), sent, "angle {angle}, ring {ring}");
        }
    }

    /// The same for all others, by the paper's two formulas; and each for a single zero.
    #[test]
    fn every_single_bit() {
        for ring in 0..8 {
            for angle in 0..64 {
                let (sent, stored) = (single(angle * 8 + ring), single(ring * 64 + angle));
                assert_eq!(in_rings(&sent), stored, "angle {angle}, ring {ring}");
                assert_eq!(in_angles(&stored), sent, "angle {angle}, ring {ring}");
                let (sent, stored) = (sent.map(|byte| !byte), stored.map(|byte| !byte));
                assert_eq!(in_rings(&sent), stored, "angle {angle}, ring {ring}");
                assert_eq!(in_angles(&stored), sent, "angle {angle}, ring {ring}");
            }
        }
    }

    /// A ring is a bit of every byte of the scanner's, and eight bytes of ours; an angle is a
    /// byte of the scanner's, and a bit of each eighth byte of ours.
    #[test]
    fn whole_rings_and_whole_angles() {
        for ring in 0..8 {
            let mut stored = [0; CODE_BYTES];
            stored[ring * 8..][..8].fill(255);
            assert_eq!(in_rings(&[1 << ring; CODE_BYTES]), stored, "ring {ring}");
        }
        for angle in 0..64 {
            let (mut sent, mut stored) = ([0; CODE_BYTES], [0; CODE_BYTES]);
            sent[angle] = 255;
            for ring in 0..8 {
                stored[ring * 8 + angle / 8] = 1 << (angle % 8);
            }
            assert_eq!(in_rings(&sent), stored, "angle {angle}");
        }
    }

    #[test]
    fn each_undoes_its_partner() {
        for code in codes() {
            assert_eq!(in_angles(&in_rings(&code)), code);
            assert_eq!(in_rings(&in_angles(&code)), code);
            assert_eq!(packed(&unpacked(&code)), code);
        }
    }

    #[test]
    fn unpack_undoes_pack() {
        let mut source = Source(20_000);
        for _ in 0..2000 {
            let vector = source.vector(Measure::Hamming, CODE_BITS);
            let vector: Vec<u32> = vector.into_iter().map(|element| element as u32).collect();
            assert_eq!(unpacked(&packed(&vector))[..], vector);
        }
    }

    /// Angle 0, ring 1 is the scanner's bit 1 and our bit 64, which the scanner has at angle
    /// 8, ring 0, our bit 8.
    #[test]
    fn neither_undoes_itself() {
        assert_eq!(in_rings(&single(1)), single(64));
        assert_eq!(in_rings(&single(64)), single(8));
        assert_eq!(in_angles(&single(8)), single(64));
        assert_eq!(in_angles(&single(64)), single(1));
        for code in generated(1000) {
            assert_ne!(in_rings(&in_rings(&code)), code);
            assert_ne!(in_angles(&in_angles(&code)), code);
            assert_ne!(in_rings(&code), in_angles(&code));
        }
    }

    /// Element i is bit i of the bytes, also where i is neither the angle's nor the ring's.
    #[test]
    fn unpack_and_pack_rearrange_nothing() {
        for place in 0..CODE_BITS {
            let mut vector = [0; CODE_BITS];
            vector[place] = 1;
            assert_eq!(unpacked(&single(place)), vector, "{place}");
            assert_eq!(packed(&vector), single(place), "{place}");
        }
        for code in byte_values() {
            let vector = unpacked(&code);
            for (place, byte) in code.into_iter().enumerate() {
                let bits = vector[place * 8..][..8].iter().rev();
                let bits: String = bits.map(u32::to_string).collect();
                assert_eq!(bits, format!("{byte:08b}"));
            }
        }
    }

    /// Code 2's measure of the unpacked vectors.
    fn measure(first: &[u8], second: &[u8]) -> i64 {
        let [x, y] = [first, second].map(|code| unpacked(code).map(|word| word as i32));
        Measure::Hamming.of(&x, &y)
    }

    /// The distance, which is code 2's measure whichever code comes first, and the same for the
    /// two as they are and rearranged in either way.
    fn distance(first: &[u8], second: &[u8]) -> u32 {
        let distance = hamming(first, second).unwrap();
        for (x, y) in [
            (first, second),
            (second, first),
            (&in_rings(first), &in_rings(second)),
            (&in_angles(first), &in_angles(second)),
        ] {
            assert_eq!(hamming(x, y), Ok(distance));
            assert_eq!(measure(x, y), distance.into());
        }
        distance
    }

    #[test]
    fn distances_are_the_measure() {
        let codes = [byte_values(), generated(1000)].concat();
        let mut seen = std::collections::BTreeSet::new();
        for pair in codes.windows(2) {
            let xor = pair[0].iter().zip(pair[1]).map(|(x, y)| x ^ y);
            let ones: u32 = xor.map(u8::count_ones).sum();
            assert_eq!(distance(&pair[0], &pair[1]), ones);
            seen.insert(ones);
        }
        assert!(seen.len() > 50, "{seen:?}");
    }

    #[test]
    fn distances_at_the_ends() {
        let (zeros, ones) = ([0; CODE_BYTES], [255; CODE_BYTES]);
        assert_eq!(distance(&zeros, &ones), 512);
        for code in codes().iter().step_by(7) {
            assert_eq!(distance(code, code), 0);
            assert_eq!(distance(code, &code.map(|byte| !byte)), 512);
        }
        for place in 0..CODE_BITS {
            assert_eq!(distance(&zeros, &single(place)), 1, "{place}");
            assert_eq!(distance(&ones, &single(place)), 511, "{place}");
            let next = single((place + 1) % CODE_BITS);
            assert_eq!(distance(&single(place), &next), 2, "{place}");
        }
    }

    /// No call can tell the two orders apart, and codes of different orders are far apart.
    #[test]
    fn both_codes_have_one_order() {
        let code = single(1);
        assert_eq!(hamming(&code, &in_rings(&code)), Ok(2));
        for code in generated(100) {
            assert!(hamming(&code, &in_rings(&code)).unwrap() > 100);
        }
    }
}
