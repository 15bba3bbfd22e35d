//! The cases of the program `test_iris`: single bits, every byte value, codes without a
//! pattern, distances. Refused calls are in `iris_bad_cases`.
//!
//! What a line must answer is made here from the paper's two formulas, a byte at a time and not
//! by `iris`, which goes a bit at a time.

use crate::cases::Cases;
use crate::field;
use crate::iris_lines::run;
use crate::script::Case;

/// The paper's numbers, not those of `iris`.
const ANGLES: usize = 64;
const RINGS: usize = 8;
const CODE_BITS: usize = 512;
const CODE_BYTES: usize = 64;

/// Codes whose bits are all 0 and all 1.
pub const ZEROS: &str = "~16:0:0:0";
pub const ONES: &str = "~16:0:4294967295:0";

/// Vectors whose elements are all 0 and all 1.
pub const NO_ELEMENT: &str = "~512:0:0:0";
pub const EVERY_ELEMENT: &str = "~512:0:1:0";

/// How many codes, vectors and pairs of codes without a pattern there are.
const GENERATED: usize = 60;

/// How many pairs come with both their rearrangements.
const REARRANGED: usize = 12;

/// Steps through all byte values, each with a value to begin with: they are odd, so that none
/// comes twice before all have come.
const STEPS: [(usize, usize); 3] = [(1, 0), (37, 11), (101, 200)];

/// The bytes in which one bit is 1.
fn single(place: usize) -> Vec<u8> {
    let mut code = vec![0; CODE_BYTES];
    code[place / 8] = 1 << (place % 8);
    code
}

fn complement(code: &[u8]) -> Vec<u8> {
    code.iter().map(|byte| !byte).collect()
}

/// The byte of eight bits, the lowest first.
fn byte_of(bits: impl DoubleEndedIterator<Item = u8>) -> u8 {
    bits.rev().fold(0, |byte, bit| 2 * byte + bit)
}

/// A code of the scanner's in our order. Eight bytes are a ring, and each of them has this
/// ring's bits of eight of the scanner's bytes.
fn in_rings(code: &[u8]) -> Vec<u8> {
    let eighths = || code.chunks(8);
    let byte = |ring: usize, angles: &[u8]| byte_of(angles.iter().map(|angle| angle >> ring & 1));
    let ring = |ring: usize| eighths().map(move |angles| byte(ring, angles));
    (0..RINGS).flat_map(ring).collect()
}

/// A code of ours in the scanner's order. A byte is an angle, and has this angle's bit of each
/// ring's eight bytes.
fn in_angles(code: &[u8]) -> Vec<u8> {
    let rings = || code.chunks(ANGLES / 8);
    let byte = |angle: usize| byte_of(rings().map(|ring| ring[angle / 8] >> (angle % 8) & 1));
    (0..ANGLES).map(byte).collect()
}

/// The elements of a code as digits: those of each byte written backwards.
fn digits(code: &[u8]) -> String {
    let binary = code.iter().map(|byte| format!("{byte:08b}"));
    binary
        .flat_map(|byte| byte.chars().rev().collect::<Vec<char>>())
        .collect()
}

/// The code of a vector field of zeros and ones.
fn packed(vector: &str) -> Vec<u8> {
    let bytes = bytes_of(vector);
    let elements: Vec<u8> = bytes.chunks(4).map(|word| word[0]).collect();
    let byte = |bits: &[u8]| byte_of(bits.iter().copied());
    elements.chunks(8).map(byte).collect()
}

fn distance(first: &[u8], second: &[u8]) -> u32 {
    let xor = first.iter().zip(second).map(|(x, y)| x ^ y);
    xor.map(u8::count_ones).sum()
}

fn bytes_of(text: &str) -> Vec<u8> {
    field::parse(text).expect("a bytes field")
}

/// An answer with the bytes that a call was lent, of which these are written.
pub fn answer_with_bytes(why: u32, written: &[u8], room: usize) -> String {
    let before = std::iter::successors(Some(11_u8), |byte| Some(byte.wrapping_add(37)));
    let kept = before.take(room).skip(written.len());
    let bytes: Vec<u8> = written.iter().copied().chain(kept).collect();
    format!("{why} {}", field::format(&bytes))
}

/// An answer with the words that a call was lent, of which these are written.
pub fn answer_with_words(why: u32, written: &str, room: usize) -> String {
    let before = "23456789".chars().cycle();
    let kept = before.take(room).skip(written.len());
    match room {
        0 => format!("{why} -"),
        _ => format!("{why} {written}{}", kept.collect::<String>()),
    }
}

impl Cases {
    /// Each of the two rearrangements, in a buffer with this room.
    fn rearranged(&mut self, code: &str, room: usize) {
        let bytes = bytes_of(code);
        for (command, written) in [("rings", in_rings(&bytes)), ("angles", in_angles(&bytes))] {
            let expected = answer_with_bytes(0, &written, room);
            self.add_expecting("by byte", format!("{command} {code} {room}"), expected);
        }
    }

    fn unpacked(&mut self, code: &str, room: usize) {
        let expected = answer_with_words(0, &digits(&bytes_of(code)), room);
        self.add_expecting("by byte", format!("unpack {code} {room}"), expected);
    }

    fn packed(&mut self, vector: &str, room: usize) {
        let expected = answer_with_bytes(0, &packed(vector), room);
        self.add_expecting("by byte", format!("pack {vector} {room}"), expected);
    }

    /// The distance, which is given back.
    fn distance(&mut self, first: &str, second: &str) -> u32 {
        let distance = distance(&bytes_of(first), &bytes_of(second));
        let line = format!("hamming {first} {second}");
        self.add_expecting("by byte", line, format!("0 {distance}"));
        distance
    }

    /// Each bit alone, by angle and ring, to and fro.
    fn single_bits_rearranged(&mut self) {
        for place in 0..CODE_BITS {
            let (angle, ring) = (place % ANGLES, place / ANGLES);
            let (sent, stored) = (single(angle * 8 + ring), single(ring * 64 + angle));
            for (command, from, to) in [("rings", &sent, &stored), ("angles", &stored, &sent)] {
                let line = format!("{command} {} 64", field::format(from));
                let expected = answer_with_bytes(0, to, CODE_BYTES);
                self.add_expecting("a single bit", line, expected);
            }
        }
    }

    /// Each bit alone, unpacked, and at the distance 1 from none.
    fn single_bits_unpacked(&mut self) {
        for place in 0..CODE_BITS {
            let code = field::format(&single(place));
            let mut digits = "0".repeat(CODE_BITS);
            digits.replace_range(place..=place, "1");
            let line = format!("unpack {code} {CODE_BITS}");
            self.add_expecting("a single bit", line, format!("0 {digits}"));
            assert_eq!(self.distance(ZEROS, &code), 1);
        }
    }

    /// Each element alone 1, and each alone 0.
    fn single_elements(&mut self) {
        for place in 0..CODE_BITS {
            let code = single(place);
            for (vector, word, code) in [
                (NO_ELEMENT, 1, &code),
                (EVERY_ELEMENT, 0, &complement(&code)),
            ] {
                let line = format!("pack {vector} 64 {place} {word}");
                let expected = answer_with_bytes(0, code, CODE_BYTES);
                self.add_expecting("a single element", line, expected);
            }
        }
    }

    /// Codes of equal bytes and of whole rings, of every byte value, and without a pattern.
    fn codes(&mut self) {
        let mut codes = vec![ZEROS.to_string(), ONES.to_string()];
        codes.extend((0..RINGS).map(|ring| format!("~16:0:{}:0", 0x0101_0101_u32 << ring)));
        codes.extend(byte_values().iter().map(|code| field::format(code)));
        codes.extend((0..GENERATED).map(|_| self.bytes(CODE_BYTES)));
        for code in codes {
            self.rearranged(&code, CODE_BYTES);
            self.unpacked(&code, CODE_BITS);
        }
    }

    fn vectors_of_bits(&mut self) {
        self.packed(NO_ELEMENT, CODE_BYTES);
        self.packed(EVERY_ELEMENT, CODE_BYTES);
        for _ in 0..GENERATED {
            let vector = format!("~512:{}:0:1", self.seed());
            self.packed(&vector, CODE_BYTES);
        }
    }

    /// What stands behind the code in a longer buffer stays.
    fn longer_buffers(&mut self) {
        for room in [65, 66, 72, 127, 128] {
            let (code, vector) = (self.bytes(CODE_BYTES), format!("~512:{}:0:1", self.seed()));
            self.rearranged(&code, room);
            self.packed(&vector, room);
        }
        for room in [513, 514, 576, 639, 640] {
            let code = self.bytes(CODE_BYTES);
            self.unpacked(&code, room);
        }
    }

    /// Each byte value at a place, and as many equal ones in each word as it has bits.
    fn distances_by_value(&mut self) {
        for value in 0..=255_u8 {
            let mut code = vec![0; CODE_BYTES];
            code[usize::from(value) * 5 % CODE_BYTES] = value;
            let distance = self.distance(&field::format(&code), ZEROS);
            assert_eq!(distance, value.count_ones());
        }
        for bits in 1..=32 {
            let word = u32::MAX >> (32 - bits);
            let distance = self.distance(&format!("~16:1:{word}:0"), ZEROS);
            assert_eq!(distance, 16 * bits);
        }
    }

    /// Pairs without a pattern, and codes with themselves.
    fn distances_of_pairs(&mut self) {
        assert_eq!(self.distance(ZEROS, ONES), 512);
        assert_eq!(self.distance(ONES, ZEROS), 512);
        assert_eq!(self.distance(ONES, ONES), 0);
        assert_eq!(self.distance(ZEROS, ZEROS), 0);
        for _ in 0..GENERATED {
            let (first, second) = (self.bytes(CODE_BYTES), self.bytes(CODE_BYTES));
            assert_eq!(self.distance(&first, &first), 0);
            let distance = self.distance(&first, &second);
            assert_eq!(self.distance(&second, &first), distance);
        }
        let code = self.bytes(CODE_BYTES);
        let other = field::format(&complement(&bytes_of(&code)));
        assert_eq!(self.distance(&code, &other), 512);
    }

    /// Pairs whose codes come rearranged too, both in one way: the number stays. With one of
    /// them rearranged it does not.
    fn distances_in_either_order(&mut self) {
        for _ in 0..REARRANGED {
            let pair = [self.bytes(CODE_BYTES), self.bytes(CODE_BYTES)];
            let distance = self.distance(&pair[0], &pair[1]);
            for order in [in_rings, in_angles] {
                let [first, second] = pair.each_ref().map(|code| order(&bytes_of(code)));
                let [first, second] = [first, second].map(|code| field::format(&code));
                assert_eq!(self.distance(&first, &second), distance);
                assert_ne!(self.distance(&first, &pair[0]), 0);
            }
        }
    }
}

/// Codes whose bytes go through all values, in steps, each value once for each kind of step.
fn byte_values() -> Vec<Vec<u8>> {
    let values = |(step, first): (usize, usize)| {
        let value = move |turn: usize| (step * turn + first) as u8;
        (0..256).map(value).collect::<Vec<u8>>()
    };
    let all: Vec<u8> = STEPS.into_iter().flat_map(values).collect();
    all.chunks(CODE_BYTES).map(<[u8]>::to_vec).collect()
}

/// Every case of the program `test_iris`, the same ones at each call.
pub fn cases() -> Vec<Case> {
    let mut cases = Cases::new(run);
    cases.single_bits_rearranged();
    cases.single_bits_unpacked();
    cases.single_elements();
    cases.codes();
    cases.vectors_of_bits();
    cases.longer_buffers();
    cases.distances_by_value();
    cases.distances_of_pairs();
    cases.distances_in_either_order();
    cases.refused_iris_calls();
    cases.list
}

#[cfg(test)]
mod tests {
    use super::*;
    use crate::script::assert_right_short_and_not_repeated;
    use std::collections::{HashMap, HashSet};

    /// The most bytes of the script.
    const MAX_SCRIPT: usize = 400_000;

    #[test]
    fn cases_are_right_short_and_not_repeated() {
        let cases = cases();
        assert_right_short_and_not_repeated(&cases, run);
        let size: usize = cases.iter().map(|case| case.line.len() + 1).sum();
        assert!(size < MAX_SCRIPT, "{size}");
    }

    /// Angle 9, ring 2: the scanner's bit 74, our bit 137.
    #[test]
    fn formulas_at_a_bit() {
        let (mut sent, mut stored) = ([0; CODE_BYTES], [0; CODE_BYTES]);
        (sent[9], stored[17]) = (4, 2);
        assert_eq!(in_rings(&sent), stored);
        assert_eq!(in_angles(&stored), sent);
        assert_eq!(digits(&sent).find('1'), Some(74));
        assert_eq!(digits(&stored).find('1'), Some(137));
        assert_eq!(packed("~8:0:1:0"), [255]);
        assert_eq!(packed("0000000001000000"), [2]);
    }

    /// Of the lines of a command that are accepted, the bytes of the field that is the code.
    fn codes_of(cases: &[Case], command: &str) -> HashSet<Vec<u8>> {
        let start = format!("{command} ");
        let accepted = cases
            .iter()
            .filter(|case| case.line.starts_with(&start) && case.expected.starts_with("0 "));
        let code = |case: &Case| match command {
            "pack" => bytes_of(&case.expected[2..][..2 * CODE_BYTES]),
            _ => bytes_of(case.line.split(' ').nth(1).unwrap()),
        };
        accepted.map(code).collect()
    }

    /// Each call has every single bit, and every byte value at three places or more.
    #[test]
    fn bits_and_byte_values() {
        let cases = cases();
        for command in ["rings", "angles", "unpack", "pack"] {
            let codes = codes_of(&cases, command);
            for place in 0..CODE_BITS {
                assert!(codes.contains(&single(place)), "{command} {place}");
            }
            let mut places: HashMap<u8, HashSet<usize>> = HashMap::new();
            for (place, byte) in codes.iter().flat_map(|code| code.iter().enumerate()) {
                places.entry(*byte).or_default().insert(place);
            }
            assert_eq!(places.len(), 256, "{command}");
            assert!(places.values().all(|places| places.len() >= 3), "{command}");
        }
    }

    /// Each call is accepted and refused by each number that its row of tests has.
    #[test]
    fn every_refusal_of_every_call() {
        let mut seen = HashSet::new();
        for case in cases() {
            let (command, _) = case.line.split_once(' ').unwrap_or((&case.line, ""));
            let (why, _) = case.expected.split_once(' ').unwrap();
            seen.insert(format!("{command} {why}"));
        }
        for (command, numbers) in [
            ("rings", "0 4 5"),
            ("angles", "0 4 5"),
            ("unpack", "0 4 5"),
            ("pack", "0 4 5 8"),
            ("hamming", "0 4"),
        ] {
            for why in numbers.split(' ') {
                assert!(seen.remove(&format!("{command} {why}")), "{command} {why}");
            }
        }
        assert!(seen.iter().all(|line| line.ends_with(" bad")), "{seen:?}");
    }
}
