//! Test cases with generated inputs, answered by this implementation.

use crate::cases::Cases;
use crate::script::{run, Case};
use crate::{aead, field};

const MAX_LENGTH: usize = 600;
const KEY: usize = 32;
const NONCE: usize = 12;
const TAG: usize = 16;

/// 4294967295 wraps after one block, 4294967290 after six.
const COUNTERS: [u32; 5] = [1, 4294967295, 2147483647, 4294967290, 0];

/// Products that a partial reduction leaves in the small gap above p, at the
/// place where one more carry runs into the second limb of some usual width:
/// (t, m) with (2^128 + m) * r = t modulo p, for the highest r after the clamp.
const ABOVE_P: [(u128, u128); 6] = [
    (0x48000002, 0xf4499d888fa2a3db9ab53e275c765fb3),
    (0x600000004, 0x381f2090df002b323bb0a36b16235570),
    (0x200000000004, 0xbf5e80025166cc480c787a678697ce21),
    (0x200000000000, 0x6c43ac21b8b943d28841633f0c46c5f5),
    (0x800000000003, 0xef62cf6f556735a2442ede5a8cd7ddfa),
    (0x40000000000000004, 0xd751eb0912fe90a1ec18a0013929f2bd),
];

impl Cases {
    fn tag(&mut self, length: usize, aad_length: usize) {
        let (key, nonce) = (self.bytes(KEY), self.bytes(NONCE));
        let (aad, data) = (self.bytes(aad_length), self.bytes(length));
        self.add(format!("tag {key} {nonce} {aad} {data}"));
    }

    fn xor_and_poly(&mut self, length: usize, counter: u32) {
        let (key, nonce, data) = (self.bytes(KEY), self.bytes(NONCE), self.bytes(length));
        self.add(format!("xor {key} {counter} {nonce} {data}"));
        let (key, message) = (self.bytes(KEY), self.bytes(length));
        self.add(format!("poly {key} {message}"));
    }

    /// A seal, the open that undoes it, and opens that must all be refused: one
    /// bit off in each input in turn, and lengths off by one zero byte, which
    /// the padding of 2.8 alone would not notice.
    fn seal_and_open(&mut self, length: usize, aad_length: usize) {
        let (key, nonce) = (self.bytes(KEY), self.bytes(NONCE));
        let (aad, data) = (self.bytes(aad_length), self.bytes(length));
        self.add(format!("seal {key} {nonce} {aad} {data}"));

        let plain = field::parse(&data).unwrap();
        let aad_bytes = field::parse(&aad).unwrap();
        let nonce_bytes = field::parse_array(&nonce).unwrap();
        let mut sealed = plain.clone();
        let tag = aead::seal(
            &field::parse_array(&key).unwrap(),
            &nonce_bytes,
            &aad_bytes,
            &mut sealed,
        );

        let hex = field::format;
        let (ciphertext, good_tag) = (hex(&sealed), hex(&tag));
        let bit = length % 8;
        let mut open = |nonce: &str, aad: &str, ciphertext: &str, tag: &str, expected: &str| {
            self.add_expecting(
                "generated open",
                format!("open {key} {nonce} {aad} {ciphertext} {tag}"),
                expected.to_string(),
            )
        };
        open(&nonce, &aad, &ciphertext, &good_tag, &hex(&plain));
        // Each byte of the tag once, else its first and its last one.
        let step = if length == 1 { 1 } else { TAG - 1 };
        for byte in (0..TAG).step_by(step) {
            let wrong = hex(&flip(&tag, byte, bit));
            open(&nonce, &aad, &ciphertext, &wrong, "refused");
        }
        let wrong = hex(&flip(&nonce_bytes, length % NONCE, bit));
        open(&wrong, &aad, &ciphertext, &good_tag, "refused");
        if length > 0 {
            let wrong = hex(&flip(&sealed, length * 5 / 7, bit));
            open(&nonce, &aad, &wrong, &good_tag, "refused");
        }
        if aad_length > 0 {
            let wrong = hex(&flip(&aad_bytes, length % aad_length, bit));
            open(&nonce, &wrong, &ciphertext, &good_tag, "refused");
        }
        if length < 64 {
            let longer = hex(&[&sealed[..], &[0]].concat());
            open(&nonce, &aad, &longer, &good_tag, "refused");
            let longer = hex(&[&aad_bytes[..], &[0]].concat());
            open(&nonce, &longer, &ciphertext, &good_tag, "refused");
        }
    }

    fn poly_of(&mut self, r: u128, s: u128, message: &[u8]) {
        self.add(poly_line(r, s, message));
    }

    /// Inputs at the edges of the sums, the carries and the final reduction.
    fn poly_edges(&mut self) {
        for length in 1..=64 {
            self.poly_of(u128::MAX, u128::MAX, &vec![0xff; length]);
        }
        for length in [0, 1, 15, 16, 17, 32, 33, 256] {
            self.poly_of(u128::MAX, 0, &vec![0xff; length]);
            self.poly_of(u128::MAX, u128::MAX, &vec![0; length]);
        }
        for (t, m) in ABOVE_P {
            let line = poly_line(u128::MAX, 0, &m.to_le_bytes());
            self.add_expecting("generated poly", line, field::format(&t.to_le_bytes()));
        }
        // r = 1: three blocks that add up to 2^130 - below, so from p + 4 down
        // to p - 4; with s = 2^128 - 1 the last sum overflows too.
        for below in 1..=9u128 {
            let message = blocks(&[below.wrapping_neg(), 0, 0]);
            self.poly_of(1, 0, &message);
            self.poly_of(1, u128::MAX, &message);
        }
        // r = 1: four blocks that add up to 2^130 + above.
        for above in [0, 1, 4, 5] {
            self.poly_of(1, 0, &blocks(&[above, 0, 0, 0]));
        }
        // r = 1: a sum that goes past 2^130 more than once.
        self.poly_of(1, 0, &blocks(&[u128::MAX; 7]));
        // r = 1: a carry across each boundary that limbs of some width may have,
        // and one that runs from there to the top.
        for bits in [26, 32, 44, 52, 64, 78, 88, 96, 104, 127] {
            let low = (1u128 << bits) - 1;
            self.poly_of(1, 0, &blocks(&[low, 1]));
            self.poly_of(1, 0, &blocks(&[!low, 1 << bits]));
        }
        // A single bit of r at a time: each clamped bit must do nothing.
        for bit in [
            2, 27, 28, 31, 32, 33, 34, 63, 64, 65, 96, 97, 98, 123, 124, 127,
        ] {
            self.poly_of(1 << bit, 0, &blocks(&[u128::MAX, 1]));
        }
    }
}

fn poly_line(r: u128, s: u128, message: &[u8]) -> String {
    let [r, s] = [r, s].map(|number| field::format(&number.to_le_bytes()));
    format!("poly {r}{s} {}", field::format(message))
}

fn flip(bytes: &[u8], byte: usize, bit: usize) -> Vec<u8> {
    let mut bytes = bytes.to_vec();
    bytes[byte] ^= 1 << bit;
    bytes
}

fn blocks(numbers: &[u128]) -> Vec<u8> {
    numbers
        .iter()
        .flat_map(|number| number.to_le_bytes())
        .collect()
}

/// 12 for every third length, as in the RFC's example and in TLS; else 0 to 40.
fn aad_length(length: usize) -> usize {
    match length % 3 {
        0 => 12,
        _ => length * 7 % 41,
    }
}

/// Every generated case, the same ones at each call.
pub fn cases() -> Vec<Case> {
    let mut cases = Cases::new(run);

    for word in [0, 1, 0x80000000, u32::MAX] {
        cases.add(format!("quarter {word} {word} {word} {word}"));
    }
    for counter in COUNTERS {
        let (key, nonce) = (cases.bytes(KEY), cases.bytes(NONCE));
        cases.add(format!("block {key} {counter} {nonce}"));
        cases.add(format!("polykey {key} {nonce}"));
    }
    // The highest seed.
    cases.add("block @32:4294967295 7 @12:4294967295".to_string());
    for count in [0, 1, 15, 16, 17, 31, 63, 64, 65, 100, 127, 128, 129, 300] {
        let (key, nonce) = (cases.bytes(KEY), cases.bytes(NONCE));
        cases.add(format!("stream {key} {nonce} {count}"));
    }
    cases.poly_edges();

    for length in 0..=MAX_LENGTH {
        cases.tag(length, aad_length(length));
        if length % 29 == 0 {
            cases.seal_and_open(length, aad_length(length));
        }
        if length % 23 == 0 {
            cases.xor_and_poly(length, COUNTERS[length / 23 % COUNTERS.len()]);
        }
    }
    // Where one part, or both, of the authenticated data is empty or has no padding.
    for (length, aad_length) in [(0, 0), (1, 0), (16, 0), (63, 0), (0, 1), (0, 16), (16, 16)] {
        cases.seal_and_open(length, aad_length);
    }
    // Additional data longer than one key stream block.
    for (length, aad_length) in [(5, 64), (100, 65), (7, 600)] {
        cases.tag(length, aad_length);
    }
    cases.list
}

#[cfg(test)]
mod tests {
    use super::*;
    use crate::script::MAX_LINE;
    use std::collections::HashSet;

    #[test]
    fn cases_are_right_short_and_not_repeated() {
        let cases = cases();
        let mut lines = HashSet::new();
        for case in &cases {
            case.check(run).unwrap();
            assert!(case.line.len() <= MAX_LINE);
            assert!(lines.insert(&case.line), "repeated: {}", case.line);
        }
    }

    #[test]
    fn aad_lengths_cover_0_to_40() {
        let lengths: HashSet<usize> = (0..=MAX_LENGTH).map(aad_length).collect();
        assert_eq!(lengths, (0..=40).collect());
    }
}
