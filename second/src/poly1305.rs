//! Poly1305: RFC 8439, section 2.5.
//!
//! Numbers modulo p = 2^130 - 5 are held in limbs of 44, 44 and 42 bits: the
//! products of two limbs, and the sums of three of them, fit in a u128.

pub const BLOCK_BYTES: usize = 16;
const BITS: u32 = 44;
const TOP_BITS: u32 = 42;
const MASK: u64 = (1 << BITS) - 1;
const TOP_MASK: u64 = (1 << TOP_BITS) - 1;

/// The bits of r that the clamp keeps (2.5).
const CLAMP: u128 = 0x0ffffffc_0ffffffc_0ffffffc_0fffffff;

/// The bit past a full block of 16 bytes (2.5.1), as seen from the top limb.
const FULL_BLOCK: u64 = 1 << (128 - 2 * BITS);

pub struct Poly1305 {
    r: [u64; 3],
    s: u128,
    accumulator: [u64; 3],
}

fn limbs(number: u128) -> [u64; 3] {
    [
        number as u64 & MASK,
        (number >> BITS) as u64 & MASK,
        (number >> (2 * BITS)) as u64,
    ]
}

fn load(bytes: &[u8]) -> u128 {
    u128::from_le_bytes(bytes.try_into().unwrap())
}

/// One pass of carries; what leaves the top limb, a multiple of 2^130, comes
/// back multiplied by 5.
fn carry(mut h: [u64; 3]) -> [u64; 3] {
    h[1] += h[0] >> BITS;
    h[0] &= MASK;
    h[2] += h[1] >> BITS;
    h[1] &= MASK;
    h[0] += (h[2] >> TOP_BITS) * 5;
    h[2] &= TOP_MASK;
    h
}

impl Poly1305 {
    pub fn new(key: &[u8; 32]) -> Self {
        Poly1305 {
            r: limbs(load(&key[..16]) & CLAMP),
            s: load(&key[16..]),
            accumulator: [0; 3],
        }
    }

    /// accumulator = (accumulator + number + end bit) * r modulo p (2.5.1).
    #[inline(always)]
    fn absorb(&mut self, number: u128, end_bit: u64) {
        let [m0, m1, m2] = limbs(number);
        let [h0, h1, h2] = self.accumulator;
        let [h0, h1, h2] = [h0 + m0, h1 + m1, h2 + m2 + end_bit];
        let [r0, r1, r2] = self.r;
        // A product of weight 2^132 or more wraps to 4 * 5 times its rest.
        let (wrapped1, wrapped2) = (r1 * 20, r2 * 20);

        let product = |a: u64, b: u64| a as u128 * b as u128;
        let d0 = product(h0, r0) + product(h1, wrapped2) + product(h2, wrapped1);
        let d1 = product(h0, r1) + product(h1, r0) + product(h2, wrapped2);
        let d2 = product(h0, r2) + product(h1, r1) + product(h2, r0);

        let d1 = d1 + (d0 >> BITS);
        let d2 = d2 + (d1 >> BITS);
        let h0 = (d0 as u64 & MASK) + (d2 >> TOP_BITS) as u64 * 5;
        // Limb 1 may keep one bit too many: the next products have room for it.
        self.accumulator = [
            h0 & MASK,
            (d1 as u64 & MASK) + (h0 >> BITS),
            d2 as u64 & TOP_MASK,
        ];
    }

    /// Absorbs the full blocks of `data` and hands back the rest.
    fn absorb_blocks<'a>(&mut self, data: &'a [u8]) -> &'a [u8] {
        let blocks = data.chunks_exact(BLOCK_BYTES);
        let rest = blocks.remainder();
        for block in blocks {
            self.absorb(load(block), FULL_BLOCK);
        }
        rest
    }

    /// Absorbs `data` filled up with zeros to full blocks: the padding is part
    /// of the message, as the AEAD wants it (2.8).
    pub fn absorb_padded(&mut self, data: &[u8]) {
        let rest = self.absorb_blocks(data);
        if !rest.is_empty() {
            let mut block = [0; BLOCK_BYTES];
            block[..rest.len()].copy_from_slice(rest);
            self.absorb(load(&block), FULL_BLOCK);
        }
    }

    /// Absorbs the end of a message: a short last block gets its 1 bit right
    /// after its last byte (2.5.1).
    fn absorb_last(&mut self, data: &[u8]) {
        let rest = self.absorb_blocks(data);
        if !rest.is_empty() {
            let mut block = [0; BLOCK_BYTES];
            block[..rest.len()].copy_from_slice(rest);
            block[rest.len()] = 1;
            self.absorb(load(&block), 0);
        }
    }

    /// The accumulator fully reduced, plus s, modulo 2^128 (2.5.1).
    pub fn finish(self) -> [u8; 16] {
        // The first pass may leave limb 0 just above 44 bits; the second cannot.
        let h = carry(carry(self.accumulator));

        // reduced = h - p = h + 5 - 2^130, whose sign says which of the two to take.
        let mut reduced = [h[0] + 5, h[1], h[2]];
        reduced[1] += reduced[0] >> BITS;
        reduced[0] &= MASK;
        reduced[2] += reduced[1] >> BITS;
        reduced[1] &= MASK;
        reduced[2] = reduced[2].wrapping_sub(1 << TOP_BITS);

        // All ones if h < p. A mask and no branch: h is secret.
        let keep = (reduced[2] >> 63).wrapping_neg();
        let pick = |i: usize| u128::from((h[i] & keep) | (reduced[i] & !keep));
        // The shift drops what lies above 2^128, as the sum does.
        let number = pick(0) | pick(1) << BITS | pick(2) << (2 * BITS);
        number.wrapping_add(self.s).to_le_bytes()
    }
}

/// The tag of `message` under a one-time key (2.5).
pub fn tag(key: &[u8; 32], message: &[u8]) -> [u8; 16] {
    let mut state = Poly1305::new(key);
    state.absorb_last(message);
    state.finish()
}

#[cfg(test)]
mod tests {
    use super::*;
    use crate::rfc8439::check_section;

    #[test]
    fn rfc_vectors() {
        for section in ["2.5.2", "A.3"] {
            check_section(section);
        }
    }

    #[test]
    fn sums_around_p_are_fully_reduced() {
        let mut key = [0; 32];
        key[0] = 1;
        // With r = 1 these three blocks add up to 2^130 - below.
        for below in 1..=9u128 {
            let mut message = [0; 48];
            message[..16].copy_from_slice(&(0u128.wrapping_sub(below)).to_le_bytes());
            let expected = if below <= 5 {
                5 - below
            } else {
                0u128.wrapping_sub(below)
            };
            assert_eq!(tag(&key, &message), expected.to_le_bytes());
        }
    }
}
