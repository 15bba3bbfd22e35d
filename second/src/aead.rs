//! AEAD_CHACHA20_POLY1305: RFC 8439, sections 2.6 and 2.8.

use crate::chacha20;
use crate::poly1305::Poly1305;

/// The longest plaintext (2.8): with one byte more the counter, which starts at
/// 1, would come back to 0 and give away the block of the one-time key.
pub const MAX_DATA: u64 = 64 * (u32::MAX as u64);

/// The one-time Poly1305 key (2.6).
pub fn poly_key(key: &[u8; 32], nonce: &[u8; 12]) -> [u8; 32] {
    let block = chacha20::block(key, 0, nonce);
    block[..32].try_into().unwrap()
}

/// The tag over the additional data and the ciphertext (2.8).
fn tag(key: &[u8; 32], nonce: &[u8; 12], aad: &[u8], ciphertext: &[u8]) -> [u8; 16] {
    let mut mac = Poly1305::new(&poly_key(key, nonce));
    mac.absorb_padded(aad);
    mac.absorb_padded(ciphertext);
    let mut lengths = [0; 16];
    lengths[..8].copy_from_slice(&(aad.len() as u64).to_le_bytes());
    lengths[8..].copy_from_slice(&(ciphertext.len() as u64).to_le_bytes());
    mac.absorb_padded(&lengths);
    mac.finish()
}

/// Compares in full, so that the time does not tell where the first difference is.
fn same_tag(left: &[u8; 16], right: &[u8; 16]) -> bool {
    let pairs = left.iter().zip(right);
    pairs.fold(0, |difference, (l, r)| difference | (l ^ r)) == 0
}

/// Encrypts `data` in place and returns the tag (2.8).
///
/// # Panics
/// If `data` is longer than [`MAX_DATA`].
pub fn seal(key: &[u8; 32], nonce: &[u8; 12], aad: &[u8], data: &mut [u8]) -> [u8; 16] {
    assert!(data.len() as u64 <= MAX_DATA, "data too long");
    chacha20::xor(key, 1, nonce, data);
    tag(key, nonce, aad, data)
}

/// Decrypts `data` in place if the tag is right; if not, returns false and
/// changes no byte of it (2.8).
#[must_use]
pub fn open(
    key: &[u8; 32],
    nonce: &[u8; 12],
    aad: &[u8],
    data: &mut [u8],
    received: &[u8; 16],
) -> bool {
    if data.len() as u64 > MAX_DATA || !same_tag(&tag(key, nonce, aad, data), received) {
        return false;
    }
    chacha20::xor(key, 1, nonce, data);
    true
}

#[cfg(test)]
mod tests {
    use super::*;
    use crate::rfc8439::check_section;

    #[test]
    fn rfc_vectors() {
        for section in ["2.6.2", "2.8.2", "A.4", "A.5"] {
            check_section(section);
        }
    }

    #[test]
    fn every_bit_of_the_tag_counts_and_a_refusal_changes_nothing() {
        let (key, nonce, aad, plain) = ([1; 32], [2; 12], [3; 20], [4; 100]);
        let mut data = plain;
        let tag = seal(&key, &nonce, &aad, &mut data);
        let sealed = data;
        for bit in 0..128 {
            let mut wrong = tag;
            wrong[bit / 8] ^= 1 << (bit % 8);
            assert!(!open(&key, &nonce, &aad, &mut data, &wrong));
            assert_eq!(data, sealed);
        }
        assert!(open(&key, &nonce, &aad, &mut data, &tag));
        assert_eq!(data, plain);
    }
}
