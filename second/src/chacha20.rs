//! ChaCha20: RFC 8439, sections 2.1 to 2.4.

pub const BLOCK_BYTES: usize = 64;
const BLOCK_WORDS: usize = 16;

/// "expand 32-byte k" as little-endian words (2.3).
const CONSTANTS: [u32; 4] = [0x61707865, 0x3320646e, 0x79622d32, 0x6b206574];

/// Place of the block counter in the state (2.3).
const COUNTER: usize = 12;

/// The quarter round (2.1).
#[inline(always)]
pub fn quarter_round(mut a: u32, mut b: u32, mut c: u32, mut d: u32) -> [u32; 4] {
    a = a.wrapping_add(b);
    d = (d ^ a).rotate_left(16);
    c = c.wrapping_add(d);
    b = (b ^ c).rotate_left(12);
    a = a.wrapping_add(b);
    d = (d ^ a).rotate_left(8);
    c = c.wrapping_add(d);
    b = (b ^ c).rotate_left(7);
    [a, b, c, d]
}

/// QUARTERROUND(x, y, z, w) on four words of the state (2.2).
#[inline(always)]
fn quarter_round_at(state: &mut [u32; BLOCK_WORDS], x: usize, y: usize, z: usize, w: usize) {
    [state[x], state[y], state[z], state[w]] =
        quarter_round(state[x], state[y], state[z], state[w]);
}

/// The state before the rounds (2.3), key and nonce as little-endian words.
#[inline]
fn initial_words(key: &[u32; 8], counter: u32, nonce: &[u32; 3]) -> [u32; BLOCK_WORDS] {
    let mut state = [0; BLOCK_WORDS];
    state[..4].copy_from_slice(&CONSTANTS);
    state[4..12].copy_from_slice(key);
    state[COUNTER] = counter;
    state[13..].copy_from_slice(nonce);
    state
}

/// The same from bytes.
fn initial_state(key: &[u8; 32], counter: u32, nonce: &[u8; 12]) -> [u32; BLOCK_WORDS] {
    let (mut key_words, mut nonce_words) = ([0; 8], [0; 3]);
    load_words(&mut key_words, key);
    load_words(&mut nonce_words, nonce);
    initial_words(&key_words, counter, &nonce_words)
}

/// Little-endian words from bytes (2.3).
pub fn load_words(words: &mut [u32], bytes: &[u8]) {
    for (word, bytes) in words.iter_mut().zip(bytes.chunks_exact(4)) {
        *word = u32::from_le_bytes(bytes.try_into().unwrap());
    }
}

/// The block function (2.3.1) up to, but without, the serialization.
#[inline]
fn block_words(initial: &[u32; BLOCK_WORDS]) -> [u32; BLOCK_WORDS] {
    let mut state = *initial;
    for _ in 0..10 {
        quarter_round_at(&mut state, 0, 4, 8, 12);
        quarter_round_at(&mut state, 1, 5, 9, 13);
        quarter_round_at(&mut state, 2, 6, 10, 14);
        quarter_round_at(&mut state, 3, 7, 11, 15);
        quarter_round_at(&mut state, 0, 5, 10, 15);
        quarter_round_at(&mut state, 1, 6, 11, 12);
        quarter_round_at(&mut state, 2, 7, 8, 13);
        quarter_round_at(&mut state, 3, 4, 9, 14);
    }
    for (word, start) in state.iter_mut().zip(initial) {
        *word = word.wrapping_add(*start);
    }
    state
}

#[inline]
fn serialize(words: &[u32; BLOCK_WORDS]) -> [u8; BLOCK_BYTES] {
    let mut bytes = [0; BLOCK_BYTES];
    for (bytes, word) in bytes.chunks_exact_mut(4).zip(words) {
        bytes.copy_from_slice(&word.to_le_bytes());
    }
    bytes
}

/// The block function (2.3).
pub fn block(key: &[u8; 32], counter: u32, nonce: &[u8; 12]) -> [u8; BLOCK_BYTES] {
    serialize(&block_words(&initial_state(key, counter, nonce)))
}

/// The block function from words to words, for callers who keep theirs as words:
/// the serialized block is these sixteen, little-endian (2.3).
#[inline]
pub fn block_of_words(key: &[u32; 8], counter: u32, nonce: &[u32; 3]) -> [u32; BLOCK_WORDS] {
    block_words(&initial_words(key, counter, nonce))
}

/// The key stream from counter 0 as words, before they are laid out as
/// little-endian bytes (2.3, 2.4).
pub fn stream_words(key: &[u8; 32], nonce: &[u8; 12], out: &mut [u32]) {
    let mut state = initial_state(key, 0, nonce);
    for words in out.chunks_mut(BLOCK_WORDS) {
        words.copy_from_slice(&block_words(&state)[..words.len()]);
        state[COUNTER] = state[COUNTER].wrapping_add(1);
    }
}

/// Encryption and decryption (2.4). The counter wraps modulo 2^32: callers who
/// must never repeat a block bound the length of `data` themselves.
pub fn xor(key: &[u8; 32], counter: u32, nonce: &[u8; 12], data: &mut [u8]) {
    let mut state = initial_state(key, counter, nonce);
    for bytes in data.chunks_mut(BLOCK_BYTES) {
        let stream = serialize(&block_words(&state));
        for (byte, mask) in bytes.iter_mut().zip(stream) {
            *byte ^= mask;
        }
        state[COUNTER] = state[COUNTER].wrapping_add(1);
    }
}

#[cfg(test)]
mod tests {
    use super::*;
    use crate::rfc8439::check_section;

    #[test]
    fn rfc_vectors() {
        for section in ["2.1.1", "2.2.1", "2.3.2", "2.4.2", "A.1", "A.2"] {
            check_section(section);
        }
    }

    #[test]
    fn stream_and_xor_are_made_of_blocks() {
        let (key, nonce) = ([7; 32], [9; 12]);
        let mut words = [0; 45];
        stream_words(&key, &nonce, &mut words);
        let stream: Vec<u8> = words.iter().flat_map(|word| word.to_le_bytes()).collect();
        for (counter, bytes) in stream.chunks(BLOCK_BYTES).enumerate() {
            assert_eq!(bytes, &block(&key, counter as u32, &nonce)[..bytes.len()]);
        }
        let mut data = [0; 130];
        xor(&key, u32::MAX, &nonce, &mut data);
        assert_eq!(data[..64], block(&key, u32::MAX, &nonce));
        assert_eq!(data[64..128], block(&key, 0, &nonce));
        assert_eq!(data[128..], block(&key, 1, &nonce)[..2]);
    }
}
