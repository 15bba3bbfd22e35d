//! A state's bytes in the script of `test_replay`: its fields in their order, numbers
//! little-endian in the width of their type, L in 8 bytes.

use crate::dealer::Dealer;
use crate::lock::Lock;
use crate::opened::OpenedSet;
use crate::party::Party;

pub fn bytes_of(words: &[u32]) -> Vec<u8> {
    words.iter().flat_map(|word| word.to_le_bytes()).collect()
}

pub fn dealer_bytes(dealer: &Dealer) -> Vec<u8> {
    let [key0, key1] = &dealer.keys;
    [&dealer.name[..], key0, key1, &dealer.last.to_le_bytes()].concat()
}

pub fn lock_bytes(lock: &Lock) -> Vec<u8> {
    [&lock.name[..], &lock.last.to_le_bytes()].concat()
}

/// The waiting set stands behind everything else, in the form of the open one.
pub fn party_bytes(state: &Party) -> Vec<u8> {
    let mut bytes = state.name.to_vec();
    bytes.extend(state.party.to_le_bytes());
    bytes.extend(state.key);
    bytes.extend(state.last.to_le_bytes());
    bytes.extend(state.phase.to_le_bytes());
    bytes.extend(set_bytes(&state.set));
    bytes.extend(bytes_of(&state.check.masked));
    bytes.extend(bytes_of(&[state.check.own, state.check.word]));
    bytes.extend(set_bytes(&state.waiting));
    bytes
}

/// A correction's flags are one word: bit 0 left, bit 1 right.
fn set_bytes(set: &OpenedSet) -> Vec<u8> {
    let mut bytes = set.number.to_le_bytes().to_vec();
    bytes.extend(set.code.to_le_bytes());
    bytes.extend(u64::from(set.length).to_le_bytes());
    for words in [&set.own_mask, &set.x_share, &set.y_share] {
        bytes.extend(bytes_of(words));
    }
    bytes.extend(bytes_of(&[set.c, set.r]));
    bytes.extend(bytes_of(&set.seed));
    for correction in &set.key.corrections {
        let flags = u32::from(correction.left) | u32::from(correction.right) << 1;
        bytes.extend(bytes_of(&correction.seed));
        bytes.extend(bytes_of(&[correction.word, flags]));
    }
    bytes.extend(bytes_of(&[set.key.final_word, set.width, set.mark]));
    bytes
}

#[cfg(test)]
mod tests {
    use super::*;
    use crate::replay_lines::{checked, started};

    /// The bytes before the open set, those of a set, and those between the two.
    const HEAD: usize = 16 + 4 + 32 + 8 + 4;
    const SET: usize = 8 + 4 + 8 + 3 * 2048 + 4 + 4 + 32 + 32 * 40 + 12;
    const CHECK: usize = 2048 + 8;

    /// Each field of a box's state has its place: 01's arrays, seeds and corrections.
    #[test]
    fn a_state_has_all_its_bytes() {
        let state = Party::default();
        assert_eq!(party_bytes(&state), vec![0; HEAD + SET + CHECK + SET]);
        let mut replay = started();
        checked(&mut replay, "82");
        assert_eq!(replay.answer("deal 9 @32:5 2 512 0 8192 8192").len(), 67);
        replay.answer("load office office 0 8192 9999");
        let loaded = party_bytes(&replay.boxes[1]);
        assert_eq!(loaded[16], 1);
        assert_eq!(loaded[52..54], [9, 0]);
        assert_eq!(loaded[60..86], {
            let mut numbers = [0; 26];
            (numbers[0], numbers[4], numbers[12], numbers[17]) = (1, 9, 2, 2);
            let mask = replay.boxes[1].set.own_mask[0].to_le_bytes();
            numbers[24..].copy_from_slice(&mask[..2]);
            numbers
        });
    }

    /// A set has the same bytes waiting as open.
    #[test]
    fn the_waiting_set_is_behind_all_else() {
        let mut replay = started();
        for deal in [
            "deal 1 @32:3 1 2 5 1536 1536",
            "deal 2 @32:4 2 3 1:300 1536 1536",
        ] {
            replay.answer(deal);
            assert_eq!(replay.answer("load camera camera 0 1536 9999"), "0");
        }
        let waits = party_bytes(&replay.boxes[0]);
        assert_eq!(replay.answer("drop camera"), "0");
        let open = party_bytes(&replay.boxes[0]);
        let (first, second) = (HEAD..HEAD + SET, HEAD + SET + CHECK..waits.len());
        assert_eq!(waits[second.clone()], open[first.clone()]);
        assert_ne!(waits[first], open[second.clone()]);
        assert!(open[second].iter().all(|&byte| byte == 0));
        let carried = |state: &[u8], end: usize| state[end - 8..end].to_vec();
        assert_eq!(
            carried(&waits, HEAD + SET),
            [255, 255, 255, 127, 0, 0, 0, 0]
        );
        assert_eq!(carried(&waits, waits.len()), [43, 1, 0, 0, 1, 0, 0, 0]);
        assert_eq!(replay.answer("width camera 16909060 2"), "put");
        let put = party_bytes(&replay.boxes[0]);
        assert_eq!(carried(&put, HEAD + SET), [4, 3, 2, 1, 2, 0, 0, 0]);
        assert_eq!(carried(&put, put.len()), [0; 8]);
        assert_eq!(replay.answer("waiting camera 258 772 5"), "put");
        let put = party_bytes(&replay.boxes[0]);
        let numbers = &put[HEAD + SET + CHECK..][..20];
        assert_eq!(
            *numbers,
            [2, 1, 0, 0, 0, 0, 0, 0, 4, 3, 0, 0, 5, 0, 0, 0, 0, 0, 0, 0]
        );
    }
}
