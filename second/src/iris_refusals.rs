//! The tests of refused calls on iris codes: 01, "When a call is turned down", and 02, "Iris
//! codes in their own order". Every number, the order of the tests, and what a buffer keeps.

use crate::iris::tests::{single, unpacked};
use crate::iris::{hamming, pack, to_angles, to_rings, unpack, CODE_BITS, CODE_BYTES};
use crate::refusal::{number, Refusal};

/// Wrong lengths of a packed code. The last two are right once cut.
const WRONG_BYTES: [usize; 8] = [0, 1, 63, 65, 128, 512, 256 + 64, 65_536 + 64];

/// Wrong lengths of a vector. The last one is right once cut.
const WRONG_WORDS: [usize; 7] = [0, 1, 64, 511, 513, 1024, 65_536 + 512];

/// What stands in a buffer before a call. Next to one another they are different.
fn bytes(room: usize) -> Vec<u8> {
    (0..room).map(|place| (37 * place + 11) as u8).collect()
}

fn words(room: usize) -> Vec<u32> {
    (0..room as u32).map(|place| 0x8000_0000 + place).collect()
}

type Rearrange = fn(&[u8], &mut [u8]) -> Result<(), Refusal>;

const REARRANGE: [Rearrange; 2] = [to_rings, to_angles];

/// The refusal of a call that is lent bytes, which stay if it is refused. If it is accepted
/// those behind the code stay.
fn with_bytes(room: usize, call: impl Fn(&mut [u8]) -> Result<(), Refusal>) -> u32 {
    let mut buffer = bytes(room);
    let answer = call(&mut buffer);
    let kept = match answer {
        Ok(()) => CODE_BYTES,
        Err(_) => 0,
    };
    assert_eq!(buffer[kept..], bytes(room)[kept..]);
    number(&answer)
}

/// The same for one that is lent words.
fn with_words(room: usize, call: impl Fn(&mut [u32]) -> Result<(), Refusal>) -> u32 {
    let mut buffer = words(room);
    let answer = call(&mut buffer);
    let kept = match answer {
        Ok(()) => CODE_BITS,
        Err(_) => 0,
    };
    assert_eq!(buffer[kept..], words(room)[kept..]);
    number(&answer)
}

/// A wrong length of what is handed in, in buffers that have room and in those that have not.
#[test]
fn wrong_lengths_come_first() {
    for room in [0, 63, 64, 65, 128] {
        for length in WRONG_BYTES {
            for call in REARRANGE {
                let code = vec![1; length];
                assert_eq!(with_bytes(room, |buffer| call(&code, buffer)), 4);
            }
        }
        for length in WRONG_WORDS {
            // With good elements, and with bad ones.
            for element in [1, 2] {
                let vector = vec![element; length];
                assert_eq!(with_bytes(room, |buffer| pack(&vector, buffer)), 4);
            }
        }
    }
    for room in [0, 511, 512, 513, 640] {
        for length in WRONG_BYTES {
            let code = vec![1; length];
            assert_eq!(with_words(room, |buffer| unpack(&code, buffer)), 4);
        }
    }
}

#[test]
fn rooms() {
    let code = single(77);
    for (room, why) in [(0, 5), (1, 5), (63, 5), (64, 0), (65, 0), (128, 0)] {
        for call in REARRANGE {
            assert_eq!(with_bytes(room, |buffer| call(&code, buffer)), why);
        }
        let vector = unpacked(&code);
        assert_eq!(with_bytes(room, |buffer| pack(&vector, buffer)), why);
    }
    for (room, why) in [(0, 5), (64, 5), (511, 5), (512, 0), (513, 0), (640, 0)] {
        assert_eq!(with_words(room, |buffer| unpack(&code, buffer)), why);
    }
}

/// Words that are neither 0 nor 1, among them such as are one once cut to a byte or a bit.
const BAD: [u32; 12] = [
    2,
    3,
    255,
    256,
    257,
    65_536,
    (1 << 31) - 1,
    1 << 31,
    (1 << 31) + 1,
    u32::MAX - 2,
    u32::MAX - 1,
    u32::MAX,
];

/// The refusal of vectors of zeros and of ones with this word at these places, 8 unless the
/// buffer has too little room, which comes first.
fn assert_bad(places: &[usize], word: u32) {
    for other in [0, 1] {
        let mut vector = [other; CODE_BITS];
        for &place in places {
            vector[place] = word;
        }
        for (room, why) in [(0, 5), (63, 5), (64, 8), (65, 8), (128, 8)] {
            let answer = with_bytes(room, |buffer| pack(&vector, buffer));
            assert_eq!(answer, why, "{word} at {places:?} in {room}");
        }
    }
}

#[test]
fn bad_elements() {
    for word in BAD {
        for places in [&[0][..], &[255], &[256], &[511], &[0, 511], &[7, 8, 300]] {
            assert_bad(places, word);
        }
    }
    let all: Vec<usize> = (0..CODE_BITS).collect();
    for word in BAD {
        assert_bad(&all, word);
    }
    for place in 0..CODE_BITS {
        assert_bad(&[place], 2);
    }
}

/// Either code of a wrong length, and both, whatever they have in them.
#[test]
fn both_lengths_of_a_distance() {
    let good = single(5);
    for length in WRONG_BYTES {
        let bad = vec![0; length];
        assert_eq!(hamming(&bad, &good), Err(Refusal::Length));
        assert_eq!(hamming(&good, &bad), Err(Refusal::Length));
        assert_eq!(hamming(&bad, &bad), Err(Refusal::Length));
        for other in WRONG_BYTES {
            assert_eq!(hamming(&bad, &vec![0; other]), Err(Refusal::Length));
        }
    }
    assert_eq!(number(&hamming(&good, &[])), 4);
    assert_eq!(hamming(&good, &good), Ok(0));
}
