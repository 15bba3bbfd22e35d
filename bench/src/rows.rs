//! What is timed: a row for each operation, with a way for each implementation that has it.

use crate::calls::Calls;
use crate::check::{self, Check};
use crate::foreign::ours::Ours;
use crate::foreign::{openssl, sodium, Key, Nonce, Tag};
use crate::measure::{row, way, Row, Way, Who};
use second::measure::Measure;
use second::{aead, chacha20};
use std::hint::black_box;

/// What is done with the buffers, for the reader of the table.
pub const BUFFERS: [&str; 4] = [
    "key stream: the buffer is not cleared before a call; libsodium clears it itself, and OpenSSL \
     encrypts a second buffer, of zeros, into it",
    "seal and open: in place; before each call the text is copied into the buffer, in the same way \
     for all, and the copy is in the times; nothing is cleared",
    "make a key: the key is written to the buffer; value and answer: ours takes its key by value, \
     and the copy of 1284 bytes is in its time",
    "mask: into the buffer, which is not cleared, and nothing is allocated; word: with the own \
     term, at party 1",
];

const TEXT: usize = 484;
type Text = [u8; TEXT];

/// The vectors of a check.
const LENGTHS: [usize; 2] = [128, 512];

/// The input of every row and every implementation.
pub struct Input {
    key: Key,
    nonce: Nonce,
    aad: [u8; 12],
    plain: Text,
    sealed: Text,
    tag: Tag,
    scalar: [Check; 2],
    euclid: [Check; 2],
}

impl Input {
    pub fn new() -> Input {
        let key = pattern(1);
        let nonce = pattern(2);
        let aad = pattern(3);
        let plain = pattern(4);
        let mut sealed = plain;
        let tag = aead::seal(&key, &nonce, &aad, &mut sealed);
        let input = Input {
            key,
            nonce,
            aad,
            plain,
            sealed,
            tag,
            scalar: LENGTHS.map(|length| Check::new(Measure::Scalar, length)),
            euclid: LENGTHS.map(|length| Check::new(Measure::Euclid, length)),
        };
        // The compiler must not know the key: it could do a part of the rounds beforehand.
        black_box(input)
    }
}

/// Bytes with no meaning, others for each seed.
fn pattern<const LEN: usize>(seed: usize) -> [u8; LEN] {
    std::array::from_fn(|i| (seed * 89 + i * 151 + i / 7) as u8)
}

/// All buffers begin at a cache line.
#[repr(align(64))]
#[derive(Clone, PartialEq)]
struct Words<const LEN: usize>([u32; LEN]);

#[repr(align(64))]
#[derive(Clone, PartialEq)]
struct Block {
    text: Text,
    tag: Tag,
}

const EMPTY: Block = Block {
    text: [0; TEXT],
    tag: [0; 16],
};

/// Rows that more than their own table shows.
pub const LONG_STREAM: &str = "key stream, 16 KB";
pub const SEAL: &str = "seal 484 bytes";
pub const OPEN: &str = "open 484 bytes";

/// All rows, in the order of the table.
pub fn rows(input: &Input) -> Vec<Box<dyn Row + '_>> {
    let Input { scalar, euclid, .. } = input;
    vec![
        stream::<256>("key stream, 1 KB", input),
        stream::<4096>(LONG_STREAM, input),
        seal(SEAL, input),
        open(OPEN, input),
        check::key("make a key", &euclid[0]),
        check::value("one value", &euclid[0]),
        check::answer("an answer", &euclid[0]),
        check::mask("mask, L 128", &euclid[0]),
        check::mask("mask, L 512", &euclid[1]),
        check::word("word, L 128, code 0", &scalar[0]),
        check::word("word, L 512, code 0", &scalar[1]),
        check::word("word, L 128, code 1", &euclid[0]),
        check::word("word, L 512, code 1", &euclid[1]),
    ]
}

fn stream<'a, const LEN: usize>(name: &str, input: &'a Input) -> Box<dyn Row + 'a> {
    let Input { key, nonce, .. } = input;
    let mut openssl = openssl::Stream::new(LEN);
    let ours =
        Ours::all().map(|ours| streaming(ours.who(), move |out| ours.stream(key, nonce, out)));
    let others = [
        streaming(Who::Sodium, |out| sodium::stream(key, nonce, out)),
        streaming(Who::OpenSsl, move |out| openssl.stream(key, nonce, out)),
        streaming(Who::Second, |out| chacha20::stream_words(key, nonce, out)),
    ];
    row(name, Words([0; LEN]), ours.chain(others).collect())
}

fn streaming<'a, const LEN: usize>(
    who: Who,
    mut stream: impl FnMut(&mut [u32]) + 'a,
) -> Way<'a, Words<LEN>> {
    way(who, move |out: &mut Words<LEN>| stream(&mut out.0))
}

fn seal<'a>(name: &str, input: &'a Input) -> Box<dyn Row + 'a> {
    let Input {
        key, nonce, aad, ..
    } = input;
    let mut openssl = openssl::Sealer::new();
    let ours = Ours::all().map(|ours| {
        sealing(ours.who(), input, move |text| {
            ours.seal(key, nonce, aad, text)
        })
    });
    let others = [
        sealing(Who::Sodium, input, |text| {
            sodium::seal(key, nonce, aad, text)
        }),
        sealing(Who::OpenSsl, input, move |text| {
            openssl.seal(key, nonce, aad, text)
        }),
        sealing(Who::Second, input, |text| aead::seal(key, nonce, aad, text)),
    ];
    row(name, EMPTY, ours.chain(others).collect())
}

/// The plain text, copied and sealed.
fn sealing<'a>(
    who: Who,
    input: &'a Input,
    mut seal: impl FnMut(&mut [u8]) -> Tag + 'a,
) -> Way<'a, Block> {
    way(who, move |block: &mut Block| {
        block.text = input.plain;
        block.tag = seal(&mut block.text);
    })
}

fn open<'a>(name: &str, input: &'a Input) -> Box<dyn Row + 'a> {
    let Input {
        key,
        nonce,
        aad,
        tag,
        ..
    } = input;
    let mut openssl = openssl::Opener::new();
    let ours = Ours::all().map(|ours| {
        opening(ours.who(), input, move |text| {
            ours.open(key, nonce, aad, text, tag)
        })
    });
    let others = [
        opening(Who::Sodium, input, |text| {
            sodium::open(key, nonce, aad, text, tag)
        }),
        opening(Who::OpenSsl, input, move |text| {
            openssl.open(key, nonce, aad, text, tag)
        }),
        opening(Who::Second, input, |text| {
            aead::open(key, nonce, aad, text, tag)
        }),
    ];
    row(name, EMPTY, ours.chain(others).collect())
}

/// The sealed text, copied and opened. A text that is refused would take less time.
fn opening<'a>(
    who: Who,
    input: &'a Input,
    mut open: impl FnMut(&mut [u8]) -> bool + 'a,
) -> Way<'a, Block> {
    way(who, move |block: &mut Block| {
        block.text = input.sealed;
        assert!(open(&mut block.text), "{who:?} refuses the text");
    })
}
