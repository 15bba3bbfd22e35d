//! The commands of the script of the program `test_iris`, one a line, and what this
//! implementation answers to them, one line each.
//!
//! One space stands between two fields, and none at an end. CODE, A and B are bytes fields, in
//! any of the formats of `field`, of at most 128 bytes. VECTOR is one of at most 640 words,
//! little-endian. A number is decimal. ROOM is how much the call is lent: bytes, from 0 to 128,
//! where byte i is (37 × i + 11) modulo 256 before the call; but at `unpack` words, from 0 to
//! 640, where word i is 2 + (i modulo 8). WHY is the refusal's number, 0 for none.
//!
//! - `rings CODE ROOM`: a code of the scanner's order is written in ours. The answer is
//!   `WHY BUFFER`, the latter being all ROOM bytes after the call as hex, `-` for no bytes.
//! - `angles CODE ROOM`: the same from our order to the scanner's.
//! - `unpack CODE ROOM`: the answer is `WHY WORDS`, a character for each of the ROOM words
//!   after the call, its digit, or `*` if it is above 9; `-` for no words.
//! - `pack VECTOR ROOM`: the answer is `WHY BUFFER` as for `rings`.
//! - `pack VECTOR ROOM PLACE WORD`: the same with this word, below 2^32, as the element at
//!   this place, which is below the vector's length.
//! - `hamming A B`: the answer is `WHY DISTANCE`, the latter 0 if the call is refused.
//!
//! The answer to any other line, and to a field out of these bounds, is `bad line`.

use crate::checks::words;
use crate::field::{self, decimal};
use crate::iris;
use crate::refusal::{number, Refusal};

/// The most bytes of a code.
pub const MAX_BYTES: usize = 128;

/// The most words of a vector.
pub const MAX_WORDS: usize = 640;

/// The highest digit that a word is shown by.
const MAX_DIGIT: u32 = 9;

/// What is answered to what is no line of the script.
pub const BAD_LINE: &str = "bad line";

/// The answer to one line of the script. There is one to every line.
pub fn run(line: &str) -> Result<String, String> {
    Ok(answer(line).unwrap_or_else(|| BAD_LINE.to_string()))
}

/// The same, and none to what is no line of the script.
fn answer(line: &str) -> Option<String> {
    let fields: Vec<&str> = line.split(' ').collect();
    match fields[..] {
        ["rings", code, room] => {
            let code = code_of(code)?;
            lend_bytes(room, |buffer| iris::to_rings(&code, buffer))
        }
        ["angles", code, room] => {
            let code = code_of(code)?;
            lend_bytes(room, |buffer| iris::to_angles(&code, buffer))
        }
        ["unpack", code, room] => {
            let code = code_of(code)?;
            lend_words(room, |buffer| iris::unpack(&code, buffer))
        }
        ["pack", vector, room] => {
            let vector = vector_of(vector)?;
            lend_bytes(room, |buffer| iris::pack(&vector, buffer))
        }
        ["pack", vector, room, place, word] => {
            let mut vector = vector_of(vector)?;
            *vector.get_mut(decimal::<usize>(place)?)? = decimal(word)?;
            lend_bytes(room, |buffer| iris::pack(&vector, buffer))
        }
        ["hamming", first, second] => {
            let distance = iris::hamming(&code_of(first)?, &code_of(second)?);
            Some(format!("{} {}", number(&distance), distance.unwrap_or(0)))
        }
        _ => None,
    }
}

/// The bytes of a code field, which may have a wrong length.
fn code_of(text: &str) -> Option<Vec<u8>> {
    let bytes = field::parse(text).ok()?;
    Some(bytes).filter(|bytes| bytes.len() <= MAX_BYTES)
}

/// The words of a vector field, which may have a wrong length.
fn vector_of(text: &str) -> Option<Vec<u32>> {
    let words = words(text).ok()?;
    Some(words).filter(|words| words.len() <= MAX_WORDS)
}

/// The answer of a call that is lent bytes.
fn lend_bytes(room: &str, call: impl Fn(&mut [u8]) -> Result<(), Refusal>) -> Option<String> {
    let room = decimal(room).filter(|&room| room <= MAX_BYTES)?;
    let mut buffer = bytes_before(room);
    let why = number(&call(&mut buffer));
    Some(format!("{why} {}", field::format(&buffer)))
}

/// The answer of a call that is lent words.
fn lend_words(room: &str, call: impl Fn(&mut [u32]) -> Result<(), Refusal>) -> Option<String> {
    let room = decimal(room).filter(|&room| room <= MAX_WORDS)?;
    let mut buffer = words_before(room);
    let why = number(&call(&mut buffer));
    Some(format!("{why} {}", digits(&buffer)))
}

/// What stands in a buffer of bytes before a call: no two neighbours are alike.
fn bytes_before(room: usize) -> Vec<u8> {
    let byte = |place| (37 * place + 11) % 256;
    (0..room).map(|place| byte(place) as u8).collect()
}

/// What stands in a buffer of words before a call: a digit, and no element of a code.
fn words_before(room: usize) -> Vec<u32> {
    (0..room as u32).map(|place| 2 + place % 8).collect()
}

/// Words as one character each.
fn digits(words: &[u32]) -> String {
    if words.is_empty() {
        return "-".to_string();
    }
    let digit = |&word: &u32| match word <= MAX_DIGIT {
        true => word.to_string(),
        false => "*".to_string(),
    };
    words.iter().map(digit).collect()
}

#[cfg(test)]
mod tests {
    use super::*;

    fn answered(line: &str) -> String {
        run(line).unwrap()
    }

    /// Answers written down by hand.
    #[test]
    fn each_command() {
        let zeros = "~16:0:0:0";
        assert_eq!(answered("rings - 3"), "4 0b3055");
        assert_eq!(answered("angles - 0"), "4 -");
        assert_eq!(answered("unpack - 10"), "4 2345678923");
        assert_eq!(answered("unpack @64:1 0"), "5 -");
        assert_eq!(answered("pack 00000000 2"), "4 0b30");
        assert_eq!(answered("pack ~512:0:0:0 1"), "5 0b");
        assert_eq!(answered("hamming - -"), "4 0");
        assert_eq!(answered(&format!("hamming {zeros} ~16:0:1:0")), "0 16");
        // Angle 0 and ring 1, and what is behind the code: 37 × 64 + 11 is 75 modulo 256.
        let (sent, stored) = ("02".to_string() + &"00".repeat(63), "00".repeat(8) + "01");
        let stored = stored + &"00".repeat(55);
        assert_eq!(
            answered(&format!("rings {sent} 65")),
            format!("0 {stored}4b")
        );
        assert_eq!(
            answered(&format!("angles {stored} 65")),
            format!("0 {sent}4b")
        );
        let bits = "01".to_string() + &"0".repeat(510);
        assert_eq!(
            answered(&format!("unpack {sent} 514")),
            format!("0 {bits}23")
        );
        assert_eq!(answered("pack ~512:0:0:0 64 1 1"), format!("0 {sent}"));
        let bad = answered("pack ~512:0:0:0 64 1 2");
        assert_eq!(bad[..8], *"8 0b3055");
    }

    #[test]
    fn digits_of_words() {
        assert_eq!(digits(&[]), "-");
        assert_eq!(digits(&[0, 9, 10, 1, u32::MAX]), "09*1*");
    }

    #[test]
    fn bounds() {
        for good in [
            "rings @128:1 128",
            "unpack @128:1 640",
            "pack @2560:1 128",
            "pack ~640:1:0:0 128 639 4294967295",
            "hamming @128:1 @128:2",
        ] {
            assert!(answered(good).starts_with("4 "), "{good}");
        }
        for bad in [
            "rings @129:1 128",
            "rings @128:1 129",
            "unpack @129:1 640",
            "unpack @128:1 641",
            "pack @2561:1 128",
            "pack @2564:1 128",
            "pack @2560:1 129",
            "pack ~640:1:0:0 128 640 1",
            "pack ~640:1:0:0 128 639 4294967296",
            "hamming @129:1 @128:2",
            "hamming @128:1 @129:2",
            "",
            " ",
        ] {
            assert_eq!(answered(bad), BAD_LINE, "{bad}");
        }
    }
}
