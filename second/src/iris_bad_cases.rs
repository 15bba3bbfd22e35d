//! The cases of the program `test_iris` that are refused: wrong lengths, short buffers, bad
//! elements, several of them at once, and lines that are none of the script.

use crate::cases::Cases;
use crate::iris_cases::{answer_with_bytes, answer_with_words};
use crate::iris_cases::{EVERY_ELEMENT, NO_ELEMENT, ZEROS};
use crate::iris_lines::BAD_LINE;

const LENGTH: u32 = 4;
const ROOM: u32 = 5;
const RANGE: u32 = 8;

/// Wrong lengths of a code.
const WRONG_BYTES: [usize; 7] = [0, 1, 32, 63, 65, 127, 128];

/// Wrong lengths of a vector, besides 0.
const WRONG_WORDS: [usize; 8] = [1, 63, 64, 65, 128, 511, 513, 640];

/// Rooms for bytes, those that are too short first.
const SHORT_BYTES: [usize; 4] = [0, 1, 32, 63];
const ROOMS_OF_BYTES: [usize; 5] = [0, 63, 64, 65, 128];

/// Rooms for words, the same. 64 is enough for bytes alone.
const SHORT_WORDS: [usize; 8] = [0, 1, 63, 64, 65, 128, 256, 511];
const ROOMS_OF_WORDS: [usize; 8] = [0, 63, 64, 65, 511, 512, 513, 640];

/// Words that are neither 0 nor 1. Cut to 1, 8, 16 or 31 bits some of them are.
const BAD: [u32; 13] = [
    2,
    3,
    254,
    255,
    256,
    257,
    65_536,
    65_537,
    (1 << 31) - 1,
    1 << 31,
    (1 << 31) + 1,
    u32::MAX - 1,
    u32::MAX,
];

/// The first place, those in the middle, and the last one.
const PLACES: [usize; 4] = [0, 255, 256, 511];

/// Vectors with bad elements at many places, LOW and MASK.
const SCATTERED: [(u32, u32); 8] = [
    (0, 2),
    (0, 3),
    (0, 256),
    (1, 256),
    (0, 65_535),
    (1, 1),
    (u32::MAX, 1),
    (1 << 31, 1),
];

/// Each is bad for one reason. A number in some of them is right once cut to 32 or 64 bits.
const BAD_LINES: [&str; 52] = [
    "rings",
    "rings @64:1",
    "rings @64:1 64 64",
    "rings @64:1 64 ",
    "rings  64",
    "rings  @64:1 64",
    " rings @64:1 64",
    "Rings @64:1 64",
    "ring @64:1 64",
    "rings @64:1 129",
    "rings @64:1 4294967360",
    "rings @64:1 18446744073709551680",
    "rings @64:1 -64",
    "rings @64:1 +64",
    "rings @64:1 6x",
    "rings @64:1 -",
    "rings @64:1 ",
    "rings @129:1 64",
    "rings ~33:0:0:0 64",
    "rings 0 64",
    "rings 0g 64",
    "rings AB 64",
    "rings @64 64",
    "rings @64:1:2 64",
    "rings ~16:0:0 64",
    "rings @64:4294967296 64",
    "angles @64:1",
    "angles @64:1 64 0",
    "angles @129:1 64",
    "angles @64:1 129",
    "angles x 64",
    "unpack @64:1",
    "unpack @64:1 512 0",
    "unpack @129:1 512",
    "unpack @64:1 641",
    "unpack @64:1 4294967808",
    "pack ~512:0:0:0",
    "pack ~512:0:0:0 64 0",
    "pack ~512:0:0:0 64 0 1 1",
    "pack ~512:0:0:0 129",
    "pack ~641:0:0:0 64",
    "pack @2047:1 64",
    "pack 000000 64",
    "pack ~512:0:0:0 64 512 1",
    "pack ~512:0:0:0 64 4294967296 1",
    "pack ~512:0:0:0 64 0 4294967296",
    "pack ~512:0:0:0 64 0 -1",
    "pack - 64 0 1",
    "hamming @64:1",
    "hamming @64:1 @64:1 0",
    "hamming @129:1 @64:1",
    "hamming @64:1 @129:1",
];

impl Cases {
    fn refused_with_bytes(&mut self, line: String, why: u32, room: usize) {
        let expected = answer_with_bytes(why, &[], room);
        self.add_expecting("refused", line, expected);
    }

    fn refused_with_words(&mut self, line: String, why: u32, room: usize) {
        let expected = answer_with_words(why, "", room);
        self.add_expecting("refused", line, expected);
    }

    /// A wrong length of a code is 4 whatever the room, a short buffer 5.
    fn refused_rearrangements(&mut self) {
        for command in ["rings", "angles"] {
            for length in WRONG_BYTES {
                for room in ROOMS_OF_BYTES {
                    let code = self.bytes(length);
                    self.refused_with_bytes(format!("{command} {code} {room}"), LENGTH, room);
                }
            }
            for room in SHORT_BYTES {
                let code = self.bytes(64);
                self.refused_with_bytes(format!("{command} {code} {room}"), ROOM, room);
            }
        }
    }

    fn refused_unpackings(&mut self) {
        for length in WRONG_BYTES {
            for room in ROOMS_OF_WORDS {
                let code = self.bytes(length);
                self.refused_with_words(format!("unpack {code} {room}"), LENGTH, room);
            }
        }
        for room in SHORT_WORDS {
            let code = self.bytes(64);
            self.refused_with_words(format!("unpack {code} {room}"), ROOM, room);
        }
    }

    /// A wrong length of a vector is 4 whatever the room and the elements, a short buffer 5
    /// whatever the elements.
    fn refused_packings(&mut self) {
        for (low, mask) in [(0, 1), (2, 0), (u32::MAX, 1)] {
            for length in WRONG_WORDS {
                for room in ROOMS_OF_BYTES {
                    let line = format!("pack ~{length}:{}:{low}:{mask} {room}", self.seed());
                    self.refused_with_bytes(line, LENGTH, room);
                }
            }
            for room in SHORT_BYTES {
                let line = format!("pack ~512:{}:{low}:{mask} {room}", self.seed());
                self.refused_with_bytes(line, ROOM, room);
            }
        }
        for room in ROOMS_OF_BYTES {
            self.refused_with_bytes(format!("pack - {room}"), LENGTH, room);
        }
        for place in PLACES {
            let line = format!("pack {NO_ELEMENT} 63 {place} 2");
            self.refused_with_bytes(line, ROOM, 63);
        }
        self.refused_with_bytes("pack ~511:0:0:0 63 510 2".to_string(), LENGTH, 63);
    }

    /// A bad element alone, among zeros and among ones; and one in each byte's worth.
    fn single_bad_elements(&mut self) {
        for vector in [NO_ELEMENT, EVERY_ELEMENT] {
            for word in BAD {
                for place in PLACES {
                    let line = format!("pack {vector} 64 {place} {word}");
                    self.refused_with_bytes(line, RANGE, 64);
                }
            }
            for byte in 1..63 {
                let (place, word) = (8 * byte + byte % 8, BAD[byte % BAD.len()]);
                let line = format!("pack {vector} 65 {place} {word}");
                self.refused_with_bytes(line, RANGE, 65);
            }
        }
    }

    /// All of them bad, all but one, and many.
    fn several_bad_elements(&mut self) {
        for word in BAD {
            self.refused_with_bytes(format!("pack ~512:0:{word}:0 64"), RANGE, 64);
            for place in PLACES {
                let line = format!("pack ~512:0:{word}:0 128 {place} 1");
                self.refused_with_bytes(line, RANGE, 128);
            }
        }
        for (low, mask) in SCATTERED {
            let line = format!("pack ~512:{}:{low}:{mask} 64", self.seed());
            self.refused_with_bytes(line, RANGE, 64);
        }
    }

    fn refused_distance(&mut self, first: &str, second: &str) {
        let line = format!("hamming {first} {second}");
        self.add_expecting("refused", line, format!("{LENGTH} 0"));
    }

    /// Either code of a wrong length, and both.
    fn refused_distances(&mut self) {
        for length in WRONG_BYTES {
            let code = self.bytes(length);
            let right = self.bytes(64);
            self.refused_distance(&code, &right);
            self.refused_distance(&right, &code);
            for other in WRONG_BYTES {
                let other = self.bytes(other);
                self.refused_distance(&code, &other);
            }
        }
        // What is missing, or too much, is zero.
        self.refused_distance(ZEROS, "~17:0:0:0");
        self.refused_distance("~15:0:0:0", ZEROS);
    }

    pub fn refused_iris_calls(&mut self) {
        self.refused_rearrangements();
        self.refused_unpackings();
        self.refused_packings();
        self.single_bad_elements();
        self.several_bad_elements();
        self.refused_distances();
        for line in BAD_LINES {
            self.add_expecting("no line", line.to_string(), BAD_LINE.to_string());
        }
    }
}
