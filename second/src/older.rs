//! Halves from before each of 02's changes to a set: "Distances mean close", "Each level its
//! own nonce" and "Between two marks". A box refuses them all by 11: they have no width and
//! no mark, and a width of 0 under mark 0, which the fill gives, or a block too few is what it
//! finds. The tests need some.

use crate::content::{self, Name, TEXT_BYTES, WIDTH_AND_MARK_BYTES};
use crate::dcf::{self, Child, Key, Seed};
use crate::dealing;
use crate::measure::Measure;
use crate::rule::Rule;
use crate::sealed;
use crate::share::{self, Half};

/// How a node was opened before "Each level its own nonce": under a nonce of zeros at every
/// level.
#[inline]
pub(crate) fn open(seed: &Seed, _level: usize, side: usize) -> Child {
    dcf::open_under(&[0; 3], seed, side)
}

/// How a set was dealt, from measure, L, threshold and set seed.
pub type Dealing = fn(Measure, usize, i32, &[u8; 32]) -> [Half; 2];

/// Each of them, the oldest first.
pub const DEALINGS: [Dealing; 3] = [deal_before_distances, deal_before_nonces, deal_before_marks];

/// Both parties' parts of a set dealt before "Between two marks": the words of an ordinary set.
pub fn deal_before_marks(
    measure: Measure,
    length: usize,
    threshold: i32,
    seed: &[u8; 32],
) -> [Half; 2] {
    dealing::deal(measure, length, Rule::Threshold(threshold), seed)
}

/// The same for a set dealt before "Each level its own nonce": the key is another one.
pub fn deal_before_nonces(
    measure: Measure,
    length: usize,
    threshold: i32,
    seed: &[u8; 32],
) -> [Half; 2] {
    let draws = dealing::draw(seed, length);
    let key = Key::new_over(open, &draws.seeds, draws.r);
    share::deal(measure, Rule::Threshold(threshold), &draws).map(|half| Half {
        key: key.clone(),
        ..half
    })
}

/// The same for a set dealt before "Distances mean close". T had the same sign in r1 for every
/// code: the one that it has kept for the scalar product.
pub fn deal_before_distances(
    measure: Measure,
    length: usize,
    threshold: i32,
    seed: &[u8; 32],
) -> [Half; 2] {
    let halves = deal_before_nonces(Measure::Scalar, length, threshold, seed);
    halves.map(|half| Half { measure, ..half })
}

/// The content of a half as it was laid out: without width and mark, and with the fill that
/// this leaves.
pub fn lay_out(name: &Name, half: &Half) -> Vec<u8> {
    let mut content = content::lay_out(name, half);
    content.truncate(content::bytes(half.own_mask.len()) - WIDTH_AND_MARK_BYTES);
    content.resize(content.len().next_multiple_of(TEXT_BYTES), 0);
    content
}

/// The half of a party as it was laid out, for a door's name and the key of the party's box.
pub fn half(name: &Name, key: &[u8; 32], number: u64, half: &Half) -> Vec<u8> {
    sealed::seal(key, number, &lay_out(name, half))
}

#[cfg(test)]
mod tests {
    use super::*;
    use crate::field;
    use crate::halves;
    use crate::measure::MAX_LENGTH;
    use crate::message::padded;
    use crate::refusal::Refusal;
    use crate::sealed::{examine, Holder};

    /// What a box of this party says of a half under its number.
    fn refusal(name: &Name, key: &[u8; 32], party: usize, half: &[u8]) -> Option<Refusal> {
        let holder = Holder { name, party, key };
        examine(half, &holder, 0).err()
    }

    /// A line of the script of `test_halves`, and the tags that were stored with it before
    /// each of the three changes.
    struct Stored {
        line: &'static str,
        tags: [&'static str; 3],
    }

    /// A set of each code, party 0 and party 1. "Distances mean close" moved one word of party
    /// 1's halves under codes 1 and 2, and nothing else.
    const STORED: [Stored; 6] = [
        Stored {
            line: "tag 0 0 18 1073741824 1 @32:90065 @32:97984 4120646f6f72206f6620313620636800",
            tags: [
                "cb64280342333ad869c48fb072535370",
                "cb64280342333ad869c48fb072535370",
                "09d3b94fddfc5ef363554f0d699ffc55",
            ],
        },
        Stored {
            line: "tag 1 0 18 1073741824 1 @32:90065 @32:5912 4120646f6f72206f6620313620636800",
            tags: [
                "a732e5e433b93f8495abad33b14f7820",
                "a732e5e433b93f8495abad33b14f7820",
                "45160b65d2bdd5c707f7c8c73bc2d4e0",
            ],
        },
        Stored {
            line: "tag 0 1 18 2147483647 9223372036854775807 @32:27662 @32:35581 \
                   41206400000000000000000000000000",
            tags: [
                "7e3738d456acdf8d0340dc576137fe1f",
                "7e3738d456acdf8d0340dc576137fe1f",
                "bea6ade81fb86b13e04f9b85c7e08dce",
            ],
        },
        Stored {
            line: "tag 1 1 18 2147483647 9223372036854775807 @32:27662 @32:43500 \
                   41206400000000000000000000000000",
            tags: [
                "b4abc3888cbfe194cdcaf4eb851f35d3",
                "bff66e9cffdc3510a6b41baa63ad6271",
                "3e8d49a10151913db70c31588729f8f8",
            ],
        },
        Stored {
            line: "tag 0 2 17 513 18446744073709551615 @32:17736 @32:25655 \
                   41206400000000000000000000000000",
            tags: [
                "3f01861d6fee59473b168a7bbdf3f1a8",
                "3f01861d6fee59473b168a7bbdf3f1a8",
                "5fc5e51e49e1a39054024c334458fd5a",
            ],
        },
        Stored {
            line: "tag 1 2 17 513 18446744073709551615 @32:17736 @32:33574 \
                   41206400000000000000000000000000",
            tags: [
                "213e62e1c062809ba954924e9f881b24",
                "d1940fa9847e0b47f0912b256abf7a07",
                "f4e775527c2f1a3a7ceddf333b7a39b4",
            ],
        },
    ];

    /// The tag of the half that such a line asks for, dealt before. A box refuses it.
    fn older_tag(deal: Dealing, line: &str) -> String {
        let fields: Vec<&str> = line.split(' ').collect();
        let number = |place: usize| fields[place].parse::<u64>().unwrap();
        let measure = Measure::from_code(number(2) as u32).unwrap();
        let seed = field::parse_array(fields[6]).unwrap();
        let halves = deal(measure, number(3) as usize, number(4) as i32, &seed);
        let (key, party) = (field::parse_array(fields[7]).unwrap(), number(1) as usize);
        let name = field::parse_array(fields[8]).unwrap();
        let half = half(&name, &key, number(5), &halves[party]);
        let refused = refusal(&name, &key, party, &half);
        assert_eq!(refused, Some(Refusal::Content), "{line}");
        halves::tag(&half)
    }

    /// And no half of today is what was stored.
    #[test]
    fn halves_are_what_was_stored_and_are_refused() {
        for Stored { line, tags } in STORED {
            assert_eq!(DEALINGS.map(|deal| older_tag(deal, line)), tags, "{line}");
            assert!(!tags.contains(&&halves::run(line).unwrap()[..]), "{line}");
        }
    }

    /// For the C test: two sets that older versions of the C library dealt, and what from.
    const HEADER: &str = include_str!("../../c/older.h");

    /// What stands in the header behind this text.
    fn after(text: &str) -> &'static str {
        let (_, rest) = HEADER.split_once(text).expect(text);
        rest
    }

    /// The number that follows this text in the header.
    fn number_after(text: &str) -> u64 {
        let rest = after(text);
        let end = rest.find(|sign: char| !sign.is_ascii_digit()).unwrap();
        rest[..end].parse().expect(text)
    }

    /// 32 bytes that count up from the number that follows this text in the header.
    fn bytes_after(text: &str) -> [u8; 32] {
        let first = number_after(text) as u8;
        std::array::from_fn(|place| first + place as u8)
    }

    /// All that stands in quotation marks, put together: C reads adjacent strings as one.
    fn quoted(text: &str) -> String {
        text.split('"').skip(1).step_by(2).collect()
    }

    /// The halves of one of the header's lists, in hex.
    fn listed(name: &str) -> Vec<String> {
        let (list, _) = after(&format!("{name}[2] = {{")).split_once("};").unwrap();
        list.split_terminator(",\n").map(quoted).collect()
    }

    /// Both halves of a set of the header, dealt again, in hex. A box refuses them. Its first
    /// comment has the door's name; number, T, keys and seed are the header's constants.
    fn dealt_again(deal: Dealing, measure: Measure, length: u64) -> [String; 2] {
        let (comment, _) = HEADER.split_once("*/").unwrap();
        let name = padded(quoted(comment).as_bytes()).unwrap();
        let threshold = number_after("#define OLDER_T ") as i32;
        let seed = bytes_after("#define OLDER_SEED ");
        let keys = ["#define OLDER_KEY0 ", "#define OLDER_KEY1 "].map(bytes_after);
        let number = number_after("#define OLDER_NUMBER ");
        let halves = deal(measure, length as usize, threshold, &seed);
        [0, 1].map(|party: usize| {
            let half = half(&name, &keys[party], number, &halves[party]);
            let refused = refusal(&name, &keys[party], party, &half);
            assert_eq!(refused, Some(Refusal::Content));
            field::format(&half)
        })
    }

    /// Code and L of each set stand in the header's comments.
    #[test]
    fn halves_are_what_the_c_library_dealt() {
        let length = number_after("DOOR_SCALAR and L = ");
        let dealt = dealt_again(deal_before_nonces, Measure::Scalar, length);
        assert!(listed("OLDER_HALF") == dealt);
        let length = number_after("DOOR_EUCLID and L = ");
        let dealt = dealt_again(deal_before_marks, Measure::Euclid, length);
        assert!(listed("LATER_HALF") == dealt);
    }

    /// The lengths at which today's half has a block more.
    const ONE_BLOCK_MORE: [usize; 9] = [17, 57, 138, 178, 259, 299, 380, 420, 501];

    /// Every older half of every length and code is refused by 11: at those lengths for its
    /// blocks, and at all others for what its fill says.
    #[test]
    fn every_older_half_is_refused() {
        const NAME: Name = *b"Hut 4, east door";
        for length in 1..=MAX_LENGTH {
            for (turn, deal) in DEALINGS.into_iter().enumerate() {
                let measure = Measure::ALL[(length + turn) % 3];
                for half in deal(measure, length, 5, &[length as u8; 32]) {
                    let plain = lay_out(&NAME, &half);
                    let fewer = usize::from(ONE_BLOCK_MORE.contains(&length));
                    let blocks = (1248 + 12 * length).div_ceil(TEXT_BYTES);
                    assert_eq!(plain.len(), TEXT_BYTES * blocks);
                    assert_eq!(blocks + fewer, content::blocks(length));
                    let read = content::read(&plain, &NAME, half.party);
                    assert_eq!(read, None, "{length}");
                }
            }
        }
    }
}
