//! The bytes fields of test scripts: lowercase hex, `-` for no bytes, `@N:S` for
//! N bytes generated from the seed S, or `~N:S:LOW:MASK` for N generated words,
//! 4 N bytes, each LOW plus some of the bits of MASK.

use std::str::FromStr;

/// The states of the generator after its seed.
fn states(seed: u32) -> impl Iterator<Item = u32> {
    let next = |state: &u32| Some(state.wrapping_mul(1664525).wrapping_add(1013904223));
    std::iter::successors(next(&seed), next)
}

/// The bytes that `@count:seed` stands for.
pub fn generate(count: usize, seed: u32) -> Vec<u8> {
    let bytes = states(seed).map(|state| (state >> 24) as u8);
    bytes.take(count).collect()
}

/// The bytes that `~count:seed:low:mask` stands for: words in little-endian. The
/// low bits of a state repeat too soon to be of use.
pub fn generate_words(count: usize, seed: u32, low: u32, mask: u32) -> Vec<u8> {
    let words = states(seed).map(|state| low.wrapping_add(state >> 16 & mask));
    words.take(count).flat_map(u32::to_le_bytes).collect()
}

/// The bytes as hex, `-` if there are none.
pub fn format(bytes: &[u8]) -> String {
    if bytes.is_empty() {
        return "-".to_string();
    }
    bytes.iter().map(|byte| format!("{byte:02x}")).collect()
}

/// The bytes of a field in any of the four formats.
pub fn parse(field: &str) -> Result<Vec<u8>, String> {
    let bytes = if field == "-" {
        Some(Vec::new())
    } else if let Some(numbers) = field.strip_prefix('@') {
        parse_numbers(numbers).map(|[count, seed]| generate(count as usize, seed))
    } else if let Some(numbers) = field.strip_prefix('~') {
        parse_numbers(numbers)
            .map(|[count, seed, low, mask]| generate_words(count as usize, seed, low, mask))
    } else {
        parse_hex(field)
    };
    bytes.ok_or_else(|| format!("bad bytes field: {field}"))
}

/// The same, for a field of a length known beforehand.
pub fn parse_array<const N: usize>(field: &str) -> Result<[u8; N], String> {
    parse(field)?
        .try_into()
        .map_err(|_| format!("{N} bytes wanted: {field}"))
}

/// A decimal number: digits alone, with no sign.
pub fn decimal<N: FromStr>(text: &str) -> Option<N> {
    let digits = text.bytes().all(|byte| byte.is_ascii_digit());
    text.parse().ok().filter(|_| digits)
}

fn parse_numbers<const N: usize>(text: &str) -> Option<[u32; N]> {
    let numbers: Option<Vec<u32>> = text.split(':').map(decimal).collect();
    numbers?.try_into().ok()
}

fn parse_hex(text: &str) -> Option<Vec<u8>> {
    let digit = |byte: u8| match byte {
        b'0'..=b'9' => Some(byte - b'0'),
        b'a'..=b'f' => Some(byte - b'a' + 10),
        _ => None,
    };
    if text.is_empty() || text.len() % 2 == 1 {
        return None;
    }
    let pairs = text.as_bytes().chunks_exact(2);
    pairs
        .map(|pair| Some(digit(pair[0])? << 4 | digit(pair[1])?))
        .collect()
}

#[cfg(test)]
mod tests {
    use super::*;

    #[test]
    fn the_four_formats() {
        assert_eq!(parse("-"), Ok(vec![]));
        assert_eq!(parse("00ff7a"), Ok(vec![0, 255, 0x7a]));
        // 1013904223 = 0x3c6ef35f, and one more step gives 0x47502932.
        assert_eq!(parse("@2:0"), Ok(vec![0x3c, 0x47]));
        assert_eq!(parse("~2:0:0:255"), Ok(vec![0x6e, 0, 0, 0, 0x50, 0, 0, 0]));
        assert_eq!(parse("~1:7:4294966272:0"), Ok(vec![0, 0xfc, 0xff, 0xff]));
        assert_eq!(parse("~1:0:4294967295:1"), Ok(vec![0xff; 4]));
        for bad in ["", "0", "0G", "AB", "@", "@1", "@1:4294967296", "@:1"] {
            assert!(parse(bad).is_err(), "{bad}");
        }
        for bad in ["~", "~1:0:0", "~1:0:0:0:0", "@1:2:3", "~1::0:0", "@+1:2"] {
            assert!(parse(bad).is_err(), "{bad}");
        }
        assert!(parse_array::<3>("0011").is_err());
        assert_eq!(format(&[]), "-");
        assert_eq!(format(&[0, 255, 0x7a]), "00ff7a");
    }
}
