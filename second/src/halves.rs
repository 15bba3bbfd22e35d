//! The commands of the script of the program `test_halves`, one a line, and what this
//! implementation answers to them, one line each.
//!
//! One space stands between two fields, and none at an end. A number is decimal;
//! set numbers are below 2^64 and all others below 2^32, a negative threshold or mark
//! standing there plus 2^32. A bytes field has a format of `field`: a seed and a
//! key are hex or `@N:S`, 32 bytes; a name is hex, 16 bytes.
//!
//! HALF stands for eight fields, `PARTY CODE L RULE NUMBER SEED KEY NAME`: the half
//! of that party, in range, of the set dealt from this seed under this number, sealed
//! under this key. RULE is a threshold `T` or two marks `P:Q`. LAST is the last number of
//! a box that has otherwise the party, key and name of the first HALF, and a refusal is
//! the number that examining bytes answers there, 0 for none. A tag is Poly1305's under
//! the key of bytes 0 to 31.
//!
//! - `half HALF`: all bytes of the half, as hex.
//! - `tag HALF`: the tag of all its bytes.
//! - `again HALF LAST`: the half is examined, and the set that was opened is laid
//!   out and sealed again: the tag of all bytes, or the refusal.
//! - `examine HALF LAST PARTY KEY NAME`: the refusal at a box of that party, key
//!   and name.
//! - `flip HALF LAST FROM TO`: a refusal for each byte from FROM to TO - 1, the half
//!   being whole but for this byte: 1 is xored into it where its place is even, else
//!   128.
//! - `cut HALF LAST BYTES`: the refusal of so many bytes from the start of the half,
//!   behind which its first block stands again.
//! - `mixed HALF LAST HALF I J`: the refusal of the first half with its block I
//!   replaced by block J of the second one. I may be the count of its blocks: the
//!   block then stands behind it.
//! - `content HALF LAST FROM TO BYTE`: a refusal for each byte of the plain content
//!   with its fill from FROM to TO - 1, this byte being set to BYTE before sealing.
//! - `spread HALF LAST FROM TO BYTE`: the refusal of the half with all these bytes of
//!   its content set to BYTE before sealing.
//! - `before HALF LAST FROM TO`: a refusal for each length from FROM to TO - 1, of the half
//!   with this L laid out as it was before 02, "Between two marks". L of HALF is in range
//!   and not used.

use crate::checks::parse_rule;
use crate::content::{self, Name};
use crate::dealing;
use crate::measure::{Measure, MAX_LENGTH};
use crate::older;
use crate::refusal;
use crate::rule::Rule;
use crate::script::number;
use crate::sealed::{self, Holder, BLOCK_BYTES};
use crate::share;
use crate::{field, poly1305};
use std::ops::Range;

/// The answer to one line of the script.
pub fn run(line: &str) -> Result<String, String> {
    let fields: Vec<&str> = line.split(' ').collect();
    let (command, fields) = fields.split_first().expect("a first field");
    let (half, rest) = Dealt::parse(fields)?;
    match (*command, rest) {
        ("half", []) => Ok(field::format(&half.bytes())),
        ("tag", []) => Ok(tag(&half.bytes())),
        ("again", [last]) => half.again(last),
        ("examine", [last, party, key, name]) => half.examine(last, party, key, name),
        ("flip", [last, from, to]) => half.flip(last, from, to),
        ("cut", [last, bytes]) => half.cut(last, bytes),
        ("mixed", [last, rest @ ..]) => half.mixed(last, rest),
        ("content", [last, from, to, byte]) => half.content(last, from, to, byte),
        ("spread", [last, from, to, byte]) => half.spread(last, from, to, byte),
        ("before", [last, from, to]) => half.before(last, from, to),
        _ => Err(format!("unknown command: {line}")),
    }
}

/// A half, from what it is dealt.
struct Dealt {
    party: usize,
    measure: Measure,
    length: usize,
    rule: Rule,
    number: u64,
    seed: [u8; 32],
    key: [u8; 32],
    name: Name,
}

impl Dealt {
    /// The half that eight fields stand for, and the fields that follow.
    fn parse<'a, 'b>(fields: &'a [&'b str]) -> Result<(Dealt, &'a [&'b str]), String> {
        let [party, code, length, rule, number_field, seed, key, name, rest @ ..] = fields else {
            return Err("eight fields of a half wanted".to_string());
        };
        let measure = Measure::from_code(number(code)?).ok_or("no such code")?;
        let dealt = Dealt {
            party: parse_party(party)?,
            measure,
            length: number(length)? as usize,
            rule: parse_rule(measure, rule)?,
            number: set_number(number_field)?,
            seed: field::parse_array(seed)?,
            key: field::parse_array(key)?,
            name: field::parse_array(name)?,
        };
        match (1..=MAX_LENGTH).contains(&dealt.length) {
            true => Ok((dealt, rest)),
            false => Err("out of range".to_string()),
        }
    }

    /// The part of the set that is this party's, for vectors of some length.
    fn part(&self, length: usize) -> share::Half {
        let parts = dealing::deal(self.measure, length, self.rule, &self.seed);
        parts[self.party].clone()
    }

    fn plain(&self) -> Vec<u8> {
        content::lay_out(&self.name, &self.part(self.length))
    }

    fn bytes(&self) -> Vec<u8> {
        sealed::seal(&self.key, self.number, &self.plain())
    }

    fn holder(&self) -> Holder<'_> {
        Holder {
            name: &self.name,
            party: self.party,
            key: &self.key,
        }
    }

    /// The refusal at the box that this half is for.
    fn refusal(&self, bytes: &[u8], last: u64) -> u32 {
        refusal::number(&sealed::examine(bytes, &self.holder(), last))
    }

    fn again(&self, last: &str) -> Result<String, String> {
        match sealed::examine(&self.bytes(), &self.holder(), set_number(last)?) {
            Ok(set) => {
                let half = sealed::half(&self.name, &self.key, set.number, &set.half);
                Ok(tag(&half))
            }
            Err(refusal) => Ok((refusal as u32).to_string()),
        }
    }

    fn examine(&self, last: &str, party: &str, key: &str, name: &str) -> Result<String, String> {
        let holder = Holder {
            name: &field::parse_array(name)?,
            party: parse_party(party)?,
            key: &field::parse_array(key)?,
        };
        let answer = sealed::examine(&self.bytes(), &holder, set_number(last)?);
        Ok(refusal::number(&answer).to_string())
    }

    fn flip(&self, last: &str, from: &str, to: &str) -> Result<String, String> {
        let (last, half) = (set_number(last)?, self.bytes());
        let flipped = |at: usize| {
            let mut bytes = half.clone();
            bytes[at] ^= if at.is_multiple_of(2) { 1 } else { 128 };
            self.refusal(&bytes, last)
        };
        Ok(each(places(from, to, half.len())?, flipped))
    }

    fn cut(&self, last: &str, count: &str) -> Result<String, String> {
        let half = self.bytes();
        let longer = [&half[..], &half[..BLOCK_BYTES]].concat();
        let bytes = longer.get(..number(count)? as usize);
        let refusal = self.refusal(bytes.ok_or("too many bytes")?, set_number(last)?);
        Ok(refusal.to_string())
    }

    fn mixed(&self, last: &str, fields: &[&str]) -> Result<String, String> {
        let (other, rest) = Dealt::parse(fields)?;
        let [to, from] = rest else {
            return Err("two blocks wanted".to_string());
        };
        let (mut half, other) = (self.bytes(), other.bytes());
        let [to, from] = [number(to)?, number(from)?].map(|block| block as usize * BLOCK_BYTES);
        let block = other.get(from..from + BLOCK_BYTES).ok_or("no such block")?;
        if to > half.len() {
            return Err("no such place".to_string());
        }
        half.resize(half.len().max(to + BLOCK_BYTES), 0);
        half[to..to + BLOCK_BYTES].copy_from_slice(block);
        Ok(self.refusal(&half, set_number(last)?).to_string())
    }

    /// The refusal of the half of another content.
    fn refusal_of_content(&self, plain: &[u8], last: u64) -> u32 {
        self.refusal(&sealed::seal(&self.key, self.number, plain), last)
    }

    fn content(&self, last: &str, from: &str, to: &str, byte: &str) -> Result<String, String> {
        let (last, byte, plain) = (set_number(last)?, parse_byte(byte)?, self.plain());
        let changed = |at: usize| {
            let mut plain = plain.clone();
            plain[at] = byte;
            self.refusal_of_content(&plain, last)
        };
        Ok(each(places(from, to, plain.len())?, changed))
    }

    fn spread(&self, last: &str, from: &str, to: &str, byte: &str) -> Result<String, String> {
        let mut plain = self.plain();
        let places = places(from, to, plain.len())?;
        plain[places].fill(parse_byte(byte)?);
        let refusal = self.refusal_of_content(&plain, set_number(last)?);
        Ok(refusal.to_string())
    }

    fn before(&self, last: &str, from: &str, to: &str) -> Result<String, String> {
        let (last, lengths) = (set_number(last)?, places(from, to, MAX_LENGTH + 1)?);
        if lengths.start == 0 {
            return Err("out of range".to_string());
        }
        let refusal = |length: usize| {
            let plain = older::lay_out(&self.name, &self.part(length));
            self.refusal_of_content(&plain, last)
        };
        Ok(each(lengths, refusal))
    }
}

/// The tag that stands for long bytes.
pub fn tag(bytes: &[u8]) -> String {
    let key = std::array::from_fn(|i| i as u8);
    field::format(&poly1305::tag(&key, bytes))
}

fn each(places: Range<usize>, refusal: impl Fn(usize) -> u32) -> String {
    let refusals: Vec<String> = places.map(|at| refusal(at).to_string()).collect();
    refusals.join(" ")
}

fn places(from: &str, to: &str, length: usize) -> Result<Range<usize>, String> {
    let places = number(from)? as usize..number(to)? as usize;
    match places.end <= length && !places.is_empty() {
        true => Ok(places),
        false => Err(format!("bad places: {places:?}")),
    }
}

fn parse_party(text: &str) -> Result<usize, String> {
    match number(text)? {
        party @ (0 | 1) => Ok(party as usize),
        _ => Err("no such party".to_string()),
    }
}

fn parse_byte(text: &str) -> Result<u8, String> {
    u8::try_from(number(text)?).map_err(|_| format!("a byte wanted: {text}"))
}

fn set_number(text: &str) -> Result<u64, String> {
    text.parse().map_err(|_| format!("bad set number: {text}"))
}
