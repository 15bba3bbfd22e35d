//! The commands of the script of the program `test_vectors`, one a line, and what this
//! implementation answers to them.

use crate::{aead, chacha20, field, poly1305};

/// The longest line that the script may have.
pub const MAX_LINE: usize = 4000;

/// The most bytes that a script may have.
pub const MAX_STDIN: usize = 524_000;

/// A line of the script and the line that must answer it.
pub struct Case {
    /// Where the expected answer comes from, for messages.
    pub origin: String,
    pub line: String,
    pub expected: String,
}

/// What answers the lines of a script.
pub type Runner = fn(&str) -> Result<String, String>;

impl Case {
    /// Whether this implementation answers as expected.
    pub fn check(&self, mut run: impl FnMut(&str) -> Result<String, String>) -> Result<(), String> {
        let answer = run(&self.line)?;
        if answer == self.expected {
            return Ok(());
        }
        let Case {
            origin,
            line,
            expected,
        } = self;
        Err(format!(
            "{origin}: {line}\nexpected: {expected}\ngot:      {answer}"
        ))
    }
}

/// The answer to one line of the script.
pub fn run(line: &str) -> Result<String, String> {
    let fields: Vec<&str> = line.split(' ').collect();
    let answer = match fields[..] {
        ["quarter", a, b, c, d] => {
            let words = chacha20::quarter_round(number(a)?, number(b)?, number(c)?, number(d)?);
            words.map(|word| word.to_string()).join(" ")
        }
        ["block", key, counter, nonce] => {
            let (key, nonce) = key_and_nonce(key, nonce)?;
            field::format(&chacha20::block(&key, number(counter)?, &nonce))
        }
        ["stream", key, nonce, count] => {
            let (key, nonce) = key_and_nonce(key, nonce)?;
            let mut words = vec![0; number(count)? as usize];
            chacha20::stream_words(&key, &nonce, &mut words);
            let bytes: Vec<u8> = words.iter().flat_map(|word| word.to_le_bytes()).collect();
            field::format(&bytes)
        }
        ["xor", key, counter, nonce, data] => {
            let (key, nonce) = key_and_nonce(key, nonce)?;
            let mut data = field::parse(data)?;
            chacha20::xor(&key, number(counter)?, &nonce, &mut data);
            field::format(&data)
        }
        ["poly", key, message] => {
            let key = field::parse_array(key)?;
            field::format(&poly1305::tag(&key, &field::parse(message)?))
        }
        ["polykey", key, nonce] => {
            let (key, nonce) = key_and_nonce(key, nonce)?;
            field::format(&aead::poly_key(&key, &nonce))
        }
        [command @ ("seal" | "tag"), key, nonce, aad, data] => {
            let (key, nonce) = key_and_nonce(key, nonce)?;
            let mut data = field::parse(data)?;
            let tag = aead::seal(&key, &nonce, &field::parse(aad)?, &mut data);
            match command {
                "seal" => format!("{} {}", field::format(&data), field::format(&tag)),
                _ => field::format(&tag),
            }
        }
        ["open", key, nonce, aad, data, tag] => {
            let (key, nonce) = key_and_nonce(key, nonce)?;
            let mut data = field::parse(data)?;
            let tag = field::parse_array(tag)?;
            match aead::open(&key, &nonce, &field::parse(aad)?, &mut data, &tag) {
                true => field::format(&data),
                false => "refused".to_string(),
            }
        }
        _ => return Err(format!("unknown command: {line}")),
    };
    Ok(answer)
}

fn key_and_nonce(key: &str, nonce: &str) -> Result<([u8; 32], [u8; 12]), String> {
    Ok((field::parse_array(key)?, field::parse_array(nonce)?))
}

/// A number field.
pub fn number(text: &str) -> Result<u32, String> {
    text.parse().map_err(|_| format!("bad number: {text}"))
}

/// What the tests of every list of cases ask.
#[cfg(test)]
pub fn assert_right_short_and_not_repeated(cases: &[Case], run: Runner) {
    let mut lines = std::collections::HashSet::new();
    for case in cases {
        case.check(run).unwrap();
        assert!(case.line.len() <= MAX_LINE);
        assert!(lines.insert(case.line.clone()), "repeated: {}", case.line);
    }
}
