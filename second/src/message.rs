//! What the calls of all parts have in common: a door's name, and what a message
//! carries besides its content. 01, "One check at a box".

use crate::content::Name;
use crate::refusal::Refusal;

/// The kinds of message.
pub const MASKED_VECTOR: u64 = 0;
pub const WORD: u64 = 1;
pub const ANSWER: u64 = 2;

/// A name at a start, zero after its end.
pub fn padded(name: &[u8]) -> Result<Name, Refusal> {
    let good = (1..=16).contains(&name.len()) && name.iter().all(|byte| (32..=126).contains(byte));
    Refusal::Name.unless(good)?;
    let mut padded = [0; 16];
    padded[..name.len()].copy_from_slice(name);
    Ok(padded)
}

/// A key or seed as it is handed in.
pub fn secret(bytes: &[u8]) -> Result<[u8; 32], Refusal> {
    bytes.try_into().map_err(|_| Refusal::Length)
}

/// A message without its content, as it is handed in: any numbers, any bytes.
#[derive(Clone, Copy, Debug)]
pub struct Label<'a> {
    pub kind: u64,
    pub name: &'a [u8],
    pub sender: u64,
    pub number: u64,
}

impl Label<'_> {
    /// Whether the name has a message's length (refusal 4).
    pub fn is_whole(&self) -> bool {
        self.name.len() == 16
    }

    /// Whether this is a message of the kind, door and sender wanted (refusal 6).
    pub fn is(&self, kind: u64, name: &Name, sender: u64) -> bool {
        self.kind == kind && self.name == name && self.sender == sender
    }
}

#[cfg(test)]
mod tests {
    use super::*;

    /// 01: a name of 16 bytes is taken, one of 17 refused by 1.
    #[test]
    fn names() {
        assert_eq!(padded(b"Hut 4, east door"), Ok(*b"Hut 4, east door"));
        assert_eq!(padded(b"Hut 4, east doors"), Err(Refusal::Name));
        assert_eq!(padded(b" "), Ok(*b" \0\0\0\0\0\0\0\0\0\0\0\0\0\0\0"));
        for byte in 0..=255 {
            let good = (b' '..=b'~').contains(&byte);
            assert_eq!(padded(&[b'a', byte]).is_ok(), good, "{byte}");
        }
        assert_eq!(padded(b""), Err(Refusal::Name));
    }
}
