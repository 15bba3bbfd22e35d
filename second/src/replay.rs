//! The script of the program `test_replay`: calls on a door's four parts, one a line, and
//! what this implementation answers to them, one line each.
//!
//! One space stands between two fields, and none at an end. Numbers are decimal: set
//! numbers and floors are below 2^64, the others below 2^32. A bytes field is hex or
//! `@N:S`; a vector field is hex or `@N:S`, little-endian words both, or
//! `~N:S:LOW:MASK`; `-` is nothing (`field`). BOX and FROM are `camera` or `office`.
//! A MESSAGE is four fields, `KIND NAME SENDER NUMBER`. An empty line and a line that
//! starts with `#` are answered by an empty line.
//!
//! - `dealer NAME KEY0 KEY1 FLOOR`, `party BOX NAME PARTY KEY FLOOR` and
//!   `lock NAME FLOOR`: the starts.
//! - `deal NUMBER SEED CODE L RULE ROOM0 ROOM1`: a deal into buffers of ROOM0 and ROOM1
//!   bytes (at most 8,704), filled with 170 before. RULE is a threshold `T` or two marks
//!   `P:Q`.
//! - `clock NUMBER SEED CODE L FIRSTS LASTS THRESHOLDS MINUTE ROOM0 ROOM1`: a deal by the
//!   clock, into buffers as those of `deal`. The table's lists are vector fields.
//! - `load BOX FROM K BYTES AT`: a load of the first BYTES bytes of the half that the
//!   K-th accepted deal before the newest (K from 0 to 3) wrote for FROM, followed by
//!   its first block again; the byte AT is xored with 1 where AT is below BYTES.
//! - `mixed BOX I K J`: a load of the newest half for BOX, its block I replaced by
//!   block J of the half that the K-th deal before the newest wrote for BOX.
//! - `bytes BOX BYTES`: a load of these bytes.
//! - `trial BOX FROM K BYTES AT`, `trial-mixed BOX I K J` and `trial-bytes BOX BYTES`: a
//!   trial of the bytes that `load`, `mixed` or `bytes` with the same fields would load.
//! - `mask BOX VECTOR ROOM`: call 2, into a buffer of ROOM words (at most 520), filled
//!   with 2863311530 before.
//! - `take BOX MESSAGE VECTOR`: call 3. VECTOR may be `camera` or `office`: the last
//!   masked vector that this box sent (no words before the first).
//! - `finish BOX MESSAGE WORD`: call 4. WORD may be a box too: the last word that it
//!   sent (0 before the first).
//! - `drop BOX`: drop.
//! - `join MESSAGE0 ANSWER0 MESSAGE1 ANSWER1`: the join. An ANSWER may be a box too:
//!   the last answer that it sent (0 before the first).
//! - `host NAME LAST` and the fields of `join`: what the C host's two functions give.
//! - `put BOX PHASE PARTY CODE L`: puts these numbers into the box's state, as a host
//!   may.
//! - `waiting BOX NUMBER CODE L`: puts these numbers into the box's waiting set, as a host
//!   may.
//! - `width BOX WIDTH MARK`: puts these numbers into the box's open set, as a host may.
//! - `show PART`: the tag of the state of `dealer`, `camera`, `office` or `lock`.
//!
//! Before the first start every state is zero. A refused call is answered by its
//! number alone, a refused `clock` by its number and its place. An accepted one by `0` and
//! then, each after a space: a deal, the tags of its two buffers; a deal by the clock, the
//! row's place and these tags; a trial, the padded name as hex, the code and L; call 2, the
//! tag of its buffer; call 3, the word; call 4, the answer; the join, 0 or 1. `put`, `waiting`
//! and `width` are answered by `put`. A tag is Poly1305's under the key of bytes 0 to 31, of a
//! state's bytes as in `replay_states`. A line that is none of these is answered by
//! `bad line N`, counted from 1, and changes nothing.

use crate::day::{Refused, Table};
use crate::dealer::{Clock, Dealer, Order};
use crate::field::{self, decimal};
use crate::halves::tag;
use crate::lock::{self, Answer, Lock};
use crate::message::Label;
use crate::party::Party;
use crate::refusal::Refusal;
use crate::replay_states::{bytes_of, dealer_bytes, lock_bytes, party_bytes};
use crate::rule::Rule;
use crate::sealed::{BLOCKS, BLOCK_BYTES};
use crate::{checks, content};
use std::collections::VecDeque;

/// The boxes by their fields, each at the place of its party.
pub const BOXES: [&str; 2] = ["camera", "office"];

/// How many deals a load can look back to, the newest included.
pub const DEALS_KEPT: usize = 4;

/// The largest buffer of a deal: a block more than any half.
pub const MAX_BYTES: usize = (*BLOCKS.end() + 1) * BLOCK_BYTES;

/// The largest buffer of call 2.
pub const MAX_WORDS: usize = 520;

const BYTE_BEFORE: u8 = 170;
const WORD_BEFORE: u32 = 2_863_311_530;

/// A script as far as it has been run.
#[derive(Default)]
pub struct Replay {
    pub dealer: Dealer,
    pub boxes: [Party; 2],
    pub lock: Lock,
    /// The halves that the last accepted deals wrote, the newest first.
    pub dealt: VecDeque<[Vec<u8>; 2]>,
    /// What each box sent last.
    pub sent: [Sent; 2],
    /// How many lines have been answered.
    pub lines: usize,
}

/// What a box sent last, of each kind.
#[derive(Default)]
pub struct Sent {
    pub vector: Vec<u32>,
    pub word: u32,
    pub answer: u32,
}

/// A message without its content.
struct Message {
    kind: u32,
    name: Vec<u8>,
    sender: u32,
    number: u64,
}

impl Message {
    fn parse(fields: &[&str]) -> Option<Message> {
        let [kind, name, sender, number] = fields else {
            return None;
        };
        Some(Message {
            kind: decimal(kind)?,
            name: bytes(name)?,
            sender: decimal(sender)?,
            number: decimal(number)?,
        })
    }

    fn label(&self) -> Label<'_> {
        Label {
            kind: self.kind.into(),
            name: &self.name,
            sender: self.sender.into(),
            number: self.number,
        }
    }
}

impl Replay {
    /// The answer to the next line.
    pub fn answer(&mut self, line: &str) -> String {
        self.lines += 1;
        if line.is_empty() || line.starts_with('#') {
            return String::new();
        }
        let fields: Vec<&str> = line.split(' ').collect();
        let answer = self.run(fields[0], &fields[1..]);
        answer.unwrap_or_else(|| format!("bad line {}", self.lines))
    }

    /// The answers to the lines of a text, each with its end.
    pub fn answers(&mut self, text: &str) -> String {
        let lines = text.split_terminator('\n');
        lines.map(|line| self.answer(line) + "\n").collect()
    }

    /// What a command answers, and nothing where its fields do not fit.
    fn run(&mut self, command: &str, fields: &[&str]) -> Option<String> {
        match (command, fields) {
            ("dealer", [name, key0, key1, floor]) => self.start_dealer(name, [key0, key1], floor),
            ("party", [at, name, party, key, floor]) => {
                self.start_party(at, name, party, key, floor)
            }
            ("lock", [name, floor]) => self.start_lock(name, floor),
            ("deal", [order @ .., room0, room1]) => self.deal(order, [room0, room1]),
            ("clock", [order @ .., room0, room1]) => self.clock(order, [room0, room1]),
            ("load", [at, half @ ..]) => self.load(at, self.cut_half(half)?),
            ("mixed", [at, blocks @ ..]) => self.load(at, self.mixed_half(at, blocks)?),
            ("bytes", [at, half]) => self.load(at, bytes(half)?),
            ("trial", [at, half @ ..]) => self.trial(at, self.cut_half(half)?),
            ("trial-mixed", [at, blocks @ ..]) => self.trial(at, self.mixed_half(at, blocks)?),
            ("trial-bytes", [at, half]) => self.trial(at, bytes(half)?),
            ("mask", [at, vector, room]) => self.mask(at, vector, room),
            ("take", [at, message @ .., vector]) => self.take(at, message, vector),
            ("finish", [at, message @ .., word]) => self.finish(at, message, word),
            ("drop", [at]) => self.drop_set(at),
            ("join", fields) => self.join(fields),
            ("host", [name, last, fields @ ..]) => self.host(name, last, fields),
            ("put", [at, numbers @ ..]) => self.put(at, numbers),
            ("waiting", [at, numbers @ ..]) => self.put_waiting(at, numbers),
            ("width", [at, width, mark]) => self.put_width(at, width, mark),
            ("show", [part]) => self.show(part),
            _ => None,
        }
    }

    fn start_dealer(&mut self, name: &str, keys: [&str; 2], floor: &str) -> Option<String> {
        let (key0, key1) = (bytes(keys[0])?, bytes(keys[1])?);
        let started = Dealer::start(&bytes(name)?, decimal(floor)?, [&key0, &key1]);
        Some(answered(started.map(|dealer| {
            self.dealer = dealer;
            Vec::new()
        })))
    }

    fn start_party(
        &mut self,
        at: &str,
        name: &str,
        party: &str,
        key: &str,
        floor: &str,
    ) -> Option<String> {
        let (at, party) = (place(at)?, decimal::<u32>(party)?);
        let started = Party::start(&bytes(name)?, party.into(), &bytes(key)?, decimal(floor)?);
        Some(answered(started.map(|state| {
            self.boxes[at] = state;
            Vec::new()
        })))
    }

    fn start_lock(&mut self, name: &str, floor: &str) -> Option<String> {
        let started = Lock::start(&bytes(name)?, decimal(floor)?);
        Some(answered(started.map(|lock| {
            self.lock = lock;
            Vec::new()
        })))
    }

    fn deal(&mut self, order: &[&str], rooms: [&str; 2]) -> Option<String> {
        let [number, seed, code, length, rule] = order else {
            return None;
        };
        let seed = bytes(seed)?;
        let order = Order {
            number: decimal(number)?,
            seed: &seed,
            code: decimal::<u32>(code)?.into(),
            length: decimal::<u32>(length)?.into(),
            rule: Rule::parse(rule)?,
        };
        let mut buffers = buffers(rooms)?;
        let [buffer0, buffer1] = &mut buffers;
        let dealt = self.dealer.deal(&order, [buffer0, buffer1]);
        Some(answered(dealt.map(|()| self.keep(buffers, order.length))))
    }

    fn clock(&mut self, order: &[&str], rooms: [&str; 2]) -> Option<String> {
        let [number, seed, code, length, firsts, lasts, thresholds, minute] = order else {
            return None;
        };
        let seed = bytes(seed)?;
        let table = Table {
            firsts: checks::words(firsts).ok()?,
            lasts: checks::words(lasts).ok()?,
            thresholds: checks::words(thresholds).ok()?,
        };
        let order = Order {
            number: decimal(number)?,
            seed: &seed,
            code: decimal::<u32>(code)?.into(),
            length: decimal::<u32>(length)?.into(),
            rule: Clock {
                table: &table,
                minute: decimal(minute)?,
            },
        };
        let mut buffers = buffers(rooms)?;
        let [buffer0, buffer1] = &mut buffers;
        match self.dealer.deal_by_clock(&order, [buffer0, buffer1]) {
            Err(Refused { why, place }) => Some(format!("{} {place}", why as u32)),
            Ok(place) => {
                let tags = self.keep(buffers, order.length).join(" ");
                Some(format!("0 {place} {tags}"))
            }
        }
    }

    /// Keeps the halves that an accepted deal wrote into these buffers: the buffers' tags.
    fn keep(&mut self, buffers: [Vec<u8>; 2], length: u64) -> Vec<String> {
        let tags = buffers.each_ref().map(|buffer| tag(buffer));
        let bytes = BLOCK_BYTES * content::blocks(length as usize);
        self.dealt.push_front(buffers.map(|mut buffer| {
            buffer.truncate(bytes);
            buffer
        }));
        self.dealt.truncate(DEALS_KEPT);
        tags.to_vec()
    }

    /// The half that an earlier deal wrote.
    fn half(&self, party: usize, back: &str) -> Option<&[u8]> {
        let halves = self.dealt.get(decimal(back)?)?;
        Some(&halves[party])
    }

    /// The bytes of `load`.
    pub fn cut_half(&self, fields: &[&str]) -> Option<Vec<u8>> {
        let [from, back, count, at] = fields else {
            return None;
        };
        let half = self.half(place(from)?, back)?;
        let longer = [half, &half[..BLOCK_BYTES]].concat();
        let mut bytes = longer.get(..room(count, MAX_BYTES)?)?.to_vec();
        if let Some(byte) = bytes.get_mut(decimal::<u32>(at)? as usize) {
            *byte ^= 1;
        }
        Some(bytes)
    }

    /// The bytes of `mixed`.
    pub fn mixed_half(&self, at: &str, fields: &[&str]) -> Option<Vec<u8>> {
        let [to, back, from] = fields else {
            return None;
        };
        let at = place(at)?;
        let mut half = self.half(at, "0")?.to_vec();
        let block = self.half(at, back)?;
        let block = block.chunks_exact(BLOCK_BYTES).nth(decimal(from)?)?;
        let mut blocks = half.chunks_exact_mut(BLOCK_BYTES);
        blocks.nth(decimal(to)?)?.copy_from_slice(block);
        Some(half)
    }

    fn load(&mut self, at: &str, half: Vec<u8>) -> Option<String> {
        let loaded = self.boxes[place(at)?].load(&half);
        Some(answered(loaded.map(|()| Vec::new())))
    }

    fn trial(&self, at: &str, half: Vec<u8>) -> Option<String> {
        let told = self.boxes[place(at)?].trial(&half);
        Some(answered(told.map(|told| {
            let name = field::format(&told.name);
            vec![name, told.code.to_string(), told.length.to_string()]
        })))
    }

    fn mask(&mut self, at: &str, vector: &str, words: &str) -> Option<String> {
        let (at, vector) = (place(at)?, checks::words(vector).ok()?);
        let mut buffer = vec![WORD_BEFORE; room(words, MAX_WORDS)?];
        let masked = self.boxes[at].mask(&vector, &mut buffer);
        Some(answered(masked.map(|()| {
            self.sent[at].vector = buffer[..vector.len()].to_vec();
            vec![tag(&bytes_of(&buffer))]
        })))
    }

    fn take(&mut self, at: &str, message: &[&str], vector: &str) -> Option<String> {
        let (at, message) = (place(at)?, Message::parse(message)?);
        let vector = match place(vector) {
            Some(from) => self.sent[from].vector.clone(),
            None => checks::words(vector).ok()?,
        };
        let word = self.boxes[at].take(&message.label(), &vector);
        Some(answered(word.map(|word| {
            self.sent[at].word = word;
            vec![word.to_string()]
        })))
    }

    fn finish(&mut self, at: &str, message: &[&str], word: &str) -> Option<String> {
        let (at, message) = (place(at)?, Message::parse(message)?);
        let word = match place(word) {
            Some(from) => self.sent[from].word,
            None => decimal(word)?,
        };
        let answer = self.boxes[at].finish(&message.label(), word);
        Some(answered(answer.map(|answer| {
            self.sent[at].answer = answer;
            vec![answer.to_string()]
        })))
    }

    fn drop_set(&mut self, at: &str) -> Option<String> {
        let dropped = self.boxes[place(at)?].drop_set();
        Some(answered(dropped.map(|()| Vec::new())))
    }

    /// The messages and answers of a join.
    fn answers_of(&self, fields: &[&str]) -> Option<[(Message, u32); 2]> {
        let answer = |fields: &[&str]| {
            let (answer, message) = fields.split_last()?;
            let answer = match place(answer) {
                Some(from) => self.sent[from].answer,
                None => decimal(answer)?,
            };
            Some((Message::parse(message)?, answer))
        };
        match fields.len() {
            10 => Some([answer(&fields[..5])?, answer(&fields[5..])?]),
            _ => None,
        }
    }

    fn join(&mut self, fields: &[&str]) -> Option<String> {
        let answers = self.answers_of(fields)?;
        let [first, second] = handed(&answers);
        let joined = self.lock.join([&first, &second]);
        Some(answered(joined.map(|bit| vec![bit.to_string()])))
    }

    fn host(&self, name: &str, last: &str, fields: &[&str]) -> Option<String> {
        let (name, last) = (bytes(name)?, decimal(last)?);
        let answers = self.answers_of(fields)?;
        let [first, second] = handed(&answers);
        let joined = lock::host_join(&name, last, [&first, &second]);
        let next = lock::host_last(&name, last, [&first, &second]);
        Some(format!("{joined} {next}"))
    }

    fn put(&mut self, at: &str, numbers: &[&str]) -> Option<String> {
        let [phase, party, code, length] = numbers else {
            return None;
        };
        let (at, phase, party) = (place(at)?, decimal(phase)?, decimal(party)?);
        let (code, length) = (decimal(code)?, decimal(length)?);
        let state = &mut self.boxes[at];
        (state.phase, state.party) = (phase, party);
        (state.set.code, state.set.length) = (code, length);
        Some("put".to_string())
    }

    fn put_waiting(&mut self, at: &str, numbers: &[&str]) -> Option<String> {
        let [number, code, length] = numbers else {
            return None;
        };
        let (at, number) = (place(at)?, decimal(number)?);
        let (code, length) = (decimal(code)?, decimal(length)?);
        let waiting = &mut self.boxes[at].waiting;
        (waiting.number, waiting.code, waiting.length) = (number, code, length);
        Some("put".to_string())
    }

    fn put_width(&mut self, at: &str, width: &str, mark: &str) -> Option<String> {
        let (at, width, mark) = (place(at)?, decimal(width)?, decimal(mark)?);
        let set = &mut self.boxes[at].set;
        (set.width, set.mark) = (width, mark);
        Some("put".to_string())
    }

    fn show(&self, part: &str) -> Option<String> {
        let state = match part {
            "dealer" => dealer_bytes(&self.dealer),
            "lock" => lock_bytes(&self.lock),
            _ => party_bytes(&self.boxes[place(part)?]),
        };
        Some(tag(&state))
    }
}

/// What a call is answered by: a refusal's number, or 0 and what else it gives.
fn answered(answer: Result<Vec<String>, Refusal>) -> String {
    match answer {
        Err(refusal) => (refusal as u32).to_string(),
        Ok(more) => [vec!["0".to_string()], more].concat().join(" "),
    }
}

fn handed(answers: &[(Message, u32); 2]) -> [Answer<'_>; 2] {
    [0, 1].map(|place: usize| Answer {
        label: answers[place].0.label(),
        answer: answers[place].1,
    })
}

/// The place of a box.
fn place(field: &str) -> Option<usize> {
    BOXES.iter().position(|name| *name == field)
}

/// The size of a buffer.
fn room(field: &str, most: usize) -> Option<usize> {
    decimal(field).filter(|room| *room <= most)
}

/// The buffers of a deal, of these sizes.
fn buffers(rooms: [&str; 2]) -> Option<[Vec<u8>; 2]> {
    let [room0, room1] = rooms.map(|field| room(field, MAX_BYTES));
    Some([vec![BYTE_BEFORE; room0?], vec![BYTE_BEFORE; room1?]])
}

/// A bytes field: words are not generated in it.
fn bytes(field: &str) -> Option<Vec<u8>> {
    match field.starts_with('~') {
        true => None,
        false => field::parse(field).ok(),
    }
}
