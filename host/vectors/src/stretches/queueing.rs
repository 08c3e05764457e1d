//! What a script says, queued: for each line what comes on it, and the takings.

use super::items::Item;
use super::MOST;
use crate::blocks;
use crate::boundary;
use crate::frames::{frame, next_number, AROUND_TEXT, CR, ENQ, ETB, ETX};
use crate::layout::{LINES, TEXT_LIMIT};
use crate::script::{decimal, hex, needed, nothing, unknown};

/// The most bytes that a taking lends: more than any message has.
const MOST_LENT: usize = 4_096;

/// Room for the frames of the longest message, which has two records.
const ROOM: usize = TEXT_LIMIT + 200;

/// What a step puts on a line.
pub enum Queued {
    Enq,
    Bytes(Vec<u8>),
    Seconds(u8),
    Frame {
        number: Number,
        text: Vec<u8>,
        end: u8,
    },
    /// ENQ and a message of so many bytes, in frames.
    Message(usize),
    /// The start of a sending of such a message.
    Start(usize),
    /// A block of the line's strip reader, and whether it is spoilt on its way.
    Block {
        kind: Kind,
        spoilt: bool,
    },
    Taking(usize),
}

/// What a block of a strip reader is.
#[derive(Clone, Copy)]
pub enum Kind {
    Control(u8),
    /// With this sequence number.
    Finding(usize),
    Colours(usize),
}

/// How a frame is numbered.
pub enum Number {
    Next,
    LastAgain,
    Digit(u8),
}

impl Queued {
    /// What a step's letter says, and what is behind its line.
    pub fn read(letter: char, rest: Option<&str>) -> Result<Queued, String> {
        let number = |most| needed(rest).and_then(|digits| decimal(digits, most));
        Ok(match letter {
            'E' => nothing(rest).map(|()| Queued::Enq)?,
            'B' => Queued::Bytes(hex(needed(rest)?)?),
            'A' => Queued::Bytes(vec![b'A'; number(MOST)?]),
            'S' => Queued::Seconds(number(255)? as u8),
            'F' => framed(needed(rest)?)?,
            'G' => Queued::Frame {
                number: Number::Next,
                text: vec![b'A'; number(MOST)?],
                end: ETB,
            },
            'M' => Queued::Message(number(TEXT_LIMIT)?),
            'O' => Queued::Start(number(TEXT_LIMIT)?),
            'K' => block(needed(rest)?)?,
            'T' => Queued::Taking(number(MOST_LENT)?),
            _ => return unknown(letter),
        })
    }
}

/// A block by its word.
fn block(word: &str) -> Result<Queued, String> {
    let (name, spoilt) = match word.strip_suffix('x') {
        Some(name) => (name, true),
        None => (word, false),
    };
    let kind = match (name, name.split_at(name.len().min(1))) {
        ("SPM", _) => Kind::Control(b'<'),
        ("REP", _) => Kind::Control(b'?'),
        ("END", _) => Kind::Control(b':'),
        (_, ("E", number)) => Kind::Finding(decimal(number, 99_999)?),
        (_, ("D", number)) => Kind::Colours(decimal(number, 99_999)?),
        _ => return Err(format!("'{}' is no block", word)),
    };
    Ok(Queued::Block { kind, spoilt })
}

/// A frame's number, its end, and its text.
fn framed(words: &str) -> Result<Queued, String> {
    let (number, end, text) = match words.as_bytes() {
        [number, end, text @ ..] => (*number, *end, text),
        _ => return Err(format!("'{}' has no number and end of a frame", words)),
    };
    Ok(Queued::Frame {
        number: match number {
            b'*' => Number::Next,
            b'-' => Number::LastAgain,
            b'0'..=b'9' => Number::Digit(number),
            _ => return Err(format!("'{}' has no number of a frame", words)),
        },
        text: text
            .iter()
            .map(|&byte| if byte == b'/' { CR } else { byte })
            .collect(),
        end: match end {
            b'.' => ETX,
            b'+' => ETB,
            _ => return Err(format!("'{}' has no end of a frame", words)),
        },
    })
}

/// What is queued, in the script's order, the number of each line's next frame, and what each line speaks.
pub struct Queues {
    items: Vec<Item>,
    numbers: [u8; LINES],
    speaks: [u16; LINES],
}

impl Queues {
    pub fn new() -> Queues {
        Queues {
            items: Vec::new(),
            numbers: [1; LINES],
            speaks: [0; LINES],
        }
    }

    /// What a line speaks.
    pub fn speaks(&mut self, line: usize, speaks: u16) {
        self.speaks[line] = speaks;
    }

    pub fn is_empty(&self) -> bool {
        self.items.is_empty()
    }

    /// The items, which leave; the lines' numbers stay.
    pub fn empty(&mut self) -> Vec<Item> {
        std::mem::take(&mut self.items)
    }

    pub fn add(&mut self, line: u8, queued: &Queued) -> Result<(), String> {
        match queued {
            Queued::Enq => self.open(line),
            Queued::Bytes(bytes) => self.bytes(line, bytes),
            Queued::Seconds(seconds) => self.items.push(Item::Seconds {
                line,
                seconds: *seconds,
            }),
            Queued::Frame { number, text, end } => self.frame(line, number, text, *end),
            Queued::Message(length) => self.message(line, *length)?,
            Queued::Start(length) => self.items.push(Item::Start {
                line,
                length: *length,
                salt: self.items.len(),
            }),
            Queued::Block { kind, spoilt } => self.block(line, *kind, *spoilt),
            Queued::Taking(lends) => self.items.push(Item::Taking {
                line,
                lends: *lends,
            }),
        }
        Ok(())
    }

    fn bytes(&mut self, line: u8, bytes: &[u8]) {
        self.items
            .extend(bytes.iter().map(|&byte| Item::Byte { line, byte }));
    }

    fn block(&mut self, line: u8, kind: Kind, spoilt: bool) {
        let characters = blocks::characters(self.speaks[usize::from(line)]);
        let mut block = match kind {
            Kind::Control(code) => blocks::control(code),
            Kind::Finding(number) => blocks::finding(characters, number),
            Kind::Colours(number) => blocks::colours(characters, number),
        };
        if spoilt {
            block[1] ^= 0x40;
        }
        self.bytes(line, &block);
    }

    /// ENQ; the line's frames are numbered from 1 again.
    fn open(&mut self, line: u8) {
        self.bytes(line, &[ENQ]);
        self.numbers[usize::from(line)] = 1;
    }

    fn frame(&mut self, line: u8, number: &Number, text: &[u8], end: u8) {
        let next = &mut self.numbers[usize::from(line)];
        let digit = match *number {
            Number::Next => b'0' + *next,
            Number::LastAgain => b'0' + (*next + 7) % 8,
            Number::Digit(digit) => digit,
        };
        if let Number::Next = number {
            *next = next_number(*next);
        }
        self.bytes(line, &frame(digit, text, end));
    }

    fn message(&mut self, line: u8, length: usize) -> Result<(), String> {
        let mut out = [0; ROOM];
        let made = boundary::cut(&message(length, self.items.len()), &mut out);
        if made.number != 0 {
            return Err(format!("no message has {} bytes", length));
        }
        self.open(line);
        self.bytes(line, &out[..made.length]);
        let frames = (made.length - length) / AROUND_TEXT;
        self.numbers[usize::from(line)] = ((frames + 1) % 8) as u8;
        Ok(())
    }
}

/// A message of n bytes, where there is one: H with a long field, then L. Messages of other salts differ.
pub fn message(n: usize, salt: usize) -> Vec<u8> {
    const HEAD: &[u8] = b"H|\\^&|";
    const LAST: &[u8] = b"\rL|1|N\r";
    let filled = (0..n).map(|i| match HEAD.get(i) {
        Some(&byte) => byte,
        None => b'a' + ((i + salt) % 26) as u8,
    });
    let mut text: Vec<u8> = filled.collect();
    if let Some(last) = n.checked_sub(LAST.len()) {
        text[last..].copy_from_slice(LAST);
    }
    text
}
