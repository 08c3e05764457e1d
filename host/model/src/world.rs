//! A model together with the memories lent to it, and the operations that drive both.
//!
//! An operation says nothing of the model: whoever drives another implementation applies the same
//! operations to it and compares answers, records, ledger and memories after each.

use crate::answers::Answer;
use crate::lines::{Kind, State};
use crate::model::Model;
use crate::uploads::Reader;
use crate::{FRAMES, JOURNAL, LINES, UNFINISHED};
use std::fmt;

/// One of the three memories.
#[derive(Clone, Copy, PartialEq, Eq, Debug)]
pub enum Memory {
    Journal,
    Unfinished,
    Frames,
}

impl Memory {
    pub const ALL: [Memory; 3] = [Memory::Journal, Memory::Unfinished, Memory::Frames];

    /// The size that answer 41 asks for.
    pub fn size(self) -> usize {
        match self {
            Memory::Journal => JOURNAL,
            Memory::Unfinished => UNFINISHED,
            Memory::Frames => FRAMES,
        }
    }
}

/// A number that a host keeps of a line's reader.
#[derive(Clone, Copy, PartialEq, Eq, Debug)]
pub enum Number {
    Speaks,
    Reply,
    Since,
    Kept,
}

impl Number {
    pub const ALL: [Number; 4] = [Number::Speaks, Number::Reply, Number::Since, Number::Kept];

    pub fn of(self, reader: &mut Reader) -> &mut u16 {
        match self {
            Number::Speaks => &mut reader.speaks,
            Number::Reply => &mut reader.reply,
            Number::Since => &mut reader.since,
            Number::Kept => &mut reader.kept,
        }
    }
}

/// A text that is to be sent. It is told as its bytes, those that cannot be printed by their numbers.
#[derive(Clone, PartialEq, Eq)]
pub struct Text(pub Vec<u8>);

impl fmt::Debug for Text {
    fn fmt(&self, f: &mut fmt::Formatter) -> fmt::Result {
        write!(f, "\"{}\"", self.0.escape_ascii())
    }
}

/// One thing done to a gateway. Events, starts, beginnings and takings have an answer, what is fetched has an outcome,
/// and the others set what stands there. A line in an edit is 0 to 7; counts are no wider than the named
/// types, so that narrower records can hold them.
#[derive(Clone, PartialEq, Eq, Debug)]
pub enum Op {
    /// A byte or seconds, on any line 0 to 255.
    Event {
        line: u8,
        kind: Kind,
    },
    /// The start of a sending.
    Start {
        line: u8,
        text: Text,
    },
    /// The frame that the line offers, or our last reply to its reader, is fetched into so many bytes, each of
    /// them `BLANK`.
    Outgoing {
        line: u8,
        room: usize,
    },
    /// A taking with a buffer of this length, each byte of it `BLANK`.
    Take {
        line: u8,
        buffer: usize,
    },

    /// All records and the ledger as in a fresh gateway, all memories lent whole. The memories
    /// keep their contents: a fresh gateway may find any.
    Fresh,
    /// All records and the ledger fresh, with what each line speaks, by number: any number.
    Begin {
        settings: [u16; LINES],
    },

    State {
        line: u8,
        state: State,
    },
    Collected {
        line: u8,
        count: u16,
    },
    Joined {
        line: u8,
        count: u16,
    },
    Seconds {
        line: u8,
        count: u8,
    },
    Next {
        line: u8,
        number: u8,
    },
    Last {
        line: u8,
        number: Option<u8>,
    },
    Refusing {
        line: u8,
        refusing: bool,
    },
    Tries {
        line: u8,
        count: u16,
    },
    Place {
        line: u8,
        place: u16,
    },
    /// One of the numbers of a line's reader.
    Reader {
        line: u8,
        number: Number,
        value: u16,
    },
    /// One number of a line's last stored block.
    Block {
        line: u8,
        place: usize,
        value: u16,
    },
    /// One of a line's spare numbers.
    Spare {
        line: u8,
        which: usize,
        value: u16,
    },

    InUse {
        count: u32,
    },
    Used {
        line: u8,
        count: u32,
    },
    Serial {
        line: u8,
        serial: u16,
    },

    /// One byte of a memory, at an index below its right size plus `SPARE`.
    Poke {
        memory: Memory,
        index: usize,
        value: u8,
    },
    /// From now on only the first `length` bytes of the memory are lent, at most its right size
    /// plus `SPARE`.
    Lend {
        memory: Memory,
        length: usize,
    },
}

impl Op {
    /// The line of a trace that asks for this, if a trace can: it knows no edits, no settings, no sendings, no lines
    /// over 9 and no buffers over 4,000.
    pub fn trace(&self) -> Option<String> {
        match *self {
            Op::Event { line, kind } if line <= 9 => Some(match kind {
                Kind::Byte(byte) => format!("{} B {:02X}\n", line, byte),
                Kind::Seconds(seconds) => format!("{} S {}\n", line, seconds),
            }),
            Op::Take { line, buffer } if line <= 9 && buffer <= 4_000 => {
                Some(format!("{} T {}\n", line, buffer))
            }
            _ => None,
        }
    }
}

/// What a buffer holds before a taking, and before a frame is fetched into it.
pub const BLANK: u8 = 0xB5;

/// How many bytes a memory has beyond its right size, so that more than that can be lent.
pub const SPARE: usize = 16;

/// A frame that was fetched: how many bytes it has, or why it was refused; and what is in the buffer then.
#[derive(Clone, PartialEq, Eq, Debug)]
pub struct Fetched {
    pub outcome: Result<usize, u8>,
    pub out: Vec<u8>,
}

/// A model, its memories, and how much of them is lent.
#[derive(Clone, PartialEq, Eq, Debug)]
pub struct World {
    pub model: Model,
    /// Each memory with `SPARE` bytes more than its right size.
    pub journal: Vec<u8>,
    pub unfinished: Vec<u8>,
    pub frames: Vec<u8>,
    /// How many bytes are lent of journal, unfinished text and frames.
    pub lent: [usize; 3],
    /// The buffer of the last taking, as the taking left it.
    pub buffer: Vec<u8>,
    /// The last frame that was fetched.
    pub fetched: Fetched,
}

impl World {
    /// A fresh gateway with every byte of its memories set to `contents`.
    pub fn fresh(contents: u8) -> World {
        World {
            model: Model::fresh(),
            journal: vec![contents; JOURNAL + SPARE],
            unfinished: vec![contents; UNFINISHED + SPARE],
            frames: vec![contents; FRAMES + SPARE],
            lent: [JOURNAL, UNFINISHED, FRAMES],
            buffer: Vec::new(),
            fetched: Fetched {
                outcome: Ok(0),
                out: Vec::new(),
            },
        }
    }

    /// Does one operation; events, starts, beginnings and takings give their answer.
    pub fn apply(&mut self, op: &Op) -> Option<Answer> {
        let records = &mut self.model.lines;
        let ledger = &mut self.model.ledger;
        match *op {
            Op::Event { line, kind } => return Some(self.event(line, kind)),
            Op::Start { line, ref text } => return Some(self.start(line, &text.0)),
            Op::Outgoing { line, room } => self.fetch(line, room),
            Op::Take { line, buffer } => return Some(self.take(line, buffer)),
            Op::Fresh => {
                self.model = Model::fresh();
                self.lent = [JOURNAL, UNFINISHED, FRAMES];
            }
            Op::State { line, state } => records[usize::from(line)].state = state,
            Op::Collected { line, count } => {
                records[usize::from(line)].collected = usize::from(count)
            }
            Op::Joined { line, count } => records[usize::from(line)].joined = usize::from(count),
            Op::Seconds { line, count } => records[usize::from(line)].seconds = usize::from(count),
            Op::Next { line, number } => records[usize::from(line)].next = number,
            Op::Last { line, number } => records[usize::from(line)].last = number,
            Op::Refusing { line, refusing } => records[usize::from(line)].refusing = refusing,
            Op::Tries { line, count } => records[usize::from(line)].tries = usize::from(count),
            Op::Place { line, place } => records[usize::from(line)].place = usize::from(place),
            Op::Begin { ref settings } => return Some(self.model.begin(settings)),
            Op::Reader {
                line,
                number,
                value,
            } => *number.of(&mut self.model.readers[usize::from(line)]) = value,
            Op::Block { line, place, value } => {
                self.model.readers[usize::from(line)].block[place] = value;
            }
            Op::Spare { line, which, value } => {
                self.model.spare[usize::from(line)][which] = value;
            }
            Op::InUse { count } => ledger.in_use = count as usize,
            Op::Used { line, count } => ledger.used[usize::from(line)] = count as usize,
            Op::Serial { line, serial } => ledger.serials[usize::from(line)] = serial,
            Op::Poke {
                memory,
                index,
                value,
            } => self.memory(memory)[index] = value,
            Op::Lend { memory, length } => self.lent[memory as usize] = length,
        }
        None
    }

    /// One event with what is lent now.
    pub fn event(&mut self, line: u8, kind: Kind) -> Answer {
        let [journal, unfinished, frames] = self.lent;
        self.model.event(
            line,
            kind,
            &mut self.journal[..journal],
            &mut self.unfinished[..unfinished],
            &mut self.frames[..frames],
        )
    }

    /// One start with what is lent now.
    pub fn start(&mut self, line: u8, text: &[u8]) -> Answer {
        let [journal, unfinished, frames] = self.lent;
        self.model.start(
            line,
            text,
            &self.journal[..journal],
            &mut self.unfinished[..unfinished],
            &self.frames[..frames],
        )
    }

    /// The frame that a line offers or our last reply, with what is lent now, into a blank buffer.
    pub fn fetch(&mut self, line: u8, room: usize) {
        let mut out = vec![BLANK; room];
        let lent = &self.unfinished[..self.lent[Memory::Unfinished as usize]];
        let outcome = self.model.outgoing(line, lent, &mut out);
        self.fetched = Fetched { outcome, out };
    }

    /// One taking with what is lent now and a blank buffer.
    pub fn take(&mut self, line: u8, buffer: usize) -> Answer {
        self.buffer.clear();
        self.buffer.resize(buffer, BLANK);
        let lent = self.lent[Memory::Journal as usize];
        self.model
            .take(line, &mut self.journal[..lent], &mut self.buffer)
    }

    /// The answers to these bytes, one after the other.
    pub fn bytes(&mut self, line: u8, bytes: &[u8]) -> Vec<u8> {
        bytes
            .iter()
            .map(|&byte| self.event(line, Kind::Byte(byte)).number)
            .collect()
    }

    /// The answer to the last of these bytes, all others having been answered 0.
    pub fn answer(&mut self, line: u8, bytes: &[u8]) -> Answer {
        let (last, before) = bytes.split_last().expect("some bytes");
        let answers = self.bytes(line, before);
        assert!(answers.iter().all(|&number| number == 0), "{:?}", answers);
        self.event(line, Kind::Byte(*last))
    }

    /// Its number.
    pub fn send(&mut self, line: u8, bytes: &[u8]) -> u8 {
        self.answer(line, bytes).number
    }

    pub fn seconds(&mut self, line: u8, seconds: u8) -> u8 {
        self.event(line, Kind::Seconds(seconds)).number
    }

    /// A memory whole, whatever is lent of it.
    pub fn memory(&mut self, memory: Memory) -> &mut [u8] {
        match memory {
            Memory::Journal => &mut self.journal,
            Memory::Unfinished => &mut self.unfinished,
            Memory::Frames => &mut self.frames,
        }
    }

    /// Whether the journal would give 43, by its right size.
    pub fn is_broken(&self) -> bool {
        self.model.ledger.is_broken(&self.journal[..JOURNAL])
    }

    /// The lines' numbers as an operation names them.
    pub fn lines() -> std::ops::Range<u8> {
        0..LINES as u8
    }
}
