//! The library with the memory that a host lends it.

use crate::boundary::{self, Answered, Counts, Made, Numbers};
use crate::layout::{
    BLOCKS, BLOCK_LIMIT, COUNTS, FIELDS, FRAME_LIMIT, IN_USE, LINES, NUMBERS, SERIAL,
};

/// What a buffer holds before a frame is fetched into it: no byte of a frame.
pub const FILLER: u8 = 0x7F;

/// The first byte of a frame.
const STX: u8 = 0x02;

/// An answer's number, and where it has one the place of the record that is wrong.
pub fn numbered(number: u8, place: u16) -> String {
    match place {
        0 => number.to_string(),
        place => format!("{} at {}", number, place),
    }
}

/// A memory, of which the first bytes are lent.
#[derive(Clone)]
pub struct Memory {
    pub bytes: Vec<u8>,
    pub lent: usize,
}

impl Memory {
    fn lend(&mut self) -> &mut [u8] {
        &mut self.bytes[..self.lent]
    }

    fn show(&self) -> &[u8] {
        &self.bytes[..self.lent]
    }

    /// Changes one byte by hand.
    pub fn add(&mut self, place: usize, value: u8) {
        self.bytes[place] = self.bytes[place].wrapping_add(value);
    }
}

impl From<Vec<u8>> for Memory {
    /// All of it is lent.
    fn from(bytes: Vec<u8>) -> Memory {
        let lent = bytes.len();
        Memory { bytes, lent }
    }
}

#[derive(Clone)]
pub struct Gateway {
    pub numbers: Numbers,
    pub counts: Counts,
    pub journal: Memory,
    pub unfinished: Memory,
    pub frames: Memory,
}

impl Gateway {
    pub fn fresh(journal: Memory, unfinished: Memory, frames: Memory) -> Gateway {
        let mut gateway = Gateway {
            // Whatever stood there, it is fresh afterwards.
            numbers: [0xABCD; NUMBERS],
            counts: [0xABCD_ABCD; COUNTS],
            journal,
            unfinished,
            frames,
        };
        gateway.renew();
        gateway
    }

    /// Fresh again; the memories keep what they hold.
    pub fn renew(&mut self) {
        boundary::fresh(&mut self.numbers, &mut self.counts);
    }

    /// Fresh again, with what each line speaks; the number that the library answers.
    pub fn start(&mut self, settings: &[u16; LINES]) -> u8 {
        boundary::start(settings, &mut self.numbers, &mut self.counts)
    }

    pub fn byte(&mut self, line: u8, byte: u8) -> Answered {
        boundary::byte(
            line,
            byte,
            &mut self.numbers,
            &mut self.counts,
            self.journal.lend(),
            self.unfinished.lend(),
            self.frames.lend(),
        )
    }

    pub fn seconds(&mut self, line: u8, seconds: u8) -> Answered {
        boundary::seconds(
            line,
            seconds,
            &mut self.numbers,
            &mut self.counts,
            self.journal.lend(),
            self.unfinished.lend(),
            self.frames.lend(),
        )
    }

    pub fn send(&mut self, line: u8, text: &[u8]) -> Answered {
        boundary::send(
            line,
            text,
            &mut self.numbers,
            self.journal.show(),
            self.unfinished.lend(),
            self.frames.show(),
        )
    }

    pub fn outgoing(&self, line: u8, out: &mut [u8]) -> Made {
        boundary::outgoing(line, &self.numbers, self.unfinished.show(), out)
    }

    /// All that goes to the analyzer where an answer tells its first byte: nothing, that byte, or the frame or
    /// block that is fetched for it.
    pub fn sent(&self, line: u8, first: u8) -> Vec<u8> {
        match first {
            0 => Vec::new(),
            STX => {
                let mut frame = [FILLER; FRAME_LIMIT];
                let made = self.outgoing(line, &mut frame);
                frame[..made.length].to_vec()
            }
            byte => vec![byte],
        }
    }

    pub fn take(&mut self, line: u8, buffer: &mut [u8]) -> Answered {
        boundary::take(
            line,
            &self.numbers,
            &mut self.counts,
            self.journal.lend(),
            buffer,
        )
    }

    /// A line's numbers: its record, and its next serial among them.
    pub fn line(&self, line: usize) -> &[u16] {
        &self.numbers[FIELDS * line..][..FIELDS]
    }

    /// The last stored block of a line's reader, a byte to a number.
    pub fn block(&self, line: usize) -> &[u16] {
        &self.numbers[BLOCKS + BLOCK_LIMIT * line..][..BLOCK_LIMIT]
    }

    pub fn block_mut(&mut self, line: usize) -> &mut [u16] {
        &mut self.numbers[BLOCKS + BLOCK_LIMIT * line..][..BLOCK_LIMIT]
    }

    pub fn number(&mut self, line: usize, field: usize) -> &mut u16 {
        &mut self.numbers[FIELDS * line + field]
    }

    /// The used count and the next serial of a line, where it is one of the eight.
    pub fn count(&self, line: u8) -> Option<(u32, u16)> {
        let line = usize::from(line);
        (line < LINES).then(|| (self.counts[line], self.line(line)[SERIAL]))
    }

    pub fn in_use(&self) -> u32 {
        self.counts[IN_USE]
    }
}
