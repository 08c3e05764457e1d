//! The library with memories of its own, driven by the model's operations.

use crate::boundary::{self, Answered, Counts, Made, Numbers};
use crate::fenced::Fenced;
use crate::layout::{
    BLOCKS, BLOCK_LIMIT, COLLECTED, COUNTS, FIELDS, IN_USE, JOINED, KEPT, LAST, LINES, NEXT,
    NUMBERS, PLACE, REFUSING, REPLY, SECONDS, SERIAL, SINCE, SPARE as SPARE_NUMBER, SPEAKS, STATE,
    TRIES,
};
use ngachodui_model::lines::Kind;
use ngachodui_model::world::{Memory, Number, Op, BLANK, SPARE};

const FENCE: u8 = 0x5A;

/// The numbers and counts, with a fence around each.
#[repr(C)]
#[derive(Clone)]
pub struct Book {
    before: [u16; 4],
    pub numbers: Numbers,
    between: [u32; 2],
    pub counts: Counts,
    behind: [u32; 2],
}

/// The library's side of a run.
#[derive(Clone)]
pub struct Library {
    pub book: Book,
    /// Each memory with `SPARE` bytes more than its right size, as the model's world has it.
    pub journal: Fenced<u8>,
    pub unfinished: Fenced<u8>,
    pub frames: Fenced<u8>,
    lent: [usize; 3],
    /// The buffer of the last taking.
    pub buffer: Fenced<u8>,
    /// The last frame that was fetched.
    pub fetched: Fetched,
}

/// A frame that was fetched: the outcome, and the output as it was left.
#[derive(Clone)]
pub struct Fetched {
    pub made: Made,
    pub out: Fenced<u8>,
}

/// Where the library keeps a number of a line's reader.
fn field_of(number: Number) -> usize {
    match number {
        Number::Speaks => SPEAKS,
        Number::Reply => REPLY,
        Number::Since => SINCE,
        Number::Kept => KEPT,
    }
}

/// The last accepted number as the library keeps it: 0 for none, else one more.
fn last_number(last: Option<u8>) -> u16 {
    last.map_or(0, |number| u16::from(number) + 1)
}

impl Library {
    /// A fresh gateway with every byte of its memories set to `contents`, at addresses that `front`
    /// moves.
    pub fn fresh(contents: u8, front: usize) -> Library {
        let memory =
            |which: Memory, front| Fenced::new(which.size() + SPARE, contents, front, FENCE);
        let mut library = Library {
            // Whatever stood there, it is fresh afterwards.
            book: Book {
                before: [0xF00D; 4],
                numbers: [0xABCD; NUMBERS],
                between: [0xF00D_F00D; 2],
                counts: [0xABCD_ABCD; COUNTS],
                behind: [0xF00D_F00D; 2],
            },
            journal: memory(Memory::Journal, front + 1),
            unfinished: memory(Memory::Unfinished, front + 2),
            frames: memory(Memory::Frames, front + 3),
            lent: [0; 3],
            buffer: Fenced::new(0, BLANK, 1, FENCE),
            fetched: Fetched {
                made: Made {
                    number: 0,
                    spare: 0,
                    place: 0,
                    value: 0,
                    length: 0,
                },
                out: Fenced::new(0, BLANK, 1, FENCE),
            },
        };
        library.apply(&Op::Fresh);
        library
    }

    /// Does one operation; events, starts, beginnings and takings give their answer.
    pub fn apply(&mut self, op: &Op) -> Option<Answered> {
        match *op {
            Op::Event { line, kind } => return Some(self.event(line, kind)),
            Op::Start { line, ref text } => return Some(self.start(line, &text.0)),
            Op::Outgoing { line, room } => self.fetch(line, room),
            Op::Take { line, buffer } => return Some(self.take(line, buffer)),
            Op::Fresh => {
                boundary::fresh(&mut self.book.numbers, &mut self.book.counts);
                self.lent = [
                    Memory::Journal.size(),
                    Memory::Unfinished.size(),
                    Memory::Frames.size(),
                ];
            }
            Op::Begin { ref settings } => return Some(self.begin(settings)),
            Op::State { line, state } => *self.number(line, STATE) = state as u16,
            Op::Collected { line, count } => *self.number(line, COLLECTED) = count,
            Op::Joined { line, count } => *self.number(line, JOINED) = count,
            Op::Seconds { line, count } => *self.number(line, SECONDS) = u16::from(count),
            Op::Next { line, number } => *self.number(line, NEXT) = u16::from(number),
            Op::Last { line, number } => *self.number(line, LAST) = last_number(number),
            Op::Refusing { line, refusing } => *self.number(line, REFUSING) = u16::from(refusing),
            Op::Tries { line, count } => *self.number(line, TRIES) = count,
            Op::Place { line, place } => *self.number(line, PLACE) = place,
            Op::Reader {
                line,
                number,
                value,
            } => *self.number(line, field_of(number)) = value,
            Op::Block { line, place, value } => {
                self.book.numbers[BLOCKS + BLOCK_LIMIT * usize::from(line) + place] = value
            }
            Op::Spare { line, which, value } => *self.number(line, SPARE_NUMBER + which) = value,
            Op::InUse { count } => self.book.counts[IN_USE] = count,
            Op::Used { line, count } => self.book.counts[usize::from(line)] = count,
            Op::Serial { line, serial } => *self.number(line, SERIAL) = serial,
            Op::Poke {
                memory,
                index,
                value,
            } => self.memory(memory).inside_mut()[index] = value,
            Op::Lend { memory, length } => self.lent[memory as usize] = length,
        }
        None
    }

    /// The settings stand between others, and are only read; the answer is a number alone.
    fn begin(&mut self, settings: &[u16; LINES]) -> Answered {
        let mut lent = [0xF00D; LINES + 2];
        lent[1..=LINES].copy_from_slice(settings);
        let copy: &[u16; LINES] = lent[1..=LINES].try_into().expect("eight of them");
        let number = boundary::start(copy, &mut self.book.numbers, &mut self.book.counts);
        assert!(lent[1..=LINES] == settings[..] && lent[0] == lent[LINES + 1]);
        Answered {
            number,
            reply: 0,
            serial: 0,
            place: 0,
            digits: 0,
            length: 0,
        }
    }

    fn event(&mut self, line: u8, kind: Kind) -> Answered {
        let (call, value): (fn(_, _, _, _, _, _, _) -> _, u8) = match kind {
            Kind::Byte(byte) => (boundary::byte, byte),
            Kind::Seconds(seconds) => (boundary::seconds, seconds),
        };
        let [journal, unfinished, frames] = self.lent;
        call(
            line,
            value,
            &mut self.book.numbers,
            &mut self.book.counts,
            &mut self.journal.inside_mut()[..journal],
            &mut self.unfinished.inside_mut()[..unfinished],
            &mut self.frames.inside_mut()[..frames],
        )
    }

    /// The text stands at an odd address between others, and is only read.
    fn start(&mut self, line: u8, text: &[u8]) -> Answered {
        let lent_text = Fenced::copy(text, 1, FENCE);
        let [journal, unfinished, frames] = self.lent;
        let answered = boundary::send(
            line,
            lent_text.inside(),
            &mut self.book.numbers,
            &self.journal.inside()[..journal],
            &mut self.unfinished.inside_mut()[..unfinished],
            &self.frames.inside()[..frames],
        );
        assert!(lent_text.inside() == text && lent_text.stands());
        answered
    }

    fn fetch(&mut self, line: u8, room: usize) {
        let lent = self.lent[Memory::Unfinished as usize];
        let mut out = Fenced::new(room, BLANK, 1 + room % 7, FENCE);
        let made = boundary::outgoing(
            line,
            &self.book.numbers,
            &self.unfinished.inside()[..lent],
            out.inside_mut(),
        );
        self.fetched = Fetched { made, out };
    }

    fn take(&mut self, line: u8, buffer: usize) -> Answered {
        self.buffer = Fenced::new(buffer, BLANK, 1 + buffer % 7, FENCE);
        let lent = self.lent[Memory::Journal as usize];
        boundary::take(
            line,
            &self.book.numbers,
            &mut self.book.counts,
            &mut self.journal.inside_mut()[..lent],
            self.buffer.inside_mut(),
        )
    }

    /// One number of a line.
    pub fn number(&mut self, line: u8, field: usize) -> &mut u16 {
        &mut self.book.numbers[FIELDS * usize::from(line) + field]
    }

    pub fn memory(&mut self, memory: Memory) -> &mut Fenced<u8> {
        match memory {
            Memory::Journal => &mut self.journal,
            Memory::Unfinished => &mut self.unfinished,
            Memory::Frames => &mut self.frames,
        }
    }

    /// Whether all that stands beside the memories, the numbers and the counts is untouched.
    pub fn fences_stand(&self) -> bool {
        self.book.before == [0xF00D; 4]
            && self.book.between == [0xF00D_F00D; 2]
            && self.book.behind == [0xF00D_F00D; 2]
            && self.journal.stands()
            && self.unfinished.stands()
            && self.frames.stands()
            && self.buffer.stands()
            && self.fetched.out.stands()
    }
}
