//! A gateway run by hand: each answer is shown with its line's record and the ledger before and
//! after, and a digest of each memory.
//!
//!     = TITLE             a fresh gateway, memory of the right sizes, all bytes 0;   # TEXT   nothing
//!     B L HEX, A L N      bytes that come on line L; the byte 41 N times
//!     M L TEXT            ENQ, TEXT (`script::spelt`) in one frame with ETX, and EOT come on line L
//!     S L N, T L N        N seconds on line L; a taking from it with a buffer of N bytes
//!     C L NNN HEX         no event: the text that the digits spell (- spells none) is cut into a
//!                         buffer of NNN bytes
//!
//! and for states that no run leaves:
//!
//!     J 0 N, K 0 N, L 0 N    how many bytes of the journal, the unfinished text, the frames are lent
//!     P D N, p D N           D is added to the byte N of the journal, of the unfinished text
//!     I 0 N                  N bytes are in use
//!     U L N, Z L N           line L's used count, its next serial
//!     l L N                  line L as an accepted frame N leaves it
//!     c, j, s, n, r          its collected, joined and second count, next number, refusing

use crate::boundary::{self, Answered};
use crate::frames::{frame, next_number, ENQ, EOT, ETX};
use crate::layout::*;
use crate::library::{numbered, Gateway, Memory};
use crate::script::{decimal, each_step, hex, spelt, unknown, Step};
use crate::shown::{digest, record};

/// Each memory has so much more than its right size, and can be lent too long.
const SPARE: usize = 1;

/// The buffer of takings and cuttings.
const BUFFER: usize = TEXT_LIMIT + 100;

/// What the script's ledger can have, far over all that a journal has.
const MOST: usize = 999_999;

/// A gateway, its buffer, and how many answers 0 are not shown yet.
struct Run {
    gateway: Gateway,
    buffer: Vec<u8>,
    quiet: u64,
}

/// Runs a script.
pub fn run(script: &str) -> Result<bool, String> {
    let renew = |run: &mut Run| *run = Run::fresh();
    each_step(script, &mut Run::fresh(), renew, Run::step)?;
    Ok(true)
}

fn memory(size: usize) -> Memory {
    Memory {
        bytes: vec![0; size + SPARE],
        lent: size,
    }
}

impl Run {
    fn fresh() -> Run {
        Run {
            gateway: Gateway::fresh(
                memory(JOURNAL_SIZE),
                memory(UNFINISHED_SIZE),
                memory(FRAMES_SIZE),
            ),
            buffer: vec![0; BUFFER],
            quiet: 0,
        }
    }

    fn step(&mut self, step: &Step) -> Result<(), String> {
        let line = step.digit;
        match step.letter {
            'B' => self.feed(line, &hex(step.words()?)?),
            'A' => self.feed(line, &vec![b'A'; step.number(MOST)?]),
            'M' => {
                let frame = frame(b'1', &spelt(step.words()?)?, ETX);
                self.feed(line, &[&[ENQ], &frame[..], &[EOT]].concat());
            }
            'S' => self.pass(line, step.number(255)? as u8),
            'T' => self.take(line, step.number(BUFFER)?),
            'C' => self.cut(line, step.words()?)?,
            _ => {
                self.set(step)?;
                println!("{}", step.text);
            }
        }
        Ok(())
    }

    fn feed(&mut self, line: u8, bytes: &[u8]) {
        for &byte in bytes {
            let before = self.side(line);
            let answer = self.gateway.byte(line, byte);
            if answer.number == 0 {
                self.quiet += 1;
            } else {
                self.show(line, &told(answer), &before);
            }
        }
    }

    fn pass(&mut self, line: u8, seconds: u8) {
        let before = self.side(line);
        let answer = self.gateway.seconds(line, seconds);
        self.show(line, &told(answer), &before);
    }

    fn take(&mut self, line: u8, length: usize) {
        let before = self.side(line);
        let answer = self.gateway.take(line, &mut self.buffer[..length]);
        self.show(line, &told(answer), &before);
        println!("  buffer {}", digest(&self.buffer));
    }

    /// A cutting names no line: the record of one is shown, and stays.
    fn cut(&mut self, line: u8, words: &str) -> Result<(), String> {
        let (length, text) = match words.split_once(' ') {
            Some((length, "-")) => (length, Vec::new()),
            Some((length, digits)) => (length, hex(digits)?),
            None => return Err("a cutting without a text".to_string()),
        };
        let length = decimal(length, BUFFER)?;
        let before = self.side(line);
        let made = boundary::cut(&text, &mut self.buffer[..length]);
        let outcome = match made.number {
            0 => format!("cut {}", made.length),
            number => format!("{} --", numbered(number, made.place)),
        };
        self.show(line, &outcome, &before);
        println!("  buffer {}", digest(&self.buffer));
        Ok(())
    }

    /// A state set by hand.
    fn set(&mut self, step: &Step) -> Result<(), String> {
        let gateway = &mut self.gateway;
        match step.letter {
            'J' => gateway.journal.lent = step.plain_number(JOURNAL_SIZE + SPARE)?,
            'K' => gateway.unfinished.lent = step.plain_number(UNFINISHED_SIZE + SPARE)?,
            'L' => gateway.frames.lent = step.plain_number(FRAMES_SIZE + SPARE)?,
            'P' => gateway.journal.add(step.number(JOURNAL_SIZE)?, step.digit),
            'p' => gateway
                .unfinished
                .add(step.number(UNFINISHED_SIZE)?, step.digit),
            'I' => gateway.counts[IN_USE] = step.plain_number(MOST)? as u32,
            'U' => gateway.counts[step.line()?] = step.number(MOST)? as u32,
            'l' => {
                let (line, number) = (step.line()?, step.number(255)? as u8);
                *gateway.number(line, STATE) = 1;
                *gateway.number(line, COLLECTED) = 0;
                *gateway.number(line, SECONDS) = 0;
                *gateway.number(line, NEXT) = u16::from(next_number(number));
                *gateway.number(line, LAST) = u16::from(number) + 1;
            }
            letter => {
                let (field, most) = field(letter)?;
                *gateway.number(step.line()?, field) = step.number(most)? as u16;
            }
        }
        Ok(())
    }

    /// An outcome, behind how many answers 0, with both sides of it.
    fn show(&mut self, line: u8, outcome: &str, before: &str) {
        println!(
            "x{} {}: {} <{} >{} | {} {} {}",
            self.quiet,
            line,
            outcome,
            before,
            self.side(line),
            digest(&self.gateway.journal.bytes),
            digest(&self.gateway.unfinished.bytes),
            digest(&self.gateway.frames.bytes)
        );
        self.quiet = 0;
    }

    /// The line's record with its used count and next serial, and the bytes in use.
    fn side(&self, line: u8) -> String {
        let in_use = self.gateway.in_use();
        match self.gateway.count(line) {
            Some((used, serial)) => {
                let record = record(self.gateway.line(usize::from(line)));
                format!(" {} {} {} {}", record, used, serial, in_use)
            }
            None => format!(" {}", in_use),
        }
    }
}

/// Which number of a line a letter sets, and the most that the script may say.
fn field(letter: char) -> Result<(usize, usize), String> {
    match letter {
        'c' => Ok((COLLECTED, 65_535)),
        'j' => Ok((JOINED, 65_535)),
        's' => Ok((SECONDS, 255)),
        'n' => Ok((NEXT, 255)),
        'r' => Ok((REFUSING, 1)),
        'Z' => Ok((SERIAL, 65_535)),
        _ => unknown(letter),
    }
}

/// The number, the place of the wrong record, the reply byte, the text's length and the serial; places,
/// lengths and serials where there are any.
fn told(answer: Answered) -> String {
    let number = numbered(answer.number, answer.place);
    let reply = match answer.reply {
        0 => "--".to_string(),
        byte => format!("{:02x}", byte),
    };
    match (answer.length, answer.serial) {
        (0, 0) => format!("{} {}", number, reply),
        (length, serial) => format!("{} {} {} {}", number, reply, length, serial),
    }
}
