//! A line that speaks with a strip reader: its bytes, what a judged block leaves, and our replies.
//!
//! Such a line is neutral between blocks. A block is collected from its STX on, STX too, and judged at its
//! first CR or at as many bytes as an E block has. [B6]

use crate::answers::Answer;
use crate::blocks::{control, judge, message, Block, Patient, LONGEST, MOR, REP};
use crate::lines::{Kind, Line, State, COLLECTED_LIMIT};
use crate::model::Model;
use crate::texts::{CR, STX};
use crate::{FRAME_PART, LINES};

/// What a line speaks, by the number that a host sets at the start. [B1]
#[derive(Clone, Copy, PartialEq, Eq, Debug)]
pub enum Speaks {
    Frames,
    Blocks(Patient),
}

impl Speaks {
    /// 0, 10 or 13; none for any other number.
    pub fn of(number: u16) -> Option<Speaks> {
        match number {
            0 => Some(Speaks::Frames),
            10 => Some(Speaks::Blocks(Patient::Ten)),
            13 => Some(Speaks::Blocks(Patient::Thirteen)),
            _ => None,
        }
    }
}

/// What our last reply was, by number.
pub const NO_REPLY: u16 = 0;
pub const MORE: u16 = 1;
pub const AGAIN: u16 = 2;

/// What a host keeps of a line's reader besides the record, number by number: each may be set to anything.
#[derive(Clone, PartialEq, Eq, Debug)]
pub struct Reader {
    /// What the line speaks.
    pub speaks: u16,
    /// Our last reply: none, MOR or REP.
    pub reply: u16,
    /// 1: an SPM or REP of the reader came since the last stored block.
    pub since: u16,
    /// 1: a block was stored.
    pub kept: u16,
    /// That block, a byte to a number. Nothing is asked of these: they are compared as they are.
    pub block: [u16; LONGEST],
}

impl Reader {
    pub fn fresh(speaks: u16) -> Reader {
        Reader {
            speaks,
            reply: NO_REPLY,
            since: 0,
            kept: 0,
            block: [0; LONGEST],
        }
    }

    /// The reader's patient numbers, where the line speaks with one.
    pub fn patient(&self) -> Option<Patient> {
        match Speaks::of(self.speaks) {
            Some(Speaks::Blocks(patient)) => Some(patient),
            _ => None,
        }
    }

    /// The most bytes that the line's record may have collected: one fewer than it judges. [B12]
    pub fn most_collected(&self) -> usize {
        match self.patient() {
            Some(patient) => patient.results_length() - 1,
            None => COLLECTED_LIMIT,
        }
    }

    /// Whether these are numbers of a line: on a line of frames only what it speaks is looked at. [B12, H3]
    pub fn is_within_limits(&self) -> bool {
        match Speaks::of(self.speaks) {
            None => false,
            Some(Speaks::Frames) => true,
            Some(Speaks::Blocks(_)) => self.reply <= AGAIN && self.since <= 1 && self.kept <= 1,
        }
    }

    /// The last reply once more, byte for byte; empty where there was none. [B11]
    pub fn last_reply(&self) -> Vec<u8> {
        match self.reply {
            NO_REPLY => Vec::new(),
            MORE => control(MOR).to_vec(),
            _ => control(REP).to_vec(),
        }
    }

    /// Whether a block is the last stored one, byte for byte from STX to CR, with an SPM or REP of the
    /// reader since. [B10]
    fn repeats(&self, block: &[u8]) -> bool {
        let mut both = self.block.iter().zip(block);
        self.kept == 1 && self.since == 1 && both.all(|(&was, &is)| was == u16::from(is))
    }
}

/// What a line speaks at the start, for each of the eight; 42 where one of the numbers is none. [B12]
pub fn settled(settings: &[u16; LINES]) -> Result<[Reader; LINES], u8> {
    if settings.iter().any(|&number| Speaks::of(number).is_none()) {
        return Err(42);
    }
    Ok(settings.map(Reader::fresh))
}

impl Model {
    /// One event on a reader's line, once 40, 41 and 42 are past. [B6]
    pub(crate) fn upload(
        &mut self,
        line: usize,
        patient: Patient,
        kind: Kind,
        journal: &mut [u8],
        frames: &mut [u8],
    ) -> Answer {
        let byte = match kind {
            Kind::Byte(byte) => byte,
            // Seconds are for nothing here.
            Kind::Seconds(_) => return Answer::plain(0),
        };
        let record = self.lines[line];
        // Any state but inside is a line between blocks: no run leaves another, and only STX is heard.
        if record.state != State::Inside && byte != STX {
            return Answer::plain(0);
        }
        let part = &mut frames[line * FRAME_PART..(line + 1) * FRAME_PART];
        let mut block = part[..record.collected].to_vec();
        block.push(byte);
        if byte != CR && block.len() < patient.results_length() {
            part[record.collected] = byte;
            self.lines[line] = Line {
                collected: block.len(),
                ..between(record, State::Inside)
            };
            return Answer::plain(0);
        }
        let answer = self.judge_block(line, patient, &block, journal);
        // 43 leaves everything; any other the last byte, and a line between blocks. [B7]
        if answer.number != 43 {
            part[record.collected] = byte;
            self.lines[line] = Line {
                collected: 0,
                joined: 0,
                seconds: 0,
                ..between(record, State::Neutral)
            };
        }
        answer
    }

    /// The answer to a block, and what it leaves of the reader and in the journal. [B7, B9, B10, B11]
    fn judge_block(
        &mut self,
        line: usize,
        patient: Patient,
        block: &[u8],
        journal: &mut [u8],
    ) -> Answer {
        let reader = &mut self.readers[line];
        let kind = match judge(patient, block) {
            Ok(kind) => kind,
            Err(number) => {
                reader.reply = AGAIN;
                return Answer::replied(number, true);
            }
        };
        match kind {
            Block::Begin => {
                reader.since = 1;
                reader.reply = MORE;
                Answer::replied(11, true)
            }
            // Our last reply once more, which it stays.
            Block::Again => {
                reader.since = 1;
                Answer::replied(11, reader.reply != NO_REPLY)
            }
            Block::End => Answer::replied(11, false),
            Block::Colours => {
                reader.reply = MORE;
                Answer::replied(11, true)
            }
            // A repeat asks nothing of the journal.
            Block::Finding if reader.repeats(block) => {
                reader.reply = MORE;
                Answer::replied(11, true)
            }
            Block::Finding => self.file(line, patient, block, journal),
        }
    }

    /// A finding that is no repeat: stored if there is room. [B9]
    fn file(&mut self, line: usize, patient: Patient, block: &[u8], journal: &mut [u8]) -> Answer {
        if self.ledger.is_broken(journal) {
            return Answer::plain(43);
        }
        let text = message(patient, block);
        if !self.ledger.has_room(line, text.len()) {
            // Nobody is told, and what comes later may find room.
            return Answer::replied(31, false);
        }
        self.ledger.store(journal, line, &text);
        let reader = &mut self.readers[line];
        for (kept, &byte) in reader.block.iter_mut().zip(block) {
            *kept = u16::from(byte);
        }
        reader.kept = 1;
        reader.since = 0;
        reader.reply = MORE;
        Answer::replied(4, true)
    }
}

/// The record in another state: what belongs to a sending goes, should it ever have been there.
fn between(record: Line, state: State) -> Line {
    Line {
        state,
        tries: 0,
        place: 0,
        ..record
    }
}
