//! The gateway as a whole: the order in which an event, a start, a fetched frame and a taking are tested,
//! the judging of a frame, and what each answer leaves.

use crate::answers::Answer;
use crate::frames::{after, take_apart, Frame};
use crate::journal::Ledger;
use crate::lines::{Kind, Line, State, Step, JOINED_LIMIT};
use crate::records::{last_record_begins_with, read};
use crate::sender;
use crate::texts::{CR, ENQ};
use crate::uploads::{settled, Reader};
use crate::{FRAMES, FRAME_PART, JOURNAL, LINES, UNFINISHED, UNFINISHED_PART};

/// How many numbers a host keeps for each line, and how many of them are spare.
pub const FIELDS: usize = 16;
pub const SPARE_FIELDS: usize = 2;

/// All that is kept between calls, beside the three memories that the caller lends.
#[derive(Clone, PartialEq, Eq, Debug)]
pub struct Model {
    pub lines: [Line; LINES],
    pub readers: [Reader; LINES],
    pub ledger: Ledger,
    /// Each line's spare numbers: 0 when fresh; no call looks at them or changes them.
    pub spare: [[u16; SPARE_FIELDS]; LINES],
}

impl Model {
    /// A gateway that nothing has happened to, whose lines all speak frames.
    pub fn fresh() -> Model {
        Model::of([0; LINES].map(Reader::fresh))
    }

    fn of(readers: [Reader; LINES]) -> Model {
        Model {
            lines: [Line::fresh(); LINES],
            readers,
            ledger: Ledger::fresh(),
            spare: [[0; SPARE_FIELDS]; LINES],
        }
    }

    /// Fresh again, each line speaking as it is set here: answer 0; or 42, and nothing is changed. [B12]
    pub fn begin(&mut self, settings: &[u16; LINES]) -> Answer {
        match settled(settings) {
            Ok(readers) => {
                *self = Model::of(readers);
                Answer::plain(0)
            }
            Err(number) => Answer::plain(number),
        }
    }

    /// A line's numbers, as hosts keep them. [H1, H2]
    pub fn numbers(&self, line: usize) -> [u16; FIELDS] {
        let record = &self.lines[line];
        let mut numbers = [0; FIELDS];
        numbers[0] = record.state as u16;
        numbers[1] = record.collected as u16;
        numbers[2] = record.joined as u16;
        numbers[3] = record.seconds as u16;
        numbers[4] = record.next.into();
        numbers[5] = record.last.map_or(0, |number| u16::from(number) + 1);
        numbers[6] = record.refusing.into();
        numbers[7] = self.ledger.serials[line];
        numbers[8] = record.tries as u16;
        numbers[9] = record.place as u16;
        let reader = &self.readers[line];
        numbers[10] = reader.speaks;
        numbers[11] = reader.reply;
        numbers[12] = reader.since;
        numbers[13] = reader.kept;
        numbers[FIELDS - SPARE_FIELDS..].copy_from_slice(&self.spare[line]);
        numbers
    }

    /// One byte, or seconds passed, on one line. [O3]
    pub fn event(
        &mut self,
        line: u8,
        kind: Kind,
        journal: &mut [u8],
        unfinished: &mut [u8],
        frames: &mut [u8],
    ) -> Answer {
        if let Some(number) = self.objection(line, journal, unfinished, frames) {
            return Answer::plain(number);
        }
        let line = usize::from(line);
        if let Some(patient) = self.readers[line].patient() {
            return self.upload(line, patient, kind, journal, frames);
        }
        match (self.lines[line].step(kind), kind) {
            (Step::Done(number), _) => Answer::plain(number),
            (Step::Send, _) => {
                let text = &unfinished[line * UNFINISHED_PART..][..self.lines[line].joined];
                sender::step(&mut self.lines[line], kind, text)
            }
            // What is left, a byte inside a frame: it stands behind the others.
            (Step::Collect, Kind::Byte(byte)) => {
                frames[line * FRAME_PART + self.lines[line].collected] = byte;
                self.lines[line].collected += 1;
                Answer::plain(0)
            }
            (Step::Judge, Kind::Byte(byte)) => self.judge(line, byte, journal, unfinished, frames),
            (Step::Collect, Kind::Seconds(_)) | (Step::Judge, Kind::Seconds(_)) => {
                unreachable!("only bytes are collected")
            }
        }
    }

    /// What an event and a start are tested for first, in this order: line, memories, record. No other
    /// line's record is looked at. [O3]
    fn objection(&self, line: u8, journal: &[u8], unfinished: &[u8], frames: &[u8]) -> Option<u8> {
        let line = usize::from(line);
        if line >= LINES {
            return Some(40);
        }
        if journal.len() != JOURNAL || unfinished.len() != UNFINISHED || frames.len() != FRAMES {
            return Some(41);
        }
        (!self.is_within_limits(line)).then_some(42)
    }

    /// Whether a line's numbers are those of a record. [E11, B12]
    pub fn is_within_limits(&self, line: usize) -> bool {
        let reader = &self.readers[line];
        reader.is_within_limits() && self.lines[line].is_within(reader.most_collected())
    }

    /// The start of a sending. It is an event of its line, and tested as one; then the line must speak frames
    /// and be neutral, and then the text a message. A refusal leaves everything, and sends nothing. [S1, O7]
    pub fn start(
        &mut self,
        line: u8,
        text: &[u8],
        journal: &[u8],
        unfinished: &mut [u8],
        frames: &[u8],
    ) -> Answer {
        if let Some(number) = self.objection(line, journal, unfinished, frames) {
            return Answer::plain(number);
        }
        let line = usize::from(line);
        let is_reader = self.readers[line].patient().is_some();
        if is_reader || self.lines[line].state != State::Neutral {
            return Answer::plain(60);
        }
        if let Err(refusal) = read(text) {
            return Answer::refused(refusal);
        }
        // What is left: the text at the start of the line's part, whose rest stays, and a record that asks.
        unfinished[line * UNFINISHED_PART..][..text.len()].copy_from_slice(text);
        self.lines[line] = sender::started(text.len());
        Answer::sending(Some(ENQ))
    }

    /// The frame that a line offers, or our last reply to its reader, written to the start of `out`, and how
    /// many bytes it has: 0 where there is none. It is tested for 40, 41 of the unfinished text, 42, 47; nothing else is looked at, and
    /// nothing but `out` is changed. [S2, O7]
    pub fn outgoing(&self, line: u8, unfinished: &[u8], out: &mut [u8]) -> Result<usize, u8> {
        let line = usize::from(line);
        if line >= LINES {
            return Err(40);
        }
        if unfinished.len() != UNFINISHED {
            return Err(41);
        }
        if !self.is_within_limits(line) {
            return Err(42);
        }
        let frame = match self.readers[line].patient() {
            Some(_) => self.readers[line].last_reply(),
            None => {
                let record = &self.lines[line];
                let text = &unfinished[line * UNFINISHED_PART..][..record.joined];
                sender::outgoing(record, text)
            }
        };
        if frame.len() > out.len() {
            return Err(47);
        }
        out[..frame.len()].copy_from_slice(&frame);
        Ok(frame.len())
    }

    /// The frame that ends with this byte: its answer, and what it leaves. [L7, L8, L10]
    fn judge(
        &mut self,
        line: usize,
        byte: u8,
        journal: &mut [u8],
        unfinished: &mut [u8],
        frames: &mut [u8],
    ) -> Answer {
        let record = self.lines[line];
        let part = &mut frames[line * FRAME_PART..(line + 1) * FRAME_PART];
        let area = &mut unfinished[line * UNFINISHED_PART..(line + 1) * UNFINISHED_PART];
        let mut bytes = part[..record.collected].to_vec();
        bytes.push(byte);

        // The order of judging: by the bytes alone, then by what the line has had.
        let frame = take_apart(&bytes);
        let answer = match &frame {
            Err(number) => Answer::plain(*number),
            Ok(frame) => self.weigh(line, frame, &area[..record.joined], journal),
        };
        let number = answer.number;

        // What is left after 43: all as it was, the line inside, one byte short.
        if number == 43 {
            return answer;
        }
        // What is left after any other: the frame's last byte, and a line that waits for the next one.
        part[record.collected] = byte;
        let left = &mut self.lines[line];
        left.collected = 0;
        left.seconds = 0;
        left.state = State::Waiting;

        let frame = match frame {
            Ok(frame) if matches!(number, 2 | 4 | 30 | 31 | 50..=53 | 55) => frame,
            _ => return answer,
        };
        // What is left of the text: it is written even where the message is refused, and counted only
        // where the message goes on.
        let joined = record.joined + frame.text.len();
        area[record.joined..joined].copy_from_slice(frame.text);
        left.joined = if number == 2 { joined } else { 0 };
        // What is left of the number: only an acknowledged frame moves it on; a refused message stops
        // the transfer.
        if number == 2 || number == 4 {
            left.last = Some(frame.number);
            left.next = after(left.next);
        } else {
            left.refusing = true;
        }
        // What is left in the journal: a message that is acknowledged.
        if number == 4 {
            self.ledger.store(journal, line, &area[..joined]);
        }
        answer
    }

    /// The answer of a frame that passed 21 to 25, with `before` as the line's joined text. [O4]
    fn weigh(&self, line: usize, frame: &Frame, before: &[u8], journal: &[u8]) -> Answer {
        let record = &self.lines[line];
        // 26: a message of this transfer was refused.
        if record.refusing {
            return Answer::plain(26);
        }
        // 3, the repeat: it is known by its number, whatever its text.
        if record.last == Some(frame.number) {
            return Answer::plain(3);
        }
        // 27: out of turn.
        if frame.number != record.next {
            return Answer::plain(27);
        }
        // 28: more text than a message can have.
        if before.len() + frame.text.len() > JOINED_LIMIT {
            return Answer::plain(28);
        }
        // The end of a message: it is never at ETB.
        if !frame.is_etx {
            return Answer::plain(2);
        }
        let joined = [before, frame.text].concat();
        // 29: at ETX a record must end.
        if joined.last() != Some(&CR) {
            return Answer::plain(29);
        }
        // The end of a message: by the first byte of its last record.
        if last_record_begins_with(&joined) != Some(b'L') {
            return Answer::plain(2);
        }
        self.decide(line, &joined, journal)
    }

    /// The answer to a complete text: what is wrong with it comes before any look at the journal.
    /// [O4, A30]
    fn decide(&self, line: usize, text: &[u8], journal: &[u8]) -> Answer {
        match read(text) {
            // 30: a byte that is not allowed. No frame brings one, but lent memory may hold it.
            Err(refusal) if refusal.number == 46 => return Answer::plain(30),
            // 50 to 53, 55: a record that is wrong.
            Err(refusal) => return Answer::faulty(refusal.number, refusal.place),
            Ok(_) => {}
        }
        // 43: only a message that asks for room finds out.
        if self.ledger.is_broken(journal) {
            return Answer::plain(43);
        }
        // 31: decided by the shares.
        if !self.ledger.has_room(line, text.len()) {
            return Answer::plain(31);
        }
        Answer::plain(4)
    }

    /// A taking, with any buffer. Of the memories only the journal is lent to it. [O5, L12]
    pub fn take(&mut self, line: u8, journal: &mut [u8], buffer: &mut [u8]) -> Answer {
        // The order of a taking's tests: line, journal's size, chain, entry, buffer.
        let line = usize::from(line);
        if line >= LINES {
            return Answer::plain(40);
        }
        if journal.len() != JOURNAL {
            return Answer::plain(41);
        }
        if self.ledger.is_broken(journal) {
            return Answer::plain(43);
        }
        let entry = match self.ledger.oldest(journal, line) {
            None => return Answer::plain(44),
            Some(entry) => entry,
        };
        if buffer.len() < entry.length {
            return Answer::plain(45);
        }
        // What is left in the buffer: the text, and behind it what stood there.
        let text = &journal[entry.end() - entry.length..entry.end()];
        buffer[..entry.length].copy_from_slice(text);
        self.ledger.remove(journal, entry);
        Answer::taken(entry.length, entry.serial)
    }
}
