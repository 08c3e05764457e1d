//! Faults of strip readers' lines, as a library might have them.

use crate::boundary::Answered;
use crate::faults::Fault;
use crate::layout::{
    BLOCKS, BLOCK_LIMIT, COLLECTED, FIELDS, FRAME_PART, IN_USE, JOINED, LINES, REFUSING, REPLY,
    SECONDS, SERIAL, SINCE, SPEAKS, STATE, TEXT_LIMIT,
};
use crate::library::{Book, Library};
use ngachodui_model::blocks::{self, Block, Patient, END, REP, SPM};
use ngachodui_model::lines::{Kind, State};
use ngachodui_model::texts::{CR, LF, STX};
use ngachodui_model::uploads::{Speaks, AGAIN, MORE};

const INSIDE: u16 = State::Inside as u16;

/// What came on a reader's line: its numbers before, the byte, and the block up to it.
struct Seen {
    line: usize,
    patient: Patient,
    before: [u16; FIELDS],
    byte: Option<u8>,
    block: Vec<u8>,
    /// The last stored block as it was.
    kept: Vec<u16>,
}

impl Seen {
    /// Where the line's numbers start, and those of its block.
    fn at(&self) -> usize {
        FIELDS * self.line
    }

    fn block_at(&self) -> usize {
        BLOCKS + BLOCK_LIMIT * self.line
    }

    fn code(&self) -> u8 {
        self.block.get(1).copied().unwrap_or(0)
    }

    fn is_finding(&self) -> bool {
        self.block.len() == self.patient.results_length()
    }

    fn is_kept(&self) -> bool {
        let mut both = self.kept.iter().zip(&self.block);
        self.is_finding() && both.all(|(&was, &is)| was == u16::from(is))
    }

    fn was_inside(&self) -> bool {
        self.before[STATE] == INSIDE
    }

    /// Whether the block would be a finding with this byte in the place of that one.
    fn would_be_with(&self, from: u8, to: u8) -> bool {
        let mut block = self.block.clone();
        for byte in block.iter_mut().filter(|byte| **byte == from) {
            *byte = to;
        }
        if block.len() < 4 || block == self.block {
            return false;
        }
        blocks::mend(&mut block);
        blocks::judge(self.patient, &block) == Ok(Block::Finding)
    }
}

/// What came, where the line has a reader.
fn seen(line: u8, kind: Kind, before: &Book, library: &Library) -> Option<Seen> {
    let line = usize::from(line);
    if line >= LINES {
        return None;
    }
    let mut numbers = [0; FIELDS];
    numbers.copy_from_slice(&before.numbers[FIELDS * line..][..FIELDS]);
    let patient = match Speaks::of(numbers[SPEAKS]) {
        Some(Speaks::Blocks(patient)) => patient,
        _ => return None,
    };
    let collected = usize::from(numbers[COLLECTED]);
    let part = &library.frames.inside()[FRAME_PART * line..][..FRAME_PART];
    let byte = match kind {
        Kind::Byte(byte) => Some(byte),
        Kind::Seconds(_) => None,
    };
    Some(Seen {
        line,
        patient,
        before: numbers,
        byte,
        block: part[..FRAME_PART.min(collected + 1)].to_vec(),
        kept: before.numbers[BLOCKS + BLOCK_LIMIT * line..][..BLOCK_LIMIT].to_vec(),
    })
}

impl Fault {
    /// What an event on a reader's line was answered and what it left, as the fault leaves them.
    pub fn spoil_reading(
        self,
        line: u8,
        kind: Kind,
        before: &Book,
        library: &mut Library,
        answer: &mut Answered,
    ) {
        let seen = match seen(line, kind, before, library) {
            Some(seen) => seen,
            None => return,
        };
        match answer.number {
            0 => self.spoil_collected(&seen, library, answer),
            4 => self.spoil_stored(&seen, before, library, answer),
            11 => self.spoil_heard(&seen, library, answer),
            31 => self.spoil_crowded(&seen, library, answer),
            42 => self.spoil_beyond(&seen, answer),
            43 => {
                if self == Fault::BrokenJournalForgetsTheBlock {
                    let left = &mut library.book.numbers[seen.at()..][..FIELDS];
                    left[COLLECTED] = 0;
                    left[STATE] = 0;
                }
            }
            70..=72 => self.spoil_refused(&seen, library, answer),
            _ => {}
        }
        if matches!(answer.number, 4 | 11 | 31 | 70..=72) {
            self.spoil_judged(&seen, library);
        }
    }

    /// A byte that was ignored or collected, or seconds.
    fn spoil_collected(self, seen: &Seen, library: &mut Library, answer: &mut Answered) {
        let left = &mut library.book.numbers[seen.at()..][..FIELDS];
        match (self, seen.byte) {
            (Fault::SecondsCountedOnAReader, None) if seen.was_inside() => left[SECONDS] ^= 1,
            (Fault::StxNotCollected, Some(STX)) if !seen.was_inside() => left[COLLECTED] -= 1,
            (Fault::CrHeardBetweenBlocks, Some(CR)) if !seen.was_inside() => answer.number = 70,
            (Fault::SecondStxBeginsAnew, Some(STX)) if seen.was_inside() => left[COLLECTED] = 1,
            (Fault::BlockEndsAtLf, Some(LF)) if seen.was_inside() => answer.number = 70,
            _ => {}
        }
    }

    /// Any block that was judged.
    fn spoil_judged(self, seen: &Seen, library: &mut Library) {
        let left = &mut library.book.numbers[seen.at()..][..FIELDS];
        match self {
            Fault::BlockLeftCollected => left[COLLECTED] = seen.before[COLLECTED],
            Fault::JoinedLeftBehindABlock => left[JOINED] = seen.before[JOINED],
            Fault::ReaderSetUpOtherwise => left[SPEAKS] = 23 - left[SPEAKS],
            Fault::LastByteOfABlockNotAdded => {
                let place = FRAME_PART * seen.line + usize::from(seen.before[COLLECTED]);
                library.frames.inside_mut()[place] ^= 1;
            }
            _ => {}
        }
    }

    /// A finding that was stored.
    fn spoil_stored(
        self,
        seen: &Seen,
        before: &Book,
        library: &mut Library,
        answer: &mut Answered,
    ) {
        let book = &mut library.book;
        let at = seen.at();
        let block_at = seen.block_at();
        match self {
            Fault::RepeatDroppedWithoutSpm if seen.is_kept() => answer.number = 11,
            Fault::SinceKeptByStoring => book.numbers[at + SINCE] = seen.before[SINCE],
            Fault::UnfinishedWrittenByABlock => {
                library.unfinished.inside_mut()[TEXT_LIMIT * seen.line] ^= 1
            }
            Fault::KeptBlockOneByteOld => {
                let place = seen.block.len() - 3;
                book.numbers[block_at + place] = before.numbers[block_at + place];
            }
            Fault::NumbersBehindTheBlockChanged if seen.patient == Patient::Ten => {
                book.numbers[block_at + BLOCK_LIMIT - 1] ^= 1
            }
            Fault::OtherLinesBlockChanged => {
                let other = BLOCKS + BLOCK_LIMIT * ((seen.line + 1) % LINES);
                book.numbers[other] ^= 1;
            }
            Fault::FindingsLastByteWrong => {
                let end = book.counts[IN_USE] as usize;
                library.journal.inside_mut()[end - 1] ^= 1;
            }
            Fault::SerialOfAReaderStands => book.numbers[at + SERIAL] = seen.before[SERIAL],
            Fault::StoredGetsAck => answer.reply = 0x06,
            Fault::EmptyPatientRefused if seen.block[4..14].iter().all(|&byte| byte == b' ') => {
                answer.number = 72
            }
            _ => {}
        }
    }

    /// A right block that was not for storing.
    fn spoil_heard(self, seen: &Seen, library: &mut Library, answer: &mut Answered) {
        let left = &mut library.book.numbers[seen.at()..][..FIELDS];
        let is_control = seen.block.len() == blocks::CONTROL;
        match (self, seen.code()) {
            (Fault::RepeatStored, _) if seen.is_finding() => answer.number = 4,
            (Fault::RepeatTakesTheMark, _) if seen.is_finding() => left[SINCE] = 0,
            (Fault::EndGetsMore, END) if is_control => answer.reply = STX,
            (Fault::EndMarksSince, END) if is_control => left[SINCE] = 1,
            (Fault::ColoursMarkSince, blocks::SPE) if !seen.is_finding() => left[SINCE] = 1,
            (Fault::FirstRepGetsAReply, REP) if is_control && answer.reply == 0 => {
                answer.reply = STX
            }
            (Fault::RepIsRepliedMore, REP) if is_control && left[REPLY] == AGAIN => {
                left[REPLY] = MORE
            }
            (Fault::SpmGetsRep, SPM) if is_control => left[REPLY] = AGAIN,
            (Fault::SpmForgotten, SPM) if is_control => left[SINCE] = seen.before[SINCE],
            (Fault::HeardToldAsNothing, END) if is_control => answer.number = 0,
            _ => {}
        }
    }

    /// A finding without room.
    fn spoil_crowded(self, seen: &Seen, library: &mut Library, answer: &mut Answered) {
        let numbers = &mut library.book.numbers;
        match self {
            Fault::NoRoomGetsMore => answer.reply = STX,
            Fault::NoRoomIsAReply => numbers[seen.at() + REPLY] = MORE,
            Fault::NoRoomRefusesLater => numbers[seen.at() + REFUSING] = 1,
            Fault::KeptChangedBy31 => {
                for (number, &byte) in numbers[seen.block_at()..].iter_mut().zip(&seen.block) {
                    *number = byte.into();
                }
            }
            _ => {}
        }
    }

    /// A block that is none.
    fn spoil_refused(self, seen: &Seen, library: &mut Library, answer: &mut Answered) {
        let left = &mut library.book.numbers[seen.at()..][..FIELDS];
        match (self, answer.number) {
            (Fault::TestBytesBeforeLength, 70) => answer.number = 71,
            (Fault::ByteBeforeTestBytes, 71) => answer.number = 72,
            (Fault::RefusedBlockGetsNothing, _) => answer.reply = 0,
            (Fault::RefusedBlockIsNoReply, _) => left[REPLY] = seen.before[REPLY],
            (Fault::RefusedSpmMarksSince, 71) if seen.block.len() == 6 => left[SINCE] = 1,
            (Fault::TildeIsData, 72) if seen.would_be_with(0x7E, 0x7D) => answer.number = 4,
            _ => {}
        }
    }

    /// Numbers that are no record.
    fn spoil_beyond(self, seen: &Seen, answer: &mut Answered) {
        let collected = usize::from(seen.before[COLLECTED]);
        let is_past = collected >= seen.patient.results_length() && collected < FRAME_PART;
        match self {
            Fault::BlockAsLongAsAFrame if is_past => answer.number = 0,
            Fault::ThirdReplyTaken if seen.before[REPLY] == 3 => answer.number = 0,
            _ => {}
        }
    }

    /// A beginning, as the fault leaves it.
    pub fn spoil_begin(
        self,
        settings: &[u16; LINES],
        before: &Book,
        library: &mut Library,
        answer: &mut Answered,
    ) {
        let numbers = &mut library.book.numbers;
        match (self, answer.number) {
            (Fault::LastLineNotSet, 0) => numbers[FIELDS * (LINES - 1) + SPEAKS] = 0,
            (Fault::KeptBlocksOutliveABeginning, 0) => {
                numbers[BLOCKS..].copy_from_slice(&before.numbers[BLOCKS..])
            }
            (Fault::BadSettingsTaken, 42) => answer.number = 0,
            (Fault::BadSettingsHalfTaken, 42) => numbers[SPEAKS] = settings[0],
            _ => {}
        }
    }

    /// A start on a reader's line.
    pub fn spoil_reader_start(self, line: u8, before: &Book, answer: &mut Answered) {
        let numbers = &before.numbers[FIELDS * (usize::from(line) % LINES)..][..FIELDS];
        if self == Fault::StartedOnAReader && answer.number == 60 && numbers[SPEAKS] != 0 {
            answer.number = 9;
        }
    }

    /// Our reply that was fetched.
    pub fn spoil_reader_reply(self, line: usize, library: &mut Library) {
        let at = FIELDS * line;
        if library.book.numbers[at + SPEAKS] == 0 || library.fetched.made.length == 0 {
            return;
        }
        let out = library.fetched.out.inside_mut();
        match self {
            Fault::ReplyForgottenByFetching => library.book.numbers[at + REPLY] = 0,
            Fault::RepFetchedAsMore => out[1] = blocks::MOR,
            Fault::TestBytesOfAReplySwapped => out.swap(3, 4),
            _ => {}
        }
    }
}
