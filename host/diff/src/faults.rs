//! Faults put into what the library did, to see that the comparison finds them. Each is one that an
//! implementation might have; `--faults` tries all.

use crate::boundary::{self, Answered, Made};
use crate::layout::{
    COLLECTED, FIELDS, FRAME_PART, IN_USE, LINES, NEXT, NUMBERS, REFUSING, SECONDS, SERIAL, STATE,
    TEXT_LIMIT,
};
use crate::library::{Book, Library};
use crate::texts::Function;
use ngachodui_model::delimiters::exchanged;
use ngachodui_model::world::Op;
use ngachodui_model::Delimiters;

#[derive(Clone, Copy, PartialEq, Eq, Debug)]
pub enum Fault {
    RepeatToldAsAccepted,
    NoRoomAcknowledged,
    SerialNotAdvanced,
    NumberAdvancedOnNak,
    RefusalForgotten,
    EntryOnlyAcknowledged,
    TailClearedAfterTaking,
    RestOfBufferCleared,
    LengthInvented,
    SerialInvented,
    PlaceInvented,
    PlaceOneFurther,
    WrongRecordToldAs30,
    TextWrittenBy28,
    LastByteNotAdded,
    SecondsRestartedByEnq,
    OtherLineTouched,
    BrokenJournalEndsFrame,
    WrittenOnWrongSize,
    WrittenBesideTheJournal,
    OutputWrittenThoughShort,
    ShortBeforeMalformed,
    WrongRecordToldAs46,
    LastByteOfOutputWrong,
    LongMessageRefused,
    OwnerOfOIsAlwaysH,
    PlaceForgottenByReading,
    BadDelimitersToldAs50,
    BadDelimitersNotRefused,
    BadDelimitersToldAs50ByCutting,
    PlaceOfBadDelimitersForgotten,
    OnlyRecordBeforeItsDelimiters,
    LetterTakenAsDelimiter,
    ShortBeforeBadDelimiters,
    MalformedBeforeBadDelimiters,
    BadDelimitersWritten,
    PlaceInventedByEscaping,
    StandardTakenForGiven,
    RepeatTakenForComponent,
    ShortHeaderToldAs55,
    BarStillEndsAField,
    SeventhSend,
    EotAfterADrop,
    SendingToldAsNothing,
    TextOneByteLate,
    BytesBehindTheTextChanged,
    RefusedStartGetsNak,
    StartedWhileOpen,
    TextLookedAtBeforeTheState,
    SecondsCarriedOn,
    WaitOfAFrameGoesOn,
    PauseOf15Seconds,
    EnqHeardWhilePausing,
    EnqPausesLikeANak,
    SeventhRefusalWaitedFor,
    EotRefusesAFrame,
    SameNumberAgain,
    TriesLeftBehind,
    SpareNumberChanged,
    FetchingCountsAsASend,
    FrameWrittenThoughShort,
    NoFrameWrittenAsOne,
    RecordGoesOnWithEtx,
    FrameOfANumberTooFar,
    BrokenJournalForgetsTheBlock,
    SecondsCountedOnAReader,
    StxNotCollected,
    CrHeardBetweenBlocks,
    SecondStxBeginsAnew,
    BlockEndsAtLf,
    BlockLeftCollected,
    JoinedLeftBehindABlock,
    ReaderSetUpOtherwise,
    LastByteOfABlockNotAdded,
    RepeatDroppedWithoutSpm,
    SinceKeptByStoring,
    UnfinishedWrittenByABlock,
    KeptBlockOneByteOld,
    NumbersBehindTheBlockChanged,
    OtherLinesBlockChanged,
    FindingsLastByteWrong,
    SerialOfAReaderStands,
    StoredGetsAck,
    EmptyPatientRefused,
    RepeatStored,
    RepeatTakesTheMark,
    EndGetsMore,
    EndMarksSince,
    ColoursMarkSince,
    FirstRepGetsAReply,
    RepIsRepliedMore,
    SpmGetsRep,
    SpmForgotten,
    HeardToldAsNothing,
    NoRoomGetsMore,
    NoRoomIsAReply,
    NoRoomRefusesLater,
    KeptChangedBy31,
    TestBytesBeforeLength,
    ByteBeforeTestBytes,
    RefusedBlockGetsNothing,
    RefusedBlockIsNoReply,
    RefusedSpmMarksSince,
    TildeIsData,
    BlockAsLongAsAFrame,
    ThirdReplyTaken,
    LastLineNotSet,
    KeptBlocksOutliveABeginning,
    BadSettingsTaken,
    BadSettingsHalfTaken,
    StartedOnAReader,
    ReplyForgottenByFetching,
    RepFetchedAsMore,
    TestBytesOfAReplySwapped,
}

impl Fault {
    pub const ALL: [Fault; 114] = [
        Fault::RepeatToldAsAccepted,
        Fault::NoRoomAcknowledged,
        Fault::SerialNotAdvanced,
        Fault::NumberAdvancedOnNak,
        Fault::RefusalForgotten,
        Fault::EntryOnlyAcknowledged,
        Fault::TailClearedAfterTaking,
        Fault::RestOfBufferCleared,
        Fault::LengthInvented,
        Fault::SerialInvented,
        Fault::PlaceInvented,
        Fault::PlaceOneFurther,
        Fault::WrongRecordToldAs30,
        Fault::TextWrittenBy28,
        Fault::LastByteNotAdded,
        Fault::SecondsRestartedByEnq,
        Fault::OtherLineTouched,
        Fault::BrokenJournalEndsFrame,
        Fault::WrittenOnWrongSize,
        Fault::WrittenBesideTheJournal,
        Fault::OutputWrittenThoughShort,
        Fault::ShortBeforeMalformed,
        Fault::WrongRecordToldAs46,
        Fault::LastByteOfOutputWrong,
        Fault::LongMessageRefused,
        Fault::OwnerOfOIsAlwaysH,
        Fault::PlaceForgottenByReading,
        Fault::BadDelimitersToldAs50,
        Fault::BadDelimitersNotRefused,
        Fault::BadDelimitersToldAs50ByCutting,
        Fault::PlaceOfBadDelimitersForgotten,
        Fault::OnlyRecordBeforeItsDelimiters,
        Fault::LetterTakenAsDelimiter,
        Fault::ShortBeforeBadDelimiters,
        Fault::MalformedBeforeBadDelimiters,
        Fault::BadDelimitersWritten,
        Fault::PlaceInventedByEscaping,
        Fault::StandardTakenForGiven,
        Fault::RepeatTakenForComponent,
        Fault::ShortHeaderToldAs55,
        Fault::BarStillEndsAField,
        Fault::SeventhSend,
        Fault::EotAfterADrop,
        Fault::SendingToldAsNothing,
        Fault::TextOneByteLate,
        Fault::BytesBehindTheTextChanged,
        Fault::RefusedStartGetsNak,
        Fault::StartedWhileOpen,
        Fault::TextLookedAtBeforeTheState,
        Fault::SecondsCarriedOn,
        Fault::WaitOfAFrameGoesOn,
        Fault::PauseOf15Seconds,
        Fault::EnqHeardWhilePausing,
        Fault::EnqPausesLikeANak,
        Fault::SeventhRefusalWaitedFor,
        Fault::EotRefusesAFrame,
        Fault::SameNumberAgain,
        Fault::TriesLeftBehind,
        Fault::SpareNumberChanged,
        Fault::FetchingCountsAsASend,
        Fault::FrameWrittenThoughShort,
        Fault::NoFrameWrittenAsOne,
        Fault::RecordGoesOnWithEtx,
        Fault::FrameOfANumberTooFar,
        Fault::BrokenJournalForgetsTheBlock,
        Fault::SecondsCountedOnAReader,
        Fault::StxNotCollected,
        Fault::CrHeardBetweenBlocks,
        Fault::SecondStxBeginsAnew,
        Fault::BlockEndsAtLf,
        Fault::BlockLeftCollected,
        Fault::JoinedLeftBehindABlock,
        Fault::ReaderSetUpOtherwise,
        Fault::LastByteOfABlockNotAdded,
        Fault::RepeatDroppedWithoutSpm,
        Fault::SinceKeptByStoring,
        Fault::UnfinishedWrittenByABlock,
        Fault::KeptBlockOneByteOld,
        Fault::NumbersBehindTheBlockChanged,
        Fault::OtherLinesBlockChanged,
        Fault::FindingsLastByteWrong,
        Fault::SerialOfAReaderStands,
        Fault::StoredGetsAck,
        Fault::EmptyPatientRefused,
        Fault::RepeatStored,
        Fault::RepeatTakesTheMark,
        Fault::EndGetsMore,
        Fault::EndMarksSince,
        Fault::ColoursMarkSince,
        Fault::FirstRepGetsAReply,
        Fault::RepIsRepliedMore,
        Fault::SpmGetsRep,
        Fault::SpmForgotten,
        Fault::HeardToldAsNothing,
        Fault::NoRoomGetsMore,
        Fault::NoRoomIsAReply,
        Fault::NoRoomRefusesLater,
        Fault::KeptChangedBy31,
        Fault::TestBytesBeforeLength,
        Fault::ByteBeforeTestBytes,
        Fault::RefusedBlockGetsNothing,
        Fault::RefusedBlockIsNoReply,
        Fault::RefusedSpmMarksSince,
        Fault::TildeIsData,
        Fault::BlockAsLongAsAFrame,
        Fault::ThirdReplyTaken,
        Fault::LastLineNotSet,
        Fault::KeptBlocksOutliveABeginning,
        Fault::BadSettingsTaken,
        Fault::BadSettingsHalfTaken,
        Fault::StartedOnAReader,
        Fault::ReplyForgottenByFetching,
        Fault::RepFetchedAsMore,
        Fault::TestBytesOfAReplySwapped,
    ];

    /// An operation's answer, numbers and memories, as the fault leaves them; `before` are the numbers
    /// as they were.
    pub fn spoil(self, op: &Op, before: &Book, library: &mut Library, answer: &mut Answered) {
        let line = match *op {
            Op::Start { line, ref text } => {
                self.spoil_reader_start(line, before, answer);
                return self.spoil_start(line, &text.0, before, library, answer);
            }
            Op::Begin { ref settings } => {
                return self.spoil_begin(settings, before, library, answer)
            }
            Op::Event { line, kind } => {
                self.spoil_sending(line, kind, before, library, answer);
                self.spoil_reading(line, kind, before, library, answer);
                usize::from(line)
            }
            Op::Take { line, .. } => usize::from(line),
            _ => return,
        };
        let at = FIELDS * (line % LINES);
        let book = &mut library.book;
        match (self, answer.number) {
            (Fault::RepeatToldAsAccepted, 3) => answer.number = 2,
            (Fault::NoRoomAcknowledged, 31) => answer.reply = 0x06,
            (Fault::SerialNotAdvanced, 4) => {
                book.numbers[at + SERIAL] = before.numbers[at + SERIAL]
            }
            (Fault::NumberAdvancedOnNak, 23) => {
                book.numbers[at + NEXT] = (book.numbers[at + NEXT] + 1) % 8
            }
            (Fault::RefusalForgotten, 31) => book.numbers[at + REFUSING] = 0,
            (Fault::EntryOnlyAcknowledged, 4) => book.counts = before.counts,
            (Fault::TailClearedAfterTaking, 8) => {
                let end = book.counts[IN_USE] as usize;
                library.journal.inside_mut()[end] = 0;
            }
            (Fault::RestOfBufferCleared, 8) => {
                if let Some(byte) = library.buffer.inside_mut().get_mut(answer.length) {
                    *byte = 0;
                }
            }
            (Fault::LengthInvented, 8) => answer.length += 1,
            (Fault::SerialInvented, 8) => answer.serial = book.numbers[at + SERIAL],
            (Fault::PlaceInvented, 30) => answer.place = 1,
            (Fault::PlaceOneFurther, 50..=53) => answer.place += 1,
            (Fault::BadDelimitersToldAs50, 55) => answer.number = 50,
            (Fault::BadDelimitersNotRefused, 55) => book.numbers[at + REFUSING] = 0,
            (Fault::WrongRecordToldAs30, 53) => {
                answer.number = 30;
                answer.place = 0;
            }
            (Fault::TextWrittenBy28, 28) => {
                library.unfinished.inside_mut()[TEXT_LIMIT * line + TEXT_LIMIT - 1] ^= 1
            }
            (Fault::LastByteNotAdded, 22) => {
                let place = usize::from(before.numbers[at + COLLECTED]);
                library.frames.inside_mut()[FRAME_PART * line + place] ^= 1;
            }
            (Fault::SecondsRestartedByEnq, 20) => book.numbers[at + SECONDS] = 0,
            (Fault::OtherLineTouched, 1) => book.numbers[(at + FIELDS + SECONDS) % NUMBERS] ^= 1,
            (Fault::BrokenJournalEndsFrame, 43) => {
                if let Op::Event { .. } = op {
                    book.numbers[at + STATE] = 1;
                }
            }
            (Fault::WrittenOnWrongSize, 41) => library.frames.inside_mut()[0] ^= 1,
            (Fault::WrittenBesideTheJournal, 4) => {
                if let Some(byte) = library.journal.all_mut().last_mut() {
                    *byte ^= 1;
                }
            }
            _ => {}
        }
    }

    /// What a text function wrote, as the fault leaves it.
    pub fn spoil_output(self, function: Function, text: &[u8], made: &mut Made, out: &mut [u8]) {
        match (self, made.number) {
            (Fault::OutputWrittenThoughShort, 47) | (Fault::BadDelimitersWritten, 55) => {
                if let Some(byte) = out.first_mut() {
                    *byte = b'?';
                }
            }
            (Fault::WrongRecordToldAs46, 52) => {
                made.number = 46;
                made.place = 0;
            }
            _ => {}
        }
        match function {
            Function::Cut => self.spoil_cut(text, made, out),
            Function::Escape(four) => self.spoil_escape(four, text, made, out),
            Function::Unescape(four) => self.spoil_unescape(four, text, made, out),
        }
    }

    fn spoil_cut(self, text: &[u8], made: &mut Made, out: &mut [u8]) {
        match (self, made.number) {
            (Fault::LastByteOfOutputWrong, 0) => out[made.length - 1] ^= 1,
            (Fault::BadDelimitersToldAs50ByCutting, 55) => made.number = 50,
            // Four bytes are there, but not in the first record.
            (Fault::ShortHeaderToldAs55, 50) if text.len() >= 5 && text[0] == b'H' => {
                made.number = 55
            }
            (Fault::OnlyRecordBeforeItsDelimiters, 55) if is_one_record(text) => made.number = 52,
            _ => {}
        }
    }

    fn spoil_escape(self, four: Delimiters, text: &[u8], made: &mut Made, out: &mut [u8]) {
        match (self, made.number) {
            (Fault::ShortBeforeBadDelimiters, 55) if out.len() < text.len() => made.number = 47,
            (Fault::PlaceInventedByEscaping, 55) => made.place = 1,
            (Fault::StandardTakenForGiven, 0) => {
                *made = Function::Escape(Delimiters::STANDARD).library(text, out)
            }
            // A component that is right, as far as itself can tell.
            (Fault::RepeatTakenForComponent, 0) => {
                let around = four.escape;
                for start in 0..made.length.saturating_sub(2) {
                    match &mut out[start..start + 3] {
                        [before, letter @ b'R', behind] if [*before, *behind] == [around; 2] => {
                            *letter = b'S'
                        }
                        _ => {}
                    }
                }
            }
            _ => {}
        }
    }

    fn spoil_unescape(self, four: Delimiters, text: &[u8], made: &mut Made, out: &[u8]) {
        match (self, made.number) {
            (Fault::ShortBeforeMalformed, 46) if out.is_empty() => made.number = 47,
            (Fault::MalformedBeforeBadDelimiters, 55) if text.contains(&four.field) => {
                made.number = 46
            }
            _ => {}
        }
    }

    pub fn spoil_is_message(self, text: &[u8], found: &mut bool) {
        match self {
            Fault::LongMessageRefused if text.len() == TEXT_LIMIT => *found = false,
            Fault::LetterTakenAsDelimiter => *found |= is_message_but_for_letters(text),
            Fault::BarStillEndsAField => *found |= is_message_but_for_bars(text),
            _ => {}
        }
    }

    pub fn spoil_read(self, text: &[u8], made: &mut Made, types: &[u8], owners: &mut [u16]) {
        match (self, made.number) {
            (Fault::OwnerOfOIsAlwaysH, 0) => {
                for (kind, owner) in types.iter().zip(owners) {
                    if *kind == b'O' {
                        *owner = 1;
                    }
                }
            }
            (Fault::PlaceForgottenByReading, 54) => made.place = 0,
            (Fault::PlaceOfBadDelimitersForgotten, 55) => made.place = 0,
            (Fault::OnlyRecordBeforeItsDelimiters, 55) if is_one_record(text) => made.number = 52,
            _ => {}
        }
    }
}

fn is_one_record(text: &[u8]) -> bool {
    text.iter().filter(|&&byte| byte == b'\r').count() == 1
}

/// Whether a text is a message where `|` ends a field behind the header, whatever that names.
fn is_message_but_for_bars(text: &[u8]) -> bool {
    let mut text = text.to_vec();
    if text.len() >= 5 {
        let field = text[1];
        for byte in text[5..].iter_mut().filter(|byte| **byte == b'|') {
            *byte = field;
        }
    }
    boundary::is_message(&text)
}

/// Whether a text with a letter among its delimiters is a message once another byte, which it has not, stands
/// for that letter.
fn is_message_but_for_letters(text: &[u8]) -> bool {
    let four = match Delimiters::of(text) {
        Some(four) => four,
        None => return false,
    };
    let mut others = four.bytes();
    let mut unused = (0x21..=0x2F).filter(|byte| !text.contains(byte));
    for byte in others.iter_mut().filter(|byte| byte.is_ascii_alphabetic()) {
        match unused.next() {
            Some(other) => *byte = other,
            None => return false,
        }
    }
    // The letters of the types are exchanged too where one of them is a delimiter: then it is none.
    boundary::is_message(&exchanged(text, four, Delimiters::in_order(others)))
}
