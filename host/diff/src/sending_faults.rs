//! Faults of a sending, as a library might have them.

use crate::boundary::{self, Answered};
use crate::faults::Fault;
use crate::layout::{FIELDS, LINES, NEXT, PLACE, SECONDS, SPARE, STATE, TEXT_LIMIT, TRIES};
use crate::library::{Book, Library};
use ngachodui_model::lines::{Kind, State};
use ngachodui_model::texts::{ACK, ENQ, EOT, ETB, ETX, NAK, STX};
use ngachodui_model::world::Op;

const ASKING: u16 = State::Asking as u16;
const PAUSING: u16 = State::Pausing as u16;
const OFFERING: u16 = State::Offering as u16;

/// One line's numbers.
type Numbers = [u16; FIELDS];

fn numbers_of(book: &Book, line: usize) -> Numbers {
    let mut numbers = [0; FIELDS];
    numbers.copy_from_slice(&book.numbers[FIELDS * line..][..FIELDS]);
    numbers
}

impl Fault {
    /// What a start was answered and what it left, as the fault leaves them.
    pub fn spoil_start(
        self,
        line: u8,
        text: &[u8],
        before: &Book,
        library: &mut Library,
        answer: &mut Answered,
    ) {
        let line = usize::from(line);
        let place = TEXT_LIMIT * (line % LINES);
        let unfinished = library.unfinished.inside_mut();
        match (self, answer.number) {
            (Fault::TextOneByteLate, 9) if text.len() < TEXT_LIMIT => {
                unfinished[place + 1..][..text.len()].copy_from_slice(text)
            }
            (Fault::BytesBehindTheTextChanged, 9) if text.len() < TEXT_LIMIT => {
                unfinished[place + text.len()] ^= 1
            }
            (Fault::RefusedStartGetsNak, 50..=55) => answer.reply = NAK,
            (Fault::StartedWhileOpen, 60) if numbers_of(before, line)[STATE] == 1 => {
                answer.number = 9;
                answer.reply = ENQ;
            }
            (Fault::TextLookedAtBeforeTheState, 60) if !boundary::is_message(text) => {
                answer.number = 46
            }
            _ => {}
        }
    }

    /// What an event of a sending was answered and what it left of the line's numbers, as the fault leaves
    /// them.
    pub fn spoil_sending(
        self,
        line: u8,
        kind: Kind,
        before: &Book,
        library: &mut Library,
        answer: &mut Answered,
    ) {
        let line = usize::from(line);
        if line >= LINES {
            return;
        }
        let before = numbers_of(before, line);
        let left = &mut library.book.numbers[FIELDS * line..][..FIELDS];
        match kind {
            Kind::Byte(byte) => self.spoil_reply(byte, before, left, answer),
            Kind::Seconds(seconds) => self.spoil_wait(u16::from(seconds), before, left, answer),
        }
        match (self, answer.number, answer.reply) {
            (Fault::EotAfterADrop, 61, _) => answer.reply = EOT,
            (Fault::SendingToldAsNothing, 9, 0) => answer.number = 0,
            (Fault::TriesLeftBehind, 9, EOT) => left[TRIES] = before[TRIES],
            (Fault::SpareNumberChanged, 9, STX) => left[SPARE] ^= 1,
            (Fault::WaitOfAFrameGoesOn, 9, STX) => left[SECONDS] = before[SECONDS],
            _ => {}
        }
    }

    /// A reply that came to our ENQ or to a frame.
    fn spoil_reply(self, byte: u8, before: Numbers, left: &mut [u16], answer: &mut Answered) {
        match (self, before[STATE], answer.number) {
            // Where a frame was sent six times and is refused.
            (Fault::SeventhSend, OFFERING, 9)
                if answer.reply == EOT && before[TRIES] == 6 && !matches!(byte, ACK | EOT) =>
            {
                left.copy_from_slice(&before);
                answer.reply = STX;
            }
            (Fault::EotRefusesAFrame, OFFERING, 9) if byte == EOT => {
                left.copy_from_slice(&before);
                left[TRIES] += 1;
                left[SECONDS] = 0;
                answer.reply = STX;
            }
            (Fault::SameNumberAgain, OFFERING, 9) if answer.reply == STX && byte == ACK => {
                left[NEXT] = before[NEXT]
            }
            (Fault::EnqHeardWhilePausing, PAUSING, 0) if byte == ENQ => {
                answer.number = 1;
                answer.reply = ACK;
            }
            (Fault::EnqPausesLikeANak, ASKING, 61) if byte == ENQ => pause(before, left, answer),
            (Fault::SeventhRefusalWaitedFor, ASKING, 61) if byte != ENQ => {
                pause(before, left, answer)
            }
            _ => {}
        }
    }

    /// Seconds that passed in a wait.
    fn spoil_wait(self, seconds: u16, before: Numbers, left: &mut [u16], answer: &mut Answered) {
        let sum = before[SECONDS] + seconds;
        let asks_again = before[STATE] == PAUSING && answer.reply == ENQ;
        match self {
            Fault::SecondsCarriedOn if asks_again => left[SECONDS] = sum - 10,
            Fault::PauseOf15Seconds if asks_again && sum < 15 => {
                left[STATE] = PAUSING;
                left[SECONDS] = sum;
                answer.reply = 0;
            }
            _ => {}
        }
    }

    /// A frame that was fetched, as the fault leaves it.
    pub fn spoil_fetched(self, op: &Op, library: &mut Library) {
        let line = match *op {
            Op::Outgoing { line, .. } => usize::from(line) % LINES,
            _ => return,
        };
        self.spoil_reader_reply(line, library);
        let made = &mut library.fetched.made;
        let out = library.fetched.out.inside_mut();
        match (self, made.number, made.length) {
            (Fault::FrameWrittenThoughShort, 47, _) | (Fault::NoFrameWrittenAsOne, 0, 0) => {
                if let Some(byte) = out.first_mut() {
                    *byte = STX;
                }
            }
            (_, 0, 0) => {}
            (Fault::FetchingCountsAsASend, 0, _) => {
                library.book.numbers[FIELDS * line + TRIES] += 1
            }
            (Fault::RecordGoesOnWithEtx, 0, length) if out[length - 5] == ETB => {
                out[length - 5] = ETX
            }
            (Fault::FrameOfANumberTooFar, 0, _) => out[1] = b'0' + (out[1] - b'0' + 1) % 8,
            _ => {}
        }
    }
}

/// One refusal more, and a pause, where the sending was to be given up.
fn pause(before: Numbers, left: &mut [u16], answer: &mut Answered) {
    left.copy_from_slice(&before);
    left[STATE] = PAUSING;
    left[TRIES] += 1;
    left[PLACE] = 0;
    left[SECONDS] = 0;
    answer.number = 9;
}
