//! Answers by name, what goes to the analyzer with each, faults of records, and refusals of texts.

use crate::boundary::Answered;
use std::error::Error;
use std::fmt;

pub(crate) const STX: u8 = 0x02;
pub(crate) const EOT: u8 = 0x04;
pub(crate) const ACK: u8 = 0x06;
const NAK: u8 = 0x15;

/// Our replies to a strip reader, from STX to CR.
const MOR: &[u8] = b"\x02>\x033?\r";
const REP: &[u8] = b"\x02?\x033>\r";

/// What an event, a start or a taking was answered: each answer with its number, which is that of its rule in
/// `docs/RULES.md`.
///
/// [`Answer::outgoing`] is all that goes to the analyzer with it. With [`Answer::Busy`], with
/// [`Answer::NoLine`] to [`Answer::BufferShort`], with [`Answer::NotNeutral`] and with [`Answer::NotSent`]
/// nothing has changed.
#[derive(Clone, PartialEq, Eq, Debug)]
pub enum Answer {
    /// 0: the byte was ignored or collected, or the seconds were counted.
    Nothing,
    /// 1: ENQ, a transfer is open.
    Opened,
    /// 2: a frame accepted; its message goes on.
    Accepted,
    /// 3: the last accepted frame once more, by its number; it is not kept again.
    Repeated,
    /// 4: the frame that ends a message, and the message is in the journal.
    Stored,
    /// 5: EOT, the transfer is over.
    Ended,
    /// 6: EOT, the transfer is over, and unfinished text was dropped.
    Dropped,
    /// 7: 30 seconds without a judged frame, the transfer is over.
    TimedOut,
    /// 8: a message is in the buffer.
    Taken {
        /// How many bytes it has, from the buffer's start.
        length: usize,
        /// Its place among its line's messages; after 65,535 comes 0.
        serial: u16,
    },
    /// 9: the start or an event of a sending, which goes on.
    Sending {
        /// What is to be sent now: our ENQ, a whole frame, or nothing.
        outgoing: Box<[u8]>,
    },
    /// 9: our EOT is to be sent. The sending is over, and the line neutral.
    SendingEnded {
        /// Whether the analyzer has acknowledged every frame. Where not, because it refused one six times or
        /// did not reply in 15 seconds, it may have the message even so: a reply may have been lost.
        acknowledged: bool,
    },
    /// 4: a finding of a strip reader, whose message is in the journal. MOR goes back.
    Filed,
    /// 11: a right block of a strip reader that is not to be stored, with our reply to it: MOR where it asks
    /// to begin, tells colours or repeats what is stored; where it asks for our last reply, that one.
    Heard(Reply),
    /// 11: the same, and nothing goes back: the reader has ended, or it asks for our last reply and there is
    /// none yet.
    Noted,
    /// 20: ENQ while a transfer is open.
    Busy,
    /// 21: a frame of 246 bytes, and the last is no LF.
    Unended,
    /// 22: not the shape of a frame: too short, no CR before LF, or no ETB or ETX in its place.
    Torn,
    /// 23: the check digits are not those of the frame's bytes.
    WrongCheck,
    /// 24: a byte that may not stand in a text.
    BadText,
    /// 25: the frame's number is not 0 to 7.
    BadNumber,
    /// 26: a message of this transfer was refused (30, 31, a fault), and so is all else of it.
    Refusing,
    /// 27: the frame's number is neither the last nor the next.
    OutOfTurn,
    /// 28: with this frame the text has over 4,000 bytes.
    TooLong,
    /// 29: ETX, and the text is empty or does not end with CR.
    NoCr,
    /// 30: the text is complete and has a byte that is not allowed; a [`Gateway`](crate::Gateway) never
    /// gets it.
    NoMessage,
    /// 31: the message has no room in the journal.
    NoRoom,
    /// 31: the message of a strip reader's finding has no room in the journal. Nothing goes back, and nothing
    /// later is refused for it.
    Crowded,
    /// 40: the line is not 0 to 7.
    NoLine,
    /// 41: a memory of another size; a [`Gateway`](crate::Gateway) never gets it.
    WrongSize,
    /// 42: a record that holds what no record can; a [`Gateway`](crate::Gateway) never gets it.
    BeyondLimits,
    /// 43: the journal's bytes and counts do not agree; a [`Gateway`](crate::Gateway) never gets it.
    Broken,
    /// 44: the line has no message to take.
    NothingWaiting,
    /// 45: the buffer is shorter than the message.
    BufferShort,
    /// 50 to 53 and 55: the text is complete and is not a message.
    Faulty {
        /// What is wrong with it first; never [`Fault::NoFinalCr`].
        fault: Fault,
        /// Which record is wrong, counted from 1.
        place: u16,
    },
    /// 46, 50 to 55: the text to send is not a message, so no sending is started.
    NotSent(Refusal),
    /// 60: a line that receives or sends, or that has a strip reader, cannot start to send.
    NotNeutral,
    /// 61: a sending is over, and nothing is to be sent: our ENQ was answered by ENQ, or refused for the sixth
    /// time. The line is neutral.
    GivenUp,
    /// 70: a block of a strip reader, and no block of its line has so many bytes. REP goes back.
    OddLength,
    /// 71: its test bytes are not those of its bytes. REP goes back.
    OddTest,
    /// 72: a byte is not what such a block has there. REP goes back.
    OddByte,
}

/// What we reply to a strip reader: a block of six bytes.
#[derive(Clone, Copy, PartialEq, Eq, Debug)]
pub enum Reply {
    /// MOR: it may go on.
    More,
    /// REP: it is to send the block again.
    Again,
}

impl Reply {
    /// The block, from STX to CR.
    pub fn bytes(self) -> &'static [u8] {
        match self {
            Reply::More => MOR,
            Reply::Again => REP,
        }
    }

    /// The reply that the library wrote.
    pub(crate) fn of(bytes: &[u8]) -> Reply {
        let reply = match bytes {
            [_, b'>', ..] => Reply::More,
            _ => Reply::Again,
        };
        assert_eq!(reply.bytes(), bytes);
        reply
    }
}

impl Answer {
    /// The answer's number.
    pub fn number(&self) -> u8 {
        match self {
            Answer::Nothing => 0,
            Answer::Opened => 1,
            Answer::Accepted => 2,
            Answer::Repeated => 3,
            Answer::Stored | Answer::Filed => 4,
            Answer::Ended => 5,
            Answer::Dropped => 6,
            Answer::TimedOut => 7,
            Answer::Taken { .. } => 8,
            Answer::Sending { .. } | Answer::SendingEnded { .. } => 9,
            Answer::Heard(_) | Answer::Noted => 11,
            Answer::Busy => 20,
            Answer::Unended => 21,
            Answer::Torn => 22,
            Answer::WrongCheck => 23,
            Answer::BadText => 24,
            Answer::BadNumber => 25,
            Answer::Refusing => 26,
            Answer::OutOfTurn => 27,
            Answer::TooLong => 28,
            Answer::NoCr => 29,
            Answer::NoMessage => 30,
            Answer::NoRoom | Answer::Crowded => 31,
            Answer::NoLine => 40,
            Answer::WrongSize => 41,
            Answer::BeyondLimits => 42,
            Answer::Broken => 43,
            Answer::NothingWaiting => 44,
            Answer::BufferShort => 45,
            Answer::Faulty { fault, .. } => fault.number(),
            Answer::NotSent(refusal) => refusal.number(),
            Answer::NotNeutral => 60,
            Answer::GivenUp => 61,
            Answer::OddLength => 70,
            Answer::OddTest => 71,
            Answer::OddByte => 72,
        }
    }

    /// All that goes to the analyzer with this answer, from its first byte to its last: ACK (06) with 1 to
    /// 4, NAK (15) with 20 to 31 and with [`Answer::Faulty`], our ENQ (05), our EOT (04) or a whole frame
    /// with 9; to a strip reader MOR or REP, whole. It is empty where nothing is to be sent.
    ///
    /// ```
    /// let mut gateway = ngachodui::Gateway::fresh();
    /// assert_eq!(gateway.byte(3, 0x05).outgoing(), [0x06]); // ENQ, and the transfer is open
    /// assert_eq!(gateway.byte(3, 0x05).outgoing(), [0x15]); // ENQ once more
    /// assert_eq!(gateway.byte(3, 0x04).outgoing(), []); // EOT
    /// ```
    pub fn outgoing(&self) -> &[u8] {
        match self {
            Answer::Sending { outgoing } => outgoing,
            Answer::SendingEnded { .. } => &[EOT],
            Answer::NotSent(_) | Answer::Crowded => &[],
            Answer::Filed => MOR,
            Answer::Heard(reply) => reply.bytes(),
            Answer::OddLength | Answer::OddTest | Answer::OddByte => REP,
            answer => match answer.number() {
                1..=4 => &[ACK],
                20..=31 | 50..=55 => &[NAK],
                _ => &[],
            },
        }
    }

    /// The answer that the library gave to an event that is none of a sending and no block of a reader, or to a
    /// taking.
    pub(crate) fn of(answered: Answered) -> Answer {
        let answer = match answered.number {
            0 => Answer::Nothing,
            1 => Answer::Opened,
            2 => Answer::Accepted,
            3 => Answer::Repeated,
            4 => Answer::Stored,
            5 => Answer::Ended,
            6 => Answer::Dropped,
            7 => Answer::TimedOut,
            8 => Answer::Taken {
                length: answered.length,
                serial: answered.serial,
            },
            20 => Answer::Busy,
            21 => Answer::Unended,
            22 => Answer::Torn,
            23 => Answer::WrongCheck,
            24 => Answer::BadText,
            25 => Answer::BadNumber,
            26 => Answer::Refusing,
            27 => Answer::OutOfTurn,
            28 => Answer::TooLong,
            29 => Answer::NoCr,
            30 => Answer::NoMessage,
            31 => Answer::NoRoom,
            40 => Answer::NoLine,
            41 => Answer::WrongSize,
            42 => Answer::BeyondLimits,
            43 => Answer::Broken,
            44 => Answer::NothingWaiting,
            45 => Answer::BufferShort,
            60 => Answer::NotNeutral,
            61 => Answer::GivenUp,
            number => match Fault::of(number) {
                Some(fault) => Answer::Faulty {
                    fault,
                    place: answered.place,
                },
                None => unreachable!("the library has no answer {}", number),
            },
        };
        debug_assert_eq!(answer.number(), answered.number);
        debug_assert_eq!(answer.first(), answered.reply);
        answer
    }

    /// The answer that the library gave to a block of a strip reader, and what it had fetched as a reply.
    pub(crate) fn to_block(number: u8, reply: Option<Reply>) -> Answer {
        let answer = match (number, reply) {
            (4, _) => Answer::Filed,
            (11, Some(reply)) => Answer::Heard(reply),
            (11, None) => Answer::Noted,
            (31, _) => Answer::Crowded,
            (70, _) => Answer::OddLength,
            (71, _) => Answer::OddTest,
            (72, _) => Answer::OddByte,
            _ => unreachable!("no answer {} to a block", number),
        };
        debug_assert_eq!(answer.outgoing(), reply.map_or(&[][..], Reply::bytes));
        answer
    }

    /// The answer that the library gave to a start, where none was made.
    pub(crate) fn not_started(answered: Answered) -> Answer {
        let answer = match Refusal::of(answered.number, answered.place) {
            Some(refusal) => Answer::NotSent(refusal),
            None => return Answer::of(answered),
        };
        debug_assert_eq!((answer.first(), answered.reply), (0, 0));
        answer
    }

    /// The first byte that goes out, as the library tells it: 0 for nothing.
    fn first(&self) -> u8 {
        self.outgoing().first().copied().unwrap_or(0)
    }
}

/// What is wrong with a record. A text is walked up to its first wrong record; there the type goes
/// before what the record follows, and that before its sequence number. Of the first record, that it is
/// no header goes before its delimiters.
#[derive(Clone, Copy, PartialEq, Eq, Debug)]
pub enum Fault {
    /// 50: no H begins the first record, or it is too short to name four delimiters behind it; or the
    /// text is empty.
    NoHeader,
    /// 51: the record's type is none of the eight.
    UnknownType,
    /// 52: a record of this type may not stand here, or it is the last and no L.
    Misplaced,
    /// 53: the record's sequence number is not the one that is due.
    Misnumbered,
    /// 54: the text's last byte is no CR. It is looked at before the records, and its place is that of
    /// the last one.
    NoFinalCr,
    /// 55: the four bytes behind H are no [`Delimiters`](crate::Delimiters) that are allowed.
    BadDelimiters,
}

impl Fault {
    /// The fault's number.
    pub fn number(self) -> u8 {
        match self {
            Fault::NoHeader => 50,
            Fault::UnknownType => 51,
            Fault::Misplaced => 52,
            Fault::Misnumbered => 53,
            Fault::NoFinalCr => 54,
            Fault::BadDelimiters => 55,
        }
    }

    /// The fault that the library named by this number, if it is one.
    pub(crate) fn of(number: u8) -> Option<Fault> {
        match number {
            50 => Some(Fault::NoHeader),
            51 => Some(Fault::UnknownType),
            52 => Some(Fault::Misplaced),
            53 => Some(Fault::Misnumbered),
            54 => Some(Fault::NoFinalCr),
            55 => Some(Fault::BadDelimiters),
            _ => None,
        }
    }
}

impl fmt::Display for Fault {
    fn fmt(&self, f: &mut fmt::Formatter) -> fmt::Result {
        f.write_str(match self {
            Fault::NoHeader => "no header",
            Fault::UnknownType => "an unknown type",
            Fault::Misplaced => "a type that may not stand there",
            Fault::Misnumbered => "a wrong sequence number",
            Fault::NoFinalCr => "no CR at its end",
            Fault::BadDelimiters => "delimiters that are not allowed",
        })
    }
}

/// Why a text was not cut, read, sent, escaped or unescaped. Nothing was written.
#[derive(Clone, Copy, PartialEq, Eq, Debug)]
pub enum Refusal {
    /// 46: the text to cut, read or send has over 4,000 bytes or one that is not allowed, or the one to
    /// unescape has a wrong escape.
    Malformed,
    /// 47: the output is longer than its memory.
    NotFitting,
    /// 55: the delimiters to escape or unescape with are not allowed.
    BadDelimiters,
    /// 50 to 55: the text to cut, read or send is not a message.
    Faulty {
        /// What is wrong with it first.
        fault: Fault,
        /// Which record is wrong, counted from 1.
        place: u16,
    },
}

impl Refusal {
    /// The refusal's number.
    pub fn number(self) -> u8 {
        match self {
            Refusal::Malformed => 46,
            Refusal::NotFitting => 47,
            Refusal::BadDelimiters => Fault::BadDelimiters.number(),
            Refusal::Faulty { fault, .. } => fault.number(),
        }
    }

    /// The refusal of a text that the library named by this number and place, if it is one.
    pub(crate) fn of(number: u8, place: u16) -> Option<Refusal> {
        match (number, place) {
            (46, _) => Some(Refusal::Malformed),
            (47, _) => Some(Refusal::NotFitting),
            // Delimiters that were given and not read: there is no record to name.
            (55, 0) => Some(Refusal::BadDelimiters),
            _ => Fault::of(number).map(|fault| Refusal::Faulty { fault, place }),
        }
    }
}

impl fmt::Display for Refusal {
    fn fmt(&self, f: &mut fmt::Formatter) -> fmt::Result {
        match self {
            Refusal::Malformed => f.write_str("the text is malformed"),
            Refusal::NotFitting => f.write_str("the output does not fit"),
            Refusal::BadDelimiters => write!(f, "{}", Fault::BadDelimiters),
            Refusal::Faulty { fault, place } => write!(f, "record {}: {}", place, fault),
        }
    }
}

impl Error for Refusal {}

#[cfg(test)]
mod tests {
    use super::*;

    fn answered(number: u8, reply: u8) -> Answered {
        Answered {
            number,
            reply,
            serial: 7,
            place: 5,
            digits: 0,
            length: 9,
        }
    }

    #[test]
    fn each_answer_has_the_librarys_number_and_reply() {
        let events = (0..=8).chain(20..=31).chain(40..=45).chain(50..=55);
        for number in events.chain([60, 61]) {
            let reply = match number {
                1..=4 => 0x06,
                20..=31 | 50..=55 => 0x15,
                _ => 0,
            };
            let answer = Answer::of(answered(number, reply));
            assert_eq!(answer.number(), number);
            let sent = &[reply][..usize::from(reply != 0)];
            assert_eq!(answer.outgoing(), sent);
            let taken = Answer::Taken {
                length: 9,
                serial: 7,
            };
            assert_eq!(answer == taken, number == 8);
            let has_place = matches!(answer, Answer::Faulty { place: 5, .. });
            assert_eq!(has_place, (50..=55).contains(&number));
        }
    }

    #[test]
    fn a_start_that_is_refused_sends_nothing() {
        for number in (40..=42).chain([46]).chain(50..=55).chain([60]) {
            let answer = Answer::not_started(answered(number, 0));
            assert_eq!(answer.number(), number);
            assert_eq!(answer.outgoing(), []);
            let is_text = matches!(answer, Answer::NotSent(_));
            assert_eq!(is_text, number == 46 || (50..=55).contains(&number));
            let has_place = matches!(answer, Answer::NotSent(Refusal::Faulty { place: 5, .. }));
            assert_eq!(has_place, (50..=55).contains(&number));
        }
    }

    #[test]
    fn a_sending_has_its_bytes_with_it() {
        let outgoing: Box<[u8]> = Box::from(*b"\x021\r\x0341\r\n");
        let answer = Answer::Sending { outgoing };
        assert_eq!((answer.number(), answer.outgoing().len()), (9, 8));
        for acknowledged in [false, true] {
            let answer = Answer::SendingEnded { acknowledged };
            assert_eq!((answer.number(), answer.outgoing()), (9, &[0x04][..]));
        }
    }

    #[test]
    fn a_block_is_answered_with_a_block() {
        let (more, again) = (Some(Reply::More), Some(Reply::Again));
        let cases = [
            (4, more, Answer::Filed),
            (11, more, Answer::Heard(Reply::More)),
            (11, again, Answer::Heard(Reply::Again)),
            (11, None, Answer::Noted),
            (31, None, Answer::Crowded),
            (70, again, Answer::OddLength),
            (71, again, Answer::OddTest),
            (72, again, Answer::OddByte),
        ];
        for (number, reply, expected) in cases {
            let answer = Answer::to_block(number, reply);
            assert_eq!((&answer, answer.number()), (&expected, number));
            assert_eq!(answer.outgoing(), reply.map_or(&[][..], Reply::bytes));
        }
        for reply in [Reply::More, Reply::Again] {
            assert_eq!(Reply::of(reply.bytes()), reply);
        }
    }

    #[test]
    fn an_answer_is_small() {
        // It is handed on for every byte that comes in: a frame lies elsewhere.
        assert!(std::mem::size_of::<Answer>() <= 24);
    }

    #[test]
    fn faults_by_number() {
        let faults = [
            Fault::NoHeader,
            Fault::UnknownType,
            Fault::Misplaced,
            Fault::Misnumbered,
            Fault::NoFinalCr,
            Fault::BadDelimiters,
        ];
        for (fault, number) in faults.into_iter().zip(50..) {
            assert_eq!(fault.number(), number);
            assert_eq!(Fault::of(number), Some(fault));
            assert_eq!(Refusal::Faulty { fault, place: 1 }.number(), number);
        }
        assert_eq!((Fault::of(49), Fault::of(56)), (None, None));
    }

    #[test]
    fn refusals_by_number() {
        assert_eq!(Refusal::Malformed.number(), 46);
        assert_eq!(Refusal::NotFitting.number(), 47);
        assert_eq!(Refusal::BadDelimiters.number(), 55);
        assert_eq!(Refusal::NotFitting.to_string(), "the output does not fit");
        let bad = Refusal::BadDelimiters.to_string();
        assert_eq!(bad, "delimiters that are not allowed");
        let faulty = Refusal::Faulty {
            fault: Fault::Misnumbered,
            place: 9,
        };
        assert_eq!(faulty.to_string(), "record 9: a wrong sequence number");
    }
}
