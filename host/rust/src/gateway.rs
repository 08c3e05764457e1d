//! A gateway that owns its memories.

use crate::answers::{Answer, Reply, ACK, EOT, STX};
use crate::boundary::{self, Answered, Counts, Numbers};
use crate::layout::{
    COLLECTED, COUNTS, FIELDS, FRAMES_SIZE, FRAME_LIMIT, IN_USE, JOINED, JOURNAL_SIZE, LINES,
    NUMBERS, SERIAL, SPEAKS, STATE, TEXT_LIMIT, UNFINISHED_SIZE,
};

/// The number of what answers a sending, and of those that answer a block of a strip reader: of these two also
/// answer a frame, but then not with this reply.
const SENDING: u8 = 9;
const STORED: u8 = 4;
const HEARD: u8 = 11;
const NO_ROOM: u8 = 31;

/// What a frame has collected besides its text, but for its last byte.
const AROUND_TEXT: usize = 5;

/// What a line speaks.
#[derive(Clone, Copy, PartialEq, Eq, Debug, Default)]
pub enum Speaks {
    /// Frames, as E1381 has them.
    #[default]
    Frames,
    /// Blocks of a urine strip reader (Miditron Junior II) that is set up for patient numbers of 10 characters.
    Strips10,
    /// The same with 13.
    Strips13,
}

impl Speaks {
    /// By the number that the library has for it.
    fn number(self) -> u16 {
        match self {
            Speaks::Frames => 0,
            Speaks::Strips10 => 10,
            Speaks::Strips13 => 13,
        }
    }

    fn of(number: u16) -> Speaks {
        match number {
            10 => Speaks::Strips10,
            13 => Speaks::Strips13,
            _ => Speaks::Frames,
        }
    }
}

/// Where a line is.
#[derive(Clone, Copy, PartialEq, Eq, Debug)]
pub enum State {
    /// Nothing is under way.
    Neutral,
    /// A transfer is open, between two frames.
    Waiting,
    /// A frame or a block comes in.
    Inside,
    /// In a sending: our ENQ awaits its reply.
    Asking,
    /// In a sending: our ENQ was refused, and is sent again after 10 seconds.
    Pausing,
    /// In a sending: a frame awaits its reply.
    Offering,
}

impl State {
    fn of(number: u16) -> State {
        match number {
            0 => State::Neutral,
            1 => State::Waiting,
            2 => State::Inside,
            3 => State::Asking,
            4 => State::Pausing,
            _ => State::Offering,
        }
    }

    /// Whether the line sends.
    pub fn is_sending(self) -> bool {
        matches!(self, State::Asking | State::Pausing | State::Offering)
    }
}

/// What a line is to be from the start. By default it speaks frames.
#[derive(Clone, Copy, PartialEq, Eq, Debug, Default)]
pub struct Settings {
    /// What the line speaks.
    pub speaks: Speaks,
}

/// Eight serial lines and one journal, with all the memory that they need.
///
/// Give each byte that comes in to [`byte`](Gateway::byte) and tell each line the time with
/// [`seconds`](Gateway::seconds); send to the analyzer what the answer's [`outgoing`](Answer::outgoing) says,
/// all of it. Fetch messages with [`take`](Gateway::take). Send messages with [`send`](Gateway::send). Lines
/// are numbered 0 to 7; with any other the answer is [`Answer::NoLine`] and nothing changes.
///
/// ```
/// use ngachodui::{Answer, Gateway};
///
/// let mut gateway = Gateway::fresh();
/// assert_eq!(gateway.byte(3, 0x05), Answer::Opened); // ENQ
///
/// // A message in one frame: its number, the text, ETX, two check digits, CR and LF.
/// let mut answer = Answer::Nothing;
/// for byte in b"\x021H|\\^&\rL|1|N\r\x03B5\r\n" {
///     answer = gateway.byte(3, *byte);
/// }
/// assert_eq!(answer, Answer::Stored);
/// assert_eq!(answer.outgoing(), [0x06]); // ACK: from now on the copy here is the only one
///
/// let mut buffer = [0; ngachodui::TEXT_LIMIT];
/// let answer = gateway.take(3, &mut buffer);
/// assert_eq!(answer, Answer::Taken { length: 12, serial: 0 });
/// assert_eq!(&buffer[..12], b"H|\\^&\rL|1|N\r");
/// ```
#[derive(Clone)]
pub struct Gateway {
    pub(crate) memory: Box<Memory>,
    /// How long the text is that each line refused last, while it still stands in the unfinished memory.
    refused: [usize; LINES],
}

#[derive(Clone)]
pub(crate) struct Memory {
    pub(crate) numbers: Numbers,
    pub(crate) counts: Counts,
    pub(crate) journal: [u8; JOURNAL_SIZE],
    pub(crate) unfinished: [u8; UNFINISHED_SIZE],
    pub(crate) frames: [u8; FRAMES_SIZE],
}

impl Memory {
    /// Nothing in it yet.
    pub(crate) fn new() -> Box<Memory> {
        assert_eq!(boundary::sizes(), boundary::own_sizes());
        Box::new(Memory {
            numbers: [0; NUMBERS],
            counts: [0; COUNTS],
            journal: [0; JOURNAL_SIZE],
            unfinished: [0; UNFINISHED_SIZE],
            frames: [0; FRAMES_SIZE],
        })
    }
}

impl Gateway {
    /// Every line neutral, the journal empty, all serials 0. Every line speaks frames.
    ///
    /// # Panics
    ///
    /// If the library was compiled for another layout than this crate.
    pub fn fresh() -> Gateway {
        let mut memory = Memory::new();
        boundary::fresh(&mut memory.numbers, &mut memory.counts);
        Gateway::of(memory)
    }

    pub(crate) fn of(memory: Box<Memory>) -> Gateway {
        let refused = [0; LINES];
        Gateway { memory, refused }
    }

    /// The same where some lines have strip readers. What a line speaks never changes.
    ///
    /// A reader's blocks are answered like frames; what goes back to it is a block too. Each finding becomes one
    /// message, to be taken like any other:
    ///
    /// ```
    /// use ngachodui::{Answer, Gateway, Reply, Settings, Speaks};
    ///
    /// let mut settings = [Settings::default(); 8];
    /// settings[3].speaks = Speaks::Strips10;
    /// let mut gateway = Gateway::start(settings);
    ///
    /// let mut answer = Answer::Nothing;
    /// for byte in b"\x02<\x033=\r" {
    ///     answer = gateway.byte(3, *byte); // SPM: the reader asks whether it may begin
    /// }
    /// assert_eq!(answer, Answer::Heard(Reply::More));
    /// assert_eq!(answer.outgoing(), b"\x02>\x033?\r"); // MOR
    /// for byte in b"\x02;E 4711       00012 15.03.01 09:30 SG1.030      PH  7      LEU     500/ul ++++ \
    ///     NITpos pos  PRO   0.75 g/l ++++ GLU  56 mmol/l ++++ KET 0.5 mmol/l   ++ UBG  68 umol/l ++++ \
    ///     BIL  50 umol/l ++++ ERY      25/ul ++++ NAG                 \x0330\r" {
    ///     answer = gateway.byte(3, *byte);
    /// }
    /// assert_eq!(answer, Answer::Filed);
    ///
    /// let mut buffer = [0; ngachodui::TEXT_LIMIT];
    /// gateway.take(3, &mut buffer);
    /// assert!(buffer.starts_with(b"H|\\^&\rP|1|4711\rO|1|00012\rR|1|SG|1.030\rR|2|PH|7\r"));
    /// ```
    ///
    /// # Panics
    ///
    /// If the library was compiled for another layout than this crate.
    pub fn start(settings: [Settings; LINES]) -> Gateway {
        let mut memory = Memory::new();
        let speaks = settings.map(|line| line.speaks.number());
        let number = boundary::start(&speaks, &mut memory.numbers, &mut memory.counts);
        assert_eq!(number, 0, "the library knows what a line may speak");
        Gateway::of(memory)
    }

    /// A byte has come in on a line.
    ///
    /// A text that is complete and is no message is refused, and the answer says what is wrong first,
    /// and with which of its records:
    ///
    /// ```
    /// use ngachodui::{Answer, Fault, Gateway};
    ///
    /// let mut gateway = Gateway::fresh();
    /// gateway.byte(3, 0x05);
    /// let mut answer = Answer::Nothing;
    /// for byte in b"\x021H|\\^&\rP|1\rO|2\rL|1|N\r\x03C9\r\n" {
    ///     answer = gateway.byte(3, *byte);
    /// }
    /// assert_eq!(answer, Answer::Faulty { fault: Fault::Misnumbered, place: 3 });
    /// assert_eq!(answer.outgoing(), [0x15]); // NAK
    /// if let Answer::Faulty { fault, place } = answer {
    ///     println!("answer {}, record {}: {}", answer.number(), place, fault);
    ///     // answer 53, record 3: a wrong sequence number
    /// }
    /// ```
    pub fn byte(&mut self, line: u8, byte: u8) -> Answer {
        let gathered = self.gathered(line);
        let memory = &mut *self.memory;
        let answered = boundary::byte(
            line,
            byte,
            &mut memory.numbers,
            &mut memory.counts,
            &mut memory.journal,
            &mut memory.unfinished,
            &mut memory.frames,
        );
        match (answered.number, answered.reply) {
            // Our EOT behind one of these two says that there was no frame left to acknowledge.
            (SENDING, _) => self.sending(line, answered, matches!(byte, ACK | EOT)),
            (STORED, STX) | (HEARD, _) | (NO_ROOM, 0) | (70..=72, _) => self.block(line, answered),
            _ => {
                let answer = Answer::of(answered);
                self.note_refused(line, gathered, &answer);
                answer
            }
        }
    }

    /// The bytes of its message and of its frame that a line has so far.
    fn gathered(&self, line: u8) -> usize {
        usize::from(self.number(line, JOINED)) + usize::from(self.number(line, COLLECTED))
    }

    /// One of a line's numbers; 0 for a line that there is not.
    fn number(&self, line: u8, field: usize) -> u16 {
        match usize::from(line) {
            line if line < LINES => self.memory.numbers[line * FIELDS + field],
            _ => 0,
        }
    }

    /// A refused text stands until the line writes over its start: with the next frame that is accepted.
    fn note_refused(&mut self, line: u8, gathered: usize, answer: &Answer) {
        match answer {
            Answer::Faulty { .. } | Answer::NoRoom | Answer::NoMessage => {
                self.refused[usize::from(line)] = gathered.saturating_sub(AROUND_TEXT);
            }
            Answer::Accepted | Answer::Stored => self.refused[usize::from(line)] = 0,
            _ => {}
        }
    }

    /// So many seconds have passed on a line since the last call that said so. After 30 without a
    /// judged frame its transfer is over; after 15 without a reply, and at the end of a pause of 10, its
    /// sending goes on or is over. The lines have no clock in common: tell each one.
    pub fn seconds(&mut self, line: u8, seconds: u8) -> Answer {
        let memory = &mut *self.memory;
        let answered = boundary::seconds(
            line,
            seconds,
            &mut memory.numbers,
            &mut memory.counts,
            &mut memory.journal,
            &mut memory.unfinished,
            &mut memory.frames,
        );
        match answered.number {
            SENDING => self.sending(line, answered, false),
            _ => Answer::of(answered),
        }
    }

    /// Starts to send a message on a line, which has to be neutral. The text is copied. What is to be sent
    /// comes with this answer, our ENQ, and with those to the analyzer's replies and to the seconds that
    /// pass, until it is [`Answer::SendingEnded`] or [`Answer::GivenUp`]. Then the host decides whether and
    /// when to start again.
    ///
    /// ```
    /// use ngachodui::{Answer, Gateway};
    ///
    /// let mut gateway = Gateway::fresh();
    /// let line = 3;
    /// let answer = gateway.send(line, b"H|\\^&\rL|1|N\r");
    /// assert_eq!(answer.outgoing(), [0x05]); // our ENQ
    /// // Each time that the analyzer replies with ACK, the next frame is to be sent:
    /// assert_eq!(gateway.byte(line, 0x06).outgoing(), b"\x021H|\\^&\r\x03E5\r\n");
    /// assert_eq!(gateway.byte(line, 0x06).outgoing(), b"\x022L|1|N\r\x0305\r\n");
    /// let answer = gateway.byte(line, 0x06);
    /// assert_eq!(answer.outgoing(), [0x04]); // our EOT
    /// assert_eq!(answer, Answer::SendingEnded { acknowledged: true });
    /// ```
    ///
    /// A refusal of our ENQ is followed by a pause in which nothing is heard, one of a frame by the same frame
    /// again; each may be refused six times. Without a reply the sending is over after 15 seconds:
    ///
    /// ```
    /// # use ngachodui::{Answer, Gateway};
    /// # let mut gateway = Gateway::fresh();
    /// # let line = 3;
    /// gateway.send(line, b"H|\\^&\rL|1|N\r");
    /// assert_eq!(gateway.byte(line, 0x15).outgoing(), []); // NAK: the line pauses
    /// assert_eq!(gateway.byte(line, 0x05), Answer::Nothing); // even the analyzer's ENQ is ignored
    /// assert_eq!(gateway.seconds(line, 10).outgoing(), [0x05]); // our ENQ again
    /// let answer = gateway.seconds(line, 15);
    /// assert_eq!(answer, Answer::SendingEnded { acknowledged: false });
    /// ```
    ///
    /// A text that is no message is refused with [`Answer::NotSent`], and nothing is to be sent:
    ///
    /// ```
    /// use ngachodui::{Answer, Fault, Gateway, Refusal};
    ///
    /// let answer = Gateway::fresh().send(3, b"H|\\^&\rP|1\rO|2\rL|1|N\r");
    /// let refusal = Refusal::Faulty { fault: Fault::Misnumbered, place: 3 };
    /// assert_eq!(answer, Answer::NotSent(refusal));
    /// assert_eq!(answer.outgoing(), []);
    /// ```
    pub fn send(&mut self, line: u8, text: &[u8]) -> Answer {
        let memory = &mut *self.memory;
        let answered = boundary::send(
            line,
            text,
            &mut memory.numbers,
            &memory.journal,
            &mut memory.unfinished,
            &memory.frames,
        );
        match answered.number {
            SENDING => {
                self.refused[usize::from(line)] = 0;
                self.sending(line, answered, false)
            }
            _ => Answer::not_started(answered),
        }
    }

    /// The answer to a block of a strip reader, with our reply.
    fn block(&self, line: u8, answered: Answered) -> Answer {
        let reply = match answered.reply {
            STX => Some(Reply::of(&self.frame(line))),
            _ => None,
        };
        Answer::to_block(answered.number, reply)
    }

    /// Answer 9, with all that is to be sent.
    fn sending(&self, line: u8, answered: Answered, acknowledged: bool) -> Answer {
        let outgoing: Box<[u8]> = match answered.reply {
            EOT => return Answer::SendingEnded { acknowledged },
            STX => self.frame(line),
            0 => Box::default(),
            byte => Box::new([byte]),
        };
        Answer::Sending { outgoing }
    }

    /// The frame that a line offers, or our last reply to its reader.
    fn frame(&self, line: u8) -> Box<[u8]> {
        let mut frame = [0; FRAME_LIMIT];
        let memory = &*self.memory;
        let made = boundary::outgoing(line, &memory.numbers, &memory.unfinished, &mut frame);
        debug_assert_eq!((made.number, frame[0]), (0, STX));
        Box::from(&frame[..made.length])
    }

    /// Takes a line's oldest message out of the journal and puts its text at the start of the buffer;
    /// the buffer keeps its rest. One of [`TEXT_LIMIT`](crate::TEXT_LIMIT) bytes is never too short.
    pub fn take(&mut self, line: u8, buffer: &mut [u8]) -> Answer {
        let memory = &mut *self.memory;
        Answer::of(boundary::take(
            line,
            &memory.numbers,
            &mut memory.counts,
            &mut memory.journal,
            buffer,
        ))
    }

    /// How many bytes of the journal a line's waiting messages use, 4 counted for each besides its
    /// text; 0 for a line that there is not. Each line is sure of [`SHARE`](crate::SHARE).
    pub fn used(&self, line: u8) -> u32 {
        let used = &self.memory.counts[..LINES];
        used.get(usize::from(line)).copied().unwrap_or(0)
    }

    /// How many bytes of the journal all waiting messages use.
    pub fn in_use(&self) -> u32 {
        self.memory.counts[IN_USE]
    }

    /// The serial that a line's next message gets.
    pub fn serial(&self, line: u8) -> u16 {
        self.number(line, SERIAL)
    }

    /// Where a line is; neutral for a line that there is not.
    pub fn state(&self, line: u8) -> State {
        State::of(self.number(line, STATE))
    }

    /// What a line speaks.
    pub fn speaks(&self, line: u8) -> Speaks {
        Speaks::of(self.number(line, SPEAKS))
    }

    /// The messages that wait on a line, oldest first, each with its serial. Nothing is taken: they are read
    /// off a copy.
    ///
    /// ```
    /// let mut gateway = ngachodui::Gateway::fresh();
    /// for byte in b"\x05\x021H|\\^&\rL|1|N\r\x03B5\r\n" {
    ///     gateway.byte(3, *byte);
    /// }
    /// let waiting: Vec<(u16, Vec<u8>)> = gateway.waiting(3).collect();
    /// assert_eq!(waiting, [(0, b"H|\\^&\rL|1|N\r".to_vec())]);
    /// assert_eq!(gateway.waiting(3).count(), 1); // it waits still
    /// ```
    pub fn waiting(&self, line: u8) -> impl Iterator<Item = (u16, Vec<u8>)> {
        let mut copy = self.clone();
        let mut buffer = [0; TEXT_LIMIT];
        std::iter::from_fn(move || match copy.take(line, &mut buffer) {
            Answer::Taken { length, serial } => Some((serial, buffer[..length].to_vec())),
            _ => None,
        })
    }

    /// The text that a line refused last with [`Answer::Faulty`] or [`Answer::NoRoom`], for somebody to look at;
    /// empty where there is none, or where it is overwritten by what came later or was sent.
    ///
    /// ```
    /// let mut gateway = ngachodui::Gateway::fresh();
    /// for byte in b"\x05\x021H|\\^&\rP|1\rO|2\rL|1|N\r\x03C9\r\n" {
    ///     gateway.byte(3, *byte);
    /// }
    /// assert_eq!(gateway.refused(3), b"H|\\^&\rP|1\rO|2\rL|1|N\r");
    /// ```
    pub fn refused(&self, line: u8) -> &[u8] {
        match self.refused.get(usize::from(line)) {
            Some(length) => &self.memory.unfinished[usize::from(line) * TEXT_LIMIT..][..*length],
            None => &[],
        }
    }
}

impl Default for Gateway {
    fn default() -> Gateway {
        Gateway::fresh()
    }
}

#[cfg(test)]
mod tests {
    use super::*;
    use crate::{cut, Fault};

    const TEXT: &[u8] = b"H|\\^&\rP|1\rO|1\rR|1|^^^GLU|5.2|mmol/L\rL|1|N\r";

    fn frames() -> Vec<u8> {
        let mut out = [0; 200];
        let length = cut(TEXT, &mut out).expect("a message");
        out[..length].to_vec()
    }

    #[test]
    fn a_message_cut_sent_and_taken() {
        let mut gateway = Gateway::fresh();
        assert_eq!(gateway.byte(7, 0x05), Answer::Opened);
        let mut told = Vec::new();
        for byte in frames() {
            match gateway.byte(7, byte) {
                Answer::Nothing => {}
                answer => told.push(answer.number()),
            }
        }
        assert_eq!(told, [2, 2, 2, 2, 4]);
        assert_eq!(gateway.byte(7, 0x04), Answer::Ended);
        assert_eq!(gateway.used(7), 4 + TEXT.len() as u32);
        assert_eq!((gateway.used(6), gateway.used(8)), (0, 0));

        let mut buffer = [0xEE; 100];
        assert_eq!(gateway.take(7, &mut buffer[..40]), Answer::BufferShort);
        assert_eq!(buffer, [0xEE; 100]);
        let taken = Answer::Taken {
            length: TEXT.len(),
            serial: 0,
        };
        assert_eq!(gateway.take(7, &mut buffer), taken);
        assert_eq!(&buffer[..TEXT.len()], TEXT);
        assert!(buffer[TEXT.len()..].iter().all(|&byte| byte == 0xEE));
        assert_eq!(gateway.take(7, &mut buffer), Answer::NothingWaiting);
        assert_eq!(gateway.used(7), 0);
    }

    #[test]
    fn a_message_with_other_delimiters() {
        let text = b"H!~$%\rP!1\rO!1\rR!1!$$$GLU!5.2 | 94!mmol/L\rL!1!N\r";
        let mut gateway = Gateway::fresh();
        gateway.byte(7, 0x05);
        let sent = frame(text);
        let mut answers = sent.into_iter().map(|byte| gateway.byte(7, byte));
        assert_eq!(
            answers.find(|a| *a != Answer::Nothing),
            Some(Answer::Stored)
        );
        let mut buffer = [0; 100];
        let length = text.len();
        let taken = Answer::Taken { length, serial: 0 };
        assert_eq!(gateway.take(7, &mut buffer), taken);
        assert_eq!(&buffer[..length], text);
    }

    /// A text in one frame of number 1 that ends with ETX.
    fn frame(text: &[u8]) -> Vec<u8> {
        let counted = [b"1", text, b"\x03"].concat();
        let sum = counted
            .iter()
            .fold(0, |sum: u8, byte| sum.wrapping_add(*byte));
        let check = format!("{:02X}\r\n", sum);
        [b"\x02", &counted[..], check.as_bytes()].concat()
    }

    #[test]
    fn the_record_that_is_wrong_is_told() {
        let cases: [(&[u8], Fault, u16); 8] = [
            (b"L|1|N\r", Fault::NoHeader, 1),
            (b"H|\\^\rL|1\r", Fault::NoHeader, 1),
            (b"H|\\^^\rL|1\r", Fault::BadDelimiters, 1),
            (b"H!~$%\rP!1\rP|2\rL!1\r", Fault::UnknownType, 3),
            (b"H|\\^&\rP|1\rp|2\rL|1\r", Fault::UnknownType, 3),
            (b"H|\\^&\rP|1\rO|1\rL|1\rL|1\r", Fault::Misplaced, 5),
            (b"H|\\^&\rP|1\rO|1\rR|2\rL|1\r", Fault::Misnumbered, 4),
            // Two are wrong: the first counts.
            (b"H|\\^&\rP|2\rX|1\rL|1\r", Fault::Misnumbered, 2),
        ];
        let mut gateway = Gateway::fresh();
        for (text, fault, place) in cases {
            assert_eq!(gateway.byte(2, 0x05), Answer::Opened);
            let mut told = Vec::new();
            for byte in frame(text).into_iter().chain(frame(TEXT)) {
                match gateway.byte(2, byte) {
                    Answer::Nothing => {}
                    answer => told.push(answer),
                }
            }
            assert_eq!(told, [Answer::Faulty { fault, place }, Answer::Refusing]);
            assert_eq!(gateway.byte(2, 0x04), Answer::Ended);
        }
        assert_eq!(gateway.used(2), 0);
    }

    /// What a line is sent by ACKs alone, and how its sending ends.
    fn acknowledged(gateway: &mut Gateway, line: u8) -> (Vec<u8>, Answer) {
        let mut sent = Vec::new();
        loop {
            match gateway.byte(line, ACK) {
                Answer::Sending { outgoing } => sent.extend_from_slice(&outgoing),
                answer => return (sent, answer),
            }
        }
    }

    #[test]
    fn a_message_is_sent_as_it_is_cut() {
        let mut gateway = Gateway::fresh();
        let long = [b"H|\\^&", &[b'x'; 3_989][..], b"\rL|1|\r"].concat();
        for text in [TEXT, &long] {
            assert_eq!(gateway.send(7, text).outgoing(), [0x05]);
            let (sent, end) = acknowledged(&mut gateway, 7);
            let mut out = [0; crate::CUT_LIMIT];
            let length = cut(text, &mut out).expect("a message");
            assert_eq!(sent, out[..length]);
            assert_eq!(end, Answer::SendingEnded { acknowledged: true });
        }
        assert_eq!(long.len(), crate::TEXT_LIMIT);
    }

    #[test]
    fn six_refusals_end_a_sending() {
        let mut gateway = Gateway::fresh();
        // Of our ENQ: nothing is sent then.
        gateway.send(0, TEXT);
        for _ in 0..5 {
            assert_eq!(gateway.byte(0, 0x15).outgoing(), []);
            assert_eq!(gateway.seconds(0, 9).outgoing(), []);
            assert_eq!(gateway.seconds(0, 1).outgoing(), [0x05]);
        }
        let answer = gateway.byte(0, 0x15);
        assert_eq!((&answer, answer.outgoing()), (&Answer::GivenUp, &[][..]));
        // Of a frame: the same frame each time, and our EOT.
        gateway.send(0, TEXT);
        let frame = gateway.byte(0, ACK);
        for _ in 0..5 {
            assert_eq!(gateway.byte(0, 0x15), frame);
        }
        let end = gateway.byte(0, 0x15);
        assert_eq!(
            end,
            Answer::SendingEnded {
                acknowledged: false
            }
        );
        // The line is free again, and a start that is refused leaves it so.
        assert_eq!(gateway.send(0, b"").number(), 50);
        assert_eq!(gateway.byte(0, 0x05), Answer::Opened);
        assert_eq!(gateway.send(0, TEXT), Answer::NotNeutral);
        assert_eq!(gateway.send(8, TEXT), Answer::NoLine);
    }

    /// A gateway whose line 1 has sent its last frame for the sixth time.
    fn at_the_last_send() -> Gateway {
        let mut gateway = Gateway::fresh();
        gateway.send(1, b"H|\\^&\rL|1\r");
        gateway.byte(1, ACK);
        gateway.byte(1, ACK);
        for _ in 0..5 {
            gateway.byte(1, 0x15);
        }
        gateway
    }

    #[test]
    fn our_eot_tells_whether_all_was_acknowledged() {
        for (byte, acknowledged) in [(ACK, true), (EOT, true), (0x05, false), (0x15, false)] {
            let end = at_the_last_send().byte(1, byte);
            assert_eq!(end, Answer::SendingEnded { acknowledged });
        }
        let end = at_the_last_send().seconds(1, 15);
        let acknowledged = false;
        assert_eq!(end, Answer::SendingEnded { acknowledged });
    }

    #[test]
    fn both_ends_want_to_send() {
        let mut gateway = Gateway::fresh();
        gateway.send(4, TEXT);
        assert_eq!(gateway.byte(4, 0x05), Answer::GivenUp);
        assert_eq!(gateway.byte(4, 0x05), Answer::Opened);
    }

    /// A gateway whose lines 1 and 6 have strip readers.
    fn with_readers() -> Gateway {
        let mut settings = [Settings::default(); LINES];
        settings[1].speaks = Speaks::Strips10;
        settings[6].speaks = Speaks::Strips13;
        Gateway::start(settings)
    }

    const SPM: &[u8] = b"\x02<\x033=\r";

    /// A finding of patient 4711, for patient numbers of 10 or of 13 characters.
    fn finding(patient: usize) -> Vec<u8> {
        let mut block = format!("\x02;E {:<1$} 00012 15.03.01 09:30 ", "4711", patient);
        for (name, length) in [("SG1.030", 13), ("PH  7", 11), ("LEU     500/ul ++++", 20)] {
            block += &format!("{:<1$}", name, length);
        }
        block += &format!("{:<12}", "NITpos pos");
        for name in ["PRO", "GLU", "KET", "UBG", "BIL", "ERY", "NAG"] {
            block += &format!("{:<20}", name);
        }
        let mut block = block.into_bytes();
        block.push(0x03);
        let test = block.iter().fold(0, |test, byte| test ^ byte);
        block.extend([0x30 | test >> 4, 0x30 | test & 15, b'\r']);
        block
    }

    /// The answer to the last of these bytes, the others being collected.
    fn last(gateway: &mut Gateway, line: u8, bytes: &[u8]) -> Answer {
        let (last, before) = bytes.split_last().expect("a byte");
        for byte in before {
            assert_eq!(gateway.byte(line, *byte), Answer::Nothing);
        }
        gateway.byte(line, *last)
    }

    #[test]
    fn readers_of_both_sorts() {
        let mut gateway = with_readers();
        for (line, patient) in [(1, 10), (6, 13)] {
            let block = finding(patient);
            assert_eq!(block.len(), 226 + patient);
            let more = Answer::Heard(Reply::More);
            assert_eq!(last(&mut gateway, line, SPM), more);
            assert_eq!(last(&mut gateway, line, &block), Answer::Filed);
            assert_eq!(last(&mut gateway, line, SPM), more);
            // The same again, with SPM between: it is not stored.
            assert_eq!(last(&mut gateway, line, &block), more);
            assert_eq!(last(&mut gateway, line, b"\x02:\x033;\r"), Answer::Noted);
            let mut buffer = [0; crate::TEXT_LIMIT];
            let length = match gateway.take(line, &mut buffer) {
                Answer::Taken { length, serial: 0 } => length,
                answer => panic!("{:?}", answer),
            };
            assert!(crate::is_message(&buffer[..length]));
            assert!(buffer.starts_with(b"H|\\^&\rP|1|4711\rO|1|00012\rR|1|SG|1.030\r"));
            assert_eq!(gateway.take(line, &mut buffer), Answer::NothingWaiting);
        }
        assert_eq!(gateway.byte(0, 0x05), Answer::Opened);
        assert_eq!(gateway.send(1, TEXT), Answer::NotNeutral);
        assert_eq!(gateway.seconds(1, 255), Answer::Nothing);
    }

    #[test]
    fn a_reader_is_asked_to_send_again() {
        let mut gateway = with_readers();
        let rep = b"\x02?\x033>\r";
        assert_eq!(last(&mut gateway, 1, rep), Answer::Noted);
        for (block, answer) in [
            (&b"\x02\r"[..], Answer::OddLength),
            (b"\x02<\x033C\r", Answer::OddTest),
            (b"\x02>\x033?\r", Answer::OddByte),
        ] {
            assert_eq!(last(&mut gateway, 1, block), answer);
            assert_eq!(answer.outgoing(), rep);
        }
        let again = Answer::Heard(Reply::Again);
        assert_eq!(last(&mut gateway, 1, rep), again);
        assert_eq!(again.outgoing(), rep);
    }

    #[test]
    fn a_finding_without_room() {
        let mut gateway = with_readers();
        let block = finding(10);
        let mut told = last(&mut gateway, 1, &block);
        while told == Answer::Filed {
            told = last(&mut gateway, 1, &block);
        }
        assert_eq!(told, Answer::Crowded);
        assert_eq!(told.outgoing(), []);
        let mut buffer = [0; crate::TEXT_LIMIT];
        assert_eq!(gateway.take(1, &mut buffer).number(), 8);
        assert_eq!(last(&mut gateway, 1, &block), Answer::Filed);
    }

    #[test]
    fn two_gateways() {
        let mut host = Gateway::fresh();
        let mut analyzer = Gateway::fresh();
        let mut bytes = host.send(5, TEXT).outgoing().to_vec();
        while !bytes.is_empty() {
            let mut back = Vec::new();
            for byte in bytes {
                back.extend_from_slice(analyzer.byte(2, byte).outgoing());
            }
            bytes = Vec::new();
            for byte in back {
                bytes.extend_from_slice(host.byte(5, byte).outgoing());
            }
        }
        let mut buffer = [0; 100];
        let length = TEXT.len();
        let taken = Answer::Taken { length, serial: 0 };
        assert_eq!(analyzer.take(2, &mut buffer), taken);
        assert_eq!(&buffer[..length], TEXT);
        assert_eq!(analyzer.take(2, &mut buffer), Answer::NothingWaiting);
    }

    #[test]
    fn time_and_lines_that_are_none() {
        let mut gateway = Gateway::default();
        assert_eq!(gateway.byte(0, 0x05), Answer::Opened);
        assert_eq!(gateway.seconds(0, 29), Answer::Nothing);
        assert_eq!(gateway.byte(0, 0x05), Answer::Busy);
        assert_eq!(gateway.seconds(0, 1), Answer::TimedOut);
        assert_eq!(gateway.byte(8, 0x05), Answer::NoLine);
        assert_eq!(gateway.take(255, &mut []), Answer::NoLine);
    }

    #[test]
    fn a_refused_text_stands_until_it_is_overwritten() {
        let refuse = |gateway: &mut Gateway| {
            assert_eq!(gateway.byte(0, 0x05), Answer::Opened);
            let wrong = frame(b"H|\\^&\rP|2\rL|1|N\r");
            assert_eq!(last(gateway, 0, &wrong).number(), 53);
            assert_eq!(gateway.refused(0), b"H|\\^&\rP|2\rL|1|N\r");
            assert_eq!(gateway.byte(0, 0x04), Answer::Ended);
        };
        let mut gateway = Gateway::fresh();
        assert_eq!(gateway.refused(0), []);
        refuse(&mut gateway);
        assert_eq!((gateway.refused(1), gateway.refused(8)), (&[][..], &[][..]));
        gateway.byte(0, 0x05);
        let next = frame(b"H|\\^&\r");
        assert_eq!(last(&mut gateway, 0, &next), Answer::Accepted);
        assert_eq!(gateway.refused(0), []);
        assert_eq!(gateway.byte(0, 0x04), Answer::Dropped);
        refuse(&mut gateway);
        assert_eq!(gateway.send(0, b"none"), not_sent(b"none"));
        assert!(!gateway.refused(0).is_empty());
        gateway.send(0, TEXT);
        assert_eq!(gateway.refused(0), []);
    }

    fn not_sent(text: &[u8]) -> Answer {
        Answer::NotSent(crate::read(text).unwrap_err())
    }

    #[test]
    fn where_a_line_is() {
        let mut gateway = with_readers();
        let mut told = vec![gateway.state(0)];
        for byte in [0x05, 0x02, b'\n', 0x04] {
            gateway.byte(0, byte);
            told.push(gateway.state(0));
        }
        let (neutral, waiting) = (State::Neutral, State::Waiting);
        assert_eq!(told, [neutral, waiting, State::Inside, waiting, neutral]);
        assert!(!told.iter().any(|state| state.is_sending()));
        told = Vec::new();
        gateway.send(0, TEXT);
        for byte in [0x15, 0x00] {
            told.push(gateway.state(0));
            gateway.byte(0, byte);
        }
        gateway.seconds(0, 10);
        gateway.byte(0, 0x06);
        told.push(gateway.state(0));
        assert_eq!(told, [State::Asking, State::Pausing, State::Offering]);
        assert!(told.iter().all(|state| state.is_sending()));
        assert_eq!(gateway.state(8), neutral);
        let speaks = [0, 1, 8].map(|line| gateway.speaks(line));
        assert_eq!(speaks[0], Speaks::Frames);
        assert_ne!(speaks[1], Speaks::Frames);
        assert_eq!(speaks[2], Speaks::Frames);
    }

    #[test]
    fn what_waits_is_seen_and_not_taken() {
        let mut gateway = Gateway::fresh();
        for number in [b'1', b'2'] {
            let text = [b"H|\\^&|", &[number][..], b"\rL|1|N\r"].concat();
            assert_eq!(gateway.byte(6, 0x05), Answer::Opened);
            assert_eq!(last(&mut gateway, 6, &frame(&text)), Answer::Stored);
            assert_eq!(gateway.byte(6, 0x04), Answer::Ended);
        }
        let serials: Vec<u16> = gateway.waiting(6).map(|(serial, _)| serial).collect();
        assert_eq!((serials, gateway.serial(6)), (vec![0, 1], 2));
        assert_eq!(gateway.waiting(5).count() + gateway.waiting(8).count(), 0);
        assert_eq!(gateway.in_use(), gateway.used(6));
        let mut buffer = [0; TEXT_LIMIT];
        let (serial, text) = gateway.waiting(6).next().expect("two wait");
        let length = text.len();
        let taken = Answer::Taken { length, serial };
        assert_eq!(gateway.take(6, &mut buffer), taken);
        assert_eq!(&buffer[..length], text);
    }

    #[test]
    fn a_clone_goes_its_own_way() {
        let mut one = Gateway::fresh();
        one.byte(0, 0x05);
        let mut other = one.clone();
        assert_eq!(one.byte(0, 0x04), Answer::Ended);
        assert_eq!(other.byte(0, 0x05), Answer::Busy);
    }
}
