//! A gateway as bytes, to be saved and loaded again.

use crate::answers::Answer;
use crate::gateway::{Gateway, Memory};
use crate::layout::{COUNTS, FRAMES_SIZE, JOURNAL_SIZE, LINES, NUMBERS, UNFINISHED_SIZE, VERSION};
use std::error::Error;
use std::fmt;

/// How many bytes a saved gateway has: the version, the numbers, the counts and the three memories.
pub const SAVED_SIZE: usize =
    4 + 2 * NUMBERS + 4 * COUNTS + JOURNAL_SIZE + UNFINISHED_SIZE + FRAMES_SIZE;

/// Why bytes were not loaded.
#[derive(Clone, Copy, PartialEq, Eq, Debug)]
pub enum NotLoaded {
    /// They are not [`SAVED_SIZE`] bytes.
    OtherLength,
    /// They were saved under another [`VERSION`] of the layout, this one.
    OtherVersion(u32),
    /// This line's numbers are no record: its events would be answered 42.
    BeyondLimits(u8),
    /// The journal and its counts do not agree: takings would be answered 43.
    Broken,
}

impl fmt::Display for NotLoaded {
    fn fmt(&self, f: &mut fmt::Formatter) -> fmt::Result {
        match self {
            NotLoaded::OtherLength => write!(f, "not {} bytes", SAVED_SIZE),
            NotLoaded::OtherVersion(version) => {
                write!(f, "saved under layout {}, and this is {}", version, VERSION)
            }
            NotLoaded::BeyondLimits(line) => {
                write!(f, "the numbers of line {} are no record", line)
            }
            NotLoaded::Broken => f.write_str("the journal and its counts do not agree"),
        }
    }
}

impl Error for NotLoaded {}

/// Bytes from front to back.
struct Front<'a>(&'a [u8]);

impl<'a> Front<'a> {
    fn bytes(&mut self, count: usize) -> &'a [u8] {
        let (first, rest) = self.0.split_at(count);
        self.0 = rest;
        first
    }

    fn two(&mut self) -> u16 {
        u16::from_le_bytes(self.bytes(2).try_into().expect("two bytes"))
    }

    fn four(&mut self) -> u32 {
        u32::from_le_bytes(self.bytes(4).try_into().expect("four bytes"))
    }
}

impl Gateway {
    /// Puts all that the gateway is behind `out`: [`SAVED_SIZE`] bytes, the version of the layout first.
    ///
    /// ```
    /// use ngachodui::{Answer, Gateway};
    ///
    /// let mut gateway = Gateway::fresh();
    /// gateway.byte(3, 0x05);
    /// let mut saved = Vec::new();
    /// gateway.save(&mut saved);
    /// assert_eq!(saved.len(), ngachodui::SAVED_SIZE);
    ///
    /// let mut loaded = Gateway::load(&saved)?;
    /// assert_eq!(loaded.byte(3, 0x05), Answer::Busy); // its transfer is still open
    /// # Ok::<(), ngachodui::NotLoaded>(())
    /// ```
    pub fn save(&self, out: &mut Vec<u8>) {
        let memory = &*self.memory;
        out.reserve(SAVED_SIZE);
        out.extend_from_slice(&VERSION.to_le_bytes());
        memory
            .numbers
            .iter()
            .for_each(|number| out.extend_from_slice(&number.to_le_bytes()));
        memory
            .counts
            .iter()
            .for_each(|count| out.extend_from_slice(&count.to_le_bytes()));
        out.extend_from_slice(&memory.journal);
        out.extend_from_slice(&memory.unfinished);
        out.extend_from_slice(&memory.frames);
    }

    /// The gateway that was saved as these bytes.
    ///
    /// Whether they are what was saved is for a check of the host's to tell. Here is only asked what the library
    /// itself asks of numbers and memories, so that no event of a loaded gateway is answered 42 at once, and no
    /// taking 43.
    ///
    /// # Errors
    ///
    /// [`NotLoaded`]: they are no gateway of this layout.
    pub fn load(saved: &[u8]) -> Result<Gateway, NotLoaded> {
        if saved.len() != SAVED_SIZE {
            return Err(NotLoaded::OtherLength);
        }
        let mut front = Front(saved);
        let version = front.four();
        if version != VERSION {
            return Err(NotLoaded::OtherVersion(version));
        }
        let mut memory = Memory::new();
        memory.numbers.iter_mut().for_each(|n| *n = front.two());
        memory.counts.iter_mut().for_each(|n| *n = front.four());
        memory.journal.copy_from_slice(front.bytes(JOURNAL_SIZE));
        memory
            .unfinished
            .copy_from_slice(front.bytes(UNFINISHED_SIZE));
        memory.frames.copy_from_slice(front.bytes(FRAMES_SIZE));
        let gateway = Gateway::of(memory);
        gateway.asked().map(|()| gateway)
    }

    /// What the library says to a second-less event and to a taking on each line, asked of a copy.
    fn asked(&self) -> Result<(), NotLoaded> {
        let mut copy = self.clone();
        for line in 0..LINES as u8 {
            if copy.seconds(line, 0) == Answer::BeyondLimits {
                return Err(NotLoaded::BeyondLimits(line));
            }
            if copy.take(line, &mut []) == Answer::Broken {
                return Err(NotLoaded::Broken);
            }
        }
        Ok(())
    }
}

#[cfg(test)]
mod tests {
    use super::*;
    use crate::layout::{COLLECTED, FIELDS, IN_USE};
    use crate::{Reply, Settings, Speaks};

    fn saved(gateway: &Gateway) -> Vec<u8> {
        let mut bytes = Vec::new();
        gateway.save(&mut bytes);
        bytes
    }

    /// A transfer is open on line 2, with a message stored in it and half a frame behind; line 4 sends.
    fn busy() -> Gateway {
        let mut settings = [Settings::default(); LINES];
        settings[6].speaks = Speaks::Strips13;
        let mut gateway = Gateway::start(settings);
        let stored = b"\x05\x021H|\\^&\rL|1|N\r\x03B5\r\n";
        assert_eq!(hear(&mut gateway, 2, stored), Answer::Stored);
        assert_eq!(hear(&mut gateway, 2, b"\x022H|"), Answer::Nothing);
        gateway.send(4, b"H|\\^&\rL|1|N\r");
        gateway
    }

    #[test]
    fn what_is_loaded_goes_on_as_what_was_saved() {
        let mut gateway = busy();
        let bytes = saved(&gateway);
        assert_eq!(bytes.len(), SAVED_SIZE);
        let mut loaded = Gateway::load(&bytes).expect("just saved");
        assert_eq!(saved(&loaded), bytes);
        for byte in b"\\^&\rL|1|N\r\x03B6\r\n" {
            assert_eq!(loaded.byte(2, *byte), gateway.byte(2, *byte));
        }
        assert_eq!(loaded.byte(4, 0x06), gateway.byte(4, 0x06));
        assert_eq!(loaded.seconds(2, 30), gateway.seconds(2, 30));
        assert_eq!(saved(&loaded), saved(&gateway));
        assert_ne!(saved(&loaded), bytes);
    }

    #[test]
    fn a_resent_frame_is_a_repeat_for_the_loaded_gateway() {
        let mut gateway = Gateway::fresh();
        let frame = frame(1, "H|\\^&\rL|1|N\r");
        gateway.byte(2, 0x05);
        assert_eq!(hear(&mut gateway, 2, &frame), Answer::Stored);
        let mut loaded = Gateway::load(&saved(&gateway)).expect("just saved");
        assert_eq!(hear(&mut loaded, 2, &frame), Answer::Repeated);
        assert_eq!(loaded.used(2), 16);
    }

    fn hear(gateway: &mut Gateway, line: u8, bytes: &[u8]) -> Answer {
        let answers = bytes.iter().map(|byte| gateway.byte(line, *byte));
        answers.last().expect("bytes")
    }

    /// A text in a frame of this number that ends with ETX.
    fn frame(number: u8, text: &str) -> Vec<u8> {
        piece(number, text, '\x03')
    }

    /// The same with any end.
    fn piece(number: u8, text: &str, end: char) -> Vec<u8> {
        let inside = format!("{}{}{}", number % 8, text, end);
        let sum = inside
            .bytes()
            .fold(0, |sum: u8, byte| sum.wrapping_add(byte));
        format!("\x02{}{:02X}\r\n", inside, sum).into_bytes()
    }

    /// Why a host saves before each ACK, and not only before that to a stored message: frame numbers come again.
    #[test]
    fn a_frame_that_was_acknowledged_and_not_saved() {
        let mut gateway = Gateway::fresh();
        gateway.byte(2, 0x05);
        let message = frame(1, "H|\\^&\rL|1|N\r");
        assert_eq!(hear(&mut gateway, 2, &message), Answer::Stored);
        let bytes = saved(&gateway);
        // Seven of the eight frames of the next message are acknowledged, and not saved.
        let texts = [
            "H|\\^&\r", "P|1\r", "C|1\r", "C|2\r", "C|3\r", "C|4\r", "C|5\r",
        ];
        for (text, number) in texts.iter().zip(2..) {
            assert_eq!(
                hear(&mut gateway, 2, &frame(number, text)),
                Answer::Accepted
            );
        }
        let mut loaded = Gateway::load(&bytes).expect("just saved");
        let last = frame(9, "L|1|N\r");
        assert_eq!(hear(&mut gateway, 2, &last), Answer::Stored);
        // The loaded one takes it for the frame that it accepted last, and acknowledges a message that it has not.
        assert_eq!(hear(&mut loaded, 2, &last), Answer::Repeated);
        assert_eq!(loaded.waiting(2).count(), 1);
    }

    /// Eight pieces of a record that were acknowledged and not saved are missing in what is stored then.
    #[test]
    fn a_record_with_a_gap() {
        let (etb, etx) = ('\x17', '\x03');
        let mut gateway = Gateway::fresh();
        gateway.byte(2, 0x05);
        hear(&mut gateway, 2, &frame(1, "H|\\^&\r"));
        hear(&mut gateway, 2, &piece(2, "C|1|G|begins", etb));
        let bytes = saved(&gateway);
        for number in 3..11 {
            let answer = hear(&mut gateway, 2, &piece(number, ", goes on", etb));
            assert_eq!(answer, Answer::Accepted);
        }
        let mut loaded = Gateway::load(&bytes).expect("just saved");
        for gateway in [&mut gateway, &mut loaded] {
            let ends = hear(gateway, 2, &piece(11, ", ends\r", etx));
            assert_eq!(ends, Answer::Accepted);
            assert_eq!(hear(gateway, 2, &frame(12, "L|1|N\r")), Answer::Stored);
        }
        let stored = |gateway: &Gateway| gateway.waiting(2).next().expect("stored").1;
        let gap = b"H|\\^&\rC|1|G|begins, ends\rL|1|N\r";
        assert_eq!(stored(&loaded), gap);
        assert_eq!(stored(&gateway).len(), gap.len() + 8 * ", goes on".len());
    }

    /// And before each reply to a strip reader, a REP too: it may ask for our last reply.
    #[test]
    fn a_reply_to_a_reader_that_was_not_saved() {
        let mut settings = [Settings::default(); LINES];
        settings[6].speaks = Speaks::Strips10;
        let mut gateway = Gateway::start(settings);
        assert_eq!(
            hear(&mut gateway, 6, b"\x02<\x033=\r"),
            Answer::Heard(Reply::More)
        );
        let bytes = saved(&gateway);
        let spoilt = b"\x02;E 4711\x0300\r";
        assert_eq!(hear(&mut gateway, 6, spoilt), Answer::OddLength);
        let mut loaded = Gateway::load(&bytes).expect("just saved");
        let again = b"\x02?\x033>\r";
        assert_eq!(hear(&mut gateway, 6, again), Answer::Heard(Reply::Again));
        // The loaded one says that the reader may go on.
        assert_eq!(hear(&mut loaded, 6, again), Answer::Heard(Reply::More));
    }

    #[test]
    fn what_is_no_gateway_is_not_loaded() {
        let bytes = saved(&busy());
        let refused = |bytes: &[u8]| Gateway::load(bytes).err();
        assert_eq!(refused(&bytes), None);
        assert_eq!(refused(&[]), Some(NotLoaded::OtherLength));
        let short = &bytes[..SAVED_SIZE - 1];
        assert_eq!(refused(short), Some(NotLoaded::OtherLength));

        let mut other = bytes.clone();
        other[0] += 1;
        let version = VERSION + 1;
        assert_eq!(refused(&other), Some(NotLoaded::OtherVersion(version)));

        // Line 5 has collected 246 bytes: one more than a record can hold.
        let mut other = bytes.clone();
        other[4 + 2 * (5 * FIELDS + COLLECTED)] = 246;
        assert_eq!(refused(&other), Some(NotLoaded::BeyondLimits(5)));

        // One byte more in use than the entries have.
        let mut other = bytes;
        other[4 + 2 * NUMBERS + 4 * IN_USE] += 1;
        assert_eq!(refused(&other), Some(NotLoaded::Broken));
    }
}
