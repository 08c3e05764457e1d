//! The scripts for one line.

use super::messages::{exact, right, wrong};
use super::random::Random;
use super::upload_mixes;
use super::{Mix, Script};
use crate::frames::{after, write};
use crate::lines::{Line, State};
use crate::sender::outgoing;
use crate::texts::{ACK, CR, DC1, ENQ, EOT, ETB, ETX, LF, NAK, STX};
use crate::world::{Memory, Op, World};
use crate::{JOURNAL, UNFINISHED_PART};

/// A script of this mix for a line as it stands.
pub fn script(mix: Mix, random: &mut Random, line: u8, world: &World) -> Script {
    if mix == Mix::Upload {
        return upload_mixes::upload(random, line, world);
    }
    let mut writer = Writer {
        random,
        line,
        script: Script::default(),
    };
    let record = &world.model.lines[usize::from(line)];
    match mix {
        Mix::Noise => writer.noise(record),
        Mix::Polite => writer.polite(record),
        Mix::Damaged => writer.damaged(record),
        Mix::Records => writer.records(record),
        Mix::NotAllowed => writer.not_allowed(record),
        Mix::Long => writer.long(record),
        Mix::Clock => writer.clock(record),
        Mix::Flood => writer.flood(record),
        Mix::Takings => writer.takings(world),
        Mix::Sending => writer.sending(record, world),
        _ => unreachable!("{:?} is for the whole gateway", mix),
    }
    writer.script
}

struct Writer<'a> {
    random: &'a mut Random,
    line: u8,
    script: Script,
}

impl Writer<'_> {
    fn send(&mut self, bytes: &[u8]) {
        self.script.bytes(self.line, bytes);
    }

    fn seconds(&mut self, seconds: u8) {
        self.script.seconds(self.line, seconds);
    }

    /// Brings the line to waiting with no text and not refusing; the number its next frame needs.
    fn open(&mut self, record: &Line) -> u8 {
        match record.state {
            State::Neutral => {}
            State::Waiting => {
                if record.joined == 0 && !record.refusing && self.random.once_in(2) {
                    return record.next;
                }
                self.send(&[EOT]);
            }
            State::Inside => {
                if self.random.once_in(2) {
                    self.send(&[LF, EOT]);
                } else {
                    self.seconds(255);
                }
            }
            State::Asking | State::Pausing | State::Offering => self.end_sending(record),
        }
        self.send(&[ENQ]);
        1
    }

    /// Seconds that end a sending. A line that pauses first asks once more.
    fn end_sending(&mut self, record: &Line) {
        if record.state == State::Pausing {
            self.seconds(10);
        }
        self.seconds(15);
    }

    /// A text as frames from this number on: each record for itself, packed full, or cut anywhere.
    fn frames(&mut self, text: &[u8], first: u8) -> Vec<Vec<u8>> {
        let style = self.random.below(3);
        let mut frames = Vec::new();
        let mut number = first;
        let mut start = 0;
        while start < text.len() {
            let longest = (text.len() - start).min(240);
            let size = match style {
                0 => match text[start..start + longest].iter().position(|&b| b == CR) {
                    Some(place) => place + 1,
                    None => longest,
                },
                1 => longest,
                _ => self.random.below(longest + 1),
            };
            let piece = &text[start..start + size];
            start += size;
            let is_last = start == text.len();
            let ends_record = piece.last() == Some(&CR);
            // Now and then the whole message stands before an empty ETX frame.
            let is_etx = match style {
                0 => ends_record,
                1 => is_last,
                _ if is_last => !self.random.once_in(4),
                _ => ends_record && self.random.once_in(2),
            };
            frames.push(write(number, piece, if is_etx { ETX } else { ETB }));
            number = after(number);
            if is_last && !is_etx {
                frames.push(write(number, b"", ETX));
            }
        }
        frames
    }

    fn noise(&mut self, record: &Line) {
        if record.state == State::Neutral && self.random.once_in(2) {
            self.send(&[ENQ]);
        }
        // Without LF for long, so that the 246th byte is met too.
        let without_lf = self.random.once_in(4);
        let count = if without_lf {
            300
        } else {
            self.random.between(1, 60)
        };
        if without_lf {
            self.send(&[STX]);
        }
        for _ in 0..count {
            let byte = match self.random.below(5) {
                0 | 1 => self
                    .random
                    .pick(&[ENQ, STX, STX, EOT, ETX, ETB, CR, LF, ACK, NAK]),
                2 => self.random.pick(b"01234567890ABCDEF"),
                _ => self.random.byte(),
            };
            if !(without_lf && byte == LF) {
                self.send(&[byte]);
            }
        }
    }

    fn polite(&mut self, record: &Line) {
        if self.random.once_in(8) {
            let serial = self.random.pick(&[65_534, 65_535, 0, 255, 256]);
            self.script.push(Op::Serial {
                line: self.line,
                serial,
            });
        }
        let first = self.open(record);
        let longest = self.random.pick(&[11, 40, 250, 800]);
        let text = right(self.random, longest);
        for frame in self.frames(&text, first) {
            self.send(&frame);
            match self.random.below(30) {
                0 | 1 => self.send(&frame),
                2 => self.send(&[ENQ]),
                3 => {
                    let byte = self.random.pick(&[CR, LF, ACK, NAK, 0x00, b'H', 0xFF]);
                    self.send(&[byte]);
                }
                4 => {
                    let seconds = self.random.below(10) as u8;
                    self.seconds(seconds);
                }
                _ => {}
            }
        }
        if !self.random.once_in(4) {
            self.send(&[EOT]);
        }
    }

    fn damaged(&mut self, record: &Line) {
        let number = self.open(record);
        let text = self.some_text();
        let end = self.random.pick(&[ETB, ETX]);
        let whole = write(number, &text, end);
        let frame = self.with_fault(&whole, number, &text, end);
        self.send(&frame);
        // What is left of a frame without LF would swallow the next: end it.
        if self.random.once_in(2) {
            self.send(&[LF]);
        }
        if self.random.once_in(2) {
            self.send(&whole);
        }
    }

    /// Text for one frame, allowed bytes only.
    fn some_text(&mut self) -> Vec<u8> {
        let length = self.random.pick(&[0, 1, 2, 20, 100, 239, 240]);
        let mut text: Vec<u8> = (0..length)
            .map(|_| {
                self.random
                    .pick(b"|\\^&0123456789abcHPORQLCM\x07\xFE\x80\x20\x7E")
            })
            .collect();
        if length > 0 && self.random.once_in(2) {
            text[length - 1] = CR;
        }
        text
    }

    fn with_fault(&mut self, whole: &[u8], number: u8, text: &[u8], end: u8) -> Vec<u8> {
        let mut frame = whole.to_vec();
        let count = frame.len();
        match self.random.below(14) {
            // Too long: 241 text bytes or more.
            0 => {
                let length = self.random.pick(&[241, 242, 250]);
                return write(number, &vec![b'x'; length], end);
            }
            // Too short: fewer than six collected.
            1 => {
                let size = self.random.between(1, 5.min(count - 1));
                frame.truncate(size);
                frame.push(LF);
            }
            // No CR before LF, no ETB or ETX in its place.
            2 => frame[count - 2] = self.random.pick(&[b'0', LF, 0x00]),
            3 => frame[count - 5] = self.random.pick(&[EOT, STX, b'x', CR]),
            // Check digits: another, small letters, STX counted too, ETX left out, spaces.
            4 => frame[count - 3] = self.random.pick(b"0123456789ABCDEF"),
            5 => frame[count - 4..count - 2].make_ascii_lowercase(),
            6 => set_digits(&mut frame, |sum| sum.wrapping_add(STX)),
            7 => set_digits(&mut frame, |sum| sum.wrapping_sub(end)),
            8 => frame[count - 4..count - 2].copy_from_slice(b"  "),
            // A byte that is not allowed, with right digits.
            9 => {
                let mut text = text.to_vec();
                let place = self.random.below(text.len() + 1);
                let bytes = [0x00, 0x02, 0x04, 0x05, LF, 0x0E, 0x15, 0x1F, 0x7F, 0xFF];
                text.insert(place, self.random.pick(&bytes));
                return write(number, &text, end);
            }
            // A number that is none, or another one.
            10 => {
                let digit = self.random.pick(&[8, 9, 0xFF, 0x11, 0xF0, 10]);
                return write_any(digit, text, end);
            }
            11 => {
                let other = (usize::from(number) + self.random.between(1, 7)) % 8;
                return write(other as u8, text, end);
            }
            // On the wire: a bit turned, a byte lost.
            12 => {
                let place = self.random.below(count);
                frame[place] ^= 1 << self.random.below(8);
            }
            _ => {
                let place = self.random.below(count);
                frame.remove(place);
            }
        }
        frame
    }

    fn records(&mut self, record: &Line) {
        let first = self.open(record);
        let longest = self.random.pick(&[11, 30, 80, 300]);
        let text = if self.random.once_in(2) {
            right(self.random, longest)
        } else {
            wrong(self.random, longest)
        };
        for frame in self.frames(&text, first) {
            self.send(&frame);
        }
        // Where it was decided against, these are refused; where it was stored, they go on.
        if self.random.once_in(3) {
            let number = self.random.below(8) as u8;
            let more = right(self.random, 20);
            self.send(&write(number, &more, ETX));
        }
        if self.random.once_in(3) {
            self.send(&[EOT]);
        }
    }

    /// A message whose beginning is set by hand, most often with a byte in it that no frame brings.
    fn not_allowed(&mut self, record: &Line) {
        let number = self.open(record);
        let longest = self.random.between(20, 60);
        let text = if self.random.once_in(2) {
            right(self.random, longest)
        } else {
            wrong(self.random, longest)
        };
        let (before, rest) = text.split_at(self.random.below(text.len()));
        for (place, &byte) in before.iter().enumerate() {
            self.set_text(place, byte);
        }
        if !before.is_empty() && !self.random.once_in(4) {
            let place = self.random.below(before.len());
            let byte = self.random.pick(&[0x00, STX, ETX, LF, 0x1F, 0x7F, 0xFF]);
            self.set_text(place, byte);
        }
        self.script.push(Op::Joined {
            line: self.line,
            count: before.len() as u16,
        });
        self.send(&write(number, rest, ETX));
    }

    /// A byte of the line's unfinished text, by hand.
    fn set_text(&mut self, place: usize, value: u8) {
        self.script.push(Op::Poke {
            memory: Memory::Unfinished,
            index: usize::from(self.line) * UNFINISHED_PART + place,
            value,
        });
    }

    fn long(&mut self, record: &Line) {
        if self.random.once_in(12) {
            let first = self.open(record);
            let length = self.random.between(3_985, 4_001);
            let text = exact(self.random, length);
            for frame in self.frames(&text, first) {
                self.send(&frame);
            }
            return;
        }
        let mut number = self.open(record);
        if !self.random.once_in(4) {
            self.set_joined();
        }
        for _ in 0..self.random.between(1, 4) {
            let length = self
                .random
                .pick(&[0, 0, 1, 2, 5, 8, 10, 11, 12, 238, 239, 240, 241]);
            let mut text = vec![b'L'; length];
            if length > 0 && !self.random.once_in(3) {
                text[length - 1] = CR;
            }
            if length > 1 && self.random.once_in(3) {
                text[length - 2] = CR;
            }
            let end = self.random.pick(&[ETB, ETX]);
            self.send(&write(number, &text, end));
            // The number is right again if the frame was accepted.
            if self.random.once_in(2) {
                number = after(number);
            }
        }
    }

    /// Unfinished text near its limit, by hand, with or without CR and a last record L.
    fn set_joined(&mut self) {
        let count = self.random.between(3_985, 4_000);
        self.script.push(Op::Joined {
            line: self.line,
            count: count as u16,
        });
        for back in 1..=3 {
            let value = self.random.pick(&[CR, b'L', b'x']);
            self.set_text(count - back, value);
        }
    }

    fn clock(&mut self, record: &Line) {
        let number = self.open(record);
        for _ in 0..self.random.between(2, 6) {
            match self.random.below(5) {
                0 => self.send(&[STX, b'1']),
                1 => self.send(&write(number, b"H|\\^&\r", ETB)),
                2 => self.send(&[ENQ]),
                _ => {}
            }
            let seconds = self
                .random
                .pick(&[0, 1, 2, 13, 14, 15, 16, 28, 29, 30, 31, 226, 227, 255]);
            self.seconds(seconds);
        }
    }

    fn flood(&mut self, record: &Line) {
        let mut number = self.open(record);
        for _ in 0..self.random.between(1, 3) {
            let longest = self.random.between(300, 1_500);
            let text = right(self.random, longest);
            for frame in self.frames(&text, number) {
                self.send(&frame);
                number = after(number);
            }
        }
    }

    /// A start on a line that does not send, or the next events of one that does.
    fn sending(&mut self, record: &Line, world: &World) {
        if record.state.is_sending() {
            self.fetch(world);
        } else {
            let text = self.order();
            self.script.start(self.line, text);
            if record.state != State::Neutral && self.random.once_in(2) {
                self.open(record);
                self.send(&[EOT]);
            }
        }
        for _ in 0..self.random.below(4) {
            let temper = self.random.pick(&Temper::ALL);
            self.replies(temper);
        }
    }

    /// The frame that the line offers now, with room around what it needs.
    fn fetch(&mut self, world: &World) {
        let line = usize::from(self.line);
        let record = &world.model.lines[line];
        let text =
            &world.unfinished[line * UNFINISHED_PART..][..record.joined.min(UNFINISHED_PART)];
        let needed = outgoing(record, text).len();
        let room = match self.random.below(6) {
            0 => 0,
            1 => needed.saturating_sub(1),
            2 => needed + 1,
            3 => 300,
            4 => 247,
            _ => needed,
        };
        self.script.fetch(self.line, room);
    }

    /// A text to send: most often a message, now and then with a record that goes on in a second frame.
    fn order(&mut self) -> Vec<u8> {
        let longest = self.random.pick(&[11, 30, 100, 300, 700]);
        match self.random.below(12) {
            0..=2 => wrong(self.random, longest),
            3 | 4 => self.not_a_text(),
            5 => {
                let record = self.random.pick(&[238, 239, 240, 241, 242, 480, 481]);
                with_record_of(record)
            }
            6 if self.random.once_in(4) => {
                let length = self.random.between(3_999, 4_001);
                exact(self.random, length)
            }
            _ => right(self.random, longest),
        }
    }

    /// A text with a byte that is not allowed, without a CR at its end, or with nothing in it.
    fn not_a_text(&mut self) -> Vec<u8> {
        let mut text = right(self.random, 60);
        match self.random.below(4) {
            0 => text.clear(),
            1 => {
                text.pop();
            }
            _ => {
                let place = self.random.below(text.len());
                text[place] = self.random.pick(&[0x00, STX, LF, 0x1F, 0x7F, 0xFF]);
            }
        }
        text
    }

    /// Replies and seconds of one temper.
    fn replies(&mut self, temper: Temper) {
        for _ in 0..self.random.between(1, temper.patience()) {
            match temper {
                Temper::Willing => self.send(&[ACK]),
                Temper::Refusing => {
                    let byte = self.random.pick(&[NAK, NAK, DC1, EOT, 0x00, 0xFF]);
                    self.send(&[byte]);
                    if self.random.once_in(2) {
                        self.seconds(10);
                    }
                }
                Temper::Silent => self.wait(),
                Temper::Any => self.reply(),
            }
            // What is offered then, if anything is, with room for any frame.
            if self.random.once_in(3) {
                self.script.fetch(self.line, 247);
            }
        }
    }

    /// One reply, of every kind.
    fn reply(&mut self) {
        match self.random.below(20) {
            0..=11 => self.send(&[ACK]),
            12 | 13 => self.send(&[NAK]),
            14 => self.send(&[ENQ]),
            15 => self.send(&[EOT]),
            16 | 17 => {
                let byte = match self.random.below(3) {
                    0 => DC1,
                    1 => self.random.pick(&[STX, LF, 0x00, 0xFF]),
                    _ => self.random.byte(),
                };
                self.send(&[byte]);
            }
            _ => self.wait(),
        }
    }

    fn wait(&mut self) {
        let seconds = self.random.pick(&[0, 1, 1, 4, 5, 9, 10, 14, 15, 255]);
        self.seconds(seconds);
    }

    fn takings(&mut self, world: &World) {
        let ledger = &world.model.ledger;
        let oldest = ledger.oldest(&world.journal[..JOURNAL], usize::from(self.line));
        let length = oldest.map_or(0, |entry| entry.length);
        let buffer = match self.random.below(8) {
            0 => 0,
            1 => length.saturating_sub(1),
            2 | 3 => length,
            4 => length + 1,
            5 => self.random.pick(&[4_001, 5_000]),
            6 => self.random.below(4_001),
            _ => 4_000,
        };
        self.script.take(self.line, buffer);
    }
}

/// How an analyzer answers a sending for a while.
#[derive(Clone, Copy)]
enum Temper {
    /// ACK and nothing else: frames go by, to our EOT.
    Willing,
    /// Bytes that refuse our ENQ, with pauses; one of them, EOT, acknowledges a frame.
    Refusing,
    /// Seconds alone.
    Silent,
    /// ACK in three of five, and everything else.
    Any,
}

impl Temper {
    const ALL: [Temper; 4] = [
        Temper::Willing,
        Temper::Refusing,
        Temper::Silent,
        Temper::Any,
    ];

    /// The most events that it lasts.
    fn patience(self) -> usize {
        match self {
            Temper::Willing | Temper::Refusing => 10,
            Temper::Silent => 3,
            Temper::Any => 8,
        }
    }
}

/// A message whose first record has so many bytes, its CR counted.
fn with_record_of(length: usize) -> Vec<u8> {
    let mut text = b"H|\\^&".to_vec();
    text.resize(length - 1, b'x');
    text.extend_from_slice(b"\rL|1\r");
    text
}

/// A frame whose number digit is any byte.
fn write_any(digit: u8, text: &[u8], end: u8) -> Vec<u8> {
    let mut frame = write(0, text, end);
    frame[1] = b'0'.wrapping_add(digit);
    set_digits(&mut frame, |sum| sum);
    frame
}

/// The check digits of a frame made from its sum, changed or not.
fn set_digits(frame: &mut [u8], change: impl Fn(u8) -> u8) {
    let count = frame.len();
    let counted = &frame[1..count - 4];
    let sum = counted.iter().fold(0, |sum: u8, &b| sum.wrapping_add(b));
    let digits = format!("{:02X}", change(sum));
    frame[count - 4..count - 2].copy_from_slice(digits.as_bytes());
}
