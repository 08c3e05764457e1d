//! The answers and the reply that goes with each (docs/RULES.md, A and O).
//!
//! The code names an answer by its number in that table.

use crate::texts::{ACK, NAK, STX};

/// What an event, a start or a taking gives. The reply is the first byte that goes to the analyzer, if
/// any does: of a frame or a block that is sent it is the STX. Length and serial are those of the entry taken with
/// answer 8; place is that of the wrong record with a fault, counted from 1. They are 0 with every other
/// number.
#[derive(Clone, Copy, PartialEq, Eq, Debug)]
pub struct Answer {
    pub number: u8,
    pub reply: Option<u8>,
    pub length: usize,
    pub serial: u16,
    pub place: usize,
}

impl Answer {
    /// An answer that is its number alone, with the table's reply.
    pub fn plain(number: u8) -> Answer {
        Answer {
            number,
            reply: reply(number),
            length: 0,
            serial: 0,
            place: 0,
        }
    }

    /// Answer 8.
    pub fn taken(length: usize, serial: u16) -> Answer {
        Answer {
            length,
            serial,
            ..Answer::plain(8)
        }
    }

    /// Answers 50 to 53 and 55 to an event.
    pub fn faulty(number: u8, place: usize) -> Answer {
        Answer {
            place,
            ..Answer::plain(number)
        }
    }

    /// Answer 9, with the first byte of what is sent, if anything is.
    pub fn sending(first: Option<u8>) -> Answer {
        Answer {
            reply: first,
            ..Answer::plain(9)
        }
    }

    /// The answer to a block of a strip reader, and whether a reply goes out, which is a block too: MOR or
    /// REP.
    pub fn replied(number: u8, replies: bool) -> Answer {
        Answer {
            reply: replies.then_some(STX),
            ..Answer::plain(number)
        }
    }

    /// A start that is refused for its text: whatever the number, nothing goes to the analyzer, which
    /// has asked for nothing.
    pub fn refused(refusal: Refusal) -> Answer {
        Answer {
            reply: None,
            place: refusal.place,
            ..Answer::plain(refusal.number)
        }
    }
}

/// Why a text was not cut, read or sent: 46, 47, or 50 to 55 with the place of the wrong record, counted
/// from 1, which is 0 with the other two.
#[derive(Clone, Copy, PartialEq, Eq, Debug)]
pub struct Refusal {
    pub number: u8,
    pub place: usize,
}

impl Refusal {
    /// 46 or 47.
    pub fn plain(number: u8) -> Refusal {
        Refusal { number, place: 0 }
    }

    /// 50 to 55.
    pub fn faulty(number: u8, place: usize) -> Refusal {
        Refusal { number, place }
    }
}

/// The table's third column: the byte sent back, or none. What goes out with 9, and on a reader's line, is
/// not told by the number. [O1]
pub fn reply(number: u8) -> Option<u8> {
    match number {
        1..=4 => Some(ACK),
        20..=31 | 50..=55 => Some(NAK),
        _ => None,
    }
}

#[cfg(test)]
mod tests {
    use super::*;

    #[test]
    fn ack_nak_or_none() {
        let ack = [1, 2, 3, 4];
        let nak = [
            20, 21, 22, 23, 24, 25, 26, 27, 28, 29, 30, 31, 50, 51, 52, 53, 54, 55,
        ];
        for number in 0..=255 {
            let expected = if ack.contains(&number) {
                Some(0x06)
            } else if nak.contains(&number) {
                Some(0x15)
            } else {
                None
            };
            assert_eq!(reply(number), expected, "answer {}", number);
            assert_eq!(Answer::plain(number).reply, expected);
            // A start that is refused is not replied to, since nothing was asked.
            let refused = Answer::refused(Refusal::faulty(number, 3));
            assert_eq!((refused.reply, refused.place), (None, 3));
        }
    }

    #[test]
    fn a_sending_tells_its_first_byte() {
        for first in [None, Some(0x02), Some(0x04), Some(0x05)] {
            let answer = Answer::sending(first);
            assert_eq!((answer.number, answer.reply), (9, first));
        }
    }

    #[test]
    fn a_reply_to_a_reader_is_a_block() {
        for number in [4, 11, 31, 70, 71, 72] {
            let replied = Answer::replied(number, true);
            assert_eq!((replied.number, replied.reply), (number, Some(0x02)));
            assert_eq!(Answer::replied(number, false).reply, None);
        }
    }
}
