//! Sends a work order over a bad cable, and prints the dialogue.
//!
//! Two gateways stand back to back: that of a host, which sends, and one in the place of the analyzer,
//! which receives. The cable between them loses and alters bytes, by a fixed sequence, so that every run
//! prints the same. This is how a host sends: it starts a sending, hands over every byte that comes in
//! and every second that passes, and sends all that the answers have with them.

use ngachodui::{Answer, Gateway, TEXT_LIMIT};
use std::collections::VecDeque;

const ORDER: &[u8] = b"H|\\^&|||host\rP|1||4711\rO|1|000016||^^^GLU|R\rC|1|L|fasting\rL|1|N\r";

/// The line at both ends.
const LINE: u8 = 0;

/// How many sendings the host tries, and how many seconds it lets pass in between: with the 15 for which it
/// waited for a reply, more than the 30 after which a receiver ends a transfer.
const SENDINGS: u32 = 5;
const BETWEEN: u32 = 20;

/// A cable that loses a byte now and then, or turns one of its bits over.
struct Cable {
    state: u32,
}

impl Cable {
    /// What is left of these bytes at the other end.
    fn carry(&mut self, bytes: &[u8]) -> Vec<u8> {
        bytes
            .iter()
            .filter_map(|byte| self.carry_byte(*byte))
            .collect()
    }

    fn carry_byte(&mut self, byte: u8) -> Option<u8> {
        match self.chance(120) {
            0 => None,
            1 => Some(byte ^ 1 << self.chance(8)),
            _ => Some(byte),
        }
    }

    /// 0 to `count` - 1, the next of the sequence.
    fn chance(&mut self, count: u32) -> u32 {
        self.state = self
            .state
            .wrapping_mul(1_664_525)
            .wrapping_add(1_013_904_223);
        (self.state >> 16) % count
    }
}

/// Both ends, what is between them, and the seconds since the beginning.
struct Link {
    host: Gateway,
    analyzer: Gateway,
    cable: Cable,
    seconds: u32,
}

impl Link {
    /// One sending, from its start to its end. True: the analyzer has acknowledged every frame.
    fn send(&mut self, order: &[u8]) -> bool {
        let mut replies = VecDeque::new();
        let mut answer = self.host.send(LINE, order);
        loop {
            self.tell("host", &answer);
            // All that the answer has with it goes out, whether it is a byte, a frame or nothing.
            replies.extend(self.deliver(answer.outgoing()));
            match answer {
                Answer::Sending { .. } | Answer::Nothing => {}
                Answer::SendingEnded { acknowledged } => return acknowledged,
                // Given up, or not even started.
                _ => return false,
            }
            answer = match replies.pop_front() {
                Some(byte) => self.host.byte(LINE, byte),
                // Nothing has come: a second passes.
                None => self.pass(1),
            };
        }
    }

    /// Seconds pass at both ends. The host's answer is handed back, for what it has to send.
    fn pass(&mut self, seconds: u8) -> Answer {
        self.seconds += u32::from(seconds);
        let answer = self.analyzer.seconds(LINE, seconds);
        self.tell("analyzer", &answer);
        self.host.seconds(LINE, seconds)
    }

    /// Bytes go to the analyzer; what comes back to the host.
    fn deliver(&mut self, bytes: &[u8]) -> Vec<u8> {
        let mut replies = Vec::new();
        for byte in self.across(bytes) {
            let answer = self.analyzer.byte(LINE, byte);
            self.tell("analyzer", &answer);
            replies.extend(self.across(answer.outgoing()));
        }
        replies
    }

    fn across(&mut self, bytes: &[u8]) -> Vec<u8> {
        let arrived = self.cable.carry(bytes);
        if arrived.is_empty() && !bytes.is_empty() {
            println!("{:>20} nothing arrives", "");
        } else if arrived != bytes {
            println!("{:>20} arrives as {}", "", shown(&arrived));
        }
        arrived
    }

    /// A line of the dialogue: when, who, the answer's number, what goes out. What is only counted or
    /// collected is left out.
    fn tell(&self, who: &str, answer: &Answer) {
        let counted = matches!(answer, Answer::Nothing)
            || matches!(answer, Answer::Sending { outgoing } if outgoing.is_empty());
        if !counted {
            let outgoing = shown(answer.outgoing());
            println!(
                "{:>4} s {:>8} {:>3}  {}",
                self.seconds,
                who,
                answer.number(),
                outgoing
            );
        }
    }
}

/// Bytes with the control bytes by name, -- for none.
fn shown(bytes: &[u8]) -> String {
    if bytes.is_empty() {
        return "--".to_string();
    }
    bytes.iter().map(|byte| shown_byte(*byte)).collect()
}

fn shown_byte(byte: u8) -> String {
    let name = match byte {
        0x02 => "STX",
        0x03 => "ETX",
        0x04 => "EOT",
        0x05 => "ENQ",
        0x06 => "ACK",
        0x0A => "LF",
        0x0D => "CR",
        0x15 => "NAK",
        0x20..=0x7E => return char::from(byte).to_string(),
        _ => return format!("<{:02X}>", byte),
    };
    format!("<{}>", name)
}

fn main() {
    let mut link = Link {
        host: Gateway::fresh(),
        analyzer: Gateway::fresh(),
        cable: Cable { state: 31_986 },
        seconds: 0,
    };
    // What was not acknowledged may have arrived even so, where only a reply was lost: who starts again has
    // to bear that an order comes twice. Here it does not.
    for sending in 1..=SENDINGS {
        println!("sending {}", sending);
        if link.send(ORDER) {
            break;
        }
        for _ in 0..BETWEEN {
            link.pass(1);
        }
    }

    let mut buffer = [0; TEXT_LIMIT];
    let length = ORDER.len();
    let answer = link.analyzer.take(LINE, &mut buffer);
    assert_eq!(answer, Answer::Taken { length, serial: 0 });
    assert_eq!(&buffer[..length], ORDER);
    let answer = link.analyzer.take(LINE, &mut buffer);
    assert_eq!(answer, Answer::NothingWaiting);
    println!("the analyzer has the order once, {} bytes", length);
}
