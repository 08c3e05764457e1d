//! A trace run from fresh, in some order. Each item's outcome is kept at the item's own place, so that
//! two runs can be compared.

use super::items::Item;
use super::queueing::message;
use crate::boundary::Answered;
use crate::layout::{FRAMES_SIZE, JOURNAL_SIZE, LINES, UNFINISHED_SIZE};
use crate::library::Gateway;

/// The answer to an item, and the buffer of a taking, whole, or all that goes out with the answer.
#[derive(PartialEq)]
pub struct Outcome {
    pub answer: Answered,
    pub buffer: Vec<u8>,
}

impl Outcome {
    /// Whether a message is decided by it: stored or finally refused; of a strip reader stored or without room,
    /// and then without a reply. A text that is not sent, whose fault has no reply, decides nothing.
    pub fn decides(&self) -> bool {
        match self.answer.number {
            4 | 30 | 31 => true,
            50..=53 | 55 => self.answer.reply != 0,
            _ => false,
        }
    }
}

/// Memory may hold anything at the start: no byte of it is 0, and neighbours differ.
fn filled(size: usize) -> Vec<u8> {
    (0..size).map(|i| (i % 251) as u8 + 1).collect()
}

/// The outcomes of the items that the order has, in its order, and what they leave; what each line speaks is
/// set before.
pub fn run(trace: &[Item], settings: &[u16; LINES], order: &[usize]) -> (Vec<Outcome>, Gateway) {
    let memory = |size| filled(size).into();
    let mut gateway = Gateway::fresh(
        memory(JOURNAL_SIZE),
        memory(UNFINISHED_SIZE),
        memory(FRAMES_SIZE),
    );
    assert_eq!(gateway.start(settings), 0, "a line speaks what is nothing");
    let outcomes = order
        .iter()
        .map(|&k| step(&mut gateway, trace[k]))
        .collect();
    (outcomes, gateway)
}

fn step(gateway: &mut Gateway, item: Item) -> Outcome {
    let (line, answer) = match item {
        Item::Byte { line, byte } => (line, gateway.byte(line, byte)),
        Item::Seconds { line, seconds } => (line, gateway.seconds(line, seconds)),
        Item::Start { line, length, salt } => (line, gateway.send(line, &message(length, salt))),
        Item::Taking { line, lends } => {
            let mut buffer = filled(lends);
            let answer = gateway.take(line, &mut buffer);
            return Outcome { answer, buffer };
        }
    };
    let buffer = gateway.sent(line, answer.reply);
    Outcome { answer, buffer }
}
