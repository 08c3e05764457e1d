//! What was run, counted: a comparison says something only of what it has met.

use crate::boundary::{Answered, Made};
use ngachodui_model::lines::Kind;
use ngachodui_model::world::Op;
use std::collections::BTreeMap;

#[derive(Default)]
pub struct Counts {
    pub runs: u64,
    /// Bytes, seconds, starts, beginnings and takings.
    pub events: u64,
    kinds: BTreeMap<&'static str, u64>,
    answers: BTreeMap<u8, u64>,
    /// By the function's name and its outcome; of answers 9 by the byte that goes out first.
    texts: BTreeMap<(&'static str, u8), u64>,
}

impl Counts {
    /// `is_reader`: the line of an event has a strip reader.
    pub fn operation(&mut self, op: &Op, answer: Option<Answered>, is_reader: bool) {
        let kind = match op {
            Op::Event { kind, .. } => match kind {
                Kind::Byte(_) => "bytes",
                Kind::Seconds(_) => "seconds",
            },
            Op::Start { .. } => "starts",
            Op::Begin { .. } => "beginnings",
            Op::Outgoing { .. } => "frames and replies",
            Op::Take { .. } => "takings",
            Op::Fresh => "fresh starts",
            Op::Poke { .. } => "memory bytes set",
            Op::Lend { .. } => "sizes lent",
            Op::InUse { .. } | Op::Used { .. } | Op::Serial { .. } => "ledger counts set",
            Op::State { .. }
            | Op::Collected { .. }
            | Op::Joined { .. }
            | Op::Seconds { .. }
            | Op::Next { .. }
            | Op::Last { .. }
            | Op::Refusing { .. }
            | Op::Tries { .. }
            | Op::Place { .. }
            | Op::Reader { .. }
            | Op::Block { .. }
            | Op::Spare { .. } => "record counts set",
        };
        *self.kinds.entry(kind).or_default() += 1;
        if let Some(answer) = answer {
            self.events += 1;
            *self.answers.entry(answer.number).or_default() += 1;
            match (op, answer.number) {
                (Op::Start { .. }, number) => self.text("start", number),
                (Op::Begin { .. }, number) => self.text("begin", number),
                (Op::Event { .. }, 11) => self.text("heard", answer.reply),
                (Op::Event { .. }, number) if is_reader => self.text("reader", number),
                (_, 9) => self.text("sending", answer.reply),
                _ => {}
            }
        }
    }

    /// A frame or a reply that was fetched, told from one that there is not.
    pub fn fetched(&mut self, made: Made, is_reader: bool) {
        let is_none = made.number == 0 && made.length == 0;
        let function = match (is_none, is_reader) {
            (true, false) => "no frame",
            (false, false) => "outgoing",
            (true, true) => "no reply",
            (false, true) => "reply",
        };
        self.text(function, made.number);
    }

    /// An event on a record that the model cannot hold.
    pub fn odd_record(&mut self) {
        *self.kinds.entry("events on odd records").or_default() += 1;
    }

    pub fn text(&mut self, function: &'static str, outcome: u8) {
        *self.texts.entry((function, outcome)).or_default() += 1;
    }

    pub fn print(&self) {
        println!("{} runs, {} events", self.runs, self.events);
        for (kind, count) in &self.kinds {
            println!("  {:<22} {:>12}", kind, count);
        }
        println!("answers");
        for (number, count) in &self.answers {
            println!("  {:<22} {:>12}", number, count);
        }
        println!("texts");
        for ((function, outcome), count) in &self.texts {
            println!("  {:<18} {:>3} {:>12}", function, outcome, count);
        }
    }

    /// The answers and outcomes that have not come up.
    pub fn missing(&self) -> Vec<String> {
        let mut missing = Vec::new();
        for number in (0..=9)
            .chain(20..=31)
            .chain(40..=46)
            .chain(50..=55)
            .chain([11, 60, 61, 70, 71, 72])
        {
            if !self.answers.contains_key(&number) {
                missing.push(format!("answer {}", number));
            }
        }
        let outcomes = [
            ("cut", &[0, 46, 47, 50, 51, 52, 53, 54, 55][..]),
            ("read", &[0, 46, 47, 50, 51, 52, 53, 54, 55]),
            ("escape", &[0, 47, 55]),
            ("unescape", &[0, 46, 47, 55]),
            ("is_message", &[0, 1]),
            ("start", &[9, 40, 41, 42, 46, 50, 51, 52, 53, 54, 55, 60]),
            ("sending", &[0, 2, 4, 5]),
            ("outgoing", &[0, 40, 41, 42, 47]),
            ("no frame", &[0]),
            ("begin", &[0, 42]),
            ("reader", &[0, 4, 31, 41, 42, 43, 70, 71, 72]),
            ("heard", &[0, 2]),
            ("reply", &[0, 41, 42, 47]),
            ("no reply", &[0]),
        ];
        for (function, numbers) in outcomes {
            for number in numbers {
                if !self.texts.contains_key(&(function, *number)) {
                    missing.push(format!("{} {}", function, number));
                }
            }
        }
        missing
    }
}
