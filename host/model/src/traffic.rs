//! Traffic for comparing a gateway with the model: endless operations from a seed.
//!
//! A driver asks for an operation, applies it to the model's world and to the other gateway, and
//! compares. The generator looks at the world to aim (the number a frame must have, the length of
//! the oldest entry), so a seed gives the same operations every time.
//!
//! Scripts of one line stand in that line's queue and the lines take turns, so that transfers are
//! mixed byte by byte. Scripts that set what no run reaches go first and in one piece, and put it
//! back at their end, so that the traffic behind them is still worth something.

pub mod blocks;
pub mod gateway_mixes;
pub mod line_mixes;
pub mod messages;
pub mod random;
pub mod upload_mixes;

use crate::delimiters::Delimiters;
use crate::lines::Kind;
use crate::world::{Op, Text, World};
use crate::LINES;
use random::Random;
use std::collections::VecDeque;

/// What a script aims at.
#[derive(Clone, Copy, PartialEq, Eq, Debug)]
pub enum Mix {
    /// Random bytes, many of them control bytes: 0, 1, 5, 6, 20, 21, 22 and what follows an
    /// over-long frame.
    Noise,
    /// Right messages in right frames, cut in three ways, with resent frames, stray ENQ and short
    /// pauses: 1 to 5, serials and their wrap.
    Polite,
    /// Frames with one fault each, and the right frame after it: 21 to 25, 27, and that nothing is
    /// advanced.
    Damaged,
    /// Messages rich in records, half of them with a fault or two: 4, 50 to 53 and 55, then 26.
    Records,
    /// Unfinished text set by hand with a byte that is not allowed, then the rest of a message, right
    /// or wrong: 30, before any fault.
    NotAllowed,
    /// Joined texts of 3,985 to 4,001 bytes, frames of 238 to 241 text bytes, empty frames, ETX
    /// with and without CR: 28, 29 and both sides of each limit.
    Long,
    /// Seconds around 30 while waiting, inside and neutral: 0, 7, and what starts the count again.
    Clock,
    /// Several longer messages in one transfer, nothing taken: 4 until 31, then 26.
    Flood,
    /// Takings with buffers of 0, one too short, exact, longer: 8, 44, 45.
    Takings,
    /// Starts with texts of all sorts on lines in every state, then replies and seconds of one temper after
    /// the other, and frames fetched with room around what they need: 9, 46, 50 to 55, 60, 61.
    Sending,
    /// Blocks of a strip reader: dialogues, repeats with and without an SPM or REP between, damage, halves
    /// and noise: 4, 11, 31, 70, 71, 72, and 60 to a start there.
    Upload,
    /// Ledger counts and header bytes changed, then takings and a decided message: 43, and that
    /// harmless changes give none.
    BrokenJournal,
    /// A record's field at or beyond its limit, then events of all sorts: 42, and odd records
    /// within the limits by the words of the rules.
    BeyondLimits,
    /// A sending set by hand, at its limits and beyond, over a text with CRs anywhere, then replies, seconds
    /// and fetched frames: 9 and 61 by the words of the rules, 42, 47.
    OddSending,
    /// The numbers of a line's reader set by hand, at their limits and beyond, and blocks by hand: 42, and
    /// repeats of what no run keeps.
    OddReader,
    /// A memory lent too short or too long: 41, and its place before 42 and behind 40.
    WrongSizes,
    /// Lines 8 to 255: 40.
    WrongLines,
    /// A journal filled by hand up to the sum of shares, or past it, then messages one byte to
    /// either side of the room left: 4 and 31.
    FullJournal,
    /// A fresh gateway in the middle of everything, or one whose lines speak otherwise; 42 where they
    /// would speak what is nothing.
    Renewal,
}

impl Mix {
    /// Scripts for one line, and how many of each come in 49. The long ones are rare, or their
    /// bytes would leave little room for the others; those of a sending are short, and often go on.
    const LINE: [(Mix, usize); 11] = [
        (Mix::Noise, 2),
        (Mix::Polite, 4),
        (Mix::Damaged, 4),
        (Mix::Records, 10),
        (Mix::NotAllowed, 1),
        (Mix::Long, 1),
        (Mix::Clock, 2),
        (Mix::Flood, 1),
        (Mix::Takings, 6),
        (Mix::Sending, 12),
        (Mix::Upload, 6),
    ];

    /// Scripts for the whole gateway, and how many of each come in 19.
    const GATEWAY: [(Mix, usize); 8] = [
        (Mix::BrokenJournal, 4),
        (Mix::BeyondLimits, 3),
        (Mix::OddSending, 3),
        (Mix::OddReader, 3),
        (Mix::WrongSizes, 1),
        (Mix::WrongLines, 1),
        (Mix::FullJournal, 2),
        (Mix::Renewal, 2),
    ];

    fn is_for_one_line(self) -> bool {
        Mix::LINE.iter().any(|&(mix, _)| mix == self)
    }

    /// Whether it wants lines that speak with readers.
    fn is_for_readers(self) -> bool {
        matches!(self, Mix::Upload | Mix::OddReader)
    }
}

/// An endless source of operations.
#[derive(Clone, Debug)]
pub struct Traffic {
    random: Random,
    line_mixes: Vec<Mix>,
    gateway_mixes: Vec<Mix>,
    /// What is still to come on each line.
    queues: Vec<VecDeque<Op>>,
    /// What comes before all of that.
    first: VecDeque<Op>,
    /// The line whose turn it is.
    line: u8,
}

/// How often a script for the whole gateway comes between the lines' operations.
const GATEWAY_SCRIPT_ONCE_IN: usize = 400;

/// How often the turn goes to another line.
const TURN_ONCE_IN: usize = 12;

/// How often a line gets a script that is for lines that speak otherwise.
const STRANGE_ONCE_IN: usize = 12;

impl Traffic {
    /// All mixes, in their usual weights.
    pub fn new(seed: u64) -> Traffic {
        let mut mixes = Vec::new();
        for (mix, weight) in Mix::LINE.iter().chain(&Mix::GATEWAY) {
            mixes.extend(vec![*mix; *weight]);
        }
        Traffic::of(seed, &mixes)
    }

    /// Only these mixes, at least one; a mix named twice comes twice as often.
    pub fn of(seed: u64, mixes: &[Mix]) -> Traffic {
        assert!(!mixes.is_empty());
        let (line_mixes, gateway_mixes) = mixes.iter().partition(|mix| mix.is_for_one_line());
        let mut random = Random::new(seed);
        let mut first = VecDeque::new();
        if mixes.iter().any(|mix| mix.is_for_readers()) {
            let settings = upload_mixes::settings(&mut random);
            first.push_back(Op::Begin { settings });
        }
        Traffic {
            random,
            line_mixes,
            gateway_mixes,
            queues: vec![VecDeque::new(); LINES],
            first,
            line: 0,
        }
    }

    /// The next mix of the line whose turn it is: most often one for what the line speaks.
    fn line_mix(&mut self, world: &World) -> Mix {
        let is_reader = world.model.readers[usize::from(self.line)]
            .patient()
            .is_some();
        let fits = |mix: &Mix| *mix == Mix::Takings || mix.is_for_readers() == is_reader;
        let fitting: Vec<Mix> = self.line_mixes.iter().copied().filter(fits).collect();
        if fitting.is_empty() || self.random.once_in(STRANGE_ONCE_IN) {
            return self.random.pick(&self.line_mixes);
        }
        self.random.pick(&fitting)
    }

    /// The next operation, for a world to which all earlier ones were applied.
    pub fn next(&mut self, world: &World) -> Op {
        loop {
            if let Some(op) = self.first.pop_front() {
                return op;
            }
            if !self.gateway_mixes.is_empty()
                && (self.line_mixes.is_empty() || self.random.once_in(GATEWAY_SCRIPT_ONCE_IN))
            {
                self.write_gateway_script(world);
                continue;
            }
            if self.random.once_in(TURN_ONCE_IN) {
                self.line = self.random.below(LINES) as u8;
            }
            if let Some(op) = self.queues[usize::from(self.line)].pop_front() {
                return op;
            }
            let mix = self.line_mix(world);
            let script = line_mixes::script(mix, &mut self.random, self.line, world);
            self.queues[usize::from(self.line)].extend(script.ops);
        }
    }

    fn write_gateway_script(&mut self, world: &World) {
        let mix = self.random.pick(&self.gateway_mixes);
        // A journal that a script left broken would give 43 for ever: it is emptied first.
        if world.is_broken() {
            self.first.extend(gateway_mixes::emptied());
        }
        let script = gateway_mixes::script(mix, &mut self.random, world);
        // Where records were set, what is left in the queues aims at nothing any more.
        for line in script.lines() {
            self.queues[line].clear();
        }
        self.first.extend(script.ops);
    }

    /// A text for cutting, reading and telling messages: right, with a fault or two, or too long.
    pub fn text(&mut self) -> Vec<u8> {
        let random = &mut self.random;
        let longest = random.pick(&[11, 30, 100, 300, 1_000, 4_000]);
        match random.below(8) {
            0 => {
                let length = random.between(3_990, 4_001);
                messages::exact(random, length)
            }
            1..=3 => messages::right(random, longest),
            _ => messages::wrong(random, longest),
        }
    }

    /// Delimiters for escaping and unescaping: most are allowed, and of these most are the standard ones.
    pub fn delimiters(&mut self) -> Delimiters {
        if self.random.once_in(4) {
            messages::bad_delimiters(&mut self.random, true)
        } else {
            messages::delimiters(&mut self.random)
        }
    }

    /// A text for escaping and unescaping with these.
    pub fn component(&mut self, delimiters: Delimiters) -> Vec<u8> {
        messages::component(&mut self.random, delimiters)
    }
}

/// Operations in the writing.
#[derive(Clone, Debug, Default)]
pub struct Script {
    pub ops: Vec<Op>,
}

impl Script {
    pub fn byte(&mut self, line: u8, byte: u8) {
        let kind = Kind::Byte(byte);
        self.ops.push(Op::Event { line, kind });
    }

    pub fn bytes(&mut self, line: u8, bytes: &[u8]) {
        for &byte in bytes {
            self.byte(line, byte);
        }
    }

    pub fn seconds(&mut self, line: u8, seconds: u8) {
        let kind = Kind::Seconds(seconds);
        self.ops.push(Op::Event { line, kind });
    }

    pub fn start(&mut self, line: u8, text: Vec<u8>) {
        let text = Text(text);
        self.ops.push(Op::Start { line, text });
    }

    pub fn fetch(&mut self, line: u8, room: usize) {
        self.ops.push(Op::Outgoing { line, room });
    }

    pub fn take(&mut self, line: u8, buffer: usize) {
        self.ops.push(Op::Take { line, buffer });
    }

    pub fn push(&mut self, op: Op) {
        self.ops.push(op);
    }

    /// The lines that have events or edits of their record in this script.
    fn lines(&self) -> Vec<usize> {
        let mut lines = Vec::new();
        for op in &self.ops {
            match *op {
                Op::Event { line, .. }
                | Op::Start { line, .. }
                | Op::State { line, .. }
                | Op::Collected { line, .. }
                | Op::Joined { line, .. }
                | Op::Seconds { line, .. }
                | Op::Next { line, .. }
                | Op::Last { line, .. }
                | Op::Refusing { line, .. }
                | Op::Tries { line, .. }
                | Op::Place { line, .. }
                | Op::Reader { line, .. } => {
                    if usize::from(line) < LINES {
                        lines.push(usize::from(line));
                    }
                }
                Op::Fresh | Op::Begin { .. } => lines.extend(0..LINES),
                Op::Outgoing { .. }
                | Op::Take { .. }
                | Op::Block { .. }
                | Op::Spare { .. }
                | Op::InUse { .. }
                | Op::Used { .. }
                | Op::Serial { .. }
                | Op::Poke { .. }
                | Op::Lend { .. } => {}
            }
        }
        lines
    }
}

#[cfg(test)]
mod tests {
    use super::*;

    fn counts(traffic: &mut Traffic, world: &mut World, operations: usize) -> Vec<usize> {
        let mut counts = vec![0; 256];
        for _ in 0..operations {
            let op = traffic.next(world);
            if let Some(answer) = world.apply(&op) {
                counts[usize::from(answer.number)] += 1;
            }
        }
        counts
    }

    #[test]
    fn every_answer_occurs() {
        let mut world = World::fresh(0x6B);
        let counts = counts(&mut Traffic::new(1), &mut world, 200_000);
        for (number, count) in counts.iter().enumerate() {
            let known =
                matches!(number, 0..=9 | 11 | 20..=31 | 40..=46 | 50..=55 | 60 | 61 | 70..=72);
            assert_eq!(*count > 0, known, "answer {}: {} times", number, count);
        }
    }

    #[test]
    fn a_seed_gives_the_same_operations_again() {
        let run = |seed| {
            let mut world = World::fresh(0);
            let mut traffic = Traffic::new(seed);
            let mut ops = Vec::new();
            for _ in 0..20_000 {
                let op = traffic.next(&world);
                world.apply(&op);
                ops.push(op);
            }
            (ops, world)
        };
        assert!(run(7) == run(7));
        assert!(run(7).0 != run(8).0);
    }

    #[test]
    fn each_mix_reaches_what_it_aims_at() {
        let aims: [(Mix, &[usize]); 19] = [
            (Mix::Noise, &[0, 1, 5, 20, 22]),
            (Mix::Polite, &[0, 1, 2, 3, 4, 5, 20]),
            (Mix::Damaged, &[21, 22, 23, 24, 25, 27, 2]),
            (Mix::Records, &[4, 50, 51, 52, 53, 55, 26]),
            (Mix::NotAllowed, &[4, 30, 51, 52, 53, 55]),
            (Mix::Long, &[2, 4, 21, 28, 29, 30, 50]),
            (Mix::Clock, &[0, 7]),
            (Mix::Flood, &[4, 31, 26]),
            (Mix::Takings, &[44]),
            (Mix::Sending, &[0, 1, 9, 46, 50, 51, 52, 53, 54, 55, 60, 61]),
            (Mix::Upload, &[0, 4, 11, 60, 70, 71, 72]),
            (Mix::BrokenJournal, &[43, 8, 52, 55]),
            (Mix::BeyondLimits, &[42, 3, 6, 9, 60, 61]),
            (Mix::OddSending, &[0, 9, 42, 60, 61]),
            (Mix::OddReader, &[0, 4, 11, 42, 70, 71, 72]),
            (Mix::WrongSizes, &[40, 41, 44]),
            (Mix::WrongLines, &[40]),
            (Mix::FullJournal, &[4, 31, 8, 52, 55]),
            (Mix::Renewal, &[0, 42]),
        ];
        for (mix, aimed) in aims {
            let mut world = World::fresh(0);
            let counts = counts(&mut Traffic::of(3, &[mix]), &mut world, 60_000);
            for &number in aimed {
                assert!(counts[number] > 0, "{:?} never gave {}", mix, number);
            }
        }
    }

    #[test]
    fn a_trace_lists_what_the_world_answers() {
        let mut world = World::fresh(0xD7);
        let mut traffic = Traffic::new(6);
        let mut trace = String::new();
        let mut expected = String::from("event line answer reply\n");
        let mut events = 0;
        while events < 60_000 {
            let op = traffic.next(&world);
            // What a trace cannot say is left out on both sides.
            let written = match op.trace() {
                Some(written) => written,
                None => continue,
            };
            let answer = world.apply(&op).expect("traces hold no edits");
            let last = match (answer.number, crate::reply(answer.number)) {
                (8, _) => answer.length.to_string(),
                (_, Some(0x06)) => "06".to_string(),
                (_, Some(_)) => "15".to_string(),
                (_, None) => "--".to_string(),
            };
            events += 1;
            let line = &written[..1];
            expected += &format!("{} {} {} {}\n", events, line, answer.number, last);
            trace += &written;
        }
        expected += "60000 events\n";
        for row_end in ["4 06", "50 15", "51 15", "52 15", "53 15", "55 15"] {
            let row_end = format!(" {}\n", row_end);
            assert!(expected.contains(&row_end), "{}", row_end);
        }
        assert!(crate::listing(trace.as_bytes()) == expected);
    }

    #[test]
    fn a_sending_meets_its_whole_table() {
        let mut world = World::fresh(0x6B);
        let mut traffic = Traffic::of(5, &[Mix::Sending]);
        let mut met = std::collections::BTreeSet::new();
        for _ in 0..60_000 {
            let op = traffic.next(&world);
            let before = world.model.lines;
            let answer = world.apply(&op);
            if let (Op::Event { line, .. }, Some(answer)) = (op, answer) {
                let before = before[usize::from(line)];
                let after = world.model.lines[usize::from(line)];
                if before.state.is_sending() {
                    met.insert((before.state as u8, before.tries, answer.reply));
                    // Numbers past 7 are met too.
                    assert!(after.next <= 7);
                    if after.next == 0 {
                        met.insert((6, 0, None));
                    }
                }
            }
        }
        let (stx, eot, enq) = (Some(0x02), Some(0x04), Some(0x05));
        for tries in 0..=5 {
            for reply in [None, stx, eot] {
                assert!(met.contains(&(3, tries, reply)), "{} {:?}", tries, reply);
            }
        }
        for tries in 1..=5 {
            for reply in [None, enq] {
                assert!(met.contains(&(4, tries, reply)), "{} {:?}", tries, reply);
            }
        }
        for tries in 1..=6 {
            for reply in [None, stx, eot] {
                assert!(met.contains(&(5, tries, reply)), "{} {:?}", tries, reply);
            }
        }
        assert!(met.contains(&(6, 0, None)), "no number past 7");
    }

    #[test]
    fn readers_meet_every_answer() {
        let mut world = World::fresh(0x6B);
        let mut traffic = Traffic::new(3);
        let mut met = std::collections::BTreeSet::new();
        for _ in 0..300_000 {
            let op = traffic.next(&world);
            let answer = world.apply(&op);
            if let (Op::Event { line, .. }, Some(answer)) = (op, answer) {
                let reader = world.model.readers.get(usize::from(line));
                if reader.map_or(false, |reader| reader.patient().is_some()) {
                    met.insert((answer.number, answer.reply.is_some()));
                }
            }
        }
        let all = [
            (0, false),
            (4, true),
            (11, false),
            (11, true),
            (31, false),
            (41, false),
            (42, false),
            (43, false),
            (70, true),
            (71, true),
            (72, true),
        ];
        assert_eq!(met.into_iter().collect::<Vec<_>>(), all);
    }

    #[test]
    fn frames_are_fetched_with_room_and_without() {
        let mut world = World::fresh(0x6B);
        let mut traffic = Traffic::new(2);
        let mut met = std::collections::BTreeSet::new();
        for _ in 0..200_000 {
            let op = traffic.next(&world);
            world.apply(&op);
            if let Op::Outgoing { room, .. } = op {
                met.insert(match world.fetched.outcome {
                    Ok(0) => "none",
                    Ok(length) if length == room => "exact",
                    Ok(_) => "longer",
                    Err(40) => "40",
                    Err(41) => "41",
                    Err(42) => "42",
                    Err(_) => "47",
                });
            }
        }
        let all = ["40", "41", "42", "47", "exact", "longer", "none"];
        assert_eq!(met.into_iter().collect::<Vec<_>>(), all);
    }

    #[test]
    fn takings_meet_every_buffer() {
        let mut world = World::fresh(0);
        let mut traffic = Traffic::of(4, &[Mix::Polite, Mix::Takings, Mix::Takings]);
        let counts = counts(&mut traffic, &mut world, 60_000);
        assert!(counts[8] > 0 && counts[44] > 0 && counts[45] > 0);
    }
}
