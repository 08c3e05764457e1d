//! The scripts of strip readers: dialogues on one line, and numbers that no run leaves.

use super::blocks::{colour, damaged, finding, short};
use super::random::Random;
use super::Script;
use crate::blocks::{control, Patient, END, REP, SPM};
use crate::lines::State;
use crate::texts::{CR, ENQ, ETX, LF, STX};
use crate::traffic::messages::right;
use crate::world::{Number, Op, World};
use crate::LINES;

/// What each line speaks: frames alone, or readers of both sorts beside them; now and then a number that is
/// none.
pub fn settings(random: &mut Random) -> [u16; LINES] {
    if random.once_in(6) {
        return [0; LINES];
    }
    let mut settings = [0; LINES];
    for speaks in &mut settings {
        *speaks = random.pick(&[0, 0, 10, 13]);
    }
    // Both are there, whatever the dice said.
    settings[random.below(4)] = 0;
    settings[4 + random.below(4)] = random.pick(&[10, 13]);
    settings
}

/// The same with a line that speaks what is nothing.
pub fn bad_settings(random: &mut Random) -> [u16; LINES] {
    let mut settings = settings(random);
    settings[random.below(LINES)] =
        random.pick(&[1, 9, 11, 12, 14, 255, 256, 266, 269, 2_570, 65_535]);
    settings
}

/// What a reader, or who is taken for one, sends on a line.
pub fn upload(random: &mut Random, line: u8, world: &World) -> Script {
    let mut writer = Writer {
        random,
        line,
        script: Script::default(),
    };
    let reader = &world.model.readers[usize::from(line)];
    let patient = reader.patient().unwrap_or(Patient::Ten);
    // A block that an earlier script left half done: ended, most often.
    if world.model.lines[usize::from(line)].state == State::Inside && !writer.random.once_in(4) {
        writer.send(&[CR]);
    }
    let kept: Vec<u8> = reader.block[..patient.results_length()]
        .iter()
        .map(|&number| number as u8)
        .collect();
    for _ in 0..writer.random.between(1, 3) {
        writer.act(patient, &kept);
    }
    writer.script
}

/// A line's numbers set by hand, and then events: what a reader's record cannot hold, and what it can. Now and then
/// it is a line of frames.
pub fn odd_reader(random: &mut Random, world: &World) -> Script {
    let mut line = random.below(LINES) as u8;
    let readers: Vec<u8> = World::lines()
        .filter(|&line| world.model.readers[usize::from(line)].patient().is_some())
        .collect();
    if !readers.is_empty() && !random.once_in(4) {
        line = random.pick(&readers);
    }
    let mut writer = Writer {
        random,
        line,
        script: Script::default(),
    };
    writer.odd(world);
    writer.script
}

struct Writer<'a> {
    random: &'a mut Random,
    line: u8,
    script: Script,
}

impl Writer<'_> {
    fn send(&mut self, bytes: &[u8]) {
        self.script.bytes(self.line, bytes);
    }

    fn act(&mut self, patient: Patient, kept: &[u8]) {
        match self.random.below(16) {
            0..=2 => self.repeated(patient),
            3 => {
                let between = self.random.below(8);
                self.between(patient, between);
                self.send(kept);
            }
            4 => self.series(patient),
            5..=8 => {
                let block = damaged(self.random, patient);
                self.send(&block);
                if self.random.once_in(2) {
                    self.send(&[CR]);
                }
            }
            9 | 10 => {
                let block = short(self.random);
                self.send(&block);
            }
            11 => {
                let block = colour(self.random, patient);
                self.send(&block);
            }
            12 => self.half(patient),
            13 => self.noise(),
            14 => {
                let room = self.random.pick(&[0, 5, 6, 7, 247]);
                self.script.fetch(self.line, room);
            }
            _ => {
                let text = right(self.random, 30);
                self.script.start(self.line, text);
            }
        }
        if self.random.once_in(3) {
            self.script.fetch(self.line, 247);
        }
    }

    /// A finding, something behind it, and the finding again, once or twice.
    fn repeated(&mut self, patient: Patient) {
        let block = finding(self.random, patient);
        self.send(&block);
        for _ in 0..self.random.between(0, 2) {
            let between = self.random.below(8);
            self.between(patient, between);
            if self.random.once_in(4) {
                let between = self.random.below(8);
                self.between(patient, between);
            }
            self.send(&block);
        }
    }

    /// What may lie between two blocks.
    fn between(&mut self, patient: Patient, which: usize) {
        match which {
            0 | 1 => self.send(&control(SPM)),
            2 | 3 => self.send(&control(REP)),
            4 => self.send(&control(END)),
            5 => {
                let block = colour(self.random, patient);
                self.send(&block);
            }
            6 => {
                let block = damaged(self.random, patient);
                self.send(&block);
                self.send(&[CR]);
            }
            _ => {
                let seconds = self.random.pick(&[0, 15, 30, 255]);
                self.script.seconds(self.line, seconds);
            }
        }
    }

    /// A whole upload.
    fn series(&mut self, patient: Patient) {
        self.send(&control(SPM));
        for _ in 0..self.random.between(1, 3) {
            let block = finding(self.random, patient);
            self.send(&block);
            let block = colour(self.random, patient);
            self.send(&block);
        }
        self.send(&control(END));
    }

    /// A block that breaks off, silence, and the whole block.
    fn half(&mut self, patient: Patient) {
        let block = finding(self.random, patient);
        let end = self.random.between(1, block.len() - 1);
        self.send(&block[..end]);
        let seconds = self.random.pick(&[15, 30, 255]);
        self.script.seconds(self.line, seconds);
        if self.random.once_in(2) {
            self.send(&block);
            self.send(&[CR]);
        }
    }

    fn noise(&mut self) {
        for _ in 0..self.random.between(1, 12) {
            let byte = match self.random.below(4) {
                0 => self.random.byte(),
                1 => self.random.pick(&[ENQ, ETX, CR, LF]),
                2 => self.random.pick(&[STX, STX, CR]),
                _ => self.random.pick(b" 0xED;<>?"),
            };
            self.send(&[byte]);
        }
    }

    fn odd(&mut self, world: &World) {
        let record = world.model.lines[usize::from(self.line)];
        let reader = &world.model.readers[usize::from(self.line)];
        let patient = reader.patient().unwrap_or(Patient::Ten);
        let mut back = Vec::new();
        let mut is_beyond = false;
        for _ in 0..self.random.between(1, 3) {
            is_beyond |= self.odd_number(world, &mut back);
        }
        // All of it would be answered 42: a few events do.
        if is_beyond {
            self.short_calls();
            self.script.ops.extend(back);
            return;
        }
        // A block that is nearly whole, then its last bytes.
        if self.random.once_in(2) {
            let block = self.placed(patient, world);
            let missing = self.random.pick(&[0, 0, 1, 1, 2, 3]);
            let count = block.len() - missing;
            self.set_collected(count);
            back.push(self.collected(record.collected));
            if !self.random.once_in(4) {
                self.set_state(State::Inside);
            }
            self.send(&block[count..]);
        }
        for _ in 0..self.random.between(1, 3) {
            self.act(patient, &[STX, ETX, CR]);
        }
        let state = self.random.pick(&State::ALL);
        if self.random.once_in(4) {
            self.set_state(state);
            self.send(&[STX]);
            self.send(b"x\r");
            self.set_state(State::Neutral);
        }
        // Numbers that are none go back, or the line would be answered 42 for ever.
        self.script.ops.extend(back);
    }

    /// One of each that is done with a line.
    fn short_calls(&mut self) {
        self.noise();
        self.script.seconds(self.line, 1);
        self.script.fetch(self.line, 6);
        let text = right(self.random, 30);
        self.script.start(self.line, text);
    }

    /// One number of the reader, or of the kept block, at its limit or beyond; whether it is beyond.
    fn odd_number(&mut self, world: &World, back: &mut Vec<Op>) -> bool {
        let line = self.line;
        if self.random.once_in(4) {
            let place = self.random.below(239);
            let value = self.random.pick(&[0, 2, 0x20, 255, 256, 0x120, 65_535]);
            self.script.push(Op::Block { line, place, value });
            return false;
        }
        let number = self.random.pick(&Number::ALL);
        let value = match number {
            Number::Speaks => self.random.pick(&[0, 10, 13, 1, 9, 11, 14, 266, 65_535]),
            Number::Reply => self.random.pick(&[0, 1, 2, 3, 256, 65_535]),
            Number::Since | Number::Kept => self.random.pick(&[0, 1, 2, 256, 65_535]),
        };
        let mut reader = world.model.readers[usize::from(line)].clone();
        let old = *number.of(&mut reader);
        *number.of(&mut reader) = value;
        let op = |value| Op::Reader {
            line,
            number,
            value,
        };
        self.script.push(op(value));
        let is_beyond = !reader.is_within_limits();
        if number == Number::Speaks || is_beyond || self.random.once_in(2) {
            back.push(op(old));
        }
        is_beyond
    }

    /// A block in the line's part of the frames; it may be the kept one.
    fn placed(&mut self, patient: Patient, world: &World) -> Vec<u8> {
        let kept = &world.model.readers[usize::from(self.line)].block;
        let block: Vec<u8> = match self.random.below(3) {
            0 => kept[..patient.results_length()]
                .iter()
                .map(|&number| number as u8)
                .collect(),
            1 => damaged(self.random, patient),
            _ => finding(self.random, patient),
        };
        let start = usize::from(self.line) * crate::FRAME_PART;
        for (place, &value) in block.iter().enumerate() {
            self.script.push(Op::Poke {
                memory: crate::world::Memory::Frames,
                index: start + place,
                value,
            });
        }
        block
    }

    fn collected(&self, count: usize) -> Op {
        Op::Collected {
            line: self.line,
            count: count as u16,
        }
    }

    fn set_collected(&mut self, count: usize) {
        let op = self.collected(count);
        self.script.push(op);
    }

    fn set_state(&mut self, state: State) {
        let line = self.line;
        self.script.push(Op::State { line, state });
        let count = self.random.pick(&[0, 1]).min(state.most_tries()) as u16;
        self.script.push(Op::Tries { line, count });
        let place = self.random.pick(&[0, 9]).min(state.most_place()) as u16;
        self.script.push(Op::Place { line, place });
    }
}
