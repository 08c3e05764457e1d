//! The scripts that set what no run reaches, and those that concern more than one line.

use super::blocks::{finding_of, LEAST};
use super::messages::{exact, right, wrong};
use super::random::Random;
use super::{upload_mixes, Mix, Script};
use crate::frames::{after, write};
use crate::journal::{header, Entry, HEADER, SHARE, TEXT_LIMIT};
use crate::lines::{State, JOINED_LIMIT, NUMBER_LIMIT, SECONDS_LIMIT};
use crate::model::SPARE_FIELDS;
use crate::texts::{ACK, CR, DC1, ENQ, EOT, ETB, ETX, LF, NAK, STX};
use crate::world::{Memory, Op, World, SPARE};
use crate::{JOURNAL, LINES, UNFINISHED_PART};

/// A script of this mix for a gateway as it stands.
pub fn script(mix: Mix, random: &mut Random, world: &World) -> Script {
    if mix == Mix::OddReader {
        return upload_mixes::odd_reader(random, world);
    }
    let mut writer = Writer {
        random,
        script: Script::default(),
    };
    match mix {
        Mix::BrokenJournal => writer.broken_journal(world),
        Mix::BeyondLimits => writer.beyond_limits(world),
        Mix::OddSending => writer.odd_sending(world),
        Mix::WrongSizes => writer.wrong_sizes(world),
        Mix::WrongLines => writer.wrong_lines(),
        Mix::FullJournal => writer.full_journal(world),
        Mix::Renewal => writer.renewal(),
        _ => unreachable!("{:?} is for one line", mix),
    }
    writer.script
}

/// The ledger of an empty journal, serials and bytes left.
pub fn emptied() -> Vec<Op> {
    let mut ops = vec![Op::InUse { count: 0 }];
    for line in World::lines() {
        ops.push(Op::Used { line, count: 0 });
    }
    ops
}

fn poke(index: usize, value: u8) -> Op {
    Op::Poke {
        memory: Memory::Journal,
        index,
        value,
    }
}

/// A way to break a journal, or nearly.
#[derive(Clone, Copy)]
enum Break {
    /// The bytes in use a few more or fewer.
    InUse,
    /// More bytes in use than the journal has.
    BeyondJournal,
    /// One line's used count off.
    Used,
    /// Two lines' used counts changed over: their sum is still right.
    UsedChangedOver,
    /// Harmless: serials are not tested.
    Serials,
    /// One more entry, all counts with it: broken only by a bad length or the spare bit.
    Appended,
    /// Bytes in use and used count off together by one, so that only the last entry's end tells.
    LastEntry,
    /// One byte of the journal changed.
    Byte,
}

impl Break {
    const ANY_JOURNAL: [Break; 6] = [
        Break::InUse,
        Break::BeyondJournal,
        Break::Used,
        Break::UsedChangedOver,
        Break::Serials,
        Break::Appended,
    ];
    const WITH_ENTRIES: [Break; 12] = [
        Break::InUse,
        Break::BeyondJournal,
        Break::Used,
        Break::UsedChangedOver,
        Break::Serials,
        Break::Appended,
        Break::Appended,
        Break::LastEntry,
        Break::Byte,
        Break::Byte,
        Break::Byte,
        Break::Byte,
    ];
}

struct Writer<'a> {
    random: &'a mut Random,
    script: Script,
}

impl Writer<'_> {
    fn any_line(&mut self) -> u8 {
        self.random.below(LINES) as u8
    }

    /// A fresh gateway, or one whose lines speak what is set.
    fn renewal(&mut self) {
        let op = match self.random.below(4) {
            0 => Op::Fresh,
            1 => Op::Begin {
                settings: upload_mixes::bad_settings(self.random),
            },
            _ => Op::Begin {
                settings: upload_mixes::settings(self.random),
            },
        };
        self.script.push(op);
    }

    /// A line brought to neutral from any state, then a transfer up to a decided message; on a reader's line
    /// a finding whose message is about as long.
    fn decided(&mut self, line: u8, text: &[u8], world: &World) {
        if let Some(patient) = world.model.readers[usize::from(line)].patient() {
            let block = finding_of(self.random, patient, text.len());
            self.script.byte(line, CR);
            self.script.bytes(line, &block);
            return;
        }
        // A line that pauses asks once more before it is done.
        self.script.seconds(line, 255);
        self.script.seconds(line, 255);
        self.script.byte(line, ENQ);
        let mut number = 1;
        let last = text.chunks(240).count() - 1;
        for (index, piece) in text.chunks(240).enumerate() {
            let end = if index == last { ETX } else { ETB };
            self.script.bytes(line, &write(number, piece, end));
            number = after(number);
        }
    }

    fn broken_journal(&mut self, world: &World) {
        let ledger = &world.model.ledger;
        // Where it was broken before, it has just been emptied.
        let entries = match ledger.chain(&world.journal[..JOURNAL]) {
            Some(entries) if !world.is_broken() => entries,
            _ => Vec::new(),
        };
        let mut used = [0; LINES];
        for entry in &entries {
            used[entry.line] += HEADER + entry.length;
        }
        let in_use = used.iter().sum();
        let break_by = if entries.is_empty() {
            self.random.pick(&Break::ANY_JOURNAL)
        } else {
            self.random.pick(&Break::WITH_ENTRIES)
        };
        let line = self.random.below(LINES);
        match break_by {
            Break::InUse => {
                let count = self.off(in_use, &[1, 2, 3, 4, 5]);
                self.set_in_use(count);
            }
            Break::BeyondJournal => {
                let count = self.random.pick(&[32_769, 32_772, 65_535]);
                self.set_in_use(count);
            }
            Break::Used => {
                let count = self.off(used[line], &[1, 4, 16, 2_048, 32_768]);
                self.set_used(line, count);
            }
            Break::UsedChangedOver => {
                let other = (line + self.random.between(1, 7)) % LINES;
                self.set_used(line, used[other]);
                self.set_used(other, used[line]);
            }
            Break::Serials => {
                let serial = self.random.pick(&[0, 1, 65_535]);
                let line = line as u8;
                self.script.push(Op::Serial { line, serial });
            }
            Break::Appended => {
                let length = self.random.pick(&[0, 0, 1, 10, 4_001, 4_002, 4_095]);
                if in_use + HEADER + length <= JOURNAL {
                    let mut bytes = header(line, length, 0);
                    if self.random.once_in(3) {
                        bytes[0] |= 0x10;
                    }
                    for (index, &value) in bytes.iter().enumerate() {
                        self.script.push(poke(in_use + index, value));
                    }
                    self.set_in_use(in_use + HEADER + length);
                    self.set_used(line, used[line] + HEADER + length);
                }
            }
            Break::LastEntry => {
                let entry = entries[entries.len() - 1];
                let off = self.random.pick(&[0, 2]);
                self.set_in_use(in_use + off - 1);
                self.set_used(entry.line, used[entry.line] + off - 1);
            }
            Break::Byte => {
                let entry = self.random.pick(&entries);
                let (index, value) = self.byte_changed(world, &entry, in_use);
                self.script.push(poke(index, value));
                self.probes(world);
                self.script.push(poke(index, world.journal[index]));
                return;
            }
        }
        self.probes(world);
        // Everything back, so that the journal is whole again where nothing was taken or stored.
        self.set_in_use(in_use);
        for (line, &count) in used.iter().enumerate() {
            self.set_used(line, count);
        }
    }

    /// A count off by one of these, to either side.
    fn off(&mut self, count: usize, by: &[usize]) -> usize {
        let by = self.random.pick(by);
        if self.random.once_in(2) && count >= by {
            return count - by;
        }
        count + by
    }

    fn set_in_use(&mut self, count: usize) {
        let count = count as u32;
        self.script.push(Op::InUse { count });
    }

    fn set_used(&mut self, line: usize, count: usize) {
        let (line, count) = (line as u8, count as u32);
        self.script.push(Op::Used { line, count });
    }

    /// A byte of this entry, or past the end in use, and another value for it.
    fn byte_changed(&mut self, world: &World, entry: &Entry, in_use: usize) -> (usize, u8) {
        let [high, low] = [world.journal[entry.start], world.journal[entry.start + 1]];
        match self.random.below(9) {
            // The spare bit, the line, the length.
            0 | 1 => (entry.start, high | 0x10),
            2 => (entry.start, high ^ (self.random.between(1, 7) as u8) << 5),
            3 => (
                entry.start,
                high & 0xE0 | self.random.pick(&[0x00, 0x0E, 0x0F]),
            ),
            4 => (entry.start + 1, 0),
            5 => (
                entry.start + 1,
                low.wrapping_add(self.random.pick(&[1, 255, 4])),
            ),
            // Harmless: the serial, the text, what is past the end in use.
            6 => (entry.start + self.random.between(2, 3), self.random.byte()),
            7 => (
                entry.start + HEADER + self.random.below(entry.length),
                self.random.byte(),
            ),
            _ => (in_use.min(JOURNAL - 1), self.random.byte()),
        }
    }

    /// Takings before and behind a message that reaches room, or one that is refused before it does, with
    /// LF once more behind it.
    fn probes(&mut self, world: &World) {
        for _ in 0..self.random.between(1, 2) {
            let line = self.any_line();
            let buffer = self.random.pick(&[0, 1, 4_000]);
            self.script.take(line, buffer);
        }
        let line = self.any_line();
        let longest = self.random.between(11, 60);
        let text = if self.random.once_in(4) {
            wrong(self.random, longest)
        } else {
            right(self.random, longest)
        };
        self.decided(line, &text, world);
        if self.random.once_in(2) {
            self.script.byte(line, LF);
        }
        let line = if self.random.once_in(2) {
            line
        } else {
            self.any_line()
        };
        self.script.take(line, 4_000);
    }

    fn beyond_limits(&mut self, world: &World) {
        let line = self.any_line();
        let record = world.model.lines[usize::from(line)];
        let mut state = record.state;
        if self.random.once_in(2) {
            state = self.random.pick(&State::ALL);
            self.set_state(line, state);
        }
        // The field set, and how to put it back where it was set beyond its limit.
        let (op, back) = match self.random.below(8) {
            0 => {
                let counts = [246, 247, 255, 256, 65_535, 245, 244, 239, 238, 236, 235];
                let count = self.random.pick(&counts);
                let old = record.collected as u16;
                let back = Op::Collected { line, count: old };
                let beyond = usize::from(count) > most_collected(world, line);
                (Op::Collected { line, count }, beyond.then_some(back))
            }
            1 => {
                let count = self.random.pick(&[4_001, 4_096, 65_535, 4_000, 3_999, 1]);
                let old = record.joined as u16;
                let back = Op::Joined { line, count: old };
                let beyond = usize::from(count) > JOINED_LIMIT;
                (Op::Joined { line, count }, beyond.then_some(back))
            }
            2 => {
                let count = self.random.pick(&[30, 31, 255, 29, 28]);
                let old = record.seconds as u8;
                let back = Op::Seconds { line, count: old };
                let beyond = usize::from(count) > SECONDS_LIMIT;
                (Op::Seconds { line, count }, beyond.then_some(back))
            }
            3 => {
                let number = self.random.pick(&[8, 9, 255, 7, 0]);
                let old = record.next;
                let back = Op::Next { line, number: old };
                (
                    Op::Next { line, number },
                    (number > NUMBER_LIMIT).then_some(back),
                )
            }
            4 => {
                let number = self.random.pick(&[8, 255, 7, record.next, 0]);
                let old = record.last;
                let back = Op::Last { line, number: old };
                let op = Op::Last {
                    line,
                    number: Some(number),
                };
                (op, (number > NUMBER_LIMIT).then_some(back))
            }
            5 => {
                let count = self.random.pick(&[1, 5, 6, 7, 255, 256, 65_535]);
                let back = Op::Tries { line, count: 0 };
                let beyond = usize::from(count) > state.most_tries();
                (Op::Tries { line, count }, beyond.then_some(back))
            }
            6 => {
                let place = self.random.pick(&[1, 3_999, 4_000, 4_001, 65_535]);
                let back = Op::Place { line, place: 0 };
                let beyond = usize::from(place) > state.most_place();
                (Op::Place { line, place }, beyond.then_some(back))
            }
            _ => {
                let refusing = !record.refusing;
                (Op::Refusing { line, refusing }, None)
            }
        };
        self.script.push(op);
        for _ in 0..self.random.between(2, 6) {
            match self.random.below(10) {
                0 => self.script.byte(line, ENQ),
                1 => self.script.byte(line, EOT),
                2 => self.script.byte(line, STX),
                3 => self.script.byte(line, LF),
                4 => {
                    let byte = self.random.byte();
                    self.script.byte(line, byte);
                }
                5 => {
                    let seconds = self.random.pick(&[0, 1, 255]);
                    self.script.seconds(line, seconds);
                }
                6 => {
                    let number = self.random.pick(&[record.next, 0, 1, 7]);
                    let text = right(self.random, 20);
                    let end = self.random.pick(&[ETB, ETX]);
                    self.script.bytes(line, &write(number, &text, end));
                }
                7 => self.script.take(line, 4_000),
                8 => {
                    let text = right(self.random, 20);
                    self.script.start(line, text);
                }
                _ => self.script.fetch(line, 247),
            }
        }
        // Beyond its limit the record was not changed by any event, so the old value fits again.
        self.script.ops.extend(back);
    }

    /// A line's state, with the tries and the place that every state may have.
    fn set_state(&mut self, line: u8, state: State) {
        self.script.push(Op::State { line, state });
        self.script.push(Op::Tries { line, count: 0 });
        self.script.push(Op::Place { line, place: 0 });
    }

    /// A sending that no run reaches, and what follows by the words of the rules.
    fn odd_sending(&mut self, world: &World) {
        let line = self.any_line();
        let state = self
            .random
            .pick(&[State::Asking, State::Pausing, State::Offering]);
        self.set_state(line, state);
        let joined = self
            .random
            .pick(&[0, 1, 5, 239, 240, 241, 300, 3_999, 4_000]);
        let count = joined as u16;
        self.script.push(Op::Joined { line, count });
        self.set_text(line, joined);
        let tries = self.random.pick(&[0, 1, 4, 5, 6, 7]);
        let count = tries as u16;
        self.script.push(Op::Tries { line, count });
        let near = joined.saturating_sub(self.random.below(250));
        let places = [0, 0, near, near, joined, joined + 1, 4_000, 4_001];
        let place = self.random.pick(&places);
        self.script.push(Op::Place {
            line,
            place: place as u16,
        });
        self.set_other_numbers(line, most_collected(world, line));
        self.odd_events(line);
        if tries > state.most_tries() || place > state.most_place() || self.random.once_in(2) {
            self.set_state(line, State::Neutral);
        }
    }

    /// A text of any bytes, allowed or not, with a few CRs where a piece may end.
    fn set_text(&mut self, line: u8, joined: usize) {
        for _ in 0..self.random.below(6) {
            let back = self.random.below(250.min(joined + 1));
            let index = usize::from(line) * UNFINISHED_PART + joined.saturating_sub(back + 1);
            let value = self.random.pick(&[CR, CR, b'x', 0x00, LF]);
            self.script.push(Op::Poke {
                memory: Memory::Unfinished,
                index,
                value,
            });
        }
    }

    /// What else a record holds: a sending changes it, or keeps it.
    fn set_other_numbers(&mut self, line: u8, most_collected: usize) {
        let number = self.random.below(8) as u8;
        self.script.push(Op::Next { line, number });
        if self.random.once_in(2) {
            let count = self.random.pick(&[0, 1, 9, 10, 14, 15, 28, 29]);
            self.script.push(Op::Seconds { line, count });
        }
        if self.random.once_in(4) {
            let count = self.random.below(most_collected + 1) as u16;
            self.script.push(Op::Collected { line, count });
            let number = Some(self.random.below(8) as u8);
            self.script.push(Op::Last { line, number });
            let refusing = self.random.once_in(2);
            self.script.push(Op::Refusing { line, refusing });
        }
        if self.random.once_in(2) {
            let which = self.random.below(SPARE_FIELDS);
            let value = self.random.pick(&[0, 1, 255, 65_535]);
            self.script.push(Op::Spare { line, which, value });
        }
    }

    fn odd_events(&mut self, line: u8) {
        for _ in 0..self.random.between(2, 8) {
            match self.random.below(8) {
                0 | 1 => self.script.byte(line, ACK),
                2 => {
                    let byte = self.random.pick(&[NAK, ENQ, EOT, DC1, STX, 0x00, 0xFF]);
                    self.script.byte(line, byte);
                }
                3 => {
                    let seconds = self.random.pick(&[0, 1, 9, 10, 14, 15, 255]);
                    self.script.seconds(line, seconds);
                }
                4 => {
                    let text = right(self.random, 40);
                    self.script.start(line, text);
                }
                _ => {
                    let room = self.random.pick(&[0, 6, 7, 8, 20, 246, 247, 300]);
                    self.script.fetch(line, room);
                }
            }
        }
    }

    fn wrong_sizes(&mut self, world: &World) {
        let memory = self.random.pick(&Memory::ALL);
        let size = memory.size();
        let lengths = [0, 1, size / 8, size - 1, size + 1, size + SPARE];
        let length = self.random.pick(&lengths);
        self.script.push(Op::Lend { memory, length });
        let line = self.any_line();
        let beyond = self.random.once_in(3);
        if beyond {
            self.script.push(Op::Collected { line, count: 246 });
        }
        for _ in 0..self.random.between(1, 4) {
            let line = if self.random.once_in(4) { 8 } else { line };
            match self.random.below(6) {
                0 => self.script.byte(line, ENQ),
                1 => self.script.seconds(line, 30),
                2 => {
                    let byte = self.random.byte();
                    self.script.byte(line, byte);
                }
                3 => {
                    let text = right(self.random, 20);
                    self.script.start(line, text);
                }
                4 => {
                    let room = self.random.pick(&[0, 247]);
                    self.script.fetch(line, room);
                }
                _ => {
                    let buffer = self.random.pick(&[0, 4_000]);
                    self.script.take(line, buffer);
                }
            }
        }
        // Only of this one the size is asked where something is fetched.
        if memory == Memory::Unfinished {
            for line in World::lines() {
                self.script.fetch(line, 247);
            }
        }
        if beyond {
            let count = world.model.lines[usize::from(line)].collected as u16;
            self.script.push(Op::Collected { line, count });
        }
        self.script.push(Op::Lend {
            memory,
            length: size,
        });
    }

    fn wrong_lines(&mut self) {
        for _ in 0..self.random.between(1, 4) {
            let line = self.random.pick(&[8, 9, 15, 16, 127, 128, 136, 255]);
            match self.random.below(6) {
                0 => self.script.byte(line, ENQ),
                1 => self.script.seconds(line, 255),
                2 => {
                    let byte = self.random.byte();
                    self.script.byte(line, byte);
                }
                3 => {
                    let text = right(self.random, 20);
                    self.script.start(line, text);
                }
                4 => self.script.fetch(line, 247),
                _ => self.script.take(line, 4_000),
            }
        }
    }

    /// A whole chain made by hand. One line is filled up until `gap` bytes of room are left by the
    /// shares; then messages of just that size, and of one byte more, are sent.
    fn full_journal(&mut self, world: &World) {
        let mut used = [0; LINES];
        let mut entries: Vec<(usize, usize)> = Vec::new();
        for _ in 0..self.random.below(14) {
            let line = self.random.below(LINES);
            let largest = self.random.pick(&[50, SHARE, TEXT_LIMIT]);
            let length = self.random.between(1, largest);
            if rest(&used, line) >= HEADER + length {
                used[line] += HEADER + length;
                entries.push((line, length));
            }
        }
        let full = self.random.below(LINES);
        let is_reader = world.model.readers[full].patient().is_some();
        let gap = if is_reader {
            HEADER + self.random.between(LEAST, LEAST + 60)
        } else {
            self.random.between(15, 80)
        };
        let mut to_fill = rest(&used, full).saturating_sub(gap);
        // Each entry takes 5 to 4,004 bytes; what is left for the last must be 5 at least.
        while to_fill >= 5 {
            let mut size = to_fill.min(HEADER + TEXT_LIMIT);
            if (1..5).contains(&(to_fill - size)) {
                size -= 5;
            }
            used[full] += size;
            entries.push((full, size - HEADER));
            to_fill -= size;
        }
        // Past the sum of shares, which no run gives: every line is then without room.
        let room = JOURNAL - used.iter().sum::<usize>();
        if self.random.once_in(6) && room > HEADER + 100 {
            let length = self.random.between(100, TEXT_LIMIT.min(room - HEADER));
            used[full] += HEADER + length;
            entries.push((full, length));
        }
        self.set_chain(&entries, &used);

        for _ in 0..self.random.between(1, 3) {
            let line = if self.random.once_in(2) {
                full
            } else {
                self.random.below(LINES)
            };
            let room = rest(&used, line).min(HEADER + 120 + LEAST);
            let size = self.random.pick(&[room, room + 1, 60]).max(HEADER + 11);
            let text = exact(self.random, size - HEADER);
            self.decided(line as u8, &text, world);
            if rest(&used, line) >= size {
                used[line] += size;
            }
        }
        // What is wrong with a text is told before there is no room for it.
        let text = wrong(self.random, 60);
        self.decided(full as u8, &text, world);
        let line = self.any_line();
        self.script.take(line, 4_000);
        self.script.take(full as u8, 4_000);
    }

    fn set_chain(&mut self, entries: &[(usize, usize)], used: &[usize; LINES]) {
        let mut start = 0;
        for &(line, length) in entries {
            let serial = self.random.number() as u16;
            for (index, &value) in header(line, length, serial).iter().enumerate() {
                self.script.push(poke(start + index, value));
            }
            start += HEADER + length;
        }
        self.set_in_use(start);
        for (line, &count) in used.iter().enumerate() {
            self.set_used(line, count);
        }
    }
}

/// The most that a line may have collected, by what it speaks.
fn most_collected(world: &World, line: u8) -> usize {
    world.model.readers[usize::from(line)].most_collected()
}

/// How many bytes a line may still use, header counted, by the sum of shares.
fn rest(used: &[usize; LINES], line: usize) -> usize {
    let mut others = 0;
    for other in (0..LINES).filter(|&other| other != line) {
        others += used[other].max(SHARE);
    }
    let most = JOURNAL.saturating_sub(others);
    if most < SHARE {
        // The sum is over the journal already, whatever this line has.
        return 0;
    }
    most.saturating_sub(used[line])
}
