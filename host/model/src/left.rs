//! What is left after each answer: by its number alone, the rules L1 to L12 and B7 say all that has changed. Here
//! that is written once more, by the answers and not by the events, and compared with the model byte
//! for byte under traffic of all mixes.

use crate::answers::Answer;
use crate::blocks::Patient;
use crate::lines::{Kind, Line, State};
use crate::traffic::Traffic;
use crate::world::{Fetched, Op, World, BLANK};

/// The world after an event of a sending: its record, and no memory.
fn after_sending(before: &World, line: u8, kind: Kind, reply: Option<u8>) -> World {
    let mut world = before.clone();
    let record = &mut world.model.lines[usize::from(line)];
    let old = *record;
    match (reply, kind) {
        // Our EOT: as after 5.
        (Some(0x04), _) => *record = Line::fresh(),
        // Our ENQ once more, as often refused as before.
        (Some(0x05), _) => {
            record.state = State::Asking;
            record.seconds = 0;
        }
        // A frame: the first, the next one, or the same again.
        (Some(_), Kind::Byte(byte)) => {
            record.state = State::Offering;
            record.seconds = 0;
            record.tries = 1;
            if old.state == State::Asking {
                record.next = 1;
            } else if matches!(byte, 0x04 | 0x06) {
                record.next = (old.next + 1) % 8;
                record.place = place_behind(before, line);
            } else {
                record.tries = old.tries + 1;
            }
        }
        (Some(_), Kind::Seconds(_)) => unreachable!("no seconds send a frame"),
        (None, Kind::Seconds(seconds)) => record.seconds += usize::from(seconds),
        // A refusal of our ENQ.
        (None, Kind::Byte(_)) => {
            record.state = State::Pausing;
            record.seconds = 0;
            record.tries += 1;
        }
    }
    world
}

/// Where the text goes on behind the frame that is offered: behind its first CR, or 240 bytes further.
fn place_behind(before: &World, line: u8) -> usize {
    let record = before.model.lines[usize::from(line)];
    let mut place = record.place;
    loop {
        let byte = before.unfinished[4_000 * usize::from(line) + place];
        place += 1;
        if byte == b'\r' || place == record.place + 240 {
            return place;
        }
    }
}

/// The world after an event on a reader's line that was given this answer.
fn after_upload(before: &World, line: u8, kind: Kind, answer: Answer) -> World {
    let mut world = before.clone();
    let n = usize::from(line);
    let record = &mut world.model.lines[n];
    let old = *record;
    let byte = match kind {
        Kind::Byte(byte) if old.state == State::Inside || byte == 0x02 => byte,
        // Seconds, and all but STX between blocks: nothing.
        _ => {
            assert_eq!((answer.number, answer.reply), (0, None));
            return world;
        }
    };
    if answer.number == 43 {
        return world;
    }
    // A byte of a block, the last one too; what a sending had is gone, should there have been one.
    world.frames[246 * n + old.collected] = byte;
    record.tries = 0;
    record.place = 0;
    if answer.number == 0 {
        record.state = State::Inside;
        record.collected += 1;
        return world;
    }
    record.state = State::Neutral;
    record.collected = 0;
    record.joined = 0;
    record.seconds = 0;
    let block = world.frames[246 * n..][..old.collected + 1].to_vec();
    let reader = &mut world.model.readers[n];
    match answer.number {
        70..=72 => {
            assert_eq!(answer.reply, Some(0x02));
            reader.reply = 2;
        }
        31 => assert_eq!(answer.reply, None),
        4 => {
            assert_eq!(answer.reply, Some(0x02));
            reader.reply = 1;
            reader.since = 0;
            reader.kept = 1;
            for (kept, &byte) in reader.block.iter_mut().zip(&block) {
                *kept = byte.into();
            }
            // An entry of the journal's end, whose text is what the message's definition says: here only
            // its length and its bytes are taken over.
            let ledger = &mut world.model.ledger;
            let start = ledger.in_use;
            let patient = usize::from(reader.speaks);
            let patient = Patient::ALL.into_iter().find(|p| p.characters() == patient);
            let text = crate::blocks::message(patient.expect("a reader"), &block);
            let serial = ledger.serials[n];
            let entry = [
                line << 5 | (text.len() / 256) as u8,
                (text.len() % 256) as u8,
                (serial / 256) as u8,
                (serial % 256) as u8,
            ];
            world.journal[start..start + 4].copy_from_slice(&entry);
            world.journal[start + 4..][..text.len()].copy_from_slice(&text);
            ledger.in_use += 4 + text.len();
            ledger.used[n] += 4 + text.len();
            ledger.serials[n] = serial.wrapping_add(1);
        }
        11 => match block[..] {
            [_, 0x3A, ..] => assert_eq!(answer.reply, None),
            [_, 0x3F, ..] => {
                assert_eq!(answer.reply.is_some(), reader.reply != 0);
                reader.since = 1;
            }
            [_, code, ..] => {
                assert_eq!(answer.reply, Some(0x02));
                reader.reply = 1;
                if code == 0x3C {
                    reader.since = 1;
                }
            }
            _ => unreachable!("a block has six bytes"),
        },
        number => unreachable!("answer {} on a reader's line", number),
    }
    world
}

/// The world after a beginning that was given this answer.
fn after_begin(before: &World, settings: &[u16; 8], answer: Answer) -> World {
    let mut world = before.clone();
    if answer.number == 0 {
        world.model = World::fresh(0).model;
        for (reader, speaks) in world.model.readers.iter_mut().zip(settings) {
            reader.speaks = *speaks;
        }
    }
    world
}

/// The world after a start that was given this answer.
fn after_start(before: &World, line: u8, text: &[u8], answer: Answer) -> World {
    let mut world = before.clone();
    if answer.number != 9 {
        assert_eq!(answer.reply, None);
        return world;
    }
    let n = usize::from(line);
    world.unfinished[4_000 * n..4_000 * n + text.len()].copy_from_slice(text);
    world.model.lines[n] = Line {
        state: State::Asking,
        joined: text.len(),
        ..Line::fresh()
    };
    world
}

/// The world after a frame was fetched: nothing is changed but what was fetched, and only its start.
fn after_fetching(before: &World, after: &World, room: usize) -> World {
    let mut world = before.clone();
    let outcome = after.fetched.outcome;
    let length = outcome.unwrap_or(0);
    let mut out = vec![BLANK; room];
    out[..length].copy_from_slice(&after.fetched.out[..length]);
    world.fetched = Fetched { outcome, out };
    world
}

/// The world after an event that was given this answer.
fn after_event(before: &World, line: u8, kind: Kind, answer: Answer) -> World {
    let number = answer.number;
    if number == 9 {
        return after_sending(before, line, kind, answer.reply);
    }
    let mut world = before.clone();
    // Refusals of the call, and a second ENQ: nothing.
    if matches!(number, 20 | 40..=45) {
        return world;
    }
    let n = usize::from(line);
    if world.model.readers[n].patient().is_some() {
        return after_upload(before, line, kind, answer);
    }
    let record = &mut world.model.lines[n];
    let old = *record;
    // A transfer opened or over, a sending given up: the record, and no memory.
    if matches!(number, 1 | 5 | 6 | 7 | 61) {
        *record = Line::fresh();
        if number == 1 {
            record.state = State::Waiting;
        }
        return world;
    }
    let byte = match kind {
        Kind::Seconds(seconds) => {
            // Seconds: counted, but not on a neutral line.
            assert_eq!(number, 0);
            if old.state != State::Neutral {
                record.seconds += usize::from(seconds);
            }
            return world;
        }
        Kind::Byte(byte) => byte,
    };
    match old.state {
        State::Neutral => return world,
        State::Asking | State::Pausing | State::Offering => {
            // Of all bytes of a sending only those of a pause are ignored.
            assert_eq!((number, old.state), (0, State::Pausing));
            return world;
        }
        State::Waiting => {
            // A byte between frames: STX moves the line inside, others do nothing.
            if byte == 0x02 {
                record.state = State::Inside;
            }
            return world;
        }
        State::Inside => {}
    }
    // A byte inside a frame: it stands behind the others, the last one too.
    let part = &mut world.frames[246 * n..246 * (n + 1)];
    part[old.collected] = byte;
    if number == 0 {
        record.collected += 1;
        return world;
    }
    // A frame judged: the line waits for the next one.
    record.collected = 0;
    record.seconds = 0;
    record.state = State::Waiting;
    if !matches!(number, 2 | 4 | 30 | 31 | 50..=53 | 55) {
        return world;
    }
    // Its text, where the frame was in turn: of the collected bytes the first is the number, and the
    // last five close the frame.
    let text = &part[1..old.collected - 4];
    let joined = old.joined + text.len();
    let start = 4_000 * n;
    world.unfinished[start + old.joined..start + joined].copy_from_slice(text);
    // A message that goes on keeps its text; one that is decided has none.
    record.joined = if number == 2 { joined } else { 0 };
    // The number moves on with ACK; with NAK the line refuses what follows.
    if number == 2 || number == 4 {
        record.last = Some(part[0] - b'0');
        record.next = (old.next + 1) % 8;
    } else {
        record.refusing = true;
    }
    // The journal: one entry more.
    if number == 4 {
        let ledger = &mut world.model.ledger;
        let mut entry = vec![
            (n * 32 + joined / 256) as u8,
            (joined % 256) as u8,
            (ledger.serials[n] / 256) as u8,
            (ledger.serials[n] % 256) as u8,
        ];
        entry.extend_from_slice(&world.unfinished[start..start + joined]);
        world.journal[ledger.in_use..ledger.in_use + entry.len()].copy_from_slice(&entry);
        ledger.in_use += entry.len();
        ledger.used[n] += entry.len();
        ledger.serials[n] = ((u32::from(ledger.serials[n]) + 1) % 65_536) as u16;
    }
    world
}

/// The world after a taking that was given this answer.
fn after_taking(before: &World, line: u8, buffer: usize, answer: Answer) -> World {
    let mut world = before.clone();
    world.buffer = vec![BLANK; buffer];
    if answer.number != 8 {
        return world;
    }
    // The line's oldest entry: the first whose header bears its number.
    let mut start = 0;
    let mut length;
    loop {
        let header = &before.journal[start..start + 4];
        length = usize::from(header[0] % 16) * 256 + usize::from(header[1]);
        if header[0] / 32 == line {
            assert_eq!(
                answer.serial,
                u16::from(header[2]) * 256 + u16::from(header[3])
            );
            break;
        }
        start += 4 + length;
    }
    assert_eq!(answer.length, length);
    let end = start + 4 + length;
    world.buffer[..length].copy_from_slice(&before.journal[start + 4..end]);
    // The journal: what stood behind the entry moves up over it.
    for place in end..before.model.ledger.in_use {
        world.journal[place - 4 - length] = before.journal[place];
    }
    world.model.ledger.in_use -= 4 + length;
    world.model.ledger.used[usize::from(line)] -= 4 + length;
    world
}

#[test]
fn each_answer_leaves_what_the_rules_say() {
    let mut world = World::fresh(0x2D);
    let mut traffic = Traffic::new(11);
    let mut seen = [0; 256];
    for _ in 0..200_000 {
        let op = traffic.next(&world);
        let before = world.clone();
        let answer = world.apply(&op);
        let expected = match (&op, answer) {
            (Op::Event { line, kind }, Some(answer)) => after_event(&before, *line, *kind, answer),
            (Op::Start { line, text }, Some(answer)) => {
                after_start(&before, *line, &text.0, answer)
            }
            (Op::Begin { settings }, Some(answer)) => after_begin(&before, settings, answer),
            (Op::Take { line, buffer }, Some(answer)) => {
                after_taking(&before, *line, *buffer, answer)
            }
            (Op::Outgoing { room, .. }, None) => {
                let expected = after_fetching(&before, &world, *room);
                assert!(world == expected, "{:?}", op);
                continue;
            }
            _ => continue,
        };
        let answer = answer.expect("an event, a start or a taking");
        let number = answer.number;
        seen[usize::from(number)] += 1;
        assert!(world == expected, "{:?} with answer {}", op, number);
        // A record's place, counted from 1, comes with its fault alone.
        let has_place = matches!(number, 50..=55);
        assert_eq!(answer.place > 0, has_place, "{:?}: {:?}", op, answer);
    }
    let known = (0..=9).chain(20..=31).chain(40..=46).chain(50..=55);
    for number in known.chain([11, 60, 61, 70, 71, 72]) {
        assert!(seen[number] > 0, "answer {} did not occur", number);
    }
}
