//! Whole sendings, from their start: what is sent, byte for byte, and how each ends.

use crate::frames::write;
use crate::lines::{Kind, Line, State};
use crate::texts::{ACK, DC1, ENQ, EOT, ETB, ETX, NAK, STX};
use crate::traffic::messages::{exact, right};
use crate::traffic::random::Random;
use crate::world::{Memory, Op, World, BLANK};
use crate::{cut, Answer, UNFINISHED};

const MESSAGE: &[u8] = b"H|\\^&\rL|1|N\r";

/// The line that sends.
const LINE: u8 = 2;

/// A fresh world in which the line has started to send this.
fn started(text: &[u8]) -> World {
    let mut world = World::fresh(0xC3);
    assert_eq!(world.start(LINE, text), Answer::sending(Some(ENQ)));
    world
}

fn record(world: &mut World) -> &mut Line {
    &mut world.model.lines[usize::from(LINE)]
}

/// All that goes to the analyzer with an answer.
fn sent(world: &mut World, answer: Answer) -> Vec<u8> {
    match answer.reply {
        Some(STX) => {
            world.fetch(LINE, 247);
            let length = world.fetched.outcome.expect("room for any frame");
            assert!(length > 0, "a frame was told and there is none");
            world.fetched.out[..length].to_vec()
        }
        Some(byte) => vec![byte],
        None => Vec::new(),
    }
}

/// A reply, which is answered 9; what is sent then.
fn reply(world: &mut World, byte: u8) -> Vec<u8> {
    let answer = world.event(LINE, Kind::Byte(byte));
    assert_eq!(answer.number, 9, "{:02X}", byte);
    sent(world, answer)
}

/// Seconds that are answered 9; what is sent then.
fn pass(world: &mut World, seconds: u8) -> Vec<u8> {
    let answer = world.event(LINE, Kind::Seconds(seconds));
    assert_eq!(answer.number, 9, "{} seconds", seconds);
    sent(world, answer)
}

/// The replies ACK, from the start on to our EOT: all that is sent between ENQ and EOT.
fn acknowledged(world: &mut World) -> Vec<u8> {
    let mut all = Vec::new();
    loop {
        let more = reply(world, ACK);
        if more == [EOT] {
            assert_eq!(*record(world), Line::fresh());
            return all;
        }
        all.extend(more);
    }
}

/// The frames of a message, one after the other.
fn frames(text: &[u8]) -> Vec<u8> {
    let mut out = vec![0; 11_000];
    let length = cut(text, &mut out).expect("a message");
    out.truncate(length);
    out
}

/// A message whose first record has so many bytes, its CR counted.
fn with_record_of(length: usize) -> Vec<u8> {
    let mut text = b"H|\\^&".to_vec();
    text.resize(length - 1, b'x');
    text.extend_from_slice(b"\rL|1\r");
    text
}

#[test]
fn the_shortest_message() {
    let mut world = started(MESSAGE);
    assert_eq!(reply(&mut world, ACK), b"\x021H|\\^&\r\x03E5\r\n");
    assert_eq!(reply(&mut world, ACK), b"\x022L|1|N\r\x0305\r\n");
    assert_eq!(reply(&mut world, ACK), [EOT]);
    // The line is neutral: nothing more is heard.
    assert_eq!(world.event(LINE, Kind::Byte(ACK)), Answer::plain(0));
    assert_eq!(world.event(LINE, Kind::Seconds(255)), Answer::plain(0));
}

#[test]
fn what_is_sent_is_what_cutting_makes() {
    let mut random = Random::new(31);
    for round in 0..300 {
        let text = match round % 10 {
            0 => {
                let length = random.between(3_990, 4_000);
                exact(&mut random, length)
            }
            1 => with_record_of(random.between(238, 500)),
            _ => {
                let longest = random.between(11, 1_500);
                right(&mut random, longest)
            }
        };
        let mut world = started(&text);
        assert!(acknowledged(&mut world) == frames(&text));
    }
}

#[test]
fn another_gateway_stores_it_once() {
    let mut random = Random::new(32);
    for _ in 0..50 {
        let text = right(&mut random, 900);
        let mut sender = started(&text);
        let mut receiver = World::fresh(0x3C);
        let mut bytes = vec![ENQ];
        let mut told = Vec::new();
        while !bytes.is_empty() {
            let answer = receiver.answer(6, &bytes);
            told.push(answer.number);
            bytes = match answer.reply {
                Some(byte) => reply(&mut sender, byte),
                None => Vec::new(),
            };
        }
        assert_eq!((told[0], &told[told.len() - 2..]), (1, &[4, 5][..]));
        assert!(told[1..told.len() - 2].iter().all(|&number| number == 2));
        assert_eq!(receiver.take(6, text.len()).number, 8);
        assert_eq!(receiver.buffer, text);
        assert_eq!(receiver.take(6, 4_000).number, 44);
    }
}

#[test]
fn the_eighth_frame_has_number_0() {
    let mut text = b"H|\\^&\r".to_vec();
    for number in 1..=16 {
        text.extend_from_slice(format!("P|{}\r", number).as_bytes());
    }
    text.extend_from_slice(b"L|1\r");
    let mut world = started(&text);
    let mut digits = Vec::new();
    for _ in 0..18 {
        digits.push(reply(&mut world, ACK)[1]);
    }
    assert_eq!(digits, b"123456701234567012");
    assert_eq!(reply(&mut world, ACK), [EOT]);
}

#[test]
fn records_of_240_and_241_bytes() {
    let lengths = |record: usize| {
        let mut world = started(&with_record_of(record));
        let mut lengths = Vec::new();
        loop {
            let frame = reply(&mut world, ACK);
            if frame == [EOT] {
                return lengths;
            }
            let end = frame[frame.len() - 5];
            lengths.push((frame.len() - 7, end));
        }
    };
    assert_eq!(lengths(240), [(240, ETX), (4, ETX)]);
    assert_eq!(lengths(241), [(240, ETB), (1, ETX), (4, ETX)]);
    assert_eq!(lengths(480), [(240, ETB), (240, ETX), (4, ETX)]);
    assert_eq!(lengths(481), [(240, ETB), (240, ETB), (1, ETX), (4, ETX)]);
}

#[test]
fn the_longest_text_fills_the_part() {
    let mut random = Random::new(33);
    let text = exact(&mut random, 4_000);
    let mut world = World::fresh(0xC3);
    let before = world.unfinished.clone();
    assert_eq!(world.start(LINE, &text).number, 9);
    assert_eq!(world.unfinished[8_000..12_000], text[..]);
    // No other line's part is touched.
    assert_eq!(world.unfinished[..8_000], before[..8_000]);
    assert_eq!(world.unfinished[12_000..], before[12_000..]);
    let too_long = exact(&mut random, 4_001);
    assert_eq!(world.start(3, &too_long).number, 46);
}

#[test]
fn our_enq_is_refused_six_times() {
    for byte in [NAK, EOT, DC1, 0x00, 0xFF] {
        let mut world = started(MESSAGE);
        for refusals in 1..=5 {
            assert_eq!(reply(&mut world, byte), b"");
            assert_eq!(record(&mut world).tries, refusals);
            // 10 seconds, in which nothing is heard.
            for heard in [ENQ, ACK, NAK, EOT, DC1, 0x00, 0xFF] {
                assert_eq!(world.event(LINE, Kind::Byte(heard)), Answer::plain(0));
            }
            assert_eq!(pass(&mut world, 9), b"");
            assert_eq!(pass(&mut world, 0), b"");
            assert_eq!(pass(&mut world, 1), [ENQ]);
        }
        // The sixth: given up, and nothing is sent.
        assert_eq!(world.event(LINE, Kind::Byte(byte)), Answer::plain(61));
        assert_eq!(*record(&mut world), Line::fresh());
    }
}

#[test]
fn our_enq_is_acknowledged_at_the_sixth_time() {
    let mut world = started(MESSAGE);
    for _ in 0..5 {
        assert_eq!(reply(&mut world, NAK), b"");
        assert_eq!(pass(&mut world, 255), [ENQ]);
    }
    assert_eq!(acknowledged(&mut world), frames(MESSAGE));
}

#[test]
fn a_frame_is_sent_six_times() {
    for byte in [NAK, ENQ, DC1, 0x00, 0xFF] {
        let mut world = started(MESSAGE);
        let first = reply(&mut world, ACK);
        for _ in 2..=6 {
            assert_eq!(reply(&mut world, byte), first);
        }
        assert_eq!(record(&mut world).tries, 6);
        assert_eq!(reply(&mut world, byte), [EOT]);
        assert_eq!(*record(&mut world), Line::fresh());
    }
}

#[test]
fn the_sixth_send_may_be_acknowledged() {
    for byte in [ACK, EOT] {
        let mut world = started(MESSAGE);
        reply(&mut world, ACK);
        for _ in 0..5 {
            reply(&mut world, NAK);
        }
        // The next frame has its own six.
        assert_eq!(reply(&mut world, byte), b"\x022L|1|N\r\x0305\r\n");
        assert_eq!(record(&mut world).tries, 1);
        assert_eq!(reply(&mut world, byte), [EOT]);
    }
}

#[test]
fn no_reply_ends_with_our_eot() {
    let mut world = started(MESSAGE);
    assert_eq!(pass(&mut world, 14), b"");
    assert_eq!(pass(&mut world, 1), [EOT]);
    assert_eq!(*record(&mut world), Line::fresh());

    let mut world = started(MESSAGE);
    assert_eq!(pass(&mut world, 255), [EOT]);

    let mut world = started(MESSAGE);
    assert_eq!(pass(&mut world, 14), b"");
    // A reply begins a new wait.
    let frame = reply(&mut world, ACK);
    assert_eq!(pass(&mut world, 14), b"");
    assert_eq!(reply(&mut world, NAK), frame);
    assert_eq!(pass(&mut world, 14), b"");
    assert_eq!(pass(&mut world, 0), b"");
    assert_eq!(pass(&mut world, 1), [EOT]);
}

#[test]
fn a_sending_ends_whatever_comes() {
    // One second at a time, each behind a byte that refuses: 140 seconds for our ENQs and 90 for each of the
    // two frames are enough.
    let mut random = Random::new(34);
    for _ in 0..200 {
        let mut world = started(MESSAGE);
        let mut seconds = 0;
        while record(&mut world).state != State::Neutral {
            world.event(LINE, Kind::Seconds(1));
            seconds += 1;
            assert!(seconds <= 140 + 2 * 90);
            if random.once_in(10) && record(&mut world).state != State::Neutral {
                let byte = random.pick(&[ACK, NAK, NAK, DC1]);
                world.event(LINE, Kind::Byte(byte));
            }
        }
    }
}

#[test]
fn our_eot_tells_whether_all_was_acknowledged() {
    // By the byte that it answers: so a host knows, who sees no more than that.
    let mut random = Random::new(35);
    let mut ends = [0; 3];
    for _ in 0..600 {
        let longest = random.between(11, 200);
        let text = right(&mut random, longest);
        let mut world = started(&text);
        let mut offered = Vec::new();
        let mut acknowledged = Vec::new();
        loop {
            if record(&mut world).state == State::Pausing {
                assert_eq!(pass(&mut world, 10), [ENQ]);
            }
            let acknowledges = random.once_in(2);
            let byte = random.pick(if acknowledges {
                &[ACK, ACK, EOT]
            } else {
                &[NAK, DC1, 0x00]
            });
            if acknowledges {
                acknowledged.append(&mut offered);
            }
            let answer = world.event(LINE, Kind::Byte(byte));
            if answer.number == 61 {
                assert!(acknowledged.is_empty());
                ends[0] += 1;
                break;
            }
            if answer.reply == Some(EOT) {
                assert_eq!(acknowledged == text, acknowledges);
                ends[1 + usize::from(acknowledges)] += 1;
                break;
            }
            offered = match &sent(&mut world, answer)[..] {
                [STX, _, rest @ ..] => rest[..rest.len() - 5].to_vec(),
                _ => Vec::new(),
            };
        }
    }
    assert!(ends.iter().all(|&count| count > 0), "{:?}", ends);
}

#[test]
fn both_ends_want_to_send() {
    let mut world = started(MESSAGE);
    assert_eq!(world.event(LINE, Kind::Byte(ENQ)), Answer::plain(61));
    assert_eq!(*record(&mut world), Line::fresh());
    // The analyzer's ENQ has to come again, and then it is heard.
    assert_eq!(world.send(LINE, &[ENQ]), 1);
    assert_eq!(world.start(LINE, MESSAGE), Answer::plain(60));
    assert_eq!(world.send(LINE, &write(1, MESSAGE, ETX)), 4);
    assert_eq!(world.send(LINE, &[EOT]), 5);
    // A start behind it all.
    assert_eq!(world.start(LINE, MESSAGE), Answer::sending(Some(ENQ)));
    assert_eq!(acknowledged(&mut world), frames(MESSAGE));
    assert_eq!(world.take(LINE, 12).length, 12);
}

#[test]
fn sixty_in_every_state_but_neutral() {
    for state in State::ALL {
        let mut world = World::fresh(0xC3);
        record(&mut world).state = state;
        let before = world.clone();
        let number = if state == State::Neutral { 9 } else { 60 };
        assert_eq!(world.start(LINE, MESSAGE).number, number, "{:?}", state);
        assert_eq!(world == before, number == 60);
        // The text is not looked at before the state.
        let mut world = before.clone();
        let number = if state == State::Neutral { 50 } else { 60 };
        assert_eq!(world.start(LINE, b"").number, number, "{:?}", state);
        assert!(world == before);
    }
}

#[test]
fn a_start_is_tested_in_order() {
    let refused = |world: &mut World, line, text: &[u8]| {
        let before = world.clone();
        let answer = world.start(line, text);
        assert_eq!((answer.reply, answer.place), (None, 0));
        assert!(*world == before);
        answer.number
    };
    let mut world = World::fresh(0);
    // Each with all that comes later wrong as well.
    world.lent = [1, 1, 1];
    record(&mut world).tries = 1;
    assert_eq!(refused(&mut world, 8, b""), 40);
    assert_eq!(refused(&mut world, 255, b""), 40);
    for memory in Memory::ALL {
        for length in [0, memory.size() - 1, memory.size() + 1] {
            let lent = Memory::ALL.map(Memory::size);
            world.lent = lent;
            world.apply(&Op::Lend { memory, length });
            assert_eq!(refused(&mut world, LINE, b""), 41, "{:?}", memory);
        }
    }
    world.lent = Memory::ALL.map(Memory::size);
    assert_eq!(refused(&mut world, LINE, b""), 42);
    *record(&mut world) = Line {
        state: State::Waiting,
        ..Line::fresh()
    };
    assert_eq!(refused(&mut world, LINE, b""), 60);
    *record(&mut world) = Line::fresh();
    assert_eq!(refused(&mut world, LINE, b"L|1\n"), 46);
    assert_eq!(refused(&mut world, LINE, &vec![b'x'; 4_001]), 46);
}

#[test]
fn the_wrong_record_is_told_and_nothing_is_sent() {
    let cases: [(&[u8], u8, usize); 9] = [
        (b"", 50, 1),
        (b"L|1|N\r", 50, 1),
        (b"H|\\^\rL|1\r", 50, 1),
        (b"H|\\^&\rP|1\rX|1\rL|1\r", 51, 3),
        (b"H|\\^&\rP|1\rR|1\rL|1\r", 52, 3),
        (b"H|\\^&\r", 52, 1),
        (b"H|\\^&\rP|1\rO|2\rL|1\r", 53, 3),
        (b"H|\\^&\rP|1\rL|1", 54, 3),
        (b"H|\\^^\rL|1\r", 55, 1),
    ];
    for (text, number, place) in cases {
        let mut world = World::fresh(0);
        let before = world.clone();
        let answer = world.start(LINE, text);
        assert_eq!((answer.number, answer.place), (number, place));
        assert_eq!(answer.reply, None);
        assert!(world == before);
    }
}

#[test]
fn a_broken_journal_is_not_looked_at() {
    let mut world = World::fresh(0);
    world.model.ledger.in_use = 5;
    assert!(world.is_broken());
    assert_eq!(world.start(LINE, MESSAGE).number, 9);
    assert_eq!(acknowledged(&mut world), frames(MESSAGE));
}

#[test]
fn a_neutral_record_with_counts_is_set_anew() {
    let mut world = World::fresh(0xC3);
    *record(&mut world) = Line {
        collected: 245,
        joined: 4_000,
        seconds: 29,
        next: 7,
        last: Some(7),
        refusing: true,
        ..Line::fresh()
    };
    world.model.ledger.serials[usize::from(LINE)] = 77;
    world.model.spare[usize::from(LINE)] = [1, 65_535];
    // On a line of frames nobody looks at these.
    let reader = &mut world.model.readers[usize::from(LINE)];
    (reader.reply, reader.since, reader.kept) = (7, 9, 65_534);
    assert_eq!(world.start(LINE, MESSAGE).number, 9);
    let asks = Line {
        state: State::Asking,
        joined: 12,
        ..Line::fresh()
    };
    assert_eq!(*record(&mut world), asks);
    let numbers = [3, 0, 12, 0, 1, 0, 0, 77, 0, 0, 0, 7, 9, 65_534, 1, 65_535];
    assert_eq!(world.model.numbers(usize::from(LINE)), numbers);
    // Behind the text the part keeps its bytes.
    assert_eq!(&world.unfinished[8_000..8_012], MESSAGE);
    assert!(world.unfinished[8_012..].iter().all(|&byte| byte == 0xC3));
}

#[test]
fn fetching_changes_nothing_and_is_tested_in_order() {
    let mut world = started(MESSAGE);
    reply(&mut world, ACK);
    let length = 13;
    for (room, outcome) in [
        (0, Err(47)),
        (length - 1, Err(47)),
        (length, Ok(length)),
        (length + 1, Ok(length)),
        (247, Ok(length)),
    ] {
        let before = world.clone();
        world.fetch(LINE, room);
        assert_eq!(world.fetched.outcome, outcome);
        let written = outcome.unwrap_or(0);
        assert_eq!(&world.fetched.out[..written], &frames(MESSAGE)[..written]);
        assert!(world.fetched.out[written..].iter().all(|&b| b == BLANK));
        assert_eq!(world.model, before.model);
        assert_eq!(world.unfinished, before.unfinished);
    }
    let outcome = |world: &mut World, line| {
        world.fetch(line, 0);
        world.fetched.outcome
    };
    // Journal and frames are not lent to it.
    world.lent = [0, 1, 0];
    record(&mut world).tries = 7;
    assert_eq!(outcome(&mut world, 8), Err(40));
    assert_eq!(outcome(&mut world, LINE), Err(41));
    world.lent = [0, UNFINISHED, 0];
    assert_eq!(outcome(&mut world, LINE), Err(42));
    record(&mut world).tries = 6;
    assert_eq!(outcome(&mut world, LINE), Err(47));
    record(&mut world).place = 12;
    assert_eq!(outcome(&mut world, LINE), Ok(0));
    assert_eq!(outcome(&mut world, 3), Ok(0));
}

#[test]
fn a_frame_that_was_never_sent_is_sent_six_times() {
    let mut world = started(MESSAGE);
    reply(&mut world, ACK);
    record(&mut world).tries = 0;
    for _ in 1..=6 {
        assert_eq!(reply(&mut world, NAK), frames(MESSAGE)[..13]);
    }
    assert_eq!(reply(&mut world, NAK), [EOT]);
}

#[test]
fn the_text_is_what_the_part_holds() {
    // Set by hand: no message, and not even a text.
    let mut world = started(MESSAGE);
    world.unfinished[8_000..8_012].copy_from_slice(b"\r\x00\xFF\rabcdefgh");
    assert_eq!(reply(&mut world, ACK), write(1, b"\r", ETX));
    assert_eq!(reply(&mut world, ACK), write(2, b"\x00\xFF\r", ETX));
    assert_eq!(reply(&mut world, ACK), write(3, b"abcdefgh", ETB));
    assert_eq!(reply(&mut world, ACK), [EOT]);
}

#[test]
fn modular_order_download() {
    let text = b"H|\\^&|||ASTM-Host^||||||TSDWN^REPLY\rP|1||PatID|||||M||||||40^Y\r\
        O|1|000016|0^5230^1^^S1^SC|^^^2^1|R||20000530143741||||N||||1||||||||||O\r\
        C|1|L|C1^C2^C3^C4^C5|G\rL|1|N\r";
    assert_eq!(text.len(), 165);
    let mut world = started(text);
    let all = acknowledged(&mut world);
    assert_eq!(all.len(), 200);
    let digits: Vec<&[u8]> = all
        .split_inclusive(|&byte| byte == b'\n')
        .map(|frame| &frame[frame.len() - 4..frame.len() - 2])
        .collect();
    assert_eq!(digits, [b"19", b"A5", b"DA", b"01", b"08"]);
    // Its alarms, seen from the end that sends. 126-007: no reply to a frame in 15 seconds.
    world.start(LINE, text);
    reply(&mut world, ACK);
    assert_eq!(pass(&mut world, 15), [EOT]);
    // 126-008: six sends of one frame.
    world.start(LINE, text);
    let frame = reply(&mut world, ACK);
    for _ in 0..5 {
        assert_eq!(reply(&mut world, NAK), frame);
    }
    assert_eq!(reply(&mut world, NAK), [EOT]);
    // 126-009: ENQ answered by ENQ.
    world.start(LINE, text);
    assert_eq!(world.event(LINE, Kind::Byte(ENQ)), Answer::plain(61));
}

#[test]
fn lines_send_beside_each_other() {
    let mut world = World::fresh(0);
    let mut texts = Vec::new();
    for line in World::lines() {
        let text = format!("H|\\^&|line {}\rL|1\r", line).into_bytes();
        assert_eq!(world.start(line, &text).number, 9);
        texts.push(text);
    }
    // Each event of one line leaves the other seven.
    for (line, text) in World::lines().zip(&texts) {
        let n = usize::from(line);
        let mut all = Vec::new();
        loop {
            let others = world.model.lines;
            let answer = world.event(line, Kind::Byte(ACK));
            for other in (0..8).filter(|&other| other != n) {
                assert_eq!(world.model.lines[other], others[other]);
            }
            if answer.reply == Some(EOT) {
                break;
            }
            world.fetch(line, 247);
            let length = world.fetched.outcome.unwrap();
            all.extend_from_slice(&world.fetched.out[..length]);
        }
        assert_eq!(all, frames(text));
    }
}
