//! The examples of rule P5, each answer, and the limits from both sides.

use crate::frames::{check, write};
use crate::journal::{fits, serial_after};
use crate::lines::{Kind, Line, State};
use crate::texts::{ENQ, EOT, ETB, ETX, LF, STX};
use crate::traffic::messages::{exact, right};
use crate::traffic::random::Random;
use crate::world::{Memory, Op, World};
use crate::{cut, is_message, Answer, JOURNAL};

const H: &[u8] = b"H|\\^&\r";
const L: &[u8] = b"L|1|N\r";
const MESSAGE: &[u8] = b"H|\\^&\rL|1|N\r";

/// A fresh world with line 2 opened.
fn opened() -> World {
    let mut world = World::fresh(0xC3);
    assert_eq!(world.send(2, &[ENQ]), 1);
    world
}

/// A right message of this length, its H record filled up.
fn message_of(length: usize) -> Vec<u8> {
    let mut text = b"H|\\^&".to_vec();
    text.resize(length - 5, b'x');
    text.extend_from_slice(b"\rL|1\r");
    assert_eq!(text.len(), length);
    text
}

/// Sends a text in pieces of 240 bytes, the last one closed by ETX, from the line's next number;
/// the answers to the frames.
fn send_text(world: &mut World, line: u8, text: &[u8]) -> Vec<u8> {
    let mut answers = Vec::new();
    let last = text.chunks(240).count() - 1;
    for (index, piece) in text.chunks(240).enumerate() {
        let end = if index == last { ETX } else { ETB };
        let number = world.model.lines[usize::from(line)].next;
        answers.push(world.send(line, &write(number, piece, end)));
    }
    answers
}

/// Stores a right message of this length on a line, in a transfer of its own; the last answer.
fn store(world: &mut World, line: u8, length: usize) -> u8 {
    assert_eq!(world.send(line, &[ENQ]), 1);
    let answers = send_text(world, line, &message_of(length));
    let (last, before) = answers.split_last().unwrap();
    assert!(before.iter().all(|&answer| answer == 2), "{:?}", answers);
    assert_eq!(world.send(line, &[EOT]), 5);
    *last
}

#[test]
fn the_thirteen() {
    let digits = |number: u8, text: &[u8], end: u8| {
        let frame = write(number, text, end);
        [frame[frame.len() - 4], frame[frame.len() - 3]]
    };
    assert_eq!(digits(1, L, ETX), *b"04");
    assert_eq!(digits(2, L, ETX), *b"05");
    assert_eq!(digits(1, b"", ETB), *b"48");
    assert_eq!(digits(1, b"", ETX), *b"34");
    assert_eq!(digits(1, H, ETX), *b"E5");
    assert_eq!(digits(1, MESSAGE, ETX), *b"B5");
    assert_eq!(check(b"1L|1|N\r\x03"), *b"04");
    assert!(is_message(MESSAGE));
    assert_eq!(cut(MESSAGE, &mut [0; 26]), Ok(26));
    let mut world = opened();
    assert_eq!(world.send(2, &write(1, MESSAGE, ETX)), 4);
    assert_eq!(world.model.ledger.in_use, 16);
    assert!(!is_message(L));
    assert!(fits(&[0, 0, 0, 0, 0, 18_432, 0, 0]));
    assert!(!fits(&[0, 0, 0, 0, 0, 18_433, 0, 0]));
    assert_eq!(serial_after(65_535), 0);
}

#[test]
fn answers_0_to_8() {
    let mut world = World::fresh(0);
    assert_eq!(world.send(2, &[EOT]), 0);
    assert_eq!(world.seconds(2, 40), 0);
    assert_eq!(world.send(2, &[ENQ]), 1);
    assert_eq!(world.seconds(2, 29), 0);
    assert_eq!(world.send(2, &write(1, H, ETX)), 2);
    assert_eq!(world.send(2, &write(1, b"anything", ETB)), 3);
    assert_eq!(world.send(2, &write(2, L, ETX)), 4);
    // The L frame resent: gateways have been seen to store it again.
    assert_eq!(world.send(2, &write(2, L, ETX)), 3);
    assert_eq!(world.model.ledger.in_use, 16);
    assert_eq!(world.send(2, &[EOT]), 5);
    assert_eq!(world.send(2, &[ENQ]), 1);
    assert_eq!(world.send(2, &write(1, H, ETB)), 2);
    assert_eq!(world.send(2, &[EOT]), 6);
    assert_eq!(world.send(2, &[ENQ]), 1);
    assert_eq!(world.seconds(2, 30), 7);
    let answer = world.take(2, 13);
    assert_eq!((answer.number, answer.length, answer.serial), (8, 12, 0));
    assert_eq!(&world.buffer[..12], MESSAGE);
    assert_eq!(world.buffer[12], crate::world::BLANK);
    assert_eq!(world.model.ledger.in_use, 0);
}

#[test]
fn answers_20_to_27() {
    let mut world = opened();
    assert_eq!(world.send(2, &[ENQ]), 20);
    assert_eq!(world.send(2, &write(1, &[b'x'; 241], ETX)[..247]), 21);
    assert_eq!(world.send(2, &[STX, LF]), 22);
    assert_eq!(world.send(2, b"\x021\x0335\r\n"), 23);
    assert_eq!(world.send(2, &write(1, &[0x00], ETX)), 24);
    assert_eq!(world.send(2, &write(8, b"", ETX)), 25);
    assert_eq!(world.send(2, &write(2, b"", ETX)), 27);
    // The repeat: a line that has accepted nothing knows none, not even number 0.
    assert_eq!(world.send(2, &write(0, b"", ETX)), 27);
    // The number: gateways have been seen to move it on with a NAK.
    assert_eq!(world.model.lines[2].next, 1);
    assert_eq!(world.send(2, &write(1, L, ETX)), 50);
    assert_eq!(world.send(2, &write(1, L, ETX)), 26);
}

#[test]
fn answer_26_stands_before_3_and_27_and_behind_25() {
    let mut world = opened();
    assert_eq!(world.send(2, &write(1, b"P\r", ETX)), 2);
    assert_eq!(world.send(2, &write(2, L, ETX)), 50);
    assert_eq!(world.send(2, &write(1, b"", ETB)), 26);
    assert_eq!(world.send(2, &write(5, b"", ETB)), 26);
    assert_eq!(world.send(2, &write(9, b"", ETB)), 25);
    assert_eq!(world.send(2, &[EOT]), 5);
    assert_eq!(world.send(2, &[ENQ]), 1);
    assert_eq!(world.send(2, &write(1, MESSAGE, ETX)), 4);
}

#[test]
fn answer_28_from_both_sides() {
    // A whole message of 4,000 bytes is stored, one byte more is not joined.
    let mut world = opened();
    let answers = send_text(&mut world, 2, &message_of(4_000));
    assert_eq!(answers[..16], [2; 16]);
    assert_eq!(answers[16..], [4]);
    let answers = send_text(&mut world, 2, &message_of(4_001));
    assert_eq!(answers[..16], [2; 16]);
    assert_eq!(answers[16..], [28]);
    let record = world.model.lines[2];
    assert_eq!((record.joined, record.refusing), (3_840, false));
    // 28 is not final: less text with the same number is joined, with ETB too.
    assert_eq!(world.send(2, &write(record.next, &[b'x'; 161], ETB)), 28);
    assert_eq!(world.send(2, &write(record.next, &[b'x'; 160], ETB)), 2);
    assert_eq!(world.model.lines[2].joined, 4_000);
    let next = world.model.lines[2].next;
    assert_eq!(world.send(2, &write(next, b"x", ETX)), 28);
    assert_eq!(world.send(2, &write(next, b"", ETX)), 29);
    assert_eq!(world.send(2, &write(next, b"", ETB)), 2);
}

#[test]
fn answer_29_is_for_the_joined_text() {
    let mut world = opened();
    assert_eq!(world.send(2, &write(1, b"", ETX)), 29);
    assert_eq!(world.send(2, &write(1, b"P|1", ETX)), 29);
    assert_eq!(world.send(2, &write(1, b"", ETB)), 2);
    assert_eq!(world.send(2, &write(2, b"", ETX)), 29);
    assert_eq!(world.send(2, &write(2, MESSAGE, ETB)), 2);
    // An empty ETX frame behind a whole message decides it.
    assert_eq!(world.send(2, &write(3, b"", ETX)), 4);
    assert_eq!(world.model.ledger.used[2], 16);
}

#[test]
fn when_a_message_is_decided() {
    // What frame 2, with ETX, is answered behind an H frame, and which record is wrong.
    let cases: [(&[u8], u8, usize); 14] = [
        (b"L|1\r", 4, 0),
        (b"L\r", 53, 2),
        (b"LX\r", 51, 2),
        (b"L|2\r", 53, 2),
        (b"LOL\r", 51, 2),
        (b"l|1\r", 2, 0),
        (b" L|1\r", 2, 0),
        (b"\r", 2, 0),
        (b"L|1\r\r", 2, 0),
        (b"L|1\rP|1\r", 2, 0),
        (b"P|9\rL|1\r", 53, 2),
        (b"P|1\rR|1\rL|1\r", 52, 3),
        (b"P|1\rO|1\rL|1\rL|1\r", 52, 5),
        (b"L|1", 29, 0),
    ];
    for (text, number, place) in cases {
        let mut world = opened();
        assert_eq!(world.send(2, &write(1, H, ETB)), 2);
        let answer = world.answer(2, &write(2, text, ETX));
        assert_eq!((answer.number, answer.place), (number, place), "{:?}", text);
    }
    // The L may have come frames ago, and ETB decides nothing.
    let mut world = opened();
    assert_eq!(world.send(2, &write(1, b"H|\\^&\rL", ETB)), 2);
    assert_eq!(world.send(2, &write(2, b"|1", ETB)), 2);
    assert_eq!(world.send(2, &write(3, b"\r", ETB)), 2);
    assert_eq!(world.send(2, &write(4, b"", ETX)), 4);
    // The transfer goes on, with the next number and a serial of its own.
    assert_eq!(world.send(2, &write(5, MESSAGE, ETX)), 4);
    assert_eq!(world.take(2, 4_000).serial, 0);
    assert_eq!(world.take(2, 4_000).serial, 1);
}

#[test]
fn answer_30_is_for_a_byte_that_no_frame_brings() {
    // Behind it a message that is right, and one that is not: no record is looked at.
    for rest in [&b"\rL|1\r"[..], b"\rX\rL|1\r"] {
        for byte in [0x00, 0x06, 0x0A, 0x1F, 0x7F, 0xFF] {
            let mut world = opened();
            assert_eq!(world.send(2, &write(1, b"H|\\^&|x", ETB)), 2);
            world.unfinished[2 * 4_000 + 6] = byte;
            // 43 comes behind it.
            world.model.ledger.used[7] = 1;
            let answer = world.answer(2, &write(2, rest, ETX));
            assert_eq!(answer, Answer::plain(30));
            assert_eq!(world.send(2, &write(2, rest, ETX)), 26);
        }
    }
}

#[test]
fn delimiters_on_a_line() {
    let cases: [(&[u8], u8, usize); 12] = [
        (b"H!~$%\rL!1\r", 4, 0),
        (b"H|^\\&\rL|1\r", 4, 0),
        (b"H!~$%\rP!1!|\\^&\rL!1\r", 4, 0),
        (b"H!~$%\rP|1\rL!1\r", 51, 2),
        (b"H!~$%\rL|1\r", 51, 2),
        (b"H|\\\r^&\rL|1\r", 50, 1),
        (b"H|\\^\rL|1\r", 50, 1),
        (b"H|\\||\rL|1\r", 55, 1),
        (b"H|\\^ \rX\rL|2\r", 55, 1),
        (b"HLLLL\rL\r", 55, 1),
        (b"H|\\^\xFE\rL|1\r", 55, 1),
        // No last record that begins with L: not decided.
        (b"H|\\||\r", 2, 0),
    ];
    for (text, number, place) in cases {
        let mut world = opened();
        // Neither a broken journal nor one without room is looked at.
        if number != 4 {
            world.model.ledger.used[7] = 1;
        }
        let answer = world.answer(2, &write(1, text, ETX));
        assert_eq!((answer.number, answer.place), (number, place), "{:?}", text);
        let record = world.model.lines[2];
        assert_eq!(record.refusing, number >= 50);
        if number >= 50 {
            assert_eq!((record.joined, record.next, record.last), (0, 1, None));
            assert_eq!(world.unfinished[8_000..][..text.len()], *text);
            assert_eq!(world.send(2, &write(1, MESSAGE, ETX)), 26);
            assert_eq!(world.send(2, &[EOT]), 5);
        }
    }
    // A byte that is not allowed goes before them, though it is one of the four.
    for place in 1..5 {
        let mut world = opened();
        assert_eq!(world.send(2, &write(1, b"H|\\^&", ETB)), 2);
        world.unfinished[8_000 + place] = 0x0A;
        assert_eq!(world.send(2, &write(2, b"\rL|1\r", ETX)), 30);
    }
}

#[test]
fn answer_31_and_the_guaranteed_share() {
    let mut world = World::fresh(0);
    for _ in 0..4 {
        assert_eq!(store(&mut world, 5, 4_000), 4);
    }
    // 16,016 are used; 18,432 is the most.
    assert_eq!(store(&mut world, 5, 2_413), 31);
    assert_eq!(world.model.ledger.serials[5], 4);
    assert_eq!(store(&mut world, 5, 2_412), 4);
    assert_eq!(world.model.ledger.used[5], 18_432);
    assert_eq!(store(&mut world, 5, 12), 31);
    // A record that is wrong comes before the room.
    assert_eq!(world.send(5, &[ENQ]), 1);
    assert_eq!(world.send(5, &write(1, L, ETX)), 50);
    assert_eq!(world.send(5, &[EOT]), 5);
    // Every other line still has all of its share, and no more.
    for line in [0, 1, 2, 3, 4, 6, 7] {
        assert_eq!(store(&mut world, line, 2_045), 31, "{}", line);
        assert_eq!(store(&mut world, line, 2_044), 4, "{}", line);
        assert_eq!(store(&mut world, line, 12), 31, "{}", line);
    }
    assert_eq!(world.model.ledger.in_use, JOURNAL);
    assert!(!world.is_broken());
    // Room that a taking frees serves again.
    assert_eq!(world.take(5, 4_000).number, 8);
    assert_eq!(store(&mut world, 3, 4_000), 4);
    assert_eq!(world.model.ledger.in_use, JOURNAL);
}

#[test]
fn no_room_is_final_for_the_transfer() {
    let mut world = World::fresh(0);
    for _ in 0..4 {
        assert_eq!(store(&mut world, 5, 4_000), 4);
    }
    assert_eq!(world.send(5, &[ENQ]), 1);
    assert_eq!(send_text(&mut world, 5, &message_of(4_000))[16], 31);
    // Room: gateways have been seen to ask for it again when the frame is resent.
    assert_eq!(world.take(5, 4_000).number, 8);
    assert_eq!(world.send(5, &write(1, MESSAGE, ETX)), 26);
    assert_eq!(world.model.lines[5].last, Some(0));
    assert_eq!(world.model.lines[5].next, 1);
}

#[test]
fn answers_40_to_42_in_their_order() {
    let mut world = opened();
    world.model.lines[2].collected = 246;
    world.apply(&Op::Lend {
        memory: Memory::Frames,
        length: 1_967,
    });
    let before = world.clone();
    for line in [8, 9, 128, 255] {
        assert_eq!(world.send(line, &[ENQ]), 40);
        assert_eq!(world.take(line, 0).number, 40);
    }
    assert_eq!(world.send(2, &[ENQ]), 41);
    assert_eq!(world.seconds(2, 0), 41);
    // A taking is lent the journal alone.
    assert_eq!(world.take(2, 0).number, 44);
    world.apply(&Op::Lend {
        memory: Memory::Frames,
        length: 1_968,
    });
    assert_eq!(world.send(2, &[0x00]), 42);
    assert_eq!(world.seconds(2, 255), 42);
    // Another line's record is not looked at, and a taking looks at none.
    assert_eq!(world.send(3, &[0x00]), 0);
    assert_eq!(world.take(2, 0).number, 44);
    for memory in Memory::ALL {
        for length in [0, memory.size() - 1, memory.size() + 1] {
            world.apply(&Op::Lend { memory, length });
            assert_eq!(world.send(2, &[ENQ]), 41);
            let taking = if memory == Memory::Journal { 41 } else { 44 };
            assert_eq!(world.take(2, 0).number, taking);
        }
        world.apply(&Op::Lend {
            memory,
            length: memory.size(),
        });
    }
    assert_eq!(world.model, before.model);
    assert_eq!(world.journal, before.journal);
    assert_eq!(world.unfinished, before.unfinished);
    assert_eq!(world.frames, before.frames);
}

#[test]
fn answer_43_is_given_where_room_is_reached_and_by_takings() {
    let mut world = opened();
    world.model.ledger.used[7] = 1;
    // All of these end before room is looked at.
    assert_eq!(world.send(2, &[ENQ]), 20);
    assert_eq!(world.send(2, &write(1, H, ETX)), 2);
    assert_eq!(world.send(2, &write(1, H, ETX)), 3);
    assert_eq!(world.send(2, &write(2, b"", ETX)), 2);
    let mut second = world.clone();
    assert_eq!(second.send(2, &write(3, b"L|2\r", ETX)), 53);
    // A right message is not stored and changes nothing: the line stays inside, one byte short.
    let frame = write(3, L, ETX);
    assert_eq!(world.send(2, &frame[..frame.len() - 1]), 0);
    let before = world.clone();
    assert_eq!(world.send(2, &[LF]), 43);
    assert_eq!(world, before);
    assert_eq!(world.send(2, &[LF]), 43);
    assert_eq!(world.model.lines[2].state, State::Inside);
    // 43 comes before 44 and 45.
    assert_eq!(world.take(2, 0).number, 43);
    // Mended, the same byte stores it.
    world.model.ledger.used[7] = 0;
    assert_eq!(world.send(2, &[LF]), 4);
    assert_eq!(world.take(2, 12).length, 12);
}

#[test]
fn answers_44_and_45() {
    let mut world = opened();
    assert_eq!(world.send(2, &write(1, MESSAGE, ETX)), 4);
    let before = world.clone();
    assert_eq!(world.take(3, 4_000).number, 44);
    assert_eq!(world.take(3, 0).number, 44);
    for buffer in [0, 11] {
        assert_eq!(world.take(2, buffer).number, 45);
        assert!(world.buffer.iter().all(|&b| b == crate::world::BLANK));
    }
    assert_eq!(
        (&world.model, &world.journal),
        (&before.model, &before.journal)
    );
    assert_eq!(world.take(2, 12).number, 8);
    assert_eq!(world.take(2, 12).number, 44);
}

#[test]
fn a_frame_of_246_collected_bytes_is_the_longest() {
    let mut world = opened();
    let mut frame = write(1, &[b'x'; 240], ETB);
    assert_eq!(world.send(2, &frame[..246]), 0);
    assert_eq!(world.model.lines[2].collected, 245);
    assert_eq!(world.send(2, &frame[246..]), 2);
    assert_eq!(world.frames[2 * 246..3 * 246], frame[1..]);
    // Without its LF it is judged at the same byte, and what follows finds a waiting line.
    frame = write(2, &[b'y'; 241], ETB);
    frame.push(ENQ);
    let answers = world.bytes(2, &frame);
    assert_eq!(answers[246..], [21, 0, 20]);
    assert_eq!(world.model.lines[2].state, State::Waiting);
}

#[test]
fn seconds_start_again_at_each_judged_frame() {
    let mut world = opened();
    assert_eq!(world.seconds(2, 29), 0);
    assert_eq!(world.send(2, &[STX]), 0);
    assert_eq!(world.model.lines[2].seconds, 29);
    assert_eq!(world.send(2, &[LF]), 22);
    assert_eq!(world.model.lines[2].seconds, 0);
    assert_eq!(world.seconds(2, 29), 0);
    // ENQ, ignored and collected bytes do not start it again.
    assert_eq!(world.bytes(2, &[ENQ, 0x00, STX, b'1']), [20, 0, 0, 0]);
    assert_eq!(world.seconds(2, 1), 7);
    assert_eq!(world.model.lines[2], Line::fresh());
}

#[test]
fn records_that_no_run_reaches_follow_the_words() {
    // Last and next the same: a repeat.
    let mut world = opened();
    world.model.lines[2].last = Some(1);
    assert_eq!(world.send(2, &write(1, MESSAGE, ETX)), 3);
    // Number 0 next, none last: accepted.
    world.model.lines[2].last = None;
    world.model.lines[2].next = 0;
    assert_eq!(world.send(2, &write(0, MESSAGE, ETX)), 4);
    assert_eq!(world.model.lines[2].next, 1);
    assert_eq!(world.model.lines[2].last, Some(0));
    // A neutral line with counts ignores all but ENQ.
    world.apply(&Op::Fresh);
    world.model.lines[2].joined = 9;
    assert_eq!(world.send(2, &[EOT]), 0);
    assert_eq!(world.seconds(2, 255), 0);
    assert_eq!(world.model.lines[2].joined, 9);
    // An inside line with no bytes of its own: the frame part's contents are the frame.
    let frame = write(1, MESSAGE, ETX);
    world.frames[2 * 246..2 * 246 + frame.len() - 1].copy_from_slice(&frame[1..]);
    world.model.lines[2] = Line {
        state: State::Inside,
        collected: frame.len() - 2,
        ..Line::fresh()
    };
    assert_eq!(world.event(2, Kind::Byte(LF)).number, 4);
}

#[test]
fn a_cut_message_is_stored_by_a_fresh_line() {
    // Our own frames come through: sent after ENQ, while no time passes.
    let mut random = Random::new(21);
    for round in 0..400 {
        let line = (round % 8) as u8;
        let text = if round % 10 == 0 {
            let length = random.between(3_900, 4_000);
            exact(&mut random, length)
        } else {
            let longest = random.between(11, 1_500);
            right(&mut random, longest)
        };
        let mut out = vec![0; 2 * text.len() + 4_000];
        let length = cut(&text, &mut out).unwrap();
        let mut world = World::fresh(random.byte());
        assert_eq!(world.send(line, &[ENQ]), 1);
        let mut answers = world.bytes(line, &out[..length]);
        answers.retain(|&answer| answer != 0);
        assert_eq!(answers.pop(), Some(4));
        assert_eq!(length, text.len() + 7 * (answers.len() + 1));
        assert!(answers.iter().all(|&answer| answer == 2));
        assert_eq!(world.take(line, text.len()).number, 8);
        assert_eq!(world.buffer, text);
    }
}

#[test]
fn lines_do_not_touch_each_other() {
    // Eight transfers byte by byte in turn, each with its own text.
    let mut world = World::fresh(0x11);
    let mut sent: Vec<Vec<u8>> = Vec::new();
    for line in World::lines() {
        let text = format!("H|\\^&|line {}\rP|1\rL|1\r", line).into_bytes();
        let mut out = vec![0; 200];
        let length = cut(&text, &mut out).unwrap();
        sent.push([&[ENQ][..], &out[..length], &[EOT]].concat());
    }
    let mut answers = vec![Vec::new(); 8];
    let longest = sent[0].len();
    assert!(sent.iter().all(|bytes| bytes.len() == longest));
    for index in 0..longest {
        for (line, bytes) in World::lines().zip(&sent) {
            let byte = bytes[index];
            let answer = world.event(line, Kind::Byte(byte)).number;
            if answer != 0 {
                answers[usize::from(line)].push(answer);
            }
        }
    }
    assert_eq!(answers, vec![vec![1, 2, 2, 4, 5]; 8]);
    for line in World::lines() {
        let answer = world.take(line, 4_000);
        let text = format!("H|\\^&|line {}\rP|1\rL|1\r", line).into_bytes();
        assert_eq!((answer.number, answer.serial), (8, 0));
        assert_eq!(world.buffer[..answer.length], text[..]);
    }
}
