//! Whole dialogues with strip readers: what goes back, what is stored, and what is left.

use crate::blocks::{colours, control, filled, mend, message, results, Patient, END, REP, SPM};
use crate::lines::{Kind, Line, State};
use crate::traffic::messages::exact;
use crate::traffic::random::Random;
use crate::uploads::Reader;
use crate::world::{Memory, Op, World};
use crate::{Answer, UNFINISHED};

const MOR_BLOCK: &[u8] = b"\x02>\x033?\r";
const REP_BLOCK: &[u8] = b"\x02?\x033>\r";

/// The reader's line, and one of frames beside it.
const LINE: u8 = 5;

/// A fresh world with readers of both sorts.
fn begun() -> World {
    let mut world = World::fresh(0xC3);
    let settings = [0, 10, 13, 0, 0, 10, 13, 0];
    assert_eq!(world.apply(&Op::Begin { settings }), Some(Answer::plain(0)));
    world
}

/// A right E block whose data are all this byte.
fn finding(datum: u8) -> Vec<u8> {
    filled(&results(Patient::Ten), || datum)
}

fn colour() -> Vec<u8> {
    filled(&colours(Patient::Ten), || b'y')
}

/// A block with a byte changed on its way.
fn damaged(block: &[u8]) -> Vec<u8> {
    let mut block = block.to_vec();
    block[1] ^= 1;
    block
}

/// A block on the reader's line: its answer's number, and all that goes back.
fn hear(world: &mut World, block: &[u8]) -> (u8, Vec<u8>) {
    let answer = world.answer(LINE, block);
    assert_eq!((answer.length, answer.serial, answer.place), (0, 0, 0));
    let back = match answer.reply {
        None => Vec::new(),
        Some(byte) => {
            assert_eq!(byte, 0x02);
            world.fetch(LINE, 6);
            assert_eq!(world.fetched.outcome, Ok(6));
            world.fetched.out.clone()
        }
    };
    (answer.number, back)
}

fn more(number: u8) -> (u8, Vec<u8>) {
    (number, MOR_BLOCK.to_vec())
}

fn again(number: u8) -> (u8, Vec<u8>) {
    (number, REP_BLOCK.to_vec())
}

fn silent(number: u8) -> (u8, Vec<u8>) {
    (number, Vec::new())
}

fn stored(world: &World) -> u16 {
    world.model.ledger.serials[usize::from(LINE)]
}

#[test]
fn an_upload_of_two_findings() {
    let mut world = begun();
    assert_eq!(hear(&mut world, &control(SPM)), more(11));
    for (count, datum) in [(1, b'1'), (2, b'2')] {
        assert_eq!(hear(&mut world, &finding(datum)), more(4));
        assert_eq!(hear(&mut world, &colour()), more(11));
        assert_eq!(stored(&world), count);
    }
    assert_eq!(hear(&mut world, &control(END)), silent(11));
    for (serial, datum) in [(0, b'1'), (1, b'2')] {
        let text = message(Patient::Ten, &finding(datum));
        let answer = world.take(LINE, 4_000);
        assert_eq!(answer, Answer::taken(text.len(), serial));
        assert_eq!(world.buffer[..text.len()], text[..]);
    }
    assert!(world.unfinished.iter().all(|&byte| byte == 0xC3));
    assert_eq!(world.model.lines[usize::from(LINE)], Line::fresh());
}

#[test]
fn a_repeat_is_stored_once_with_spm_or_rep_between() {
    let block = finding(b'1');
    let between: [(&[Vec<u8>], bool); 9] = [
        (&[], false),
        (&[control(SPM).to_vec()], true),
        (&[control(REP).to_vec()], true),
        (&[control(END).to_vec()], false),
        (&[colour()], false),
        (&[damaged(&block)], false),
        (&[damaged(&control(SPM))], false),
        (
            &[colour(), control(SPM).to_vec(), control(END).to_vec()],
            true,
        ),
        (&[control(REP).to_vec(), damaged(&block), colour()], true),
    ];
    for (blocks, is_repeat) in between {
        let mut world = begun();
        assert_eq!(hear(&mut world, &block), more(4));
        for block in blocks {
            hear(&mut world, block);
        }
        let expected = if is_repeat { 11 } else { 4 };
        assert_eq!(hear(&mut world, &block), more(expected), "{:?}", blocks);
        assert_eq!(stored(&world), if is_repeat { 1 } else { 2 });
        // A suppressed repeat leaves the mark, so a third copy is none either; a stored one takes it.
        assert_eq!(hear(&mut world, &block), more(expected));
        // Another finding is stored, whatever lies between.
        assert_eq!(hear(&mut world, &finding(b'2')), more(4));
        assert_eq!(hear(&mut world, &block), more(4));
    }
}

#[test]
fn one_other_byte_is_another_finding() {
    let block = finding(b'1');
    for place in [4, 15, 21, 30, 38, 210] {
        let mut world = begun();
        hear(&mut world, &block);
        hear(&mut world, &control(SPM));
        let mut other = block.clone();
        other[place] = b'2';
        mend(&mut other);
        assert_eq!(hear(&mut world, &other), more(4), "{}", place);
    }
    // A number that only looks like the byte is none.
    let mut world = begun();
    hear(&mut world, &block);
    hear(&mut world, &control(SPM));
    world.model.readers[usize::from(LINE)].block[4] += 256;
    assert_eq!(hear(&mut world, &block), more(4));
}

#[test]
fn our_last_reply_is_given_again() {
    let mut world = begun();
    // Nothing was replied yet: nothing is given.
    assert_eq!(hear(&mut world, &control(REP)), silent(11));
    assert_eq!(hear(&mut world, &damaged(&control(SPM))), again(71));
    assert_eq!(hear(&mut world, &control(REP)), again(11));
    assert_eq!(hear(&mut world, &control(SPM)), more(11));
    assert_eq!(hear(&mut world, &control(END)), silent(11));
    assert_eq!(hear(&mut world, &control(REP)), more(11));
    // Each refusal is a reply too.
    assert_eq!(hear(&mut world, b"\x02\r"), again(70));
    assert_eq!(hear(&mut world, &control(REP)), again(11));
    assert_eq!(hear(&mut world, &control(b'>')), again(72));
}

#[test]
fn no_room_gets_no_reply_and_refuses_nothing_later() {
    let mut world = begun();
    let text = message(Patient::Ten, &finding(b'1'));
    // All but the shares of the other lines, but for one byte less than the message needs.
    let rest = 32_768 - 7 * 2_048 - (4 + text.len()) + 1;
    let mut random = Random::new(1);
    let mut left = rest;
    while left > 0 {
        let size = left.min(2_000);
        let filler = exact(&mut random, size - 4);
        let mut journal = std::mem::take(&mut world.journal);
        world.model.ledger.store(&mut journal, LINE.into(), &filler);
        world.journal = journal;
        left -= size;
    }
    hear(&mut world, &control(SPM));
    let before = world.clone();
    assert_eq!(hear(&mut world, &finding(b'1')), silent(31));
    assert_eq!(world.model, before.model);
    assert!(world.journal == before.journal && world.unfinished == before.unfinished);
    assert_eq!(world.take(LINE, 4_000).number, 8);
    assert_eq!(hear(&mut world, &finding(b'1')), more(4));
    // A repeat asks nothing of the journal, even where that is broken.
    hear(&mut world, &control(SPM));
    world.model.ledger.in_use += 1;
    assert_eq!(hear(&mut world, &finding(b'1')), more(11));
    let before = world.clone();
    assert_eq!(
        world.bytes(LINE, &finding(b'2')),
        [&[0; 235][..], &[43]].concat()
    );
    // 43 leaves the block one byte short.
    let record = world.model.lines[usize::from(LINE)];
    assert_eq!((record.state, record.collected), (State::Inside, 235));
    assert_eq!(world.model.readers, before.model.readers);
    world.model.ledger.in_use -= 1;
    assert_eq!(hear(&mut world, &[0x0D]), more(4));
}

#[test]
fn between_blocks_only_stx_is_heard() {
    let mut world = begun();
    let before = world.clone();
    for byte in (0..=255).filter(|&byte| byte != 0x02) {
        assert_eq!(world.event(LINE, Kind::Byte(byte)), Answer::plain(0));
    }
    for seconds in [0, 30, 255] {
        assert_eq!(world.event(LINE, Kind::Seconds(seconds)), Answer::plain(0));
    }
    assert!(world == before);
    // Half a block, silence, and the next one runs on behind it up to its CR.
    let block = finding(b'1');
    world.bytes(LINE, &block[..100]);
    assert_eq!(world.seconds(LINE, 255), 0);
    let answers = world.bytes(LINE, &block);
    let judged: Vec<usize> = (0..answers.len()).filter(|&k| answers[k] != 0).collect();
    assert_eq!((answers[135], judged), (71, vec![135]));
    assert_eq!(hear(&mut world, &block), more(4));
}

#[test]
fn the_other_sort_of_reader() {
    let long = filled(&results(Patient::Thirteen), || b'1');
    let mut world = begun();
    // Judged at its 236th byte; the three behind it are ignored.
    let answers = world.bytes(LINE, &long);
    assert_eq!(answers[235..], [71, 0, 0, 0]);
    assert_eq!(world.send(2, &long), 4);
    assert_eq!(world.send(2, &finding(b'1')), 70);
    // Its lines need no ENQ, and no frame is taken there.
    assert_eq!(world.event(LINE, Kind::Byte(0x05)), Answer::plain(0));
    assert_eq!(world.send(LINE, b"\x021H|\\^&\r"), 70);
    // And a block on a line of frames is nothing.
    assert!(world
        .bytes(0, &finding(b'1'))
        .iter()
        .all(|&number| number == 0));
    assert_eq!(world.model.lines[0], Line::fresh());
}

#[test]
fn a_start_there_is_60() {
    let mut world = begun();
    let text = b"H|\\^&\rL|1\r";
    let before = world.clone();
    assert_eq!(world.start(LINE, text), Answer::plain(60));
    assert_eq!(world.start(LINE, b"none"), Answer::plain(60));
    assert!(world == before);
    world.lent[Memory::Frames as usize] -= 1;
    assert_eq!(world.start(LINE, text), Answer::plain(41));
    world.lent[Memory::Frames as usize] += 1;
    world.model.readers[usize::from(LINE)].reply = 3;
    assert_eq!(world.start(LINE, text), Answer::plain(42));
}

#[test]
fn fetching_is_tested_in_order() {
    let mut world = begun();
    world.fetch(LINE, 0);
    assert_eq!(world.fetched.outcome, Ok(0));
    hear(&mut world, &control(SPM));
    for (room, outcome) in [(0, Err(47)), (5, Err(47)), (6, Ok(6)), (247, Ok(6))] {
        world.fetch(LINE, room);
        assert_eq!(world.fetched.outcome, outcome);
    }
    world.model.readers[usize::from(LINE)].since = 2;
    world.fetch(LINE, 0);
    assert_eq!(world.fetched.outcome, Err(42));
    world.lent[Memory::Unfinished as usize] = UNFINISHED - 1;
    world.fetch(LINE, 0);
    assert_eq!(world.fetched.outcome, Err(41));
    world.fetch(8, 0);
    assert_eq!(world.fetched.outcome, Err(40));
}

#[test]
fn a_beginning_sets_all_lines_or_nothing() {
    let mut world = begun();
    hear(&mut world, &control(SPM));
    hear(&mut world, &finding(b'1'));
    let before = world.clone();
    for bad in (0..=65_535).filter(|number| ![0, 10, 13].contains(number)) {
        let mut settings = [0, 10, 13, 0, 10, 13, 0, 10];
        settings[usize::from(bad) % 8] = bad;
        let answer = world.apply(&Op::Begin { settings });
        assert_eq!(answer, Some(Answer::plain(42)));
    }
    assert!(world == before);
    let settings = [13, 0, 0, 0, 0, 0, 0, 10];
    world.apply(&Op::Begin { settings });
    let readers = settings.map(Reader::fresh);
    assert_eq!(world.model.readers, readers);
    assert_eq!(world.model.lines, [Line::fresh(); 8]);
    assert!(world.journal == before.journal && world.frames == before.frames);
}

#[test]
fn numbers_of_a_reader_have_limits() {
    let fits = |change: &dyn Fn(&mut World)| {
        let mut world = begun();
        change(&mut world);
        let answer = world.event(LINE, Kind::Seconds(0)).number;
        assert!(answer == 0 || answer == 42);
        answer == 0
    };
    let n = usize::from(LINE);
    for (line, most) in [(5, 235), (6, 238), (0, 245)] {
        for (count, is_right) in [(most, true), (most + 1, false)] {
            let mut world = begun();
            world.model.lines[line].collected = count;
            let answer = world.event(line as u8, Kind::Seconds(0)).number;
            assert_eq!(answer == 0, is_right, "{} {}", line, count);
        }
    }
    for (value, is_right) in [(0, true), (1, true), (2, false), (65_535, false)] {
        assert_eq!(
            fits(&|world| world.model.readers[n].since = value),
            is_right
        );
        assert_eq!(fits(&|world| world.model.readers[n].kept = value), is_right);
    }
    for (value, is_right) in [(0, true), (2, true), (3, false), (65_535, false)] {
        assert_eq!(
            fits(&|world| world.model.readers[n].reply = value),
            is_right
        );
    }
    for speaks in [0, 10, 13] {
        assert!(fits(&|world| world.model.readers[n].speaks = speaks));
    }
    for speaks in [1, 9, 11, 12, 14, 266, 65_535] {
        assert!(!fits(&|world| world.model.readers[n].speaks = speaks));
    }
    // Whatever the kept block's numbers are.
    assert!(fits(&|world| world.model.readers[n].block = [65_535; 239]));
}

#[test]
fn states_that_no_run_leaves_are_between_blocks() {
    for state in State::ALL {
        let mut world = begun();
        world.model.lines[usize::from(LINE)] = Line {
            state,
            collected: 2,
            joined: 4_000,
            seconds: 29,
            next: 7,
            last: Some(3),
            refusing: true,
            tries: state.most_tries(),
            place: state.most_place(),
        };
        let inside = state == State::Inside;
        let before = world.clone();
        assert_eq!(world.send(LINE, b"\x00"), 0);
        assert_eq!(world == before, !inside);
        if !inside {
            // STX is one byte more, behind those that the record says are there.
            assert_eq!(world.send(LINE, &[0x02]), 0);
        }
        let record = world.model.lines[usize::from(LINE)];
        let expected = Line {
            state: State::Inside,
            collected: 3,
            tries: 0,
            place: 0,
            ..before.model.lines[usize::from(LINE)]
        };
        assert_eq!(record, expected);
        assert_eq!(world.send(LINE, b"\r"), 70);
        let judged = Line {
            state: State::Neutral,
            collected: 0,
            joined: 0,
            seconds: 0,
            ..expected
        };
        assert_eq!(world.model.lines[usize::from(LINE)], judged);
    }
}
