//! The text functions on both sides: texts of every sort, and buffers of every length around the one
//! that is needed.

use crate::boundary::{self, Made};
use crate::compare::{byte_difference, differs};
use crate::counts::Counts;
use crate::faults::Fault;
use crate::fenced::Fenced;
use crate::layout::{CUT_LIMIT, RECORDS_LIMIT, TEXT_LIMIT};
use ngachodui_model::records::Record;
use ngachodui_model::traffic::random::Random;
use ngachodui_model::traffic::Traffic;
use ngachodui_model::{cut, escape, is_message, read_into, unescape, Delimiters, Refusal};

const FENCE: u8 = 0x5A;
const WIDE_FENCE: u16 = 0x5A5A;
const BLANK: u8 = 0xB5;
const WIDE_BLANK: u16 = 0xB5B5;

/// More than any text here needs, cut or escaped.
const ROOM: usize = 16_384;

/// A function that writes bytes, by its name.
#[derive(Clone, Copy, Debug)]
pub enum Function {
    Cut,
    Escape(Delimiters),
    Unescape(Delimiters),
}

impl Function {
    fn name(self) -> &'static str {
        match self {
            Function::Cut => "cut",
            Function::Escape(_) => "escape",
            Function::Unescape(_) => "unescape",
        }
    }

    fn model(self, text: &[u8], out: &mut [u8]) -> Result<usize, Refusal> {
        match self {
            Function::Cut => cut(text, out),
            Function::Escape(four) => escape(four, text, out).map_err(Refusal::plain),
            Function::Unescape(four) => unescape(four, text, out).map_err(Refusal::plain),
        }
    }

    pub fn library(self, text: &[u8], out: &mut [u8]) -> Made {
        match self {
            Function::Cut => boundary::cut(text, out),
            Function::Escape(four) => with(four, |four| boundary::escape(four, text, out)),
            Function::Unescape(four) => with(four, |four| boundary::unescape(four, text, out)),
        }
    }
}

/// A call with delimiters that stand at an odd address between others, and are only read.
fn with(four: Delimiters, call: impl FnOnce(&boundary::Delimiters) -> Made) -> Made {
    let lent = Fenced::copy(&four.bytes(), 1, FENCE);
    let made = call(lent.inside().try_into().expect("four"));
    assert!(lent.inside() == four.bytes() && lent.stands());
    made
}

/// A part of each record, by name: what the library wrote, and the model's.
type Column<'a> = (&'a str, &'a Fenced<u16>, fn(Record) -> usize);

/// One text through every function. A difference comes in words.
pub fn compare(
    traffic: &mut Traffic,
    random: &mut Random,
    fault: Option<Fault>,
    counts: &mut Counts,
) -> Result<(), String> {
    let text = a_text(traffic, random);
    compare_text(&text, random, fault, counts)?;

    // The text with the four behind its own first byte, or a component with any.
    let (four, text) = match Delimiters::of(&text) {
        Some(four) if random.once_in(8) => (four, text),
        _ => {
            let four = traffic.delimiters();
            (four, a_component(four, traffic, random))
        }
    };
    for function in [Function::Escape(four), Function::Unescape(four)] {
        compare_output(function, &text, random, fault, counts)?;
    }
    Ok(())
}

/// One text told from messages, cut and read.
pub fn compare_text(
    text: &[u8],
    random: &mut Random,
    fault: Option<Fault>,
    counts: &mut Counts,
) -> Result<(), String> {
    compare_is_message(text, random, fault, counts)?;
    compare_output(Function::Cut, text, random, fault, counts)?;
    compare_read(text, random, fault, counts)
}

/// Messages, nearly messages, and anything.
fn a_text(traffic: &mut Traffic, random: &mut Random) -> Vec<u8> {
    let mut text = match random.below(10) {
        0 => (0..random.below(40)).map(|_| random.byte()).collect(),
        1 => most_records(),
        2 => {
            let four = traffic.delimiters();
            traffic.component(four)
        }
        3 => empty_records(random),
        _ => traffic.text(),
    };
    if random.once_in(6) && !text.is_empty() {
        let place = random.below(text.len());
        match random.below(3) {
            0 => text[place] = random.byte(),
            1 => text.insert(place, random.byte()),
            _ => text.truncate(place),
        }
    }
    text
}

/// Empty records alone, few, or about as many as a text can have; every other time with a byte for the
/// last CR.
fn empty_records(random: &mut Random) -> Vec<u8> {
    let most = TEXT_LIMIT;
    let mut text = vec![b'\r'; random.pick(&[0, 1, 2, most - 1, most, most + 1])];
    if random.once_in(2) {
        text.pop();
        text.push(b'x');
    }
    text
}

/// Components, whole texts, and what escaping made of either, where these delimiters let it.
fn a_component(four: Delimiters, traffic: &mut Traffic, random: &mut Random) -> Vec<u8> {
    let mut text = match random.below(4) {
        0 => a_text(traffic, random),
        _ => traffic.component(four),
    };
    if random.once_in(2) {
        let mut out = vec![0; ROOM];
        if let Ok(length) = escape(four, &text, &mut out) {
            out.truncate(length);
            text = out;
        }
    }
    if random.once_in(8) && !text.is_empty() {
        let place = random.below(text.len());
        text[place] = match random.below(2) {
            0 => random.pick(&four.bytes()),
            _ => random.pick(b"&|\\^FSRE"),
        };
    }
    text
}

/// The message with the most records and frames: 999 of each in 4,000 bytes.
pub fn most_records() -> Vec<u8> {
    let mut text = b"H|\\^&\rP|1\r".to_vec();
    let mut records = 2;
    'all: for order in b'1'..=b'9' {
        text.extend([b'O', b'|', order, b'\r']);
        records += 1;
        for result in b'1'..=b'9' {
            text.extend([b'R', b'|', result, b'\r']);
            records += 1;
            for letter in [b'C', b'M'] {
                for remark in b'1'..=b'9' {
                    if records == 998 {
                        break 'all;
                    }
                    text.extend([letter, b'|', remark, b'\r']);
                    records += 1;
                }
            }
        }
    }
    text.extend(b"L|1|N\r");
    text
}

/// A buffer's length: around what is needed, or anything.
fn a_length(needed: usize, random: &mut Random) -> usize {
    match random.below(8) {
        0 => 0,
        1 => needed.saturating_sub(1),
        2 => needed + 1,
        3 => random.below(needed + 1),
        4 => needed + random.below(100),
        _ => needed,
    }
}

fn made(outcome: Result<usize, Refusal>) -> Made {
    let (number, place) = match outcome {
        Ok(_) => (0, 0),
        Err(refusal) => (refusal.number, refusal.place as u16),
    };
    Made {
        number,
        spare: 0,
        place,
        value: 0,
        length: outcome.unwrap_or(0),
    }
}

/// A function that writes bytes: its outcome, every byte of the output, and the text left alone.
pub fn compare_output(
    function: Function,
    text: &[u8],
    random: &mut Random,
    fault: Option<Fault>,
    counts: &mut Counts,
) -> Result<(), String> {
    let needed = function.model(text, &mut vec![0; ROOM]).unwrap_or(8);
    let length = a_length(needed, random);
    let mut expected = vec![BLANK; length];
    let outcome = made(function.model(text, &mut expected));

    let front = random.between(1, 9);
    let lent = Fenced::copy(text, front, FENCE);
    let mut out = Fenced::new(length, BLANK, front, FENCE);
    let mut found = function.library(lent.inside(), out.inside_mut());
    if let Some(fault) = fault {
        fault.spoil_output(function, text, &mut found, out.inside_mut());
    }
    counts.text(function.name(), found.number);

    let about = || format!("{:?} into {} bytes of \"{}\"", function, length, show(text));
    if outcome != found {
        return Err(format!(
            "{}: {}",
            about(),
            differs("outcome", outcome, found)
        ));
    }
    if let Some(difference) = byte_difference("output", &expected, out.inside()) {
        return Err(format!("{}: {}", about(), difference));
    }
    if lent.inside() != text || !lent.stands() || !out.stands() {
        return Err(format!("{}: written beside the output", about()));
    }
    Ok(())
}

fn compare_is_message(
    text: &[u8],
    random: &mut Random,
    fault: Option<Fault>,
    counts: &mut Counts,
) -> Result<(), String> {
    let lent = Fenced::copy(text, random.between(1, 9), FENCE);
    let mut found = boundary::is_message(lent.inside());
    if let Some(fault) = fault {
        fault.spoil_is_message(text, &mut found);
    }
    counts.text("is_message", u8::from(found));
    if is_message(text) != found {
        let difference = differs("is_message", is_message(text), found);
        return Err(format!("{} of \"{}\"", difference, show(text)));
    }
    if lent.inside() != text || !lent.stands() {
        return Err(format!("is_message has written: \"{}\"", show(text)));
    }
    Ok(())
}

/// Reading, into four memories whose lengths need not agree.
fn compare_read(
    text: &[u8],
    random: &mut Random,
    fault: Option<Fault>,
    counts: &mut Counts,
) -> Result<(), String> {
    let blank = Record {
        kind: BLANK,
        offset: usize::from(WIDE_BLANK),
        length: usize::from(WIDE_BLANK),
        owner: usize::from(WIDE_BLANK),
    };
    let needed = read_into(text, &mut vec![blank; 1_000]).unwrap_or(4);
    let mut lengths = [needed; 4];
    for length in &mut lengths {
        if random.once_in(3) {
            *length = a_length(needed, random);
        }
    }
    let least = *lengths.iter().min().expect("four");
    let mut records = vec![blank; least];
    let outcome = made(read_into(text, &mut records));

    let lent = Fenced::copy(text, random.between(1, 9), FENCE);
    let mut types = Fenced::new(lengths[0], BLANK, random.between(1, 9), FENCE);
    let mut wide = |length| Fenced::new(length, WIDE_BLANK, random.between(1, 9), WIDE_FENCE);
    let mut offsets = wide(lengths[1]);
    let mut sizes = wide(lengths[2]);
    let mut owners = wide(lengths[3]);
    let mut found = boundary::read(
        lent.inside(),
        types.inside_mut(),
        offsets.inside_mut(),
        sizes.inside_mut(),
        owners.inside_mut(),
    );
    if let Some(fault) = fault {
        fault.spoil_read(text, &mut found, types.inside(), owners.inside_mut());
    }
    counts.text("read", found.number);

    let about = || format!("read into {:?} slots of \"{}\"", lengths, show(text));
    if outcome != found {
        return Err(format!(
            "{}: {}",
            about(),
            differs("outcome", outcome, found)
        ));
    }
    // Slots behind the records, or all of them after a refusal, keep what they held.
    let expected = |place: usize| records.get(place).copied().unwrap_or(blank);
    for (place, found) in types.inside().iter().enumerate() {
        if *found != expected(place).kind {
            let what = format!("type {}", place + 1);
            return Err(format!(
                "{}: {}",
                about(),
                differs(&what, expected(place).kind, *found)
            ));
        }
    }
    let columns: [Column; 3] = [
        ("offset", &offsets, |record| record.offset),
        ("length", &sizes, |record| record.length),
        ("owner", &owners, |record| record.owner),
    ];
    for (name, column, part) in columns {
        for (place, found) in column.inside().iter().enumerate() {
            let expected = part(expected(place));
            if usize::from(*found) != expected {
                let what = format!("{} {}", name, place + 1);
                let difference = differs(&what, expected, usize::from(*found));
                return Err(format!("{}: {}", about(), difference));
            }
        }
    }
    let stand = lent.stands() && types.stands() && offsets.stands() && sizes.stands();
    if lent.inside() != text || !stand || !owners.stands() {
        return Err(format!("{}: written beside the slots", about()));
    }
    Ok(())
}

/// What the header says of the most that a buffer needs.
pub fn compare_most() -> Result<(), String> {
    let text = most_records();
    let mut out = vec![0; ROOM];
    let mut slots = [[0u16; 1_000]; 3];
    let [offsets, lengths, owners] = &mut slots;
    let frames = boundary::cut(&text, &mut out);
    let records = boundary::read(&text, &mut [0; 1_000], offsets, lengths, owners);
    let expected = (TEXT_LIMIT, made(Ok(CUT_LIMIT)), made(Ok(RECORDS_LIMIT)));
    let found = (text.len(), frames, records);
    if expected != found {
        return Err(differs("the largest message", expected, found));
    }
    Ok(())
}

/// A text as Rust would write it.
fn show(text: &[u8]) -> String {
    text.iter()
        .flat_map(|&byte| std::ascii::escape_default(byte))
        .map(char::from)
        .collect()
}
