//! Delimiters given and named: texts escaped and unescaped with them, and texts in which every byte has a turn.
//!
//!     = TITLE, # TEXT     nothing
//!     E 0 N FOUR TEXT     TEXT is escaped with FOUR, in hex digits, into a buffer of N bytes
//!     U 0 N FOUR TEXT     the same unescaped
//!     A 0 FOUR TEXT       each of the 256 bytes stands for @@ in FOUR and for @ in TEXT, which is escaped, and
//!                         what came of it unescaped
//!     V 0 TEXT            each of them stands for @ in TEXT, which is told from messages, cut, read, and sent in
//!                         one frame on a line of a fresh gateway
//!
//! How a TEXT is spelt: `script::spelt`. Bytes that follow one another and come to the same are shown in one row.

use crate::boundary::{self, Delimiters, Made};
use crate::frames::{frame, ENQ, EOT, ETX};
use crate::layout::{
    CUT_LIMIT, DELIMITERS, FRAMES_SIZE, JOURNAL_SIZE, RECORDS_LIMIT, UNFINISHED_SIZE,
};
use crate::library::{numbered, Gateway};
use crate::script::{decimal, each_step, hex, spelt, unknown, Step};

/// What a buffer holds before it is lent: no byte of a text.
const FILLER: u8 = 0x7F;

/// The most that a script may ask for as a buffer's length.
const MOST: usize = 65_535;

/// Stands for each byte in turn.
const TURN: u8 = b'@';

/// Runs a script.
pub fn run(script: &str) -> Result<bool, String> {
    each_step(script, &mut (), |()| {}, |(), step| does(step))?;
    Ok(true)
}

fn does(step: &Step) -> Result<(), String> {
    step.no_line()?;
    match step.letter {
        'E' => one("escape", boundary::escape, step.words()?),
        'U' => one("unescape", boundary::unescape, step.words()?),
        'A' => {
            let (four, text) = parted(step.words()?)?;
            println!("{}", step.text);
            each_byte(text, |byte, text| {
                let four = delimiters(&four.replace("@@", &format!("{:02x}", byte)))?;
                Ok(there_and_back(&four, text))
            })
        }
        'V' => {
            println!("{}", step.text);
            each_byte(step.words()?, |_, text| Ok(everywhere(text)))
        }
        letter => unknown(letter),
    }
}

fn parted(words: &str) -> Result<(&str, &str), String> {
    words
        .split_once(' ')
        .ok_or_else(|| "something is missing behind the step".to_string())
}

/// Four bytes in hex digits.
fn delimiters(digits: &str) -> Result<Delimiters, String> {
    let bytes = hex(digits)?;
    Delimiters::try_from(&bytes[..])
        .map_err(|_| format!("'{}' are not {} bytes", digits, DELIMITERS))
}

/// One text and one buffer: what was written is shown.
fn one(
    name: &str,
    function: fn(&Delimiters, &[u8], &mut [u8]) -> Made,
    words: &str,
) -> Result<(), String> {
    let (room, words) = parted(words)?;
    let (digits, text) = parted(words)?;
    let (room, text) = (decimal(room, MOST)?, spelt(text)?);
    let mut out = vec![FILLER; room];
    let made = function(&delimiters(digits)?, &text, &mut out);
    let (written, rest) = out.split_at(made.length.min(room));
    let told = match made.number {
        0 => format!("length {}: {}", made.length, shown(written)),
        number => format!("answer {}", numbered(number, made.place)),
    };
    let left = if rest.iter().all(|byte| *byte == FILLER) {
        format!("behind it {:02x}*{}", FILLER, rest.len())
    } else {
        "behind it CHANGED".to_string()
    };
    let length = text.len();
    println!(
        "{} {} with {} into {}: {}, {}",
        name, length, digits, room, told, left
    );
    Ok(())
}

/// Bytes as a script spells them.
fn shown(bytes: &[u8]) -> String {
    if bytes.is_empty() {
        return "<>".to_string();
    }
    let spell = |byte: &u8| match byte {
        0x20..=0x3B | 0x3D..=0x7E => char::from(*byte).to_string(),
        _ => format!("<{:02x}>", byte),
    };
    bytes.iter().map(spell).collect()
}

/// Each byte has its turn in a text: the outcomes, those that are the same in one row.
fn each_byte(
    text: &str,
    outcome: impl Fn(u8, &[u8]) -> Result<String, String>,
) -> Result<(), String> {
    let text = spelt(text)?;
    let mut rows: Vec<(u8, u8, String)> = Vec::new();
    for byte in 0..=255 {
        let turned: Vec<u8> = text
            .iter()
            .map(|&other| if other == TURN { byte } else { other })
            .collect();
        let told = outcome(byte, &turned)?;
        match rows.last_mut() {
            Some((_, last, same)) if *same == told => *last = byte,
            _ => rows.push((byte, byte, told)),
        }
    }
    for (first, last, told) in rows {
        if first == last {
            println!("  {:02x}: {}", first, told);
        } else {
            println!("  {:02x}-{:02x}: {}", first, last, told);
        }
    }
    Ok(())
}

/// A text escaped, and that unescaped; where it was refused, the text itself.
fn there_and_back(four: &Delimiters, text: &[u8]) -> String {
    let mut out = vec![FILLER; 3 * text.len()];
    let made = boundary::escape(four, text, &mut out);
    let there = match made.number {
        0 => format!("escaped {}", made.length),
        number => format!("escaped {}", answer(number, made.place)),
    };
    let component = match made.number {
        0 => &out[..made.length],
        _ => text,
    };
    let mut back = vec![FILLER; text.len()];
    let made = boundary::unescape(four, component, &mut back);
    let told = match made.number {
        0 if back == text => "the same".to_string(),
        0 => "OTHER BYTES".to_string(),
        number => answer(number, made.place),
    };
    format!("{}, unescaped {}", there, told)
}

fn answer(number: u8, place: u16) -> String {
    format!("answer {}", numbered(number, place))
}

/// A text told from messages, cut, read, and sent.
fn everywhere(text: &[u8]) -> String {
    let is_message = boundary::is_message(text);
    let cut = boundary::cut(text, &mut [0; CUT_LIMIT]);
    let mut slots = [[0; RECORDS_LIMIT]; 3];
    let [offsets, lengths, owners] = &mut slots;
    let read = boundary::read(text, &mut [0; RECORDS_LIMIT], offsets, lengths, owners);
    let outcome = |made: Made| match made.number {
        0 => made.length.to_string(),
        number => answer(number, made.place),
    };
    format!(
        "{}, cut {}, read {}, line {}",
        if is_message { "a message" } else { "none" },
        outcome(cut),
        outcome(read),
        sent(text)
    )
}

/// The answers that are not 0 to ENQ, the text in a frame, and EOT.
fn sent(text: &[u8]) -> String {
    let memory = |size| vec![0; size].into();
    let mut gateway = Gateway::fresh(
        memory(JOURNAL_SIZE),
        memory(UNFINISHED_SIZE),
        memory(FRAMES_SIZE),
    );
    let bytes = [&[ENQ], &frame(b'1', text, ETX)[..], &[EOT]].concat();
    let answers = bytes.into_iter().map(|byte| gateway.byte(0, byte));
    let told: Vec<String> = answers
        .filter(|answer| answer.number != 0)
        .map(|answer| numbered(answer.number, answer.place))
        .collect();
    told.join(" ")
}
