//! What scripts of lines that send and of strip readers have in common: a gateway whose memories can be lent too long,
//! states set by hand, what is fetched, and what a step has changed.

use crate::layout::*;
use crate::library::{Gateway, Memory, FILLER};
use crate::script::{each_step, spelt, unknown, Step};
use crate::shown::{digest, spell};

/// Each memory has so much more than its right size, and can be lent too long.
const SPARE_BYTES: usize = 1;

/// The most that a number of a line can be, and the length of a buffer.
pub const MOST: usize = 65_535;

/// Runs a script, each step by what it does.
pub fn run(
    script: &str,
    does: fn(&mut Gateway, &Step) -> Result<(), String>,
) -> Result<bool, String> {
    let renew = |gateway: &mut Gateway| *gateway = fresh();
    each_step(script, &mut fresh(), renew, does)?;
    Ok(true)
}

fn fresh() -> Gateway {
    let memory = |size| Memory {
        bytes: vec![0; size + SPARE_BYTES],
        lent: size,
    };
    Gateway::fresh(
        memory(JOURNAL_SIZE),
        memory(UNFINISHED_SIZE),
        memory(FRAMES_SIZE),
    )
}

/// A frame, or our reply to a reader, is fetched, and changes nothing but its output.
pub fn fetch(gateway: &Gateway, line: u8, room: usize) {
    let mut out = vec![FILLER; room];
    let made = gateway.outgoing(line, &mut out);
    let outcome = match made.number {
        0 => format!("{} {}", made.length, spell(&out[..made.length])),
        number => number.to_string(),
    };
    let is_left = out[made.length..].iter().all(|byte| *byte == FILLER);
    let rest = if is_left { "" } else { ", its rest CHANGED" };
    println!("{}: fetched into {}: {}{}", line, room, outcome, rest);
}

/// A state set by hand.
pub fn set(gateway: &mut Gateway, step: &Step) -> Result<(), String> {
    match step.letter {
        'J' => gateway.journal.lent = step.plain_number(JOURNAL_SIZE + SPARE_BYTES)?,
        'K' => gateway.unfinished.lent = step.plain_number(UNFINISHED_SIZE + SPARE_BYTES)?,
        'L' => gateway.frames.lent = step.plain_number(FRAMES_SIZE + SPARE_BYTES)?,
        'I' => gateway.counts[IN_USE] = step.plain_number(MOST)? as u32,
        'u' => {
            let (line, text) = (step.line()?, spelt(step.words()?)?);
            if text.len() > TEXT_LIMIT {
                return Err(format!("{} bytes of text", text.len()));
            }
            gateway.unfinished.bytes[TEXT_LIMIT * line..][..text.len()].copy_from_slice(&text);
        }
        'x' => {
            for field in SPARE..FIELDS {
                *gateway.number(step.line()?, field) = step.number(MOST)? as u16;
            }
        }
        letter => *gateway.number(step.line()?, field(letter)?) = step.number(MOST)? as u16,
    }
    Ok(())
}

/// Which number of a line a letter sets.
fn field(letter: char) -> Result<usize, String> {
    match letter {
        'a' => Ok(STATE),
        'c' => Ok(COLLECTED),
        'j' => Ok(JOINED),
        's' => Ok(SECONDS),
        'n' => Ok(NEXT),
        'l' => Ok(LAST),
        'r' => Ok(REFUSING),
        't' => Ok(TRIES),
        'p' => Ok(PLACE),
        'Z' => Ok(SERIAL),
        'm' => Ok(SPEAKS),
        'y' => Ok(REPLY),
        'w' => Ok(SINCE),
        'k' => Ok(KEPT),
        _ => unknown(letter),
    }
}

/// What has changed besides the line's record: memories with their digests, the kept block, and all that should not.
pub fn changes(before: &Gateway, after: &Gateway, line: u8) -> String {
    let mut told = String::new();
    let memories = [
        ("journal", &before.journal, &after.journal),
        ("unfinished", &before.unfinished, &after.unfinished),
        ("frames", &before.frames, &after.frames),
    ];
    for (name, before, after) in memories {
        if before.bytes != after.bytes {
            told += &format!(" | {} {}", name, digest(&after.bytes));
        }
    }
    if before.counts != after.counts {
        told += &format!(" | in use {}", after.in_use());
    }
    for other in 0..LINES {
        let is_own = other == usize::from(line);
        if before.block(other) != after.block(other) {
            let bytes: Vec<u8> = after
                .block(other)
                .iter()
                .flat_map(|n| n.to_be_bytes())
                .collect();
            let whose = if is_own {
                "block"
            } else {
                "CHANGED block of another"
            };
            told += &format!(" | {} {}", whose, digest(&bytes));
        }
        let (before, after) = (before.line(other), after.line(other));
        if !is_own && before != after {
            told += &format!(" | line {} CHANGED", other);
        }
        if before[SERIAL] != after[SERIAL] {
            told += &format!(" | serial {}", after[SERIAL]);
        }
        if before[SPEAKS] != after[SPEAKS] || before[SPARE..] != after[SPARE..] {
            told += " | settings or spare numbers CHANGED";
        }
    }
    told
}
