//! Lines of strip readers, run by hand: each step is shown with its answers, all that goes back to the reader, the
//! line's record and reader after it, and whatever else has changed.
//!
//!     = TITLE             a fresh gateway, memory of the right sizes, all bytes 0;   # TEXT   nothing
//!     A 0 N..             a start with eight settings, what each line speaks
//!     B L HEX, S L N      bytes that come on line L, N seconds there
//!     C L HH EDIT..       a control block with the code HH comes on line L
//!     E L N EDIT..        an E block with the sequence number N, as line L's reader sends it
//!     D L N EDIT..        a D block
//!     V L HH              of an E and of a D block that are right each byte in turn is HH, the test bytes mended but
//!                         where they are that byte; each comes on line L as it stands now, which is left so
//!     X L HH              of both blocks the first bytes, up to each length, come with HH behind them, in the same way
//!     T L N, F L N        a taking from line L, our last reply fetched, with so many bytes
//!     G L TEXT            a start of a sending on line L with TEXT (`script::spelt`)
//!
//! An EDIT changes a block before it comes, one after the other: NNN=HEX writes these bytes from the byte NNN on,
//! counted from 1; *=HH sets all data; p=N makes it that of a reader with patient numbers of N; + mends the test
//! bytes; /N leaves the first N bytes. And for states that no run leaves:
//!
//!     J 0 N, K 0 N, L 0 N    how many bytes of the journal, the unfinished text, the frames are lent
//!     I 0 N, U L N           N bytes of the journal are in use; line L's used count
//!     Q L N                  an entry with a text of N bytes stands behind the journal's others
//!     m, y, w, k             what line L speaks, our last reply, since, kept
//!     b L N HEX              the numbers of its block from N on, counted from 1, four digits each
//!     a, c, j, s, n          its state, collected, joined and second count, next number
//!     l, r, t, p, x, Z       its last number and one more, refusing, tries, place, spare numbers, next serial

use crate::blocks::{characters, colours, control, data, finding, mend};
use crate::boundary::Answered;
use crate::by_hand::{self, changes, fetch, MOST};
use crate::layout::*;
use crate::library::{numbered, Gateway, FILLER};
use crate::script::{decimal, hex, spelt, Step};
use crate::shown::{record, spell};

/// Runs a script.
pub fn run(script: &str) -> Result<bool, String> {
    by_hand::run(script, does)
}

fn does(gateway: &mut Gateway, step: &Step) -> Result<(), String> {
    let line = step.digit;
    match step.letter {
        'A' => begin(gateway, step)?,
        'B' => come(gateway, line, &hex(step.words()?)?),
        'S' => {
            let seconds = step.number(255)? as u8;
            let before = gateway.clone();
            let answer = gateway.seconds(line, seconds);
            show(&before, gateway, line, &told(gateway, line, answer));
        }
        'C' | 'D' | 'E' => {
            let block = block(gateway, step)?;
            come(gateway, line, &block);
        }
        'V' => each_byte(gateway, step)?,
        'X' => each_length(gateway, step)?,
        'G' => {
            let text = spelt(step.words()?)?;
            let before = gateway.clone();
            let answer = gateway.send(line, &text);
            show(&before, gateway, line, &told(gateway, line, answer));
        }
        'T' => take(gateway, line, step.number(MOST)?),
        'F' => fetch(gateway, line, step.number(MOST)?),
        _ => {
            set(gateway, step)?;
            println!("{}", step.text);
        }
    }
    Ok(())
}

/// A start with settings, and what all lines speak then.
fn begin(gateway: &mut Gateway, step: &Step) -> Result<(), String> {
    step.no_line()?;
    let mut settings = [0; LINES];
    let words: Vec<&str> = step.words()?.split(' ').collect();
    if words.len() != LINES {
        return Err(format!("{} settings", words.len()));
    }
    for (setting, word) in settings.iter_mut().zip(words) {
        *setting = decimal(word, MOST)? as u16;
    }
    let before = gateway.clone();
    let number = gateway.start(&settings);
    let speaks: Vec<String> = (0..LINES)
        .map(|line| gateway.line(line)[SPEAKS].to_string())
        .collect();
    let same = before.numbers == gateway.numbers && before.counts == gateway.counts;
    let left = if same { ", nothing changed" } else { "" };
    println!(
        "start {}: the lines speak {}{}",
        number,
        speaks.join(" "),
        left
    );
    Ok(())
}

/// Bytes on a line: all that they were answered, and what they leave.
fn come(gateway: &mut Gateway, line: u8, bytes: &[u8]) {
    let before = gateway.clone();
    let shown = answers(gateway, line, bytes);
    show(&before, gateway, line, &shown);
}

/// The answers to bytes, those that are 0 counted.
fn answers(gateway: &mut Gateway, line: u8, bytes: &[u8]) -> String {
    let mut parts = Vec::new();
    let mut quiet = 0;
    for &byte in bytes {
        let answer = gateway.byte(line, byte);
        if answer.number == 0 && answer.reply == 0 {
            quiet += 1;
            continue;
        }
        if quiet > 0 {
            parts.push(format!("0*{}", quiet));
            quiet = 0;
        }
        parts.push(told(gateway, line, answer));
    }
    if quiet > 0 {
        parts.push(format!("0*{}", quiet));
    }
    parts.join(", ")
}

/// An answer's number, and all that goes to the reader: MOR or REP by name, -- for nothing.
fn told(gateway: &Gateway, line: u8, answer: Answered) -> String {
    let sent = gateway.sent(line, answer.reply);
    let sent = match sent.as_slice() {
        [] => "--".to_string(),
        b"\x02>\x033?\r" => "MOR".to_string(),
        b"\x02?\x033>\r" => "REP".to_string(),
        bytes => spell(bytes),
    };
    format!("{} {}", numbered(answer.number, answer.place), sent)
}

/// What a step was answered, the line's record and reader then, and what else it has changed.
fn show(before: &Gateway, after: &Gateway, line: u8, answers: &str) {
    let own = match usize::from(line) {
        n if n < LINES => format!(" > {}", with_reader(after.line(n))),
        _ => String::new(),
    };
    println!(
        "{}: {}{}{}",
        line,
        answers,
        own,
        changes(before, after, line)
    );
}

/// A record, and its reader: our last reply, since, kept.
fn with_reader(numbers: &[u16]) -> String {
    let letter = |field: usize, letters: &[&'static str]| {
        *letters.get(usize::from(numbers[field])).unwrap_or(&"?")
    };
    format!(
        "{} / {} {} {}",
        record(numbers),
        letter(REPLY, &["-", "MOR", "REP"]),
        letter(SINCE, &["-", "since"]),
        letter(KEPT, &["-", "kept"])
    )
}

/// The block of a step, edited.
fn block(gateway: &Gateway, step: &Step) -> Result<Vec<u8>, String> {
    let line = usize::from(step.digit);
    let speaks = if line < LINES {
        gateway.line(line)[SPEAKS]
    } else {
        0
    };
    let (first, edits) = match step.words()?.split_once(' ') {
        Some((first, edits)) => (first, edits.split(' ').collect()),
        None => (step.words()?, Vec::new()),
    };
    let mut characters = characters(speaks);
    let made = |characters| -> Result<Vec<u8>, String> {
        Ok(match step.letter {
            'C' => match hex(first)?[..] {
                [code] => control(code),
                _ => return Err(format!("'{}' is no code", first)),
            },
            'D' => colours(characters, decimal(first, 99_999)?),
            _ => finding(characters, decimal(first, 99_999)?),
        })
    };
    let mut block = made(characters)?;
    for edit in edits {
        match (edit, edit.split_once('=')) {
            ("+", _) => mend(&mut block),
            (_, Some(("p", number))) => {
                characters = decimal(number, 13)?;
                block = made(characters)?;
            }
            (_, Some(("*", byte))) => {
                let byte = hex(byte)?[0];
                for place in data(&block, characters) {
                    block[place] = byte;
                }
                mend(&mut block);
            }
            (_, Some((place, bytes))) => {
                let start = decimal(place, block.len())?;
                for (place, byte) in (start..).zip(hex(bytes)?) {
                    match block.get_mut(place.wrapping_sub(1)) {
                        Some(there) => *there = byte,
                        None => return Err(format!("no byte {} in the block", place)),
                    }
                }
            }
            _ => match edit.strip_prefix('/') {
                Some(number) => block.truncate(decimal(number, block.len())?),
                None => return Err(format!("'{}' is no edit", edit)),
            },
        }
    }
    Ok(block)
}

/// Blocks that come from one and the same state: their answers but for 0, and which of them have each.
fn compared(gateway: &Gateway, line: u8, title: &str, blocks: Vec<Vec<u8>>) {
    let mut found: Vec<(String, Vec<usize>)> = Vec::new();
    for (block, number) in blocks.into_iter().zip(1..) {
        let mut own = gateway.clone();
        let shown = judged(&mut own, line, &block);
        match found.iter_mut().find(|(answers, _)| *answers == shown) {
            Some((_, numbers)) => numbers.push(number),
            None => found.push((shown, vec![number])),
        }
    }
    for (answers, numbers) in found {
        println!("{}: {}: {}: {}", line, title, answers, ranges(&numbers));
    }
}

/// The answers to bytes that are not 0; 0 where all are.
fn judged(gateway: &mut Gateway, line: u8, bytes: &[u8]) -> String {
    let mut parts = Vec::new();
    for &byte in bytes {
        let answer = gateway.byte(line, byte);
        if answer.number != 0 {
            parts.push(told(gateway, line, answer));
        }
    }
    match parts.len() {
        0 => "0".to_string(),
        _ => parts.join(", "),
    }
}

/// Numbers in order, with those that follow one another told by the first and the last.
fn ranges(numbers: &[usize]) -> String {
    let mut parts: Vec<(usize, usize)> = Vec::new();
    for &number in numbers {
        match parts.last_mut() {
            Some((_, last)) if *last + 1 == number => *last = number,
            _ => parts.push((number, number)),
        }
    }
    let shown: Vec<String> = parts
        .iter()
        .map(|&(first, last)| match last - first {
            0 => first.to_string(),
            _ => format!("{}-{}", first, last),
        })
        .collect();
    shown.join(" ")
}

/// Both data blocks of a line's reader, by name.
fn both(gateway: &Gateway, line: usize) -> [(&'static str, Vec<u8>); 2] {
    let characters = characters(gateway.line(line)[SPEAKS]);
    [
        ("E", finding(characters, 12)),
        ("D", colours(characters, 12)),
    ]
}

fn one_byte(step: &Step) -> Result<u8, String> {
    match hex(step.words()?)?[..] {
        [byte] => Ok(byte),
        _ => Err("more than one byte".to_string()),
    }
}

fn each_byte(gateway: &Gateway, step: &Step) -> Result<(), String> {
    let byte = one_byte(step)?;
    for (name, right) in both(gateway, step.line()?) {
        let changed = |place: usize| {
            let mut block = right.clone();
            block[place] = byte;
            let is_test = (right.len() - 3..right.len() - 1).contains(&place);
            if !is_test {
                mend(&mut block);
            }
            block
        };
        let blocks = (0..right.len()).map(changed).collect();
        let title = format!("{} with {:02x} as byte", name, byte);
        compared(gateway, step.digit, &title, blocks);
    }
    Ok(())
}

fn each_length(gateway: &Gateway, step: &Step) -> Result<(), String> {
    let byte = one_byte(step)?;
    for (name, right) in both(gateway, step.line()?) {
        let cut = |length: usize| [&right[..length], &[byte]].concat();
        let blocks = (1..right.len()).map(cut).collect();
        let title = format!("{} up to a length, then {:02x}", name, byte);
        compared(gateway, step.digit, &title, blocks);
    }
    Ok(())
}

fn take(gateway: &mut Gateway, line: u8, room: usize) {
    let mut buffer = vec![FILLER; room];
    let answer = gateway.take(line, &mut buffer);
    let text = match answer.number {
        8 => format!(
            " {} bytes, serial {}: {}",
            answer.length,
            answer.serial,
            spell(&buffer[..answer.length])
        ),
        _ => String::new(),
    };
    println!("{}: taken with {}: {}{}", line, room, answer.number, text);
}

/// A state set by hand: the journal, and a reader's last stored block.
fn set(gateway: &mut Gateway, step: &Step) -> Result<(), String> {
    match step.letter {
        'U' => gateway.counts[step.line()?] = step.number(MOST)? as u32,
        'Q' => entry(gateway, step.line()?, step.number(TEXT_LIMIT)?)?,
        'b' => {
            let (place, digits) = match step.words()?.split_once(' ') {
                Some((place, digits)) => (decimal(place, BLOCK_LIMIT)?, hex(digits)?),
                None => return Err("no numbers of a block".to_string()),
            };
            let numbers = digits.chunks(2).map(|pair| match *pair {
                [high, low] => u16::from_be_bytes([high, low]),
                _ => 0,
            });
            let block = gateway.block_mut(step.line()?);
            for (number, value) in block[place.max(1) - 1..].iter_mut().zip(numbers) {
                *number = value;
            }
        }
        _ => by_hand::set(gateway, step)?,
    }
    Ok(())
}

/// One entry more in the journal, with its counts and the line's serial.
fn entry(gateway: &mut Gateway, line: usize, length: usize) -> Result<(), String> {
    let start = gateway.in_use() as usize;
    let end = start + 4 + length;
    if end > JOURNAL_SIZE {
        return Err(format!("the journal would have {} bytes", end));
    }
    let serial = gateway.line(line)[SERIAL];
    let [high, low] = serial.to_be_bytes();
    let head = [
        (line << 5 | length >> 8) as u8,
        (length & 255) as u8,
        high,
        low,
    ];
    gateway.journal.bytes[start..start + 4].copy_from_slice(&head);
    gateway.journal.bytes[start + 4..end].fill(b'q');
    gateway.counts[IN_USE] = end as u32;
    gateway.counts[line] += (4 + length) as u32;
    *gateway.number(line, SERIAL) = serial.wrapping_add(1);
    Ok(())
}
