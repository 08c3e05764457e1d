//! Replays a trace through the library and writes its listing.
//!
//!     replay < TRACE > LISTING
//!
//! It is also a whole host: where this program reads a line of a trace, another one reads a port or a
//! clock. A bad line ends the run and is no failure.

use ngachodui::{Answer, Gateway, TEXT_LIMIT};
use std::io::{stdin, stdout, BufRead, BufWriter, Result, Write};

/// A longer line of a trace is not an event (house).
const LINE_LIMIT: usize = 4_096;

enum Event {
    Byte(u8),
    Seconds(u8),
    Taking(usize),
}

/// A line of a trace: `0 B 05`, `0 S 30` or `0 T 4000`, with nothing before, between or behind.
fn event(text: &[u8]) -> Option<(u8, Event)> {
    if text.len() > LINE_LIMIT {
        return None;
    }
    let parts: Vec<&[u8]> = text.split(|&byte| byte == b' ').collect();
    let (line, kind, value) = match parts[..] {
        [&[line @ b'0'..=b'9'], kind, value] => (line - b'0', kind, value),
        _ => return None,
    };
    let event = match kind {
        b"B" => Event::Byte(hex(value)?),
        b"S" => Event::Seconds(decimal(value, 255)? as u8),
        b"T" => Event::Taking(decimal(value, TEXT_LIMIT)?),
        _ => return None,
    };
    Some((line, event))
}

/// Exactly two hex digits.
fn hex(digits: &[u8]) -> Option<u8> {
    match *digits {
        [high, low] => {
            let high = char::from(high).to_digit(16)?;
            let low = char::from(low).to_digit(16)?;
            Some((16 * high + low) as u8)
        }
        _ => None,
    }
}

/// Decimal digits, any number of zeros in front, up to `limit`.
fn decimal(digits: &[u8], limit: usize) -> Option<usize> {
    let mut value = 0;
    for &digit in digits {
        value = 10 * value + char::from(digit).to_digit(10)? as usize;
        if value > limit {
            return None;
        }
    }
    if digits.is_empty() {
        None
    } else {
        Some(value)
    }
}

fn main() -> Result<()> {
    let mut gateway = Gateway::fresh();
    let mut buffer = [0; TEXT_LIMIT];
    let mut out = BufWriter::new(stdout().lock());
    let mut events: u64 = 0;

    writeln!(out, "event line answer reply")?;
    for text in stdin().lock().split(b'\n') {
        let (line, event) = match event(&text?) {
            Some(found) => found,
            None => {
                writeln!(out, "line {}: not an event", events + 1)?;
                return out.flush();
            }
        };
        let answer = match event {
            Event::Byte(byte) => gateway.byte(line, byte),
            Event::Seconds(seconds) => gateway.seconds(line, seconds),
            Event::Taking(length) => gateway.take(line, &mut buffer[..length]),
        };
        events += 1;
        write!(out, "{} {} {} ", events, line, answer.number())?;
        // A trace starts no sending, so one byte at most goes out.
        match (&answer, answer.outgoing()) {
            (Answer::Taken { length, .. }, _) => writeln!(out, "{}", length)?,
            (_, [reply, ..]) => writeln!(out, "{:02X}", reply)?,
            (_, []) => writeln!(out, "--")?,
        }
    }
    writeln!(out, "{} events", events)?;
    out.flush()
}
