//! Records, memories and bytes as they are shown.

use crate::frames::CR;
use crate::layout::*;

/// A byte that comes so often in a row is shown once, with how often.
const MANY: usize = 16;

/// State, collected, joined, seconds, next, last, and R where the line refuses; behind them tries and place,
/// where not both are 0.
pub fn record(numbers: &[u16]) -> String {
    let last = match numbers[LAST] {
        0 => "-".to_string(),
        number => (number - 1).to_string(),
    };
    let mut shown = format!(
        "{} {} {} {} {} {} {}",
        ["N", "W", "I", "A", "P", "O"]
            .get(usize::from(numbers[STATE]))
            .unwrap_or(&"?"),
        numbers[COLLECTED],
        numbers[JOINED],
        numbers[SECONDS],
        numbers[NEXT],
        last,
        ["-", "R"]
            .get(usize::from(numbers[REFUSING]))
            .unwrap_or(&"?")
    );
    if (numbers[TRIES], numbers[PLACE]) != (0, 0) {
        shown += &format!(" {} {}", numbers[TRIES], numbers[PLACE]);
    }
    shown
}

/// The bytes as one number behind a 1, modulo the largest prime below 2^32, so that a change of any
/// byte shows.
pub fn digest(bytes: &[u8]) -> String {
    let sum = bytes.iter().fold(1, |sum, &byte| {
        (sum * 256 + u64::from(byte)) % 4_294_967_291
    });
    format!("{:08x}", sum)
}

/// Bytes as a script spells them (`script::spelt`): <> for none.
pub fn spell(bytes: &[u8]) -> String {
    if bytes.is_empty() {
        return "<>".to_string();
    }
    let mut spelt = String::new();
    let mut left = bytes;
    while let Some(&byte) = left.first() {
        let times = left.iter().take_while(|other| **other == byte).count();
        let is_plain = (0x20..0x7F).contains(&byte) && byte != b'<';
        if is_plain && times >= MANY {
            spelt += &format!("<{}*{}>", times, char::from(byte));
            left = &left[times..];
            continue;
        }
        match byte {
            CR => spelt += "<CR>",
            _ if is_plain => spelt.push(char::from(byte)),
            _ => spelt += &format!("<{:02x}>", byte),
        }
        left = &left[1..];
    }
    spelt
}
