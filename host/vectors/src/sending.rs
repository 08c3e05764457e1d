//! Lines that send, run by hand: each answer is shown with all that goes to the analyzer, with the line's
//! record after it, and with whatever else has changed.
//!
//!     = TITLE             a fresh gateway, memory of the right sizes, all bytes 0;   # TEXT   nothing
//!     G L TEXT            a start on line L with TEXT (`script::spelt`)
//!     B L HEX, S L N      bytes that come on line L, N seconds there
//!     F L N               the frame that line L offers is fetched into N bytes
//!
//! and for states that no run leaves:
//!
//!     J 0 N, K 0 N, L 0 N    how many bytes of the journal, the unfinished text, the frames are lent
//!     I 0 N                  N bytes of the journal are in use
//!     u L TEXT               TEXT stands at the start of line L's unfinished text
//!     a, c, j, s, n          line L's state, collected, joined and second count, next number
//!     l, r, t, p             its last number and one more, refusing, tries, place
//!     x, Z                   its two spare numbers, its next serial

use crate::boundary::Answered;
use crate::by_hand::{self, changes, fetch, set, MOST};
use crate::layout::*;
use crate::library::{numbered, Gateway};
use crate::script::{hex, spelt, Step};
use crate::shown::{record, spell};

/// Runs a script.
pub fn run(script: &str) -> Result<bool, String> {
    by_hand::run(script, does)
}

fn does(gateway: &mut Gateway, step: &Step) -> Result<(), String> {
    let line = step.digit;
    match step.letter {
        'G' => {
            let text = spelt(step.words()?)?;
            answered(gateway, line, |gateway| gateway.send(line, &text));
        }
        'B' => {
            for byte in hex(step.words()?)? {
                answered(gateway, line, |gateway| gateway.byte(line, byte));
            }
        }
        'S' => {
            let seconds = step.number(255)? as u8;
            answered(gateway, line, |gateway| gateway.seconds(line, seconds));
        }
        'F' => fetch(gateway, line, step.number(MOST)?),
        _ => {
            set(gateway, step)?;
            println!("{}", step.text);
        }
    }
    Ok(())
}

/// A call, its answer, and what it leaves.
fn answered(gateway: &mut Gateway, line: u8, call: impl Fn(&mut Gateway) -> Answered) {
    let before = gateway.clone();
    let answer = call(gateway);
    println!(
        "{}: {} {}{}{}",
        line,
        numbered(answer.number, answer.place),
        sent(gateway, line, answer.reply),
        own_record(gateway, line),
        changes(&before, gateway, line)
    );
}

/// All that goes to the analyzer, spelt; -- for nothing.
fn sent(gateway: &Gateway, line: u8, first: u8) -> String {
    match gateway.sent(line, first).as_slice() {
        [] => "--".to_string(),
        bytes => spell(bytes),
    }
}

/// The line's record, where it is one of the eight.
fn own_record(gateway: &Gateway, line: u8) -> String {
    let line = usize::from(line);
    if line >= LINES {
        return String::new();
    }
    format!(" > {}", record(gateway.line(line)))
}
