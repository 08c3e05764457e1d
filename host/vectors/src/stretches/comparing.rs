//! Two runs compared: every answer and every buffer; every number of the records and of the ledger,
//! every byte of the memories. What differs is shown.

use super::running::Outcome;
use crate::boundary::Answered;
use crate::layout::{LINES, SERIAL};
use crate::library::{numbered, Gateway};

/// Whether each item that was told again, in this order, came to the same.
pub fn answers(order: &[usize], was: &[Outcome], is: &[Outcome]) -> bool {
    print!("  answers:");
    let mut told = order.iter().zip(is).enumerate();
    match told.find(|&(_, (&k, again))| was[k] != *again) {
        None => println!(" the same"),
        Some((place, (&k, again))) => {
            print!(" differ first at place {}, item {}:", place, k);
            let (was, is) = (was[k].answer, again.answer);
            if was == is {
                println!(" {}, with another buffer", shown(is));
            } else {
                println!(" was {}, is {}", shown(was), shown(is));
            }
            return false;
        }
    }
    true
}

/// An answer's number, for a fault its place, and for 8 its length and serial.
fn shown(answer: Answered) -> String {
    match answer.number {
        8 => format!("8 {} {}", answer.length, answer.serial),
        number => numbered(number, answer.place),
    }
}

/// Whether two runs left the same.
pub fn states(was: &Gateway, is: &Gateway) -> bool {
    let mut parts = Vec::new();
    for line in 0..LINES {
        let record = |gateway: &Gateway| {
            let mut numbers = gateway.line(line).to_vec();
            numbers.remove(SERIAL);
            numbers
        };
        if record(was) != record(is) {
            parts.push(format!("record differs of line {}", line));
        }
    }
    for line in 0..LINES {
        if was.block(line) != is.block(line) {
            parts.push(format!("kept block differs of line {}", line));
        }
    }
    let serials = |gateway: &Gateway| {
        (0..LINES)
            .map(|line| gateway.line(line)[SERIAL])
            .collect::<Vec<_>>()
    };
    if was.counts != is.counts || serials(was) != serials(is) {
        parts.push("ledger differs".to_string());
    }
    for (name, was, is) in [
        ("journal differs", &was.journal, &is.journal),
        ("unfinished text differs", &was.unfinished, &is.unfinished),
        ("frames differ", &was.frames, &is.frames),
    ] {
        let mut pairs = was.bytes.iter().zip(&is.bytes);
        if let Some(place) = pairs.position(|(was, is)| was != is) {
            parts.push(format!("{} from byte {}", name, place));
        }
    }
    if parts.is_empty() {
        println!("  final state: the same");
    } else {
        println!("  final state: {};", parts.join("; "));
    }
    parts.is_empty()
}
