//! Both sides after an operation: every answer, every number, every byte.

use crate::boundary::{Answered, Made};
use crate::layout::{BLOCKS, BLOCK_LIMIT, FIELDS, IN_USE};
use crate::library::Library;
use ngachodui_model::world::{Op, World};
use ngachodui_model::{Answer, LINES};

/// A line's numbers by name.
const NAMES: [&str; FIELDS] = [
    "state",
    "collected",
    "joined",
    "seconds",
    "next",
    "last",
    "refusing",
    "serial",
    "tries",
    "place",
    "speaks",
    "reply",
    "since",
    "kept",
    "spare 0",
    "spare 1",
];

/// Both sides of something that differs, in words.
pub fn differs<T: std::fmt::Debug>(what: &str, model: T, library: T) -> String {
    format!("{}: model {:?}, library {:?}", what, model, library)
}

/// The first of these bytes that differ, in words.
pub fn byte_difference(what: &str, model: &[u8], library: &[u8]) -> Option<String> {
    if model == library {
        return None;
    }
    let place = model.iter().zip(library).position(|(m, l)| m != l);
    Some(match place {
        Some(place) => differs(
            &format!("{}, byte {}", what, place),
            format!("{:02X}", model[place]),
            format!("{:02X}", library[place]),
        ),
        None => differs(&format!("{}, length", what), model.len(), library.len()),
    })
}

/// What differs in an answer.
pub fn answer_difference(model: Option<Answer>, library: Option<Answered>) -> Option<String> {
    // The same operation, so both have an answer or none.
    let expected = model.map(|answer| Answered {
        number: answer.number,
        reply: answer.reply.unwrap_or(0),
        serial: answer.serial,
        place: answer.place as u16,
        digits: 0,
        length: answer.length,
    });
    if expected == library {
        return None;
    }
    Some(differs("answer", expected, library))
}

/// What differs in what was fetched: its outcome, or a byte of the whole output.
fn fetched_difference(world: &World, library: &Library) -> Option<String> {
    let model = &world.fetched;
    let expected = Made {
        number: model.outcome.err().unwrap_or(0),
        spare: 0,
        place: 0,
        value: 0,
        length: model.outcome.unwrap_or(0),
    };
    let found = &library.fetched;
    if expected != found.made {
        return Some(differs("fetching", expected, found.made));
    }
    byte_difference("frame fetched", &model.out, found.out.inside())
}

/// What differs in the records, the ledger or the memories: everything is looked at.
pub fn state_difference(world: &World, library: &Library, op: &Op) -> Option<String> {
    for line in 0..LINES {
        let expected = world.model.numbers(line);
        for (field, name) in NAMES.iter().enumerate() {
            let found = library.book.numbers[FIELDS * line + field];
            if expected[field] != found {
                let what = format!("line {}, {}", line, name);
                return Some(differs(&what, expected[field], found));
            }
        }
    }
    for line in 0..LINES {
        let expected = &world.model.readers[line].block;
        let found = &library.book.numbers[BLOCKS + BLOCK_LIMIT * line..][..BLOCK_LIMIT];
        if expected != found {
            let mut both = expected.iter().zip(found);
            let place = both.position(|(m, l)| m != l).expect("as many numbers");
            let what = format!("line {}, number {} of its block", line, place);
            return Some(differs(&what, expected[place], found[place]));
        }
    }
    let ledger = &world.model.ledger;
    for line in 0..LINES {
        let found = library.book.counts[line] as usize;
        if ledger.used[line] != found {
            let what = format!("used count of line {}", line);
            return Some(differs(&what, ledger.used[line], found));
        }
    }
    let in_use = library.book.counts[IN_USE] as usize;
    if ledger.in_use != in_use {
        return Some(differs("bytes in use", ledger.in_use, in_use));
    }
    let memories = [
        ("journal", &world.journal, library.journal.inside()),
        (
            "unfinished text",
            &world.unfinished,
            library.unfinished.inside(),
        ),
        ("frames", &world.frames, library.frames.inside()),
    ];
    for (name, model, library) in memories {
        if let Some(difference) = byte_difference(name, model, library) {
            return Some(difference);
        }
    }
    let difference = match op {
        Op::Take { .. } => byte_difference("buffer", &world.buffer, library.buffer.inside()),
        Op::Outgoing { .. } => fetched_difference(world, library),
        _ => None,
    };
    if difference.is_some() {
        return difference;
    }
    if !library.fences_stand() {
        return Some("library: written beside what was lent".to_string());
    }
    None
}
