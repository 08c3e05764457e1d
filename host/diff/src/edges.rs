//! A journal full to its last byte, or past it: a chain of entries that agrees with every count, where
//! only the end of the memory tells whole from broken. Traffic does not get there by itself.

use ngachodui_model::blocks::Patient;
use ngachodui_model::frames::{after, write};
use ngachodui_model::journal::{header, HEADER, TEXT_LIMIT};
use ngachodui_model::lines::Kind;
use ngachodui_model::texts::{ENQ, EOT, ETX};
use ngachodui_model::traffic::blocks::finding;
use ngachodui_model::traffic::messages::right;
use ngachodui_model::traffic::random::Random;
use ngachodui_model::world::{Memory, Op, World};
use ngachodui_model::{JOURNAL, LINES};

/// How far the chain's end may lie before and behind the journal's.
const BEFORE: usize = 6;
const BEHIND: usize = 10;

/// The journal so filled, takings, a message or a strip reader's finding, takings, and a fresh gateway.
pub fn full_journal(random: &mut Random) -> Vec<Op> {
    let mut settings = [0; LINES];
    settings[6] = 10;
    settings[7] = 13;
    let mut ops = vec![Op::Fresh, Op::Begin { settings }];
    fill(random, &mut ops);
    takings(random, &mut ops);
    match random.below(4) {
        0 => reading(random, &mut ops, 6, Patient::Ten),
        1 => reading(random, &mut ops, 7, Patient::Thirteen),
        _ => message(random, &mut ops),
    }
    takings(random, &mut ops);
    ops.push(Op::Fresh);
    ops
}

fn fill(random: &mut Random, ops: &mut Vec<Op>) {
    let in_use = JOURNAL - BEFORE + random.below(BEFORE + BEHIND + 1);
    let mut used = [0; LINES];
    let mut start = 0;
    while start < in_use {
        let left = in_use - start - HEADER;
        // Never so much that what is left behind it is too little for an entry.
        let length = if left <= TEXT_LIMIT {
            left
        } else {
            random.between(1_000, TEXT_LIMIT.min(left - HEADER - 1))
        };
        let line = random.below(LINES);
        let bytes = header(line, length, random.number() as u16);
        for (place, value) in bytes.iter().enumerate() {
            ops.push(Op::Poke {
                memory: Memory::Journal,
                index: start + place,
                value: *value,
            });
        }
        used[line] += (HEADER + length) as u32;
        start += HEADER + length;
    }
    for (line, count) in World::lines().zip(used) {
        ops.push(Op::Used { line, count });
    }
    ops.push(Op::InUse {
        count: in_use as u32,
    });
}

fn takings(random: &mut Random, ops: &mut Vec<Op>) {
    for _ in 0..4 {
        ops.push(Op::Take {
            line: random.below(LINES) as u8,
            buffer: random.pick(&[0, 1_000, 4_000, 4_100]),
        });
    }
}

/// A right finding.
fn reading(random: &mut Random, ops: &mut Vec<Op>, line: u8, patient: Patient) {
    let bytes = finding(random, patient);
    ops.extend(bytes.into_iter().map(|byte| Op::Event {
        line,
        kind: Kind::Byte(byte),
    }));
}

/// A right message in one frame for each record, on a line of frames.
fn message(random: &mut Random, ops: &mut Vec<Op>) {
    let line = random.below(LINES - 2) as u8;
    let mut bytes = vec![ENQ];
    let mut number = 1;
    for record in right(random, 200).split_inclusive(|&byte| byte == b'\r') {
        bytes.extend(write(number, record, ETX));
        number = after(number);
    }
    bytes.push(EOT);
    ops.extend(bytes.into_iter().map(|byte| Op::Event {
        line,
        kind: Kind::Byte(byte),
    }));
}
