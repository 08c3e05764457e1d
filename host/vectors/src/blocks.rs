//! Blocks of strip readers (document 001), by the patient numbers that a reader is set up for.

use crate::frames::{CR, ETX, STX};

/// The bytes around what a block says: STX; ETX, two test bytes and CR.
const BEHIND: usize = 4;

/// The test bytes of a block made right.
pub fn mend(block: &mut [u8]) {
    if let Some(end) = block.len().checked_sub(3) {
        let (counted, rest) = block.split_at_mut(end);
        let test = counted.iter().fold(0, |test, byte| test ^ byte);
        rest[0] = 0x30 | test >> 4;
        rest[1] = 0x30 | test & 15;
    }
}

fn closed(inside: &[u8]) -> Vec<u8> {
    let mut block = [&[STX], inside, &[ETX, 0, 0, CR]].concat();
    mend(&mut block);
    block
}

/// A control block.
pub fn control(code: u8) -> Vec<u8> {
    closed(&[code])
}

/// The patient numbers of a line that speaks so: 10 characters where it has no reader.
pub fn characters(speaks: u16) -> usize {
    match speaks {
        13 => 13,
        _ => 10,
    }
}

fn head(letter: char, characters: usize, number: usize) -> String {
    let patient = format!("{:<1$}", "4711", characters);
    format!(";{} {} {:05} 15.03.01 09:30 ", letter, patient, number)
}

/// An E block with this sequence number.
pub fn finding(characters: usize, number: usize) -> Vec<u8> {
    let results = [
        ("SG", "1.030", 13),
        ("PH", "  7", 11),
        ("LEU", "     500/ul ++++", 20),
        ("NIT", "pos pos", 12),
        ("PRO", "   0.75 g/l ++++", 20),
        ("GLU", "  56 mmol/l ++++", 20),
        ("KET", " 0.5 mmol/l   ++", 20),
        ("UBG", "  68 umol/l ++++", 20),
        ("BIL", "  50 umol/l ++++", 20),
        ("ERY", "      25/ul ++++", 20),
        ("NAG", "", 20),
    ];
    let mut inside = head('E', characters, number);
    for (name, data, length) in results {
        inside += &format!("{:<1$}", format!("{}{}", name, data), length);
    }
    closed(inside.as_bytes())
}

/// A D block with this sequence number.
pub fn colours(characters: usize, number: usize) -> Vec<u8> {
    let inside = head('D', characters, number);
    closed(format!("{}{:<18} {:<18} ", inside, "yellow", "clear").as_bytes())
}

/// Which bytes of a data block are data: with those of a block that is right, all that are neither name, space
/// nor part of the frame, told by their places.
pub fn data(block: &[u8], characters: usize) -> Vec<usize> {
    let behind = 4 + characters;
    let mut places: Vec<usize> = (4..behind).collect();
    for (start, length) in [(1, 5), (7, 8), (16, 5)] {
        places.extend(behind + start..behind + start + length);
    }
    let start = behind + 22;
    let fields: &[(usize, usize)] = if block[2] == b'D' {
        &[(0, 18), (19, 18)]
    } else {
        &[
            (2, 5),
            (15, 3),
            (27, 16),
            (47, 8),
            (59, 16),
            (79, 16),
            (99, 16),
            (119, 16),
            (139, 16),
            (159, 16),
        ]
    };
    for &(at, length) in fields {
        places.extend(start + at..start + at + length);
    }
    debug_assert!(places.iter().all(|&place| place < block.len() - BEHIND));
    places
}
