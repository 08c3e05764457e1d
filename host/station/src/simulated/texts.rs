//! Messages by line, number and attempt, so that what arrives can be told.

use super::chance::Chance;

/// How long a message is.
#[derive(Clone, Copy, PartialEq, Eq, Debug)]
pub enum Size {
    /// Some 80 bytes.
    Small,
    /// Some results: 150 to 700 bytes.
    Usual,
    /// With a record of over 240 bytes, which goes in more than one frame.
    Long,
    /// 3,800 to 3,900 bytes.
    Calibration,
}

impl Size {
    /// One for each number: of sixteen messages nine are small, five usual, one long, one a calibration.
    pub fn by_number(number: u32) -> Size {
        match number % 16 {
            1 | 4 | 6 | 9 | 12 => Size::Usual,
            7 => Size::Long,
            15 => Size::Calibration,
            _ => Size::Small,
        }
    }
}

const TESTS: [(&str, &str); 8] = [
    ("GLU", "mmol/L"),
    ("NA", "mmol/L"),
    ("K", "mmol/L"),
    ("CREA", "umol/L"),
    ("UREA", "mmol/L"),
    ("ALT", "U/L"),
    ("AST", "U/L"),
    ("CRP", "mg/L"),
];

const REMARKS: [&str; 4] = [
    "sample slightly haemolytic, repeat where potassium does not fit; ",
    "measured in the second run, the first was stopped for a clot; ",
    "lot 8817 of the reagent, calibrated this morning; ",
    "tube from the ward arrived late and was kept cool; ",
];

/// What tells a message: in field 3 of its P, ten characters for numbers of six digits and attempts of one.
pub fn name(line: u8, number: u32, attempt: u32) -> String {
    format!("{}-{:06}-{}", line, number, attempt)
}

/// Line, number and attempt of a message, a finding or an order.
pub fn identity(text: &[u8]) -> Option<(u8, u32, u32)> {
    let text = std::str::from_utf8(text).ok()?;
    let patient = text.split('\r').find(|record| record.starts_with("P|1|"))?;
    let mut parts = patient.split('|').nth(2)?.split('-');
    let (line, number, attempt) = (parts.next()?, parts.next()?, parts.next()?);
    if parts.next().is_some() {
        return None;
    }
    Some((
        line.parse().ok()?,
        number.parse().ok()?,
        attempt.parse().ok()?,
    ))
}

/// A message with results. Line, number and size make all of it but the attempt, which stands in its P alone.
pub fn result(line: u8, number: u32, attempt: u32, size: Size) -> Vec<u8> {
    let mut chance = Chance::seeded(u64::from(line) << 32 | u64::from(number));
    let mut text = head(line, number, attempt);
    let results = match size {
        Size::Small => 1,
        Size::Usual => 3 + chance.below(12),
        Size::Long => 2,
        Size::Calibration => 60,
    };
    for k in 1..=results {
        text += &measured(k, &mut chance);
    }
    match size {
        Size::Small | Size::Usual => text += "C|1|I|ok\r",
        Size::Long => text += &comment(1, 241 + chance.below(500) as usize, &mut chance),
        Size::Calibration => {
            // The comments make up what is left; of the two one goes in several frames.
            let left = 3_900 - text.len() - "L|1|N\r".len() - chance.below(100) as usize;
            text += &comment(1, 200, &mut chance);
            text += &comment(2, left - 200, &mut chance);
        }
    }
    text += "L|1|N\r";
    text.into_bytes()
}

/// A work order for an analyzer.
pub fn order(line: u8, number: u32) -> Vec<u8> {
    let mut chance = Chance::seeded(u64::from(number));
    let mut text = format!("H|\\^&|||laboratory\rP|1|{}\r", name(line, number, 0));
    for k in 1..=1 + chance.below(3) {
        let (test, _) = TESTS[chance.below(8) as usize];
        text += &format!("O|{}|S{}||^^^{}|R\r", k, number, test);
    }
    text += "L|1|N\r";
    text.into_bytes()
}

/// Complete records, of which one is wrong: by the number its sequence number, its type, its place, the delimiters,
/// or that there is no header.
pub fn faulty(number: u32) -> Vec<u8> {
    let text = result(0, number, 0, Size::Usual);
    let text = String::from_utf8(text).expect("plain letters");
    let wrong = match number % 5 {
        0 => text.replacen("\rR|2|", "\rR|7|", 1),
        1 => text.replacen("\rR|2|", "\rX|2|", 1),
        2 => text.replacen("\rO|1|", "\rR|1|", 1),
        3 => text.replacen("H|\\^&", "H|\\^1", 1),
        _ => text.replacen("H|", "P|", 1),
    };
    wrong.into_bytes()
}

/// Header, patient and sample.
fn head(line: u8, number: u32, attempt: u32) -> String {
    let name = name(line, number, attempt);
    format!("H|\\^&|||line {}\rP|1|{}\rO|1|S{}\r", line, name, number)
}

fn measured(k: u32, chance: &mut Chance) -> String {
    let (test, unit) = TESTS[chance.below(8) as usize];
    let value = chance.below(1_000);
    let (whole, tenth) = (value / 10, value % 10);
    format!("R|{}|^^^{}|{}.{}|{}\r", k, test, whole, tenth, unit)
}

/// A comment so long, its CR counted.
fn comment(k: u32, length: usize, chance: &mut Chance) -> String {
    let mut record = format!("C|{}|I|", k);
    while record.len() < length {
        record += REMARKS[chance.below(4) as usize];
    }
    record.truncate(length - 1);
    record + "\r"
}

#[cfg(test)]
mod tests {
    use super::*;
    use ngachodui::{is_message, read, Fault, Refusal, TEXT_LIMIT};
    use std::collections::BTreeSet;

    const SIZES: [(Size, usize, usize); 4] = [
        (Size::Small, 70, 100),
        (Size::Usual, 110, 700),
        (Size::Long, 300, 900),
        (Size::Calibration, 3_800, 3_900),
    ];

    #[test]
    fn results_are_messages_that_tell_who_they_are() {
        for (size, least, most) in SIZES {
            for number in (0..2_000).chain([999_999]) {
                let line = (number % 8) as u8;
                let text = result(line, number, 3, size);
                assert!(is_message(&text), "{}", String::from_utf8_lossy(&text));
                assert_eq!(identity(&text), Some((line, number, 3)));
                let length = text.len();
                assert!((least..=most).contains(&length), "{:?}: {}", size, length);
                let is_long = |record: &[u8]| record.len() >= 240;
                let has_long = text.split(|byte| *byte == b'\r').any(is_long);
                assert_eq!(has_long, matches!(size, Size::Long | Size::Calibration));
            }
        }
    }

    #[test]
    fn every_size_comes() {
        for (size, _, _) in SIZES {
            assert!((0..16).any(|number| Size::by_number(number) == size));
        }
    }

    #[test]
    fn orders_are_messages() {
        for number in 0..1_000 {
            let text = order(7, number);
            assert!(is_message(&text));
            assert_eq!(identity(&text), Some((7, number, 0)));
        }
    }

    #[test]
    fn faulty_texts_have_each_fault() {
        let mut faults = BTreeSet::new();
        for number in 0..500 {
            let text = faulty(number);
            assert!(text.ends_with(b"\rL|1|N\r") && text.len() <= TEXT_LIMIT);
            match read(&text) {
                Err(Refusal::Faulty { fault, .. }) => faults.insert(fault.number()),
                other => panic!("{:?}", other),
            };
        }
        let number = |fault: Fault| fault.number();
        let expected = [
            Fault::NoHeader,
            Fault::UnknownType,
            Fault::Misplaced,
            Fault::Misnumbered,
            Fault::BadDelimiters,
        ];
        assert_eq!(faults, expected.into_iter().map(number).collect());
    }

    #[test]
    fn what_has_no_name_has_no_identity() {
        let texts: [&[u8]; 5] = [
            b"H|\\^&\rL|1|N\r",
            b"H|\\^&\rP|1|4711\rL|1|N\r",
            b"H|\\^&\rP|1|1-2-3-4\rL|1|N\r",
            b"H|\\^&\rP|1|1-2-x\rL|1|N\r",
            b"\xFF",
        ];
        for text in texts {
            assert_eq!(identity(text), None);
        }
    }
}
