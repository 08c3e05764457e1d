//! Messages and their records (docs/RULES.md, R).

use crate::answers::Refusal;
use crate::delimiters::Delimiters;
use crate::texts::{is_allowed, CR};

/// One record of a message that was read.
#[derive(Clone, Copy, PartialEq, Eq, Debug)]
pub struct Record {
    /// Its type letter.
    pub kind: u8,
    /// Where it starts in the text.
    pub offset: usize,
    /// Its bytes, the CR not counted.
    pub length: usize,
    /// The record it belongs to, by number from 1; 0 for none.
    pub owner: usize,
}

/// The longest message. [R1]
pub const MESSAGE_LIMIT: usize = 4_000;

/// The types that there are. [R5]
const TYPES: &[u8] = b"HPORQLCM";

/// What may follow: `before` is the last record that is neither C nor M, so that any number of these
/// may stand between; they themselves are refused behind L alone. [R6, R7]
fn may_follow(before: u8, kind: u8) -> bool {
    let followers: &[u8] = match before {
        b'H' => b"POQLCM",
        b'P' => b"POQLCM",
        b'O' => b"ORPQLCM",
        b'R' => b"ROPQLCM",
        b'Q' => b"QPLCM",
        _ => b"", // behind L nothing
    };
    followers.contains(&kind)
}

fn is_remark(kind: u8) -> bool {
    kind == b'C' || kind == b'M'
}

/// The sequence numbers given so far, one count for each type that has its own.
#[derive(Default)]
struct Counts {
    p: u32,
    q: u32,
    o: u32,
    r: u32,
    c: u32,
    m: u32,
}

impl Counts {
    /// The number the next record of this type must have.
    fn advance(&mut self, kind: u8) -> u32 {
        // C and M: each from 1 behind every record of another type.
        if !is_remark(kind) {
            self.c = 0;
            self.m = 0;
        }
        let count = match kind {
            b'P' => {
                // O: from 1 behind every P.
                self.o = 0;
                &mut self.p
            }
            b'O' => {
                // R: from 1 behind every O.
                self.r = 0;
                &mut self.o
            }
            // Q, as P: on and on.
            b'Q' => &mut self.q,
            b'R' => &mut self.r,
            b'C' => &mut self.c,
            b'M' => &mut self.m,
            // L: there is one.
            _ => return 1,
        };
        *count += 1;
        *count
    }
}

/// The last record of each sort that can own others, by number from 1, 0 for none yet.
#[derive(Default)]
struct Owners {
    p: usize,
    o: usize,
    /// The last record that is neither C nor M.
    other: usize,
}

impl Owners {
    /// The owner of record `number`, which is of this type.
    fn advance(&mut self, kind: u8, number: usize) -> usize {
        let owner = match kind {
            // P and Q: H, the first record.
            b'P' | b'Q' => 1,
            // O: the P before it, or H.
            b'O' => self.p.max(1),
            // R: the O before it; there is one.
            b'R' => self.o,
            // C and M: what they remark on.
            b'C' | b'M' => self.other,
            // H and L: none.
            _ => 0,
        };
        if kind == b'P' {
            self.p = number;
        }
        if kind == b'O' {
            self.o = number;
        }
        if !is_remark(kind) {
            self.other = number;
        }
        owner
    }
}

/// The records of a message, in order; or the first thing that is wrong with the text, and with which
/// of its records. [R13, R14, R22]
pub fn read(text: &[u8]) -> Result<Vec<Record>, Refusal> {
    let records = split(text)?;
    let header = first(records[0], records.len() == 1);
    let in_force = header.map_err(|number| Refusal::faulty(number, 1))?;
    let mut found: Vec<Record> = Vec::new();
    let mut counts = Counts::default();
    let mut owners = Owners::default();
    // The last record that is neither C nor M.
    let mut before = b'H';
    let mut offset = 0;
    // Front to back: what is wrong with a later record is not seen any more.
    for (index, record) in records.iter().enumerate() {
        let place = index + 1;
        let is_last = place == records.len();
        let kind = if place == 1 {
            b'H'
        } else {
            following(in_force, record, is_last, before, &mut counts)
                .map_err(|number| Refusal::faulty(number, place))?
        };
        found.push(Record {
            kind,
            offset,
            length: record.len(),
            owner: owners.advance(kind, place),
        });
        if !is_remark(kind) {
            before = kind;
        }
        offset += record.len() + 1;
    }
    Ok(found)
}

/// The records of a text without their CRs, one at least; or what is wrong with the text before any
/// record is looked at. [R1, R22, A46, A50, A54]
fn split(text: &[u8]) -> Result<Vec<&[u8]>, Refusal> {
    // 46: more bytes than a message can have, or one that none can have.
    if text.len() > MESSAGE_LIMIT || !text.iter().all(|&byte| is_allowed(byte)) {
        return Err(Refusal::plain(46));
    }
    // 50: an empty text has no first record.
    if text.is_empty() {
        return Err(Refusal::faulty(50, 1));
    }
    let mut records: Vec<&[u8]> = text.split(|&byte| byte == CR).collect();
    // 54: CR ends each record. What stands behind the last CR is counted as one.
    if text[text.len() - 1] != CR {
        return Err(Refusal::faulty(54, records.len()));
    }
    // Behind the CR at the end there is nothing.
    records.pop();
    Ok(records)
}

/// The delimiters that the first record names, which are in force for all that follow; or what is wrong
/// with it first. [R3, A50, A52, A55]
fn first(record: &[u8], is_last: bool) -> Result<Delimiters, u8> {
    // 50: a header. Nothing is said of what follows the delimiters there.
    let in_force = match Delimiters::of(record) {
        Some(delimiters) if record[0] == b'H' => delimiters,
        _ => return Err(50),
    };
    // 55: delimiters by which the others can be read.
    if !in_force.are_allowed() {
        return Err(55);
    }
    // 52: the last record is an L.
    if is_last {
        return Err(52);
    }
    Ok(in_force)
}

/// The type of a record behind the first, or what is wrong with it first. [A51, A52, A53]
fn following(
    in_force: Delimiters,
    record: &[u8],
    is_last: bool,
    before: u8,
    counts: &mut Counts,
) -> Result<u8, u8> {
    // 51: its type, one letter and nothing more.
    let kind = match field(in_force, record, 1) {
        [letter] if TYPES.contains(letter) => *letter,
        _ => return Err(51),
    };
    // 52: what it stands behind and, where it is the last record, that it is an L.
    if !may_follow(before, kind) || is_last && kind != b'L' {
        return Err(52);
    }
    // 53: its number, the one that is due.
    if sequence(field(in_force, record, 2)) != Some(counts.advance(kind)) {
        return Err(53);
    }
    Ok(kind)
}

/// A sequence number: one to six digits, the first of them not 0. [R8]
fn sequence(digits: &[u8]) -> Option<u32> {
    if digits.is_empty() || digits.len() > 6 || digits[0] == b'0' {
        return None;
    }
    let mut value = 0;
    for &digit in digits {
        if !digit.is_ascii_digit() {
            return None;
        }
        value = 10 * value + u32::from(digit - b'0');
    }
    Some(value)
}

/// Reading into as many slots as are lent: 46 or a fault, then 47 where the records do not fit. The
/// slots behind the records, and with a refusal all of them, keep their value. [O6]
pub fn read_into(text: &[u8], slots: &mut [Record]) -> Result<usize, Refusal> {
    let found = read(text)?;
    if found.len() > slots.len() {
        return Err(Refusal::plain(47));
    }
    slots[..found.len()].copy_from_slice(&found);
    Ok(found.len())
}

/// Whether a text is a message. [R11]
pub fn is_message(text: &[u8]) -> bool {
    read(text).is_ok()
}

/// The first byte of the last record of a text that ends with CR, if that record has one. [F8]
pub fn last_record_begins_with(text: &[u8]) -> Option<u8> {
    let records = &text[..text.len() - 1];
    let last = records.rsplit(|&byte| byte == CR).next()?;
    last.first().copied()
}

/// A field, from 1; what a record does not have is empty. [R4]
pub fn field(in_force: Delimiters, record: &[u8], number: usize) -> &[u8] {
    if number == 0 {
        return b"";
    }
    let mut fields = record.split(|&byte| byte == in_force.field);
    fields.nth(number - 1).unwrap_or(b"")
}

/// The fields of a result that have a name here.
#[derive(Clone, Copy, PartialEq, Eq, Debug)]
pub struct ResultFields<'a> {
    pub test: &'a [u8],
    pub value: &'a [u8],
    pub units: &'a [u8],
    pub flag: &'a [u8],
    pub status: &'a [u8],
    pub completion: &'a [u8],
}

/// The six fields of an R record. [R15]
pub fn result_fields(in_force: Delimiters, record: &[u8]) -> ResultFields<'_> {
    let field = |number| field(in_force, record, number);
    ResultFields {
        test: field(3),
        value: field(4),
        units: field(5),
        flag: field(7),
        status: field(9),
        completion: field(13),
    }
}

/// The end of a component: the next delimiter or CR, but not the escape delimiter, which is part of an
/// escape. With none, the end is the text's; a start past it is left there. [R16]
pub fn component_end(in_force: Delimiters, text: &[u8], start: usize) -> usize {
    let ends = [in_force.field, in_force.repeat, in_force.component, CR];
    let mut place = start;
    while place < text.len() {
        if ends.contains(&text[place]) {
            return place;
        }
        place += 1;
    }
    place
}

#[cfg(test)]
mod tests {
    use super::*;
    use crate::delimiters::{exchanged, POSSIBLE};

    const STANDARD: Delimiters = Delimiters::STANDARD;

    /// A text from its records, with a `/` for each CR.
    fn text(written: &str) -> Vec<u8> {
        written.replace('/', "\r").into_bytes()
    }

    fn owners(written: &str) -> Vec<usize> {
        let found = read(&text(written)).unwrap();
        found.iter().map(|record| record.owner).collect()
    }

    #[test]
    fn the_shortest_messages() {
        assert!(is_message(&text("H|\\^&/L|1/")));
        assert!(is_message(&text("H|\\^&/L|1|/")));
        assert!(is_message(&text("H|\\^&/L|1|N/")));
        for none in ["", "/", "H|\\^&/", "L|1/", "H|\\^&/L|1", "H|\\^&/L/"] {
            assert!(!is_message(&text(none)), "{}", none);
        }
    }

    #[test]
    fn h_is_its_five_first_bytes() {
        let good = [
            "H|\\^&xyz",
            "H|\\^&&",
            "H|\\^&|||x",
            "H|\\^& ",
            "H|^\\&",
            "H|\\&^",
            "H|~$%",
        ];
        for head in good {
            assert!(is_message(&text(&format!("{}/L|1/", head))), "{}", head);
        }
        let bad = [
            "H", "H|", "H|\\^", "h|\\^&", " H|\\^&", "", "P|1", "H|\\^|", "H|\\^1", "H!~$%",
        ];
        for head in bad {
            assert!(!is_message(&text(&format!("{}/L|1/", head))), "{}", head);
        }
    }

    #[test]
    fn each_pair_of_types_as_the_table_has_it() {
        // A way to each type, and what may stand right behind it with which number.
        let ways = [
            ("H|\\^&/", "P1 O1 Q1 L1 C1 M1"),
            ("H|\\^&/P|1/", "P2 O1 Q1 L1 C1 M1"),
            ("H|\\^&/P|1/O|1/", "O2 R1 P2 Q1 L1 C1 M1"),
            ("H|\\^&/P|1/O|1/R|1/", "R2 O2 P2 Q1 L1 C1 M1"),
            ("H|\\^&/Q|1/", "Q2 P1 L1 C1 M1"),
            ("H|\\^&/L|1/", ""),
            // C and M are passed over.
            ("H|\\^&/C|1/M|1/C|2/", "P1 O1 Q1 L1 C3 M2"),
            ("H|\\^&/Q|1/M|1/M|2/", "Q2 P1 L1 C1 M3"),
            ("H|\\^&/P|1/O|1/R|1/C|1/", "R2 O2 P2 Q1 L1 C2 M1"),
        ];
        for (way, followers) in ways {
            for kind in "HPORQLCMSXh".chars() {
                for number in 0..=4 {
                    let mut whole = format!("{}{}|{}/", way, kind, number);
                    if kind != 'L' {
                        whole.push_str("L|1/");
                    }
                    let follower = format!("{}{}", kind, number);
                    let expected = followers.split(' ').any(|known| known == follower);
                    assert_eq!(is_message(&text(&whole)), expected, "{}", whole);
                }
            }
        }
    }

    #[test]
    fn sequence_numbers_count_where_the_rules_say() {
        let right = [
            "H|\\^&/O|1/O|2/P|1/O|1/R|1/R|2/O|2/R|1/P|2/O|1/L|1/",
            "H|\\^&/C|1/M|1/C|2/M|2/P|1/C|1/M|1/L|1/",
            "H|\\^&/Q|1/Q|2/P|1/Q|3/P|2/L|1/",
            "H|\\^&/P|1/O|1/C|1/O|2/C|1/R|1/C|1/C|2/M|1/R|2/L|1/",
        ];
        for whole in right {
            assert!(is_message(&text(whole)), "{}", whole);
        }
        let wrong = [
            "H|\\^&/P|1/P|1/L|1/",
            "H|\\^&/P|2/L|1/",
            "H|\\^&/P|1/O|1/P|2/O|2/L|1/",
            "H|\\^&/P|1/O|1/R|1/O|2/R|2/L|1/",
            "H|\\^&/P|1/C|1/O|1/C|2/L|1/",
            "H|\\^&/C|1/M|2/L|1/",
            "H|\\^&/L|2/",
            "H|\\^&/L|01/",
            "H|\\^&/L|1^/",
            "H|\\^&/L|1\\1/",
            "H|\\^&/L| 1/",
            "H|\\^&/L|1 /",
            "H|\\^&/L|+1/",
            "H|\\^&/L||1/",
            "H|\\^&/P1|1/L|1/",
            "H|\\^&/P^|1/L|1/",
            "H|\\^&/|1/L|1/",
            "H|\\^&//L|1/",
            "H|\\^&/L|1//",
            "H|\\^&/L|1/L|1/",
            "H|\\^&/p|1/L|1/",
            "H|\\^&/LX|1/",
        ];
        for whole in wrong {
            assert!(!is_message(&text(whole)), "{}", whole);
        }
    }

    /// What is wrong with a text: the number, and the place.
    fn wrong(text: &[u8]) -> (u8, usize) {
        let refusal = read(text).expect_err("no message");
        (refusal.number, refusal.place)
    }

    #[test]
    fn what_is_wrong_and_where() {
        let cases = [
            // The first record.
            ("/", 50, 1),
            ("L|1|N/", 50, 1),
            ("/H|\\^&/L|1/", 50, 1),
            ("h|\\^&/X/", 50, 1),
            ("h|\\||/L|1/", 50, 1),
            ("H|\\/L|1/", 50, 1),
            ("H|\\^/L|1/", 50, 1),
            ("H|\\^/&/L|1/", 50, 1),
            ("H|\\/^&/L|1/", 50, 1),
            ("H|\\||/L|1/", 55, 1),
            ("H|\\^&/", 52, 1),
            ("H!~$%/", 52, 1),
            // Types.
            ("H|\\^&//L|1/", 51, 2),
            ("H|\\^&/p|1/L|1/", 51, 2),
            ("H|\\^&/P|1/|1/L|1/", 51, 3),
            ("H|\\^&/P|1/PX|2/L|1/", 51, 3),
            ("H|\\^&/LX/", 51, 2),
            ("H|\\^&/L|1//", 51, 3),
            ("H|\\^&/L|1/S|1/", 51, 3),
            // What follows what, and the end.
            ("H|\\^&/R|1/L|1/", 52, 2),
            ("H|\\^&/P|1/H|\\^&/L|1/", 52, 3),
            ("H|\\^&/Q|1/C|1/O|1/L|1/", 52, 4),
            ("H|\\^&/L|1/L|1/", 52, 3),
            ("H|\\^&/L|1/C|1/L|1/", 52, 3),
            ("H|\\^&/P|1/", 52, 2),
            ("H|\\^&/P|1/C|1/", 52, 3),
            // Numbers.
            ("H|\\^&/P|2/L|1/", 53, 2),
            ("H|\\^&/P|1/O|1/P|3/L|1/", 53, 4),
            ("H|\\^&/C|1/M|2/L|1/", 53, 3),
            ("H|\\^&/L|2/L|1/", 53, 2),
            ("H|\\^&/L/", 53, 2),
            // The end, before any record: what stands behind the last CR is counted as one.
            ("H", 54, 1),
            ("H|\\^&/L|1", 54, 2),
            ("/x/y", 54, 3),
        ];
        for (written, number, place) in cases {
            assert_eq!(wrong(&text(written)), (number, place), "{}", written);
        }
        assert_eq!(wrong(b""), (50, 1));
    }

    #[test]
    fn the_first_of_two_faults_counts() {
        let right = ["H|\\^&", "P|1", "O|1", "R|1", "C|1", "R|2", "L|1"];
        // Each of these is wrong in its own way wherever it stands between the first and the last.
        let faults = [("X|1", 51), ("H|1", 52), ("C|9", 53)];
        for earlier in 1..right.len() {
            for later in earlier + 1..right.len() {
                for (record, number) in faults {
                    for (other, _) in faults {
                        let mut records = right;
                        records[earlier] = record;
                        records[later] = other;
                        let whole = text(&format!("{}/", records.join("/")));
                        assert_eq!(wrong(&whole), (number, earlier + 1), "{:?}", records);
                    }
                }
            }
        }
    }

    #[test]
    fn of_two_faults_in_one_record_type_goes_before_follower_before_number() {
        let cases = [
            ("H|\\^&/X|9/L|1/", 51, 2),
            ("H|\\^&/R|9/L|1/", 52, 2),
            ("H|\\^&/L|1/X|9/L|1/", 51, 3),
            ("H|\\^&/L|1/P|9/L|1/", 52, 3),
            // The last record that is no L, by itself and with each of the other faults.
            ("H|\\^&/X|1/", 51, 2),
            ("H|\\^&/R|1/", 52, 2),
            ("H|\\^&/P|5/", 52, 2),
            ("X/", 50, 1),
        ];
        for (written, number, place) in cases {
            assert_eq!(wrong(&text(written)), (number, place), "{}", written);
        }
    }

    /// The shortest message that has these four as its delimiters.
    fn shortest(four: [u8; 4]) -> Vec<u8> {
        [b"H", &four[..], b"\rL", &four[..1], b"1\r"].concat()
    }

    #[test]
    fn each_byte_at_each_place_of_a_header() {
        for place in 0..4 {
            let others: Vec<u8> = (0..4)
                .filter(|&p| p != place)
                .map(|p| b"|\\^&"[p])
                .collect();
            for byte in 0..=255 {
                let mut four = *b"|\\^&";
                four[place] = byte;
                let expected = match byte {
                    0x00..=0x06 | 0x08 | 0x0A | 0x0E..=0x1F | 0x7F | 0xFF => Err((46, 0)),
                    CR => Err((50, 1)),
                    _ if POSSIBLE.contains(&byte) && !others.contains(&byte) => Ok(2),
                    _ => Err((55, 1)),
                };
                let found = read(&shortest(four)).map(|records| records.len());
                let found = found.map_err(|refusal| (refusal.number, refusal.place));
                assert_eq!(found, expected, "{:02X} at {}", byte, place);
            }
        }
    }

    #[test]
    fn two_delimiters_that_are_the_same() {
        for four in [b"!!$%", b"!~!%", b"!~$!", b"!~~%", b"!~$~", b"!~$$"] {
            assert_eq!(wrong(&shortest(*four)), (55, 1), "{:?}", four);
        }
        assert!(is_message(&shortest(*b"!~$%")));
    }

    #[test]
    fn delimiters_stand_behind_50_and_before_all_other_records() {
        let cases = [
            // As the only record; good ones as the only record are 52.
            ("H|\\||/", 55, 1),
            ("H!~!%/", 55, 1),
            ("H|\\^&/", 52, 1),
            // With a later fault of each kind.
            ("H|\\||/X|1/L|1/", 55, 1),
            ("H|\\||//L|1/", 55, 1),
            ("H|\\||/R|1/L|1/", 55, 1),
            ("H|\\||/P|2/L|1/", 55, 1),
            ("H|\\||/P|1/", 55, 1),
            ("HHHHH/", 55, 1),
            // Without a CR at the end.
            ("H|\\||", 54, 1),
            ("H|\\||/L|1", 54, 2),
            ("H|\\^", 54, 1),
            // Too short a header, and what it would name is bad.
            ("H||/L|1/", 50, 1),
            ("H|||/|/L|1/", 50, 1),
            ("P||||/L|1/", 50, 1),
        ];
        for (written, number, place) in cases {
            assert_eq!(wrong(&text(written)), (number, place), "{}", written);
        }
        assert_eq!(wrong(b"H|\\||\n\rL|1\r"), (46, 0));
        assert_eq!(wrong(b"H|\\|\n\rL|1\r"), (46, 0));
        let long = [&b"H|\\||"[..], &[CR; 3_996]].concat();
        assert_eq!(wrong(&long), (46, 0));
        assert_eq!(wrong(&long[..4_000]), (55, 1));
    }

    #[test]
    fn records_are_read_with_the_delimiters_in_force() {
        assert!(is_message(&text("H!~$%/P!1/O!1/R!1/L!1/")));
        // One record that has the standard ones.
        assert_eq!(wrong(&text("H!~$%/P!1/O|1/R!1/L!1/")), (51, 3));
        assert_eq!(wrong(&text("H!~$%/P!1/L|1/")), (51, 3));
        assert_eq!(wrong(&text("H|\\^&/P!1/L|1/")), (51, 2));
        // What ends a field, or does not.
        assert_eq!(wrong(&text("H!~$%/P!1|2/L!1/")), (53, 2));
        assert!(is_message(&text("H!~$%/P!1!|/L!1/")));
        assert_eq!(wrong(&text("H^|!&/P^1!/L^1/")), (53, 2));
        // | \ ^ & are text like any other, and so are the others with these four.
        assert!(is_message(&text("H!~$%|\\^&/P!1!|\\^&|/C!1!&F&&X&/L!1/")));
        assert!(is_message(&text("H|\\^&!~$%/P|1|!~$%!/L|1/")));
        // The last record is still an L.
        assert_eq!(wrong(&text("H!~$%/P!1/")), (52, 2));
        assert_eq!(wrong(&text("H!~$%/L!2/")), (53, 2));
    }

    #[test]
    fn other_delimiters_change_nothing_else() {
        let texts = [
            "H|\\^&/L|1/",
            "H|\\^&|x^y\\z/P|1|&F&|!~$%/L|1|N/",
            "H|\\^&/C|1/O|1/R|1|^^^GLU|5.2/C|1/M|1/O|2/P|1/M|1/O|1/R|1/R|2/C|1/P|2/Q|1/C|1/L|1/",
            // Wrong in each way.
            "H|\\^/L|1/",
            "H|\\^^/L|1/",
            "H|\\^&/PX|1/L|1/",
            "H|\\^&/P|1/R|1/L|1/",
            "H|\\^&/P|1/O|01/L|1/",
            "H|\\^&/P|1/L|1",
        ];
        let fours = [b"!~$%", b"&^\\|", b"^|!&", b"`{}_", b"\"'()", b",-./"];
        for written in texts {
            let whole = text(written);
            for four in fours {
                let to = Delimiters::in_order(*four);
                let other = exchanged(&whole, STANDARD, to);
                assert_eq!(read(&other), read(&whole), "{} {:?}", written, four);
                assert_eq!(exchanged(&other, to, STANDARD), whole);
            }
        }
    }

    #[test]
    fn length_and_bytes_go_before_every_record() {
        let faulty = text("H|\\^&/X|1/L|2");
        for place in 0..=faulty.len() {
            let mut whole = faulty.clone();
            whole.insert(place, 0x0A);
            assert_eq!(wrong(&whole), (46, 0), "LF at {}", place);
        }
        assert_eq!(wrong(&[CR; 4_000]), (50, 1));
        assert_eq!(wrong(&[CR; 4_001]), (46, 0));
        // The most records that a place can count.
        let mut whole = vec![CR; 4_000];
        whole[3_999] = b'x';
        assert_eq!(wrong(&whole), (54, 4_000));
        assert_eq!(wrong(&[b'x'; 4_000]), (54, 1));
        assert_eq!(wrong(&[b'x'; 4_001]), (46, 0));
    }

    #[test]
    fn owners_as_the_rules_have_them() {
        assert_eq!(owners("H|\\^&/L|1/"), [0, 0]);
        assert_eq!(
            owners("H|\\^&/C|1/O|1/R|1/C|1/M|1/O|2/P|1/M|1/O|1/R|1/R|2/C|1/P|2/Q|1/C|1/L|1/"),
            [0, 1, 1, 3, 4, 4, 1, 1, 8, 8, 10, 10, 12, 1, 1, 15, 0]
        );
        // P 2 has no O: the next O belongs to P 3.
        assert_eq!(
            owners("H|\\^&/P|1/O|1/P|2/P|3/O|1/L|1/"),
            [0, 1, 2, 1, 1, 5, 0]
        );
    }

    #[test]
    fn places_and_lengths() {
        let whole = text("H|\\^&|x/P|1||y/L|1/");
        let found = read(&whole).unwrap();
        let seen: Vec<(u8, usize, usize)> = found
            .iter()
            .map(|record| (record.kind, record.offset, record.length))
            .collect();
        assert_eq!(seen, [(b'H', 0, 7), (b'P', 8, 6), (b'L', 15, 3)]);
    }

    #[test]
    fn one_byte_not_allowed_spoils_a_message() {
        for byte in 0..=255 {
            let mut whole = text("H|\\^&|x/L|1/");
            whole[6] = byte;
            // A CR there ends the H record, and the next is empty; all else is text.
            let expected = is_allowed(byte) && byte != CR;
            assert_eq!(is_message(&whole), expected, "{:02X}", byte);
        }
    }

    #[test]
    fn length_4000_is_the_longest() {
        for (length, expected) in [(3_999, true), (4_000, true), (4_001, false)] {
            let mut whole = text("H|\\^&");
            whole.resize(length - 5, b'x');
            whole.extend_from_slice(b"\rL|1\r");
            assert_eq!(whole.len(), length);
            assert_eq!(is_message(&whole), expected, "{}", length);
        }
    }

    /// A message of as many records as go into 4,000 bytes: 4 bytes each, so every number has one
    /// digit.
    fn crowded() -> Vec<u8> {
        let mut remarks = Vec::new();
        for number in 1..=9 {
            remarks.push(format!("C|{}/", number));
        }
        for number in 1..=9 {
            remarks.push(format!("M|{}/", number));
        }
        let mut records = vec!["H|\\^&/".to_string(), "P|1/".to_string()];
        for order in 1..=9 {
            records.push(format!("O|{}/", order));
            for result in 1..=9 {
                records.push(format!("R|{}/", result));
                records.extend_from_slice(&remarks);
            }
        }
        records.truncate(998);
        records.push("L|1/".to_string());
        text(&records.concat())
    }

    #[test]
    fn as_many_records_as_fit() {
        let whole = crowded();
        assert_eq!(whole.len(), 3_998);
        let found = read(&whole).unwrap();
        assert_eq!(found.len(), 999);

        let none = Record {
            kind: 0,
            offset: 0,
            length: 0,
            owner: 77,
        };
        let mut slots = vec![none; 998];
        assert_eq!(read_into(&whole, &mut slots), Err(Refusal::plain(47)));
        assert!(slots.iter().all(|slot| *slot == none));
        let mut slots = vec![none; 1_000];
        assert_eq!(read_into(&whole, &mut slots), Ok(999));
        assert_eq!(slots[..999], found[..]);
        assert_eq!(slots[999], none);
        // What is wrong with the text comes before 47.
        assert_eq!(read_into(&whole[1..], &mut []), Err(Refusal::faulty(50, 1)));
        // A fault in the last of them all.
        let mut whole = whole;
        assert!(whole.ends_with(b"\rL|1\r"));
        whole[3_996] = b'2';
        assert_eq!(wrong(&whole), (53, 999));
    }

    #[test]
    fn the_last_record_is_that_of_the_whole_text() {
        assert_eq!(last_record_begins_with(b"\r"), None);
        assert_eq!(last_record_begins_with(b"L\r\r"), None);
        assert_eq!(last_record_begins_with(b"L\r"), Some(b'L'));
        assert_eq!(last_record_begins_with(b"L|1\rP|1\r"), Some(b'P'));
        assert_eq!(last_record_begins_with(b"P|1\rLOL\r"), Some(b'L'));
        assert_eq!(last_record_begins_with(b"P|1\r L\r"), Some(b' '));
    }

    #[test]
    fn fields_split_at_bars_alone() {
        let record = b"R|1|^^^64/1/not|46.22|IU/L||H||F||BMSERV|||E1";
        let fields = result_fields(STANDARD, record);
        assert_eq!(fields.test, b"^^^64/1/not");
        assert_eq!(fields.value, b"46.22");
        assert_eq!(fields.units, b"IU/L");
        assert_eq!(fields.flag, b"H");
        assert_eq!(fields.status, b"F");
        assert_eq!(fields.completion, b"");
        let field_14 = |in_force| field(in_force, record, 14);
        assert_eq!(field_14(STANDARD), b"E1");
        assert_eq!(field(STANDARD, record, 15), b"");
        assert_eq!(field(STANDARD, record, 0), b"");
        assert_eq!(field(STANDARD, b"", 1), b"");
        assert_eq!(field(STANDARD, b"H|\\^&", 2), b"\\^&");
        // With others, the bar is text.
        let other = Delimiters::in_order(*b"!~$%");
        assert_eq!(field_14(other), b"");
        assert_eq!(field(other, record, 1), record);
        let record = exchanged(record, STANDARD, other);
        assert_eq!(result_fields(other, &record).test, b"$$$64/1/not");
        assert_eq!(result_fields(other, &record).units, b"IU/L");
    }

    #[test]
    fn a_component_ends_at_any_delimiter_but_the_escape() {
        let whole = b"ab&F&c^d\\e|f\rg";
        let ends = [
            (0, 6),
            (6, 6),
            (7, 8),
            (9, 10),
            (11, 12),
            (13, 14),
            (99, 99),
        ];
        let other = Delimiters::in_order(*b"!~$%");
        let exchanged = exchanged(whole, STANDARD, other);
        for (start, end) in ends {
            assert_eq!(component_end(STANDARD, whole, start), end);
            assert_eq!(component_end(other, &exchanged, start), end);
            // With others, only the CR and the end are left.
            let far = if start <= 12 { 12 } else { end };
            assert_eq!(component_end(other, whole, start), far);
        }
    }
}
