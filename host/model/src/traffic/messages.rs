//! Texts to send, cut or read: right messages, and messages with a fault or two.
//!
//! The rules of messages (R) are written here a second time, from the sender's side, so that the
//! reader in `records` and this writer check each other.

use super::random::Random;
use crate::delimiters::{Delimiters, POSSIBLE};

const CR: u8 = 0x0D;

/// The delimiters of a message: most often the standard ones, else any that are allowed, and now and then
/// the standard ones in another order.
pub fn delimiters(random: &mut Random) -> Delimiters {
    match random.below(9) {
        0 | 1 => different(random, POSSIBLE),
        2 => different(random, b"|\\^&"),
        _ => Delimiters::STANDARD,
    }
}

/// Four of these bytes, no two the same.
fn different(random: &mut Random, from: &[u8]) -> Delimiters {
    let mut left = from.to_vec();
    Delimiters::in_order([(); 4].map(|()| left.swap_remove(random.below(left.len()))))
}

/// Four bytes that no message may name, by one of them: a letter, a digit, a space, a byte beyond those that
/// may, one of the others. `not_text` lets it be a byte that is in no text at all.
pub fn bad_delimiters(random: &mut Random, not_text: bool) -> Delimiters {
    let mut four = delimiters(random).bytes();
    let place = random.below(4);
    four[place] = match random.below(6) {
        0 => random.pick(b"AZHLFSREazhlx"),
        1 => random.pick(b"0123456789"),
        2 => random.pick(&[0x20, 0x07, 0x09, 0x80, 0xA6, 0xFE]),
        3 if not_text => random.pick(&[0x00, 0x0A, 0x1F, 0x7F, 0xFF]),
        _ => four[(place + random.between(1, 3)) % 4],
    };
    Delimiters::in_order(four)
}

/// Where the writing of a message stands: the last record that is neither C nor M, and the numbers
/// given so far.
struct Walk {
    before: u8,
    patients: usize,
    queries: usize,
    orders: usize,
    results: usize,
    comments: usize,
    makers: usize,
}

impl Walk {
    /// Types that may come next, the likelier ones twice; L is left to the end.
    fn choices(&self) -> &'static [u8] {
        match self.before {
            b'H' | b'P' => b"POQCM",
            b'O' => b"OORRPQCM",
            b'R' => b"RROPQCM",
            _ => b"QPCM",
        }
    }

    /// A type that may not come next.
    fn stray(&self, random: &mut Random) -> u8 {
        loop {
            let kind = random.pick(b"HPORQL");
            if !self.choices().contains(&kind) {
                return kind;
            }
        }
    }

    /// The sequence number for a record of this type, whether it may come next or not.
    fn number(&mut self, kind: u8) -> usize {
        if kind != b'C' && kind != b'M' {
            self.comments = 0;
            self.makers = 0;
            self.before = kind;
        }
        let count = match kind {
            b'C' => &mut self.comments,
            b'M' => &mut self.makers,
            b'P' => {
                self.orders = 0;
                &mut self.patients
            }
            b'Q' => &mut self.queries,
            b'O' => {
                self.results = 0;
                &mut self.orders
            }
            b'R' => &mut self.results,
            _ => return 1,
        };
        *count += 1;
        *count
    }
}

/// Fields behind the second one: at most `room` bytes, none of them CR, with delimiters, escapes, stray
/// escape delimiters, bytes that are delimiters elsewhere and the rarer allowed bytes among them.
fn fields(random: &mut Random, four: Delimiters, room: usize) -> Vec<u8> {
    let mut text = Vec::new();
    let most = room.min(random.pick(&[0, 3, 8, 30, 90]));
    while text.len() < most {
        text.push(match random.below(13) {
            0..=3 => four.field,
            4 => four.component,
            5 => four.repeat,
            6 => four.escape,
            12 => random.pick(POSSIBLE),
            7 => random.pick(&[0x07, 0x09, 0x0B, 0x0C, 0x20, 0x7E, 0x80, 0xFE]),
            8 => random.pick(b"HPORQLCM"),
            _ => random.pick(b"0123456789FSREabc.+- "),
        });
    }
    // The delimiter that ends field 2 comes first.
    if let Some(first) = text.first_mut() {
        *first = four.field;
    }
    text
}

/// The first two fields of a record.
fn begun(four: Delimiters, kind: u8, number: usize) -> Vec<u8> {
    [&[kind, four.field], number.to_string().as_bytes()].concat()
}

/// The records of a message with these delimiters, each without its CR, the whole no longer than `longest`,
/// which is at least 11. It is right unless there is a stray: at that place a record of a type that may not
/// stand there, with the number that type would have, so that only the order of types tells.
fn records(
    random: &mut Random,
    four: Delimiters,
    longest: usize,
    stray: Option<usize>,
) -> Vec<Vec<u8>> {
    let mut walk = Walk {
        before: b'H',
        patients: 0,
        queries: 0,
        orders: 0,
        results: 0,
        comments: 0,
        makers: 0,
    };
    // Five bytes are kept for the L record, and each CR is counted. No record takes more than a
    // quarter of the rest, so that short messages too have several.
    let mut room = longest - 5;
    let mut all = Vec::new();
    let mut record = [b"H", &four.bytes()[..]].concat();
    let tail = fields(random, four, (room - record.len() - 1) / 4);
    record.extend_from_slice(&tail);
    while record.len() < room {
        room -= record.len() + 1;
        all.push(record);
        let kind = if stray == Some(all.len()) {
            walk.stray(random)
        } else {
            random.pick(walk.choices())
        };
        record = begun(four, kind, walk.number(kind));
        let tail = fields(random, four, room.saturating_sub(record.len() + 1) / 4);
        record.extend_from_slice(&tail);
    }
    let mut record = begun(four, b'L', 1);
    if random.once_in(2) {
        record.push(four.field);
    }
    all.push(record);
    all
}

fn joined(records: &[Vec<u8>]) -> Vec<u8> {
    let mut text = Vec::new();
    for record in records {
        text.extend_from_slice(record);
        text.push(CR);
    }
    text
}

/// A right message, no longer than `longest`.
pub fn right(random: &mut Random, longest: usize) -> Vec<u8> {
    let four = delimiters(random);
    joined(&records(random, four, longest, None))
}

/// A right message but for its length, which is exactly this: over 4,000 it is none. At least 11.
pub fn exact(random: &mut Random, length: usize) -> Vec<u8> {
    let mut text = right(random, length);
    // What is missing goes into the L record.
    let field = text[1];
    while text.len() < length {
        text.pop();
        let is_second = text.ends_with(&[b'L', field, b'1']);
        text.push(if is_second { field } else { b'x' });
        text.push(CR);
    }
    text
}

/// A message with a fault of the kind a sender makes, or with two; now and then the fault is none. The
/// text is never empty.
pub fn wrong(random: &mut Random, longest: usize) -> Vec<u8> {
    let four = delimiters(random);
    if random.once_in(3) {
        // Short, so that the stray is the only fault.
        let longest = random.between(30, 60);
        let stray = random.between(1, 4);
        return joined(&records(random, four, longest, Some(stray)));
    }
    if random.once_in(8) {
        // Delimiters that are not allowed, used throughout: no record behind the first tells.
        let bad = bad_delimiters(random, false);
        return joined(&records(random, bad, longest, None));
    }
    let mut all = records(random, four, longest, None);
    let place = random.below(all.len());
    match random.below(4) {
        // Two faults in one record: only their order tells which is answered.
        0 => {
            spoil_number(random, four, &mut all[place]);
            spoil_type(random, four, &mut all[place]);
        }
        // Two that may lie apart, the second before the first or behind it.
        1 => {
            spoil(random, four, &mut all, place);
            let other = random.below(all.len());
            spoil(random, four, &mut all, other);
        }
        _ => spoil(random, four, &mut all, place),
    }
    joined(&all)
}

/// One fault, in the record at this place or near it.
fn spoil(random: &mut Random, four: Delimiters, all: &mut Vec<Vec<u8>>, place: usize) {
    match random.below(5) {
        0 => spoil_number(random, four, &mut all[place]),
        1 => spoil_type(random, four, &mut all[place]),
        2 => spoil_order(random, all, place),
        3 => spoil_delimiters(random, four, all, place),
        _ => spoil_ends(random, four, all, place),
    }
}

/// A sequence number: another one, a leading zero, something behind it, none.
fn spoil_number(random: &mut Random, four: Delimiters, record: &mut Vec<u8>) {
    match random.below(5) {
        0 => {
            let number = random.pick(&[&b"0"[..], b"2", b"3", b"10", b"999999", b"1000000"]);
            renumber(four, record, number);
        }
        1 => {
            if let Some(end) = record.iter().position(|&byte| byte == four.field) {
                record.insert(end + 1, b'0');
            }
        }
        2 => {
            let behind = [b' ', b'1', b'x', four.component, four.repeat, four.escape];
            let end = second_end(four, record);
            record.insert(end, random.pick(&behind));
        }
        3 => renumber(four, record, b""),
        _ => record.truncate(1),
    }
}

/// A type: another, a small one, an unknown one, one letter too many. An empty record has none.
fn spoil_type(random: &mut Random, four: Delimiters, record: &mut Vec<u8>) {
    if record.is_empty() {
        return;
    }
    match random.below(4) {
        0 => record[0] = random.pick(b"HPORQLCM"),
        1 => record[0] = record[0].to_ascii_lowercase(),
        2 => record[0] = random.pick(&[b'S', b'X', b'A', b' ', b'1', four.field]),
        _ => record.insert(1, random.pick(&[b' ', b'1', b'L', four.component])),
    }
}

/// The delimiters: bad ones named, now and then with no record behind them, other good ones named, too few
/// of them, or another byte in one record where a field ends.
fn spoil_delimiters(random: &mut Random, four: Delimiters, all: &mut Vec<Vec<u8>>, place: usize) {
    match random.below(4) {
        0 => {
            let bad = bad_delimiters(random, false).bytes();
            name(&mut all[0], bad);
            if random.once_in(6) {
                all.truncate(1);
            }
        }
        1 => {
            let other = different(random, POSSIBLE).bytes();
            name(&mut all[0], other);
        }
        2 => all[0].truncate(random.between(1, 5)),
        _ => {
            let other = match random.below(2) {
                0 => b'|',
                _ => random.pick(POSSIBLE),
            };
            for byte in all[place].iter_mut().filter(|byte| **byte == four.field) {
                *byte = other;
            }
        }
    }
}

/// Has the first record name these, where it is long enough.
fn name(record: &mut [u8], four: [u8; 4]) {
    for (byte, delimiter) in record.iter_mut().skip(1).zip(four) {
        *byte = delimiter;
    }
}

/// The order: two records changed over, one missing, one twice.
fn spoil_order(random: &mut Random, all: &mut Vec<Vec<u8>>, place: usize) {
    let last = all.len() - 1;
    match random.below(4) {
        0 if place > 0 => all.swap(place - 1, place),
        1 if last > 0 => {
            all.remove(place);
        }
        2 => {
            let again = all[place].clone();
            all.insert(place, again);
        }
        _ => all.swap(place, last),
    }
}

/// The head, the end, a record that is none, a CR inside a record.
fn spoil_ends(random: &mut Random, four: Delimiters, all: &mut Vec<Vec<u8>>, place: usize) {
    let last = all.len() - 1;
    let field = four.field;
    match random.below(5) {
        0 => {
            let index = random.below(5);
            if let Some(byte) = all[0].get_mut(index) {
                *byte = random.pick(b"H|\\^&!");
            }
        }
        1 => {
            let ends = [
                &b"L"[..],
                &[b'L', field, b'2'],
                b"LX",
                &[b'L', field],
                &[b'L', b' ', field, b'1'],
            ];
            all[last] = random.pick(&ends).to_vec();
        }
        2 => {
            let kind = random.pick(b"CMLP ");
            all.push(match kind {
                b' ' => Vec::new(),
                _ => begun(four, kind, 1),
            });
        }
        3 => all.insert(place, Vec::new()),
        _ => {
            let index = random.below(all[place].len() + 1);
            all[place].insert(index, CR);
        }
    }
}

/// Where field 2 of a record ends.
fn second_end(four: Delimiters, record: &[u8]) -> usize {
    let mut ends = record
        .iter()
        .enumerate()
        .filter(|(_, &byte)| byte == four.field)
        .map(|(place, _)| place);
    ends.nth(1).unwrap_or(record.len())
}

fn renumber(four: Delimiters, record: &mut Vec<u8>, number: &[u8]) {
    let end = second_end(four, record);
    if end >= 2 {
        record.splice(2..end, number.iter().copied());
    }
}

/// Text for escaping and unescaping with these delimiters: many of them, whole and half escapes, and bytes
/// that are delimiters elsewhere.
pub fn component(random: &mut Random, four: Delimiters) -> Vec<u8> {
    let mut text = Vec::new();
    for _ in 0..random.below(12) {
        match random.below(7) {
            0 => text.extend_from_slice(&[four.escape, random.pick(b"FSRE"), four.escape]),
            1 => text.push(random.pick(b"FSREfx")),
            2 if random.once_in(4) => text.push(random.pick(&four.bytes())),
            3 if random.once_in(4) => text.push(random.byte()),
            4 if random.once_in(4) => text.push(random.pick(POSSIBLE)),
            _ => text.push(random.pick(b"abc 123")),
        }
    }
    text
}

#[cfg(test)]
mod tests {
    use super::*;
    use crate::delimiters::exchanged;
    use crate::{escape, field, is_message, read, unescape};

    #[test]
    fn delimiters_of_both_sorts() {
        let mut random = Random::new(7);
        let mut standard = 0;
        let mut seen = [[0; 256]; 4];
        let mut reasons = [0; 5];
        for _ in 0..4_000 {
            let good = delimiters(&mut random);
            assert!(good.are_allowed(), "{:?}", good);
            standard += usize::from(good == Delimiters::STANDARD);
            for (counts, byte) in seen.iter_mut().zip(good.bytes()) {
                counts[usize::from(byte)] += 1;
            }
            let bad = bad_delimiters(&mut random, true);
            assert!(!bad.are_allowed(), "{:?}", bad);
            let has = |sort: fn(u8) -> bool| bad.bytes().iter().any(|byte| sort(*byte));
            let sorts = [
                has(|byte| byte.is_ascii_alphabetic()),
                has(|byte| byte.is_ascii_digit()),
                has(|byte| crate::texts::is_allowed(byte) && !(0x21..=0x7E).contains(&byte)),
                has(|byte| !crate::texts::is_allowed(byte)),
                !has(|byte| !POSSIBLE.contains(&byte)),
            ];
            for (count, is_so) in reasons.iter_mut().zip(sorts) {
                *count += usize::from(is_so);
            }
        }
        assert!((2_000..3_500).contains(&standard), "{}", standard);
        for counts in seen {
            assert!(POSSIBLE.iter().all(|byte| counts[usize::from(*byte)] > 0));
        }
        assert!(reasons.iter().all(|&count| count > 300), "{:?}", reasons);
    }

    #[test]
    fn any_text_reads_the_same_with_its_delimiters_exchanged() {
        let mut random = Random::new(8);
        for round in 0..4_000 {
            let text = match round % 2 {
                0 => right(&mut random, 120),
                _ => wrong(&mut random, 120),
            };
            let from = different(&mut random, POSSIBLE);
            let to = different(&mut random, POSSIBLE);
            let other = exchanged(&text, from, to);
            assert_eq!(read(&other), read(&text), "{:?} {:?}", text, other);
            assert_eq!(exchanged(&other, to, from), text);
        }
    }

    #[test]
    fn right_messages_are_messages_of_every_type() {
        let mut random = Random::new(1);
        let mut types = Vec::new();
        for _ in 0..2_000 {
            let longest = random.pick(&[11, 12, 40, 400, 4_000]);
            let text = right(&mut random, longest);
            assert!(text.len() <= longest);
            for record in read(&text).unwrap() {
                types.push(record.kind);
            }
        }
        for kind in b"HPORQLCM" {
            assert!(types.contains(kind));
        }
    }

    #[test]
    fn exact_messages_have_their_length() {
        let mut random = Random::new(2);
        for length in (11..60).chain(3_980..4_010) {
            let text = exact(&mut random, length);
            assert_eq!(text.len(), length);
            assert_eq!(is_message(&text), length <= 4_000, "{}", length);
        }
    }

    #[test]
    fn most_wrong_messages_are_none() {
        let mut random = Random::new(3);
        let accepted = (0..2_000)
            .filter(|_| is_message(&wrong(&mut random, 200)))
            .count();
        assert!((20..600).contains(&accepted), "{}", accepted);
    }

    #[test]
    fn every_fault_in_many_places() {
        let mut random = Random::new(5);
        let mut places = vec![Vec::new(); 256];
        for _ in 0..4_000 {
            let text = wrong(&mut random, 200);
            if let Err(refusal) = read(&text) {
                places[usize::from(refusal.number)].push(refusal.place);
            }
        }
        for (number, places) in places.iter_mut().enumerate() {
            places.sort_unstable();
            places.dedup();
            match number {
                50 | 55 => assert_eq!(*places, [1]),
                51..=53 => assert!(places.len() > 10, "{}: {:?}", number, places),
                _ => assert!(places.is_empty(), "{}", number),
            }
        }
    }

    fn has_no_type(four: Delimiters, record: &[u8]) -> bool {
        !matches!(field(four, record, 1), [letter] if b"HPORQLCM".contains(letter))
    }

    fn has_no_number(four: Delimiters, record: &[u8]) -> bool {
        let number = field(four, record, 2);
        number.is_empty() || number.iter().any(|byte| !byte.is_ascii_digit())
    }

    /// The places of the records behind the first that have this fault, whatever else is wrong. Without a
    /// header that names delimiters no record can be looked at.
    fn places(text: &[u8], has_fault: fn(Delimiters, &[u8]) -> bool) -> Vec<usize> {
        let records: Vec<&[u8]> = text[..text.len() - 1].split(|&byte| byte == CR).collect();
        let four = match Delimiters::of(records[0]) {
            Some(four) if four.are_allowed() => four,
            _ => return Vec::new(),
        };
        let wrong = (1..records.len()).filter(|&index| has_fault(four, records[index]));
        wrong.map(|index| index + 1).collect()
    }

    #[test]
    fn bad_delimiters_with_and_without_a_later_fault() {
        let mut random = Random::new(9);
        let (mut alone, mut with_more, mut only_record) = (0, 0, 0);
        for _ in 0..8_000 {
            let text = wrong(&mut random, 100);
            if read(&text).map_err(|refusal| refusal.number) != Err(55) {
                continue;
            }
            if text.iter().filter(|&&byte| byte == CR).count() == 1 {
                only_record += 1;
            }
            // The same records behind a header whose delimiters are allowed.
            let mut four = text[1..5].to_vec();
            if !POSSIBLE.contains(&four[0]) {
                continue;
            }
            let others = POSSIBLE.iter().filter(|byte| **byte != text[1]);
            four.splice(1.., others.copied().take(3));
            match read(&[b"H", &four[..], &text[5..]].concat()) {
                Ok(_) => alone += 1,
                Err(_) => with_more += 1,
            }
        }
        let seen = [alone, with_more, only_record];
        assert!(seen.iter().all(|&count| count > 5), "{:?}", seen);
    }

    #[test]
    fn two_faults_in_both_orders_and_in_one_record() {
        let mut random = Random::new(6);
        let (mut before, mut behind, mut both) = (0, 0, 0);
        for _ in 0..4_000 {
            let text = wrong(&mut random, 100);
            let numbers = places(&text, has_no_number);
            for place in places(&text, has_no_type) {
                before += numbers.iter().filter(|&&other| other < place).count();
                behind += numbers.iter().filter(|&&other| other > place).count();
                both += numbers.iter().filter(|&&other| other == place).count();
            }
        }
        let seen = [before, behind, both];
        assert!(seen.iter().all(|&count| count > 20), "{:?}", seen);
    }

    #[test]
    fn components_of_both_sorts() {
        let mut random = Random::new(4);
        let mut accepted = 0;
        for _ in 0..2_000 {
            let four = delimiters(&mut random);
            let text = component(&mut random, four);
            let mut out = [0; 200];
            let length = escape(four, &text, &mut out).unwrap();
            let mut back = [0; 200];
            let again = unescape(four, &out[..length], &mut back).unwrap();
            assert_eq!(back[..again], text[..]);
            if unescape(four, &text, &mut out).is_ok() {
                accepted += 1;
            }
        }
        assert!((400..1_800).contains(&accepted), "{}", accepted);
    }
}
