//! The journal: its entries, the chain they must make, and the shares.

use crate::{JOURNAL, LINES};

/// The book beside the journal's bytes. The counts are wider than the journal, so that a test
/// can set them to anything.
#[derive(Clone, PartialEq, Eq, Debug)]
pub struct Ledger {
    /// How many bytes from the journal's start are in use.
    pub in_use: usize,
    /// How many of these each line's entries have, with their headers.
    pub used: [usize; LINES],
    /// The serial each line's next entry gets.
    pub serials: [u16; LINES],
}

/// Bytes of an entry in front of its text. [J1]
pub const HEADER: usize = 4;

/// The longest text of an entry. [R1]
pub const TEXT_LIMIT: usize = 4_000;

/// What every line is sure of. [J5]
pub const SHARE: usize = 2_048;

/// One entry of the journal, as its header tells.
#[derive(Clone, Copy, PartialEq, Eq, Debug)]
pub struct Entry {
    pub start: usize,
    pub line: usize,
    pub length: usize,
    pub serial: u16,
}

impl Entry {
    /// Where the next entry starts.
    pub fn end(&self) -> usize {
        self.start + HEADER + self.length
    }
}

/// The header: 3 bits for the line, a bit that is 0, 12 for the length, 16 for the serial, the
/// highest bit of each in front. [J2]
pub fn header(line: usize, length: usize, serial: u16) -> [u8; HEADER] {
    let [high, low] = serial.to_be_bytes();
    [
        (line << 5 | length >> 8) as u8,
        (length & 0xFF) as u8,
        high,
        low,
    ]
}

/// The entry that starts there, or none where the bytes in use hold no right one.
fn entry_at(journal: &[u8], in_use: usize, start: usize) -> Option<Entry> {
    if in_use - start < HEADER {
        return None;
    }
    let header = &journal[start..start + HEADER];
    // A right entry: the spare bit.
    if header[0] & 0x10 != 0 {
        return None;
    }
    let entry = Entry {
        start,
        line: usize::from(header[0] >> 5),
        length: usize::from(header[0] & 0x0F) << 8 | usize::from(header[1]),
        serial: u16::from_be_bytes([header[2], header[3]]),
    };
    // A right entry: the length.
    if entry.length == 0 || entry.length > TEXT_LIMIT {
        return None;
    }
    // A whole chain: the last entry ends where the bytes in use end.
    if entry.end() > in_use {
        return None;
    }
    Some(entry)
}

/// Room: each line counts with its share, or with what it uses where that is more. [J6]
pub fn fits(used: &[usize; LINES]) -> bool {
    let mut sum: u128 = 0;
    for &count in used {
        sum += count.max(SHARE) as u128;
    }
    sum <= JOURNAL as u128
}

/// Serials: 16 bits, round and round. [J3]
pub fn serial_after(serial: u16) -> u16 {
    serial.wrapping_add(1)
}

impl Ledger {
    /// Nothing stored, and nothing ever numbered.
    pub fn fresh() -> Ledger {
        Ledger {
            in_use: 0,
            used: [0; LINES],
            serials: [0; LINES],
        }
    }

    /// The entries in the bytes in use, or none where these are more than the journal has, or not
    /// right entries up to their end. `journal` is of the right size: 41 comes first.
    pub fn chain(&self, journal: &[u8]) -> Option<Vec<Entry>> {
        if self.in_use > JOURNAL {
            return None;
        }
        let mut entries = Vec::new();
        let mut start = 0;
        while start < self.in_use {
            let entry = entry_at(journal, self.in_use, start)?;
            start = entry.end();
            entries.push(entry);
        }
        Some(entries)
    }

    /// Answer 43: no whole chain, or one that comes to other used counts. [J9]
    pub fn is_broken(&self, journal: &[u8]) -> bool {
        let entries = match self.chain(journal) {
            None => return true,
            Some(entries) => entries,
        };
        let mut sums = [0; LINES];
        for entry in entries {
            sums[entry.line] += HEADER + entry.length;
        }
        sums != self.used
    }

    /// Room for an entry: it is asked of the used counts as they would be with it. The chain is whole:
    /// 43 comes first. [J6]
    pub fn has_room(&self, line: usize, length: usize) -> bool {
        let mut used = self.used;
        used[line] += HEADER + length;
        fits(&used)
    }

    /// Storing: behind all entries that wait. The chain is whole and there is room. [L9, J3]
    pub fn store(&mut self, journal: &mut [u8], line: usize, text: &[u8]) {
        let start = self.in_use;
        let serial = self.serials[line];
        let entry = Entry {
            start,
            line,
            length: text.len(),
            serial,
        };
        journal[start..start + HEADER].copy_from_slice(&header(line, text.len(), serial));
        journal[start + HEADER..entry.end()].copy_from_slice(text);
        self.in_use = entry.end();
        self.used[line] += HEADER + text.len();
        self.serials[line] = serial_after(serial);
    }

    /// The entry that a taking gives: the line's first. The chain is whole: 43 comes first. [J11]
    pub fn oldest(&self, journal: &[u8], line: usize) -> Option<Entry> {
        let entries = self.chain(journal)?;
        entries.into_iter().find(|entry| entry.line == line)
    }

    /// What a taking leaves: the entries behind it move up over it, and behind the new end stands what
    /// stood there before. [J12]
    pub fn remove(&mut self, journal: &mut [u8], entry: Entry) {
        journal.copy_within(entry.end()..self.in_use, entry.start);
        self.in_use -= HEADER + entry.length;
        self.used[entry.line] -= HEADER + entry.length;
    }
}

#[cfg(test)]
mod tests {
    use super::*;

    /// A journal with these entries, each text filled with its entry's number from 1, and 0xEE
    /// behind the end in use.
    fn filled(entries: &[(usize, usize)]) -> (Ledger, Vec<u8>) {
        let mut ledger = Ledger::fresh();
        let mut journal = vec![0xEE; JOURNAL];
        for (index, &(line, length)) in entries.iter().enumerate() {
            ledger.store(&mut journal, line, &vec![index as u8 + 1; length]);
        }
        (ledger, journal)
    }

    #[test]
    fn the_header_is_packed_from_the_most_significant_bit() {
        assert_eq!(header(0, 1, 0), [0x00, 0x01, 0x00, 0x00]);
        assert_eq!(header(7, 4_000, 65_535), [0xEF, 0xA0, 0xFF, 0xFF]);
        assert_eq!(header(5, 0x123, 0xABCD), [0xA1, 0x23, 0xAB, 0xCD]);
    }

    #[test]
    fn stored_entries_make_a_whole_chain() {
        let (ledger, journal) = filled(&[(3, 12), (0, 1), (3, 4_000), (7, 9)]);
        assert!(!ledger.is_broken(&journal));
        assert_eq!(ledger.in_use, 16 + 5 + 4_004 + 13);
        assert_eq!(ledger.used, [5, 0, 0, 4_020, 0, 0, 0, 13]);
        assert_eq!(ledger.serials, [1, 0, 0, 2, 0, 0, 0, 1]);
        assert_eq!(journal[..5], [0x60, 12, 0, 0, 1]);
        assert_eq!(journal[21..26], [0x6F, 0xA0, 0, 1, 3]);
        assert_eq!(journal[ledger.in_use], 0xEE);
    }

    #[test]
    fn an_empty_journal_is_whole() {
        let journal = vec![0xFF; JOURNAL];
        assert!(!Ledger::fresh().is_broken(&journal));
        let mut ledger = Ledger::fresh();
        ledger.used[4] = 1;
        assert!(ledger.is_broken(&journal));
        ledger.used[4] = usize::MAX;
        assert!(ledger.is_broken(&journal));
    }

    #[test]
    fn each_way_to_be_broken() {
        let (whole, bytes) = filled(&[(3, 12), (0, 1), (3, 300)]);
        let broken_at = |index: usize, value: u8| {
            let mut journal = bytes.clone();
            journal[index] = value;
            whole.is_broken(&journal)
        };
        assert!(broken_at(0, 0x70), "spare bit");
        assert!(broken_at(0, 0x40), "another line: the sums differ");
        assert!(broken_at(1, 0), "length 0");
        assert!(broken_at(1, 13), "the chain is off by one");
        assert!(broken_at(22, 0x2D), "the last entry goes past the end");
        assert!(broken_at(22, 0x2B), "a rest of one byte");
        assert!(!broken_at(2, 0xFF), "serials are not tested");
        assert!(!broken_at(4, 0x00), "nor are texts");
        assert!(
            !broken_at(bytes.len() - 1, 0x00),
            "nor what is past the end"
        );

        let broken_with = |change: &dyn Fn(&mut Ledger)| {
            let mut ledger = whole.clone();
            change(&mut ledger);
            ledger.is_broken(&bytes)
        };
        assert!(broken_with(&|ledger| ledger.in_use += 1));
        assert!(broken_with(&|ledger| ledger.in_use -= 1));
        assert!(
            broken_with(&|ledger| ledger.in_use = 21),
            "whole, other sums"
        );
        assert!(broken_with(&|ledger| ledger.in_use = JOURNAL + 1));
        assert!(broken_with(&|ledger| ledger.in_use = usize::MAX));
        assert!(broken_with(&|ledger| ledger.used[3] += 1));
        assert!(broken_with(&|ledger| ledger.used.swap(3, 4)));
        assert!(!broken_with(&|ledger| ledger.serials = [9; LINES]));
    }

    #[test]
    fn lengths_but_1_to_4000_break_the_chain() {
        let cases = [
            (0, true),
            (1, false),
            (4_000, false),
            (4_001, true),
            (4_095, true),
        ];
        for (length, expected) in cases {
            let mut journal = vec![0; JOURNAL];
            journal[..HEADER].copy_from_slice(&header(2, length, 0));
            let mut ledger = Ledger::fresh();
            ledger.in_use = HEADER + length;
            ledger.used[2] = HEADER + length;
            assert_eq!(ledger.is_broken(&journal), expected, "{}", length);
        }
    }

    #[test]
    fn a_journal_in_use_to_its_last_byte_is_whole() {
        let (mut ledger, mut journal) = filled(&[(1, 4_000); 8]);
        let rest = JOURNAL - ledger.in_use - HEADER;
        ledger.store(&mut journal, 6, &vec![0x55; rest]);
        assert_eq!(ledger.in_use, JOURNAL);
        assert!(!ledger.is_broken(&journal));
        // Made by hand: the sum of the larger of used and share is over the journal already.
        assert!(!ledger.has_room(5, 1));
        for beyond in 1..9 {
            ledger.in_use = JOURNAL + beyond;
            assert!(ledger.is_broken(&journal));
        }
    }

    #[test]
    fn room_by_shares_and_not_by_free_bytes() {
        let mut used = [0; LINES];
        used[2] = 18_432;
        assert!(fits(&used));
        used[2] = 18_433;
        assert!(!fits(&used));
        // What another line keeps within its share costs nothing, beyond it everything.
        used[2] = 18_432;
        used[5] = 2_048;
        assert!(fits(&used));
        used[5] = 2_049;
        assert!(!fits(&used));
        assert!(!fits(&[usize::MAX; LINES]));

        let (ledger, _) = filled(&[(2, 4_000), (2, 4_000), (2, 4_000), (2, 4_000)]);
        assert_eq!(ledger.used[2], 16_016);
        assert!(ledger.has_room(2, 18_432 - 16_016 - HEADER));
        assert!(!ledger.has_room(2, 18_433 - 16_016 - HEADER));
    }

    #[test]
    fn the_rest_closes_up_and_the_tail_stays() {
        let (mut ledger, mut journal) = filled(&[(3, 2), (0, 1), (3, 3)]);
        let before = journal.clone();
        let entry = ledger.oldest(&journal, 0).unwrap();
        assert_eq!((entry.start, entry.length, entry.serial), (6, 1, 0));
        ledger.remove(&mut journal, entry);
        assert_eq!(journal[..6], before[..6]);
        assert_eq!(journal[6..13], before[11..18]);
        assert_eq!(journal[13..], before[13..]);
        assert_eq!(ledger.in_use, 13);
        assert_eq!(ledger.used, [0, 0, 0, 13, 0, 0, 0, 0]);
        assert_eq!(ledger.serials, [1, 0, 0, 2, 0, 0, 0, 0]);
        assert!(!ledger.is_broken(&journal));
        assert_eq!(ledger.oldest(&journal, 0), None);
    }

    #[test]
    fn serials_wrap() {
        let (mut ledger, mut journal) = filled(&[]);
        ledger.serials[6] = 65_535;
        ledger.store(&mut journal, 6, b"a");
        ledger.store(&mut journal, 6, b"b");
        assert_eq!(journal[2..4], [0xFF, 0xFF]);
        assert_eq!(journal[7..9], [0x00, 0x00]);
        assert_eq!(ledger.serials[6], 1);
    }
}
