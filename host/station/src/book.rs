//! What the station knows beside the gateway: when each message was stored, how many were today, and which order it is
//! that a line sends. It is saved with the gateway, in one piece.

use chrono::{DateTime, Datelike, Local, TimeZone};
use ngachodui::{Gateway, LINES};
use serde::{Deserialize, Serialize};
use std::collections::VecDeque;

/// Milliseconds since 1970.
pub type Moment = i64;

/// Now, on the wall's clock.
pub fn now() -> Moment {
    Local::now().timestamp_millis()
}

/// A moment as people of this place write it.
pub fn local(moment: Moment) -> DateTime<Local> {
    match Local.timestamp_millis_opt(moment).earliest() {
        Some(time) => time,
        None => Local::now(),
    }
}

/// A message that waits.
#[derive(Clone, Copy, Debug, PartialEq, Serialize, Deserialize)]
pub struct Entry {
    pub serial: u16,
    pub bytes: u32,
    pub stored: Moment,
    /// Its place among all messages of all lines.
    pub place: u64,
}

#[derive(Clone, Debug, PartialEq, Serialize, Deserialize)]
pub struct Book {
    /// The messages that wait on each line, oldest first, and the laboratory that they belong to.
    waiting: [VecDeque<Entry>; LINES],
    laboratories: [String; LINES],
    /// How many messages were stored, in all and on each line today.
    stored: u64,
    today: Day,
    stored_today: [u32; LINES],
    last_stored: [Option<Moment>; LINES],
    /// The order that each line sends.
    sending: [Option<u64>; LINES],
    /// The next order's number.
    next_order: u64,
    /// When messages were last archived, and how many.
    pub archived: Option<(Moment, usize)>,
}

/// A day, by its number.
type Day = i32;

/// The day of a moment, in this place.
pub fn day(moment: Moment) -> Day {
    local(moment).date_naive().num_days_from_ce()
}

/// A moment for people: with its day where that is not today.
pub fn time_of(moment: Moment) -> String {
    let form = match day(moment) == day(now()) {
        true => "%H:%M:%S",
        false => "%-d %b %H:%M:%S",
    };
    local(moment).format(form).to_string()
}

impl Default for Book {
    fn default() -> Book {
        Book {
            waiting: Default::default(),
            laboratories: Default::default(),
            stored: 0,
            today: day(now()),
            stored_today: [0; LINES],
            last_stored: [None; LINES],
            sending: [None; LINES],
            next_order: 1,
            archived: None,
        }
    }
}

impl Book {
    /// A message was just stored on this line; `used` is what the line used before.
    pub fn store(&mut self, gateway: &Gateway, line: u8, used: u32, stored: Moment) -> Entry {
        self.pass(stored);
        let entry = Entry {
            serial: gateway.serial(line).wrapping_sub(1),
            bytes: gateway.used(line) - used - HEADER,
            stored,
            place: self.stored,
        };
        self.stored += 1;
        let line = usize::from(line);
        self.stored_today[line] += 1;
        self.last_stored[line] = Some(stored);
        self.waiting[line].push_back(entry);
        entry
    }

    /// The oldest message of a line was just taken.
    pub fn take(&mut self, line: u8) -> Option<Entry> {
        self.waiting[usize::from(line)].pop_front()
    }

    /// A day may have ended.
    pub fn pass(&mut self, moment: Moment) {
        let today = day(moment);
        if today != self.today {
            self.today = today;
            self.stored_today = [0; LINES];
        }
    }

    pub fn waiting(&self, line: u8) -> impl Iterator<Item = &Entry> {
        self.waiting[usize::from(line)].iter()
    }

    pub fn waiting_count(&self, line: u8) -> usize {
        self.waiting[usize::from(line)].len()
    }

    /// Of these lines the one whose oldest message was stored first.
    pub fn oldest(&self, lines: &[u8]) -> Option<u8> {
        let first = |line: u8| self.waiting(line).next().map(|entry| (entry.place, line));
        let oldest = lines.iter().filter_map(|line| first(*line)).min();
        oldest.map(|(_, line)| line)
    }

    /// Whose the messages of a line are; nobody's where it was never in use.
    pub fn laboratory(&self, line: u8) -> &str {
        &self.laboratories[usize::from(line)]
    }

    /// A line is this laboratory's from now on; what it may still send is nobody's order.
    pub fn hand_over(&mut self, line: u8, laboratory: &str) {
        self.laboratories[usize::from(line)] = laboratory.to_string();
        self.end_sending(line);
    }

    /// A number for an order, at least this one: none is given twice, whatever was forgotten.
    pub fn number_order(&mut self, least: u64) -> u64 {
        let number = self.next_order.max(least);
        self.next_order = number + 1;
        number
    }

    pub fn begin_sending(&mut self, line: u8, order: u64) {
        self.sending[usize::from(line)] = Some(order);
    }

    pub fn end_sending(&mut self, line: u8) {
        self.sending[usize::from(line)] = None;
    }

    /// The order that a line of this gateway sends.
    pub fn sending(&self, gateway: &Gateway, line: u8) -> Option<u64> {
        let sends = gateway.state(line).is_sending();
        self.sending[usize::from(line)].filter(|_| sends)
    }

    pub fn stored_today(&self, line: u8) -> u32 {
        self.stored_today[usize::from(line)]
    }

    pub fn last_stored(&self, line: u8) -> Option<Moment> {
        self.last_stored[usize::from(line)]
    }

    /// Whether these are the messages that wait in the gateway.
    pub fn agrees(&self, gateway: &Gateway) -> bool {
        (0..LINES as u8).all(|line| {
            let told = self.waiting(line).map(|entry| (entry.serial, entry.bytes));
            told.eq(gateway
                .waiting(line)
                .map(|(serial, text)| (serial, text.len() as u32)))
        })
    }
}

/// What the journal counts for a message besides its text.
const HEADER: u32 = 4;

#[cfg(test)]
mod tests {
    use super::*;
    use crate::simulated::texts;

    /// Has the gateway store a message of so many.
    fn store(gateway: &mut Gateway, book: &mut Book, line: u8, number: u32, at: Moment) {
        let text = texts::result(line, number, 1, texts::Size::Small);
        let used = gateway.used(line);
        let mut frames = [0; ngachodui::CUT_LIMIT];
        let length = ngachodui::cut(&text, &mut frames).expect("a message");
        gateway.byte(line, 0x05);
        frames[..length].iter().for_each(|byte| {
            gateway.byte(line, *byte);
        });
        gateway.byte(line, 0x04);
        let entry = book.store(gateway, line, used, at);
        assert_eq!(entry.bytes as usize, text.len());
    }

    #[test]
    fn a_book_agrees_with_its_gateway() {
        let (mut gateway, mut book) = (Gateway::fresh(), Book::default());
        let at = now();
        for (number, line) in [(0, 3), (1, 1), (2, 3)] {
            store(&mut gateway, &mut book, line, number, at);
        }
        assert!(book.agrees(&gateway));
        assert_eq!((book.waiting_count(3), book.waiting_count(1)), (2, 1));
        assert_eq!((book.stored_today(3), book.last_stored(1)), (2, Some(at)));
        let written = serde_json::to_vec(&book).expect("plain data");
        let read: Book = serde_json::from_slice(&written).expect("just written");
        assert_eq!(read, book);

        gateway.take(3, &mut [0; ngachodui::TEXT_LIMIT]);
        assert!(!book.agrees(&gateway));
        assert_eq!(book.take(3).map(|entry| entry.serial), Some(0));
        assert!(book.agrees(&gateway));
        assert!(!Book::default().agrees(&gateway));
    }

    #[test]
    fn the_oldest_of_several_lines() {
        let (mut gateway, mut book) = (Gateway::fresh(), Book::default());
        // The wall's clock was set back in between.
        for (number, line, at) in [(0, 3, 2_000), (1, 1, 1_000)] {
            store(&mut gateway, &mut book, line, number, at);
        }
        assert_eq!(book.oldest(&[1, 3]), Some(3));
        assert_eq!(book.oldest(&[1, 2]), Some(1));
        assert_eq!(book.oldest(&[2]), None);
        book.take(3);
        assert_eq!(book.oldest(&[1, 3]), Some(1));
    }

    #[test]
    fn a_new_day_begins_at_nothing() {
        let (mut gateway, mut book) = (Gateway::fresh(), Book::default());
        let at = now();
        store(&mut gateway, &mut book, 5, 0, at);
        book.pass(at + 1);
        assert_eq!(book.stored_today(5), 1);
        let tomorrow = at + 86_400_000;
        book.pass(tomorrow);
        assert_eq!((book.stored_today(5), book.waiting_count(5)), (0, 1));
        store(&mut gateway, &mut book, 5, 1, tomorrow);
        assert_eq!(book.stored_today(5), 1);
    }
}
