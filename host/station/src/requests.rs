//! What readers and the operator ask, and what they get.

use crate::archive::{self, Archived};
use crate::book::{local, now};
use crate::keeper::{name_of, Damaged, Keeper};
use crate::orders::MOST_WAITING;
use crate::settings::Settings;
use ngachodui::{Answer, Refusal, Speaks, LINES, TEXT_LIMIT};
use serde_json::{json, Value};
use std::io;

/// A request that the keeper answers. Lines are those of the laboratory that asks.
pub enum Request {
    /// The oldest message of these lines.
    Message(Vec<u8>),
    /// This message is to be taken.
    Confirm {
        line: u8,
        serial: u16,
    },
    Waiting(Vec<u8>),
    Refused(Vec<u8>),
    Place {
        line: u8,
        text: Vec<u8>,
    },
    Orders(Vec<u8>),
    Order {
        lines: Vec<u8>,
        number: u64,
    },
    Cancel {
        lines: Vec<u8>,
        number: u64,
    },
    Archive,
}

/// What goes back over HTTP.
#[derive(Clone, Debug, PartialEq)]
pub struct Reply {
    pub status: u16,
    pub kind: &'static str,
    pub headers: Vec<(&'static str, String)>,
    pub body: Vec<u8>,
}

impl Reply {
    pub fn json(status: u16, value: Value) -> Reply {
        Reply {
            status,
            kind: "application/json",
            headers: Vec::new(),
            body: (value.to_string() + "\n").into_bytes(),
        }
    }

    pub fn error(status: u16, why: &str) -> Reply {
        Reply::json(status, json!({ "error": why }))
    }

    pub fn empty() -> Reply {
        Reply {
            status: 204,
            kind: "",
            headers: Vec::new(),
            body: Vec::new(),
        }
    }
}

impl Keeper {
    pub(crate) fn serve(&mut self, request: Request) -> Result<Reply, Damaged> {
        Ok(match request {
            Request::Message(lines) => self.oldest_message(&lines),
            Request::Confirm { line, serial } => return self.confirm(line, serial),
            Request::Waiting(lines) => self.list_waiting(&lines),
            Request::Refused(lines) => {
                let views = lines
                    .iter()
                    .map(|line| (*line, &self.lines[usize::from(*line)]));
                let all: Vec<Value> = views
                    .flat_map(|(line, view)| view.refused_with_text(line))
                    .collect();
                Reply::json(200, json!({ "messages": all }))
            }
            Request::Place { line, text } => self.place(line, &text),
            Request::Orders(lines) => {
                let all: Vec<Value> = self.orders.of_lines(&lines).map(|o| o.told()).collect();
                Reply::json(200, json!({ "orders": all }))
            }
            Request::Order { lines, number } => match self.orders.get(number) {
                Some(order) if lines.contains(&order.line) => Reply::json(200, order.told()),
                _ => no_order(),
            },
            Request::Cancel { lines, number } => self.cancel(&lines, number),
            Request::Archive => match self.archive()? {
                Ok(count) => Reply::json(200, json!({ "messages": count })),
                Err(why) => Reply::error(500, &why),
            },
        })
    }

    fn oldest_message(&self, lines: &[u8]) -> Reply {
        let found = self.book.oldest(lines).and_then(|line| {
            let entry = self.book.waiting(line).next()?;
            let (serial, text) = self.gateway.waiting(line).next()?;
            Some((line, serial, text, entry.stored))
        });
        match found {
            None => Reply::empty(),
            Some((line, serial, text, stored)) => Reply {
                status: 200,
                kind: "application/octet-stream",
                headers: vec![
                    ("message-line", line.to_string()),
                    ("message-serial", serial.to_string()),
                    ("message-stored", local(stored).to_rfc3339()),
                ],
                body: text,
            },
        }
    }

    /// Takes the line's oldest message, if it is this one. A serial that was taken before is no fault: the reader
    /// has not heard our first reply.
    fn confirm(&mut self, line: u8, serial: u16) -> Result<Reply, Damaged> {
        let oldest = self.book.waiting(line).next().map(|entry| entry.serial);
        let waits = self.book.waiting(line).any(|entry| entry.serial == serial);
        let taken = |is_new: bool| Reply::json(200, json!({ "taken": is_new }));
        if oldest == Some(serial) {
            self.take(line)?;
            return Ok(taken(true));
        }
        if waits {
            let why = "an older message of this line waits: it goes first";
            return Ok(Reply::error(409, why));
        }
        let next = oldest.unwrap_or_else(|| self.gateway.serial(line));
        Ok(match next.wrapping_sub(serial) {
            1..=MOST_BEHIND => taken(false),
            _ => Reply::error(404, "no such message"),
        })
    }

    /// The oldest message leaves the gateway, and the book with it.
    fn take(&mut self, line: u8) -> Result<(), Damaged> {
        let mut buffer = [0; TEXT_LIMIT];
        match self.gateway.take(line, &mut buffer) {
            Answer::Taken { length, serial } => {
                self.book.take(line);
                self.has_changed();
                let name = name_of(&self.settings, line);
                self.log.say(format_args!(
                    "{}: 8, message taken, serial {}, {} bytes",
                    name, serial, length
                ));
                Ok(())
            }
            answer => Err(Damaged::at(line, answer)),
        }
    }

    fn list_waiting(&self, lines: &[u8]) -> Reply {
        let mut all: Vec<(u64, Value)> = Vec::new();
        for line in lines {
            for entry in self.book.waiting(*line) {
                let told = json!({
                    "line": line,
                    "serial": entry.serial,
                    "bytes": entry.bytes,
                    "stored": local(entry.stored).to_rfc3339(),
                });
                all.push((entry.place, told));
            }
        }
        all.sort_by_key(|(place, _)| *place);
        let all: Vec<Value> = all.into_iter().map(|(_, told)| told).collect();
        Reply::json(200, json!({ "messages": all }))
    }

    fn place(&mut self, line: u8, text: &[u8]) -> Reply {
        if self.saving.trouble.is_some() {
            // It would be kept, and the reply would say that it is not.
            return cannot_save();
        }
        if self.gateway.speaks(line) != Speaks::Frames {
            return Reply::error(409, "a strip reader takes no orders");
        }
        if self.orders.tally(line).waiting >= MOST_WAITING {
            return Reply::error(429, "as many orders wait on this line as may wait");
        }
        if let Err(refusal) = ngachodui::read(text) {
            return not_a_message(&refusal);
        }
        let name = name_of(&self.settings, line);
        let laboratory = self.settings.laboratory_of(line).unwrap_or("").to_string();
        let number = self.book.number_order(self.orders.next());
        self.has_changed();
        match self.orders.place(number, line, laboratory, text) {
            Ok(order) => {
                self.log
                    .say(format_args!("{}: order {} placed", name, order));
                Reply::json(202, json!({ "order": order }))
            }
            Err(error) => self.not_kept(&error),
        }
    }

    fn cancel(&mut self, lines: &[u8], number: u64) -> Reply {
        match self.orders.get(number) {
            Some(order) if lines.contains(&order.line) => {}
            _ => return no_order(),
        }
        match self.orders.cancel(number) {
            Ok(true) => Reply::json(200, json!({ "cancelled": true })),
            Ok(false) => Reply::error(409, "it does not wait any more"),
            Err(error) => self.not_kept(&error),
        }
    }

    fn not_kept(&self, error: &io::Error) -> Reply {
        self.log
            .say(format_args!("an order is not kept: {}", error));
        Reply::error(
            507,
            "the order cannot be kept, and so nothing is done with it",
        )
    }

    /// Writes every waiting message to the archive, and takes it when the disk has it; how many, or why not.
    pub fn archive(&mut self) -> Result<Result<usize, String>, Damaged> {
        // The archive is a reader too: what goes there is on the disk as stored.
        if !self.saving.is_saved {
            self.save();
        }
        let messages = self.all_waiting();
        self.log
            .say(format_args!("archive: {} messages wait", messages.len()));
        let folder = self.settings.folder.join("archive");
        let written = match &self.saving.trouble {
            Some(why) => Err(format!("saving fails: {}", why)),
            None => archive::write(&folder, &messages).map_err(|error| error.to_string()),
        };
        self.archive_trouble = written.err();
        if let Some(why) = &self.archive_trouble {
            let why = format!("archive: {}; nothing is taken", why);
            self.log.say(&why);
            return Ok(Err(why));
        }
        for message in &messages {
            self.take(message.line)?;
        }
        self.book.archived = Some((now(), messages.len()));
        self.has_changed();
        let count = messages.len();
        self.log.say(format_args!(
            "archive: {} messages written and taken",
            count
        ));
        Ok(Ok(count))
    }

    /// The messages of all lines, in the order of their storing; also of lines that the settings do not name any more.
    fn all_waiting(&self) -> Vec<Archived> {
        let mut messages = Vec::new();
        for line in 0..LINES as u8 {
            let entries = self.book.waiting(line);
            for (entry, (serial, text)) in entries.zip(self.gateway.waiting(line)) {
                let message = Archived {
                    laboratory: self.book.laboratory(line).to_string(),
                    line,
                    serial,
                    stored: entry.stored,
                    text,
                };
                messages.push((entry.place, message));
            }
        }
        messages.sort_by_key(|(place, _)| *place);
        messages.into_iter().map(|(_, message)| message).collect()
    }
}

/// So many serials behind the oldest are known as taken before.
const MOST_BEHIND: u16 = 0x7FFF;

/// To everybody while saving fails.
pub fn cannot_save() -> Reply {
    Reply::error(503, "the station cannot save, and so hands nothing out")
}

fn no_order() -> Reply {
    Reply::error(404, "no such order")
}

fn not_a_message(refusal: &Refusal) -> Reply {
    let record = match refusal {
        Refusal::Faulty { place, .. } => Some(*place),
        _ => None,
    };
    let told = json!({
        "error": format!("not a message: {}", refusal),
        "number": refusal.number(),
        "record": record,
    });
    Reply::json(422, told)
}

/// A line of a laboratory, by what stands in a path.
pub fn own_line(settings: &Settings, laboratory: usize, text: &str) -> Option<u8> {
    let line: u8 = text.parse().ok()?;
    settings
        .lines_of(laboratory)
        .contains(&line)
        .then_some(line)
}
