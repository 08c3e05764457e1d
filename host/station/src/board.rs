//! The board's numbers, for its page and for a monitoring system. No text of a message is among them: everybody
//! looks at the board.

use crate::book::{local, now, Moment};
use crate::keeper::Keeper;
use crate::lines::Told;
use crate::orders::{Tally, UnderWay};
use crate::settings::spoken;
use ngachodui::{State, JOURNAL_SIZE, LINES, SHARE};
use serde::{Serialize, Serializer};
use serde_json::Value;
use std::fmt::Write;
use std::sync::{Arc, RwLock};

/// A moment, which the page gets as people write it, and a monitoring system as seconds since 1970.
#[derive(Clone, Copy)]
struct Time(Moment);

impl Time {
    fn seconds(self) -> f64 {
        self.0 as f64 / 1_000.0
    }
}

impl Serialize for Time {
    fn serialize<S: Serializer>(&self, serializer: S) -> Result<S::Ok, S::Error> {
        serializer.serialize_str(&local(self.0).to_rfc3339())
    }
}

#[derive(Serialize)]
pub struct Board {
    now: Time,
    started: Time,
    saved: Saved,
    journal: Journal,
    archive: Archive,
    orders: Orders,
    lines: Vec<Line>,
}

#[derive(Serialize)]
struct Saved {
    /// Since the station was started.
    at: Option<Time>,
    milliseconds: f64,
    count: u64,
    trouble: Option<String>,
}

#[derive(Serialize)]
struct Journal {
    size: usize,
    in_use: u32,
    claimed: u32,
    share: u32,
}

#[derive(Serialize)]
struct Archive {
    daily: Option<String>,
    last: Option<Time>,
    messages: usize,
    trouble: Option<String>,
}

/// Why what became of orders is not kept.
#[derive(Serialize)]
struct Orders {
    trouble: Option<String>,
}

#[derive(Serialize)]
struct Line {
    line: u8,
    laboratory: String,
    port: String,
    speaks: &'static str,
    connected: bool,
    trouble: Option<String>,
    state: &'static str,
    waiting: usize,
    stored_today: u32,
    last_stored: Option<Time>,
    used: u32,
    answers: Vec<Told>,
    refused: Vec<Value>,
    refused_count: u64,
    sending: Option<UnderWay>,
    orders: Tally,
}

fn named(state: State) -> &'static str {
    match state {
        State::Neutral => "neutral",
        State::Waiting => "waiting",
        State::Inside => "inside",
        State::Asking => "asking",
        State::Pausing => "pausing",
        State::Offering => "offering",
    }
}

impl Board {
    pub fn of(keeper: &Keeper) -> Board {
        let claim = |line: u8| keeper.gateway.used(line).max(SHARE);
        let saving = &keeper.saving;
        let archived = keeper.book.archived;
        Board {
            now: Time(now()),
            started: Time(keeper.started),
            saved: Saved {
                at: saving.at.map(Time),
                milliseconds: saving.took.as_micros() as f64 / 1_000.0,
                count: saving.count(),
                trouble: saving.trouble.clone(),
            },
            journal: Journal {
                size: JOURNAL_SIZE,
                in_use: keeper.gateway.in_use(),
                claimed: (0..LINES as u8).map(claim).sum(),
                share: SHARE,
            },
            archive: Archive {
                daily: keeper
                    .settings
                    .archive_at
                    .map(|time| time.format("%H:%M").to_string()),
                last: archived.map(|(at, _)| Time(at)),
                messages: archived.map_or(0, |(_, count)| count),
                trouble: keeper.archive_trouble.clone(),
            },
            orders: Orders {
                trouble: keeper.orders.trouble(),
            },
            lines: keeper
                .settings
                .lines
                .iter()
                .map(|set| Line::of(keeper, set.number))
                .collect(),
        }
    }

    /// The same numbers as Prometheus reads them. What there is not yet is left out.
    fn metrics(&self) -> String {
        let mut out = String::new();
        for (name, kind, value) in self.whole() {
            let _ = writeln!(out, "# TYPE station_{} {}", name, kind);
            if let Some(value) = value {
                let _ = writeln!(out, "station_{} {}", name, value);
            }
        }
        for (name, kind, value) in EACH_LINE {
            let _ = writeln!(out, "# TYPE station_line_{} {}", name, kind);
            for line in &self.lines {
                if let Some(value) = value(line) {
                    // A laboratory's name has no character that would have to be escaped.
                    let _ = writeln!(
                        out,
                        "station_line_{}{{line=\"{}\",laboratory=\"{}\"}} {}",
                        name, line.line, line.laboratory, value
                    );
                }
            }
        }
        out
    }

    fn whole(&self) -> [(&'static str, &'static str, Option<f64>); 10] {
        let (saved, archive) = (&self.saved, &self.archive);
        let archived = archive.last.map(|_| archive.messages as f64);
        [
            ("start_seconds", GAUGE, Some(self.started.seconds())),
            ("saves_total", COUNTER, Some(saved.count as f64)),
            ("save_milliseconds", GAUGE, Some(saved.milliseconds)),
            ("save_trouble", GAUGE, flag(saved.trouble.is_some())),
            (
                "journal_in_use_bytes",
                GAUGE,
                Some(self.journal.in_use.into()),
            ),
            (
                "journal_claimed_bytes",
                GAUGE,
                Some(self.journal.claimed.into()),
            ),
            ("archive_seconds", GAUGE, archive.last.map(Time::seconds)),
            ("archive_messages", GAUGE, archived),
            ("archive_trouble", GAUGE, flag(archive.trouble.is_some())),
            ("orders_trouble", GAUGE, flag(self.orders.trouble.is_some())),
        ]
    }
}

const GAUGE: &str = "gauge";
const COUNTER: &str = "counter";

/// A number of a line, if there is one yet.
type Measure = fn(&Line) -> Option<f64>;

const EACH_LINE: [(&str, &str, Measure); 10] = [
    ("connected", GAUGE, |line| flag(line.connected)),
    ("messages_waiting", GAUGE, |line| Some(line.waiting as f64)),
    ("messages_stored_today", GAUGE, |line| {
        Some(line.stored_today.into())
    }),
    ("last_stored_seconds", GAUGE, |line| {
        line.last_stored.map(Time::seconds)
    }),
    ("used_bytes", GAUGE, |line| Some(line.used.into())),
    ("messages_refused_total", COUNTER, |line| {
        Some(line.refused_count as f64)
    }),
    ("sending", GAUGE, |line| flag(line.sending.is_some())),
    ("orders_waiting", GAUGE, |line| {
        Some(line.orders.waiting as f64)
    }),
    ("orders_sent_today", GAUGE, |line| {
        Some(line.orders.sent_today as f64)
    }),
    ("orders_failed_today", GAUGE, |line| {
        Some(line.orders.failed_today as f64)
    }),
];

fn flag(is: bool) -> Option<f64> {
    Some(f64::from(u8::from(is)))
}

impl Line {
    fn of(keeper: &Keeper, line: u8) -> Line {
        let set = keeper.settings.lines.iter().find(|set| set.number == line);
        let set = set.expect("a line of the settings");
        let view = &keeper.lines[usize::from(line)];
        Line {
            line,
            laboratory: keeper.settings.laboratories[set.laboratory].name.clone(),
            port: set.port.to_string(),
            speaks: spoken(set.speaks),
            connected: view.is_connected(),
            trouble: view.trouble(),
            state: named(keeper.gateway.state(line)),
            waiting: keeper.book.waiting_count(line),
            stored_today: keeper.book.stored_today(line),
            last_stored: keeper.book.last_stored(line).map(Time),
            used: keeper.gateway.used(line),
            answers: view.answers(),
            refused: view.refused_on_board(),
            refused_count: view.refused_count(),
            sending: keeper.orders.under_way(line),
            orders: keeper.orders.tally(line),
        }
    }
}

/// The last board, for whoever looks: the keeper does not wait for them, nor they for the keeper.
pub struct Published {
    pages: RwLock<Arc<Pages>>,
}

#[derive(Default)]
pub struct Pages {
    pub board: String,
    pub metrics: String,
}

impl Published {
    pub fn new() -> Published {
        Published {
            pages: RwLock::default(),
        }
    }

    pub fn put(&self, board: &Board) {
        let pages = Arc::new(Pages {
            board: serde_json::to_string(board).expect("plain data"),
            metrics: board.metrics(),
        });
        *self.pages.write().expect("nobody panics while writing") = pages;
    }

    pub fn get(&self) -> Arc<Pages> {
        self.pages
            .read()
            .expect("nobody panics while writing")
            .clone()
    }
}

impl Default for Published {
    fn default() -> Published {
        Published::new()
    }
}
