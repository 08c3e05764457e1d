//! Work orders: kept in files of their own until their analyzer has acknowledged them, and a while longer.

use crate::book::{day, local, now, Moment};
use crate::settings::OrderSettings;
use crate::store::{sync_folder, write_whole};
use ngachodui::LINES;
use serde::{Deserialize, Serialize};
use serde_json::{json, Value};
use std::collections::{BTreeMap, BTreeSet};
use std::fs;
use std::io;
use std::path::{Path, PathBuf};
use std::time::Instant;

/// So many orders may wait on a line, and of those that are over so many of each line are kept.
pub const MOST_WAITING: usize = 100;
const MOST_OVER: usize = 1_000;

const GOES_OUT: &str = "goes out";

#[derive(Clone, Copy, Debug, PartialEq, Serialize, Deserialize)]
#[serde(rename_all = "lowercase")]
pub enum Stage {
    Waiting,
    Sending,
    Sent,
    Failed,
    Cancelled,
}

impl Stage {
    fn is_over(self) -> bool {
        !matches!(self, Stage::Waiting | Stage::Sending)
    }
}

/// An order; its text stands behind this in its file.
#[derive(Clone, Debug, Serialize, Deserialize)]
pub struct Order {
    order: u64,
    pub line: u8,
    /// Whose it is: the line may go to another laboratory.
    laboratory: String,
    state: Stage,
    starts: u32,
    placed: Moment,
    changed: Moment,
    words: String,
    #[serde(skip)]
    text: Vec<u8>,
}

impl Order {
    pub fn told(&self) -> Value {
        json!({
            "order": self.order,
            "line": self.line,
            "state": self.state,
            "starts": self.starts,
            "placed": local(self.placed).to_rfc3339(),
            "changed": local(self.changed).to_rfc3339(),
            "words": self.words,
        })
    }

    fn turn(&mut self, state: Stage, words: &str) {
        self.state = state;
        self.words = words.to_string();
        self.changed = now();
    }

    /// A line of JSON, and the text as it was placed.
    fn file(&self) -> Vec<u8> {
        let mut bytes = serde_json::to_vec(self).expect("plain data");
        bytes.push(b'\n');
        bytes.extend_from_slice(&self.text);
        bytes
    }

    fn of_file(bytes: &[u8]) -> Result<Order, String> {
        let end = bytes
            .iter()
            .position(|byte| *byte == b'\n')
            .ok_or("it has no line")?;
        let mut order: Order =
            serde_json::from_slice(&bytes[..end]).map_err(|error| error.to_string())?;
        order.text = bytes[end + 1..].to_vec();
        Ok(order)
    }
}

/// All orders, and which of them the disk does not have yet.
pub struct Orders {
    folder: PathBuf,
    settings: OrderSettings,
    orders: BTreeMap<u64, Order>,
    unsaved: BTreeSet<u64>,
    /// Why orders cannot be kept, and what was said of that last.
    trouble: Option<String>,
    said: Option<String>,
    /// No order is begun on a line before then.
    rests_until: [Option<Instant>; LINES],
}

/// What is told of a line's orders: how many wait, and how many of those that were sent or failed did so today.
#[derive(Clone, Copy, Debug, Default, PartialEq, Serialize)]
pub struct Tally {
    pub waiting: usize,
    pub sent_today: usize,
    pub failed_today: usize,
}

/// The order that a line sends.
#[derive(Clone, Debug, PartialEq, Serialize)]
pub struct UnderWay {
    order: u64,
    since: String,
    starts: u32,
}

impl Orders {
    /// Loads what the folder has. `sends` says which order a line sends.
    pub fn load(
        folder: &Path,
        settings: OrderSettings,
        sends: impl Fn(u8) -> Option<u64>,
    ) -> Result<Orders, String> {
        let told = |path: &Path, why: String| format!("{}: {}", path.display(), why);
        fs::create_dir_all(folder).map_err(|error| told(folder, error.to_string()))?;
        let mut orders = Orders {
            folder: folder.to_path_buf(),
            settings,
            orders: BTreeMap::new(),
            unsaved: BTreeSet::new(),
            trouble: None,
            said: None,
            rests_until: [None; LINES],
        };
        let names = fs::read_dir(folder).map_err(|error| told(folder, error.to_string()))?;
        for name in names {
            let path = name
                .map_err(|error| told(folder, error.to_string()))?
                .path();
            // What a kill has left half written has no number for a name.
            let number = path
                .file_name()
                .and_then(|name| name.to_str()?.parse().ok());
            if let Some(number) = number {
                let bytes = fs::read(&path).map_err(|error| told(&path, error.to_string()))?;
                let order = Order::of_file(&bytes).map_err(|why| told(&path, why))?;
                orders.orders.insert(number, order);
            }
        }
        orders.follow(sends);
        Ok(orders)
    }

    /// A kill may leave these files ahead of the gateway, and what a line sends is the gateway's to say: `sends` says it.
    /// What else was to go out waits again; and an order that goes out is not over, unless it has arrived.
    pub fn follow(&mut self, sends: impl Fn(u8) -> Option<u64>) {
        let turn = |order: &Order| {
            let goes_out = sends(order.line) == Some(order.order);
            match order.state {
                Stage::Sending if !goes_out => Some(Stage::Waiting),
                Stage::Waiting | Stage::Failed | Stage::Cancelled if goes_out => {
                    Some(Stage::Sending)
                }
                _ => None,
            }
        };
        let turns = self.orders.values();
        let turns = turns.filter_map(|order| Some((order.order, turn(order)?)));
        let turns: Vec<(u64, Stage)> = turns.collect();
        for (number, stage) in turns {
            let words = match stage {
                Stage::Sending => GOES_OUT,
                _ => "stopped with the station; started again",
            };
            self.change(number, stage, words);
        }
    }

    fn path(&self, number: u64) -> PathBuf {
        self.folder.join(number.to_string())
    }

    /// The number behind those of all orders here.
    pub fn next(&self) -> u64 {
        self.orders.keys().last().map_or(1, |last| last + 1)
    }

    /// A text that is a message is to be sent on a line. It is kept when this returns.
    pub fn place(
        &mut self,
        number: u64,
        line: u8,
        laboratory: String,
        text: &[u8],
    ) -> io::Result<u64> {
        let at = now();
        let order = Order {
            order: number,
            line,
            laboratory,
            state: Stage::Waiting,
            starts: 0,
            placed: at,
            changed: at,
            words: "waits for its line".to_string(),
            text: text.to_vec(),
        };
        if let Err(error) = self.keep(&order) {
            // It may be there even so, and is told to be not.
            let _ = fs::remove_file(self.path(number));
            return Err(error);
        }
        self.orders.insert(number, order);
        Ok(number)
    }

    /// Writes an order's file, and returns when the disk has it.
    fn keep(&mut self, order: &Order) -> io::Result<()> {
        let kept = write_whole(&self.path(order.order), &order.file());
        if let Err(error) = &kept {
            self.trouble = Some(error.to_string());
        }
        kept
    }

    /// Cancels a waiting order. False: it does not wait.
    pub fn cancel(&mut self, number: u64) -> io::Result<bool> {
        let waits = self.orders.get(&number).map(|order| order.state) == Some(Stage::Waiting);
        if waits {
            self.change_kept(number, |order| {
                order.turn(Stage::Cancelled, "cancelled before it was sent")
            })?;
        }
        Ok(waits)
    }

    pub fn get(&self, number: u64) -> Option<&Order> {
        self.orders.get(&number)
    }

    pub fn of_lines<'a>(&'a self, lines: &'a [u8]) -> impl Iterator<Item = &'a Order> {
        self.orders
            .values()
            .filter(move |order| lines.contains(&order.line))
    }

    pub fn tally(&self, line: u8) -> Tally {
        let mut tally = Tally::default();
        let today = day(now());
        for order in self.of_lines(&[line]) {
            match order.state {
                Stage::Waiting => tally.waiting += 1,
                Stage::Sent if day(order.changed) == today => tally.sent_today += 1,
                Stage::Failed if day(order.changed) == today => tally.failed_today += 1,
                _ => {}
            }
        }
        tally
    }

    fn sending(&self, line: u8) -> Option<&Order> {
        let is_sent = |order: &&Order| order.line == line && order.state == Stage::Sending;
        self.orders.values().find(is_sent)
    }

    pub fn under_way(&self, line: u8) -> Option<UnderWay> {
        self.sending(line).map(|order| UnderWay {
            order: order.order,
            since: local(order.changed).to_rfc3339(),
            starts: order.starts,
        })
    }

    /// The oldest waiting order of a line, with its text, if one may be begun now.
    pub fn due(&self, line: u8, at: Instant) -> Option<(u64, Vec<u8>)> {
        if self.rests_until[usize::from(line)].map_or(false, |until| at < until) {
            return None;
        }
        let waits = |order: &&Order| order.line == line && order.state == Stage::Waiting;
        let first = self.orders.values().find(waits)?;
        Some((first.order, first.text.clone()))
    }

    /// An order goes out: that is kept before its line sends, so that a line never sends one that is told to wait.
    pub fn started(&mut self, number: u64) -> io::Result<()> {
        self.change_kept(number, |order| {
            order.turn(Stage::Sending, GOES_OUT);
            order.starts += 1;
        })
    }

    /// The sending on a line is over.
    pub fn ended(&mut self, line: u8, acknowledged: bool, words: &str, at: Instant) -> Option<u64> {
        if !acknowledged {
            self.rest(line, at);
        }
        // None, if it had arrived already when the station was killed.
        let (number, starts) = self
            .sending(line)
            .map(|order| (order.order, order.starts))?;
        let stage = match acknowledged {
            true => Stage::Sent,
            false if starts >= self.settings.starts => Stage::Failed,
            false => Stage::Waiting,
        };
        self.change(number, stage, words);
        Some(number)
    }

    /// A line begins no order for a while: its analyzer wants to send, or is not ready.
    pub fn rest(&mut self, line: u8, at: Instant) {
        self.rests_until[usize::from(line)] = Some(at + self.settings.again);
    }

    /// Changes an order and keeps that, or does neither.
    fn change_kept(&mut self, number: u64, change: impl FnOnce(&mut Order)) -> io::Result<()> {
        let mut changed = self.orders[&number].clone();
        change(&mut changed);
        self.keep(&changed)?;
        self.orders.insert(number, changed);
        Ok(())
    }

    /// Changes an order; [`Orders::save`] keeps that. What happened, happened, whether the disk takes it or not.
    fn change(&mut self, number: u64, state: Stage, words: &str) {
        if let Some(order) = self.orders.get_mut(&number) {
            order.turn(state, words);
            self.unsaved.insert(number);
        }
    }

    /// Keeps what has changed, and forgets what has been over for long. What fails is tried again the next time.
    pub fn save(&mut self) {
        let saved = self.save_all();
        self.trouble = saved.err().map(|error| error.to_string());
    }

    fn save_all(&mut self) -> io::Result<()> {
        if self.trouble.is_some() {
            // Whether it is over: nobody may place an order for long.
            let tried = self.folder.join("tried");
            write_whole(&tried, &[0; 4_096])?;
            fs::remove_file(tried)?;
        }
        while let Some(number) = self.unsaved.iter().next().copied() {
            write_whole(&self.path(number), &self.orders[&number].file())?;
            self.unsaved.remove(&number);
        }
        for line in 0..LINES as u8 {
            let over = self.over(line);
            self.forget(&over[..over.len().saturating_sub(MOST_OVER)])?;
        }
        Ok(())
    }

    /// The orders of a line that are over, by when that was.
    fn over(&self, line: u8) -> Vec<u64> {
        let own = self.orders.values().filter(|order| order.line == line);
        let over = own.filter(|order| order.state.is_over());
        let mut over: Vec<&Order> = over.collect();
        over.sort_by_key(|order| order.changed);
        over.iter().map(|order| order.order).collect()
    }

    pub fn trouble(&self) -> Option<String> {
        self.trouble.clone()
    }

    /// What is to be said of keeping orders, if that is another than the last time.
    pub fn news(&mut self) -> Option<String> {
        let is_news = self.trouble != self.said;
        self.said = self.trouble.clone();
        is_news.then(|| match &self.trouble {
            Some(why) => format!("orders are not kept: {}", why),
            None => "orders are kept again".to_string(),
        })
    }

    fn of_others<'a>(&'a self, line: u8, laboratory: &'a str) -> impl Iterator<Item = &'a Order> {
        let own = self.orders.values().filter(move |order| order.line == line);
        own.filter(move |order| order.laboratory != laboratory)
    }

    /// A laboratory other than this one that has an order on the line which is not over.
    pub fn unfinished_of_others<'a>(&'a self, line: u8, laboratory: &'a str) -> Option<&'a str> {
        let mut others = self.of_others(line, laboratory);
        let unfinished = others.find(|order| !order.state.is_over());
        unfinished.map(|order| &*order.laboratory)
    }

    /// A line is this laboratory's, which is not to see the orders of others.
    pub fn hand_over(&mut self, line: u8, laboratory: &str) -> io::Result<()> {
        let others = self.of_others(line, laboratory);
        let others: Vec<u64> = others.map(|order| order.order).collect();
        self.forget(&others)
    }

    fn forget(&mut self, numbers: &[u64]) -> io::Result<()> {
        for number in numbers {
            fs::remove_file(self.path(*number))?;
            self.orders.remove(number);
            self.unsaved.remove(number);
        }
        match numbers {
            [] => Ok(()),
            _ => sync_folder(&self.folder),
        }
    }
}
