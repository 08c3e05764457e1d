//! Plays the analyzers and strip readers of a station that runs, and its laboratories' readers.
//!
//! `rehearsal SETTINGS [SECONDS]`: the settings are the station's own. Each line whose port is a pseudo-terminal of
//! the station gets a device; each laboratory takes its messages over HTTP. It ends after so many seconds, or at
//! SIGINT or SIGTERM.

use ngachodui_station::client::Client;
use ngachodui_station::simulated::texts::{faulty, order, result, Size};
use ngachodui_station::simulated::{Analyzer, Cable, Chance, Fate, Noise, OrderTaker, StripReader};
use serde::Deserialize;
use std::env;
use std::fs;
use std::net::SocketAddr;
use std::path::{Path, PathBuf};
use std::process::ExitCode;
use std::sync::atomic::{AtomicU32, Ordering};
use std::sync::Arc;
use std::thread;
use std::time::{Duration, Instant};
use tokio::signal::unix::{signal, SignalKind};

/// Bytes a second on a line of 9,600 baud, and on that of who floods.
const PACE: u32 = 960;
const FAST_PACE: u32 = 3_840;

/// How long a device waits for a reply, and behind an ENQ that was refused: less than the standard has, so that
/// there is something to see.
const PATIENCE: Duration = Duration::from_secs(3);
const PAUSE: Duration = Duration::from_secs(2);

/// So many messages a laboratory takes when it comes by.
const MOST_TAKEN: u32 = 5;

/// So often it is told how far it is.
const EVERY: Duration = Duration::from_secs(10);

/// What is needed of the station's settings.
#[derive(Deserialize)]
struct Settings {
    folder: PathBuf,
    #[serde(default = "listen")]
    listen: String,
    laboratory: Vec<Laboratory>,
    line: Vec<Line>,
}

fn listen() -> String {
    "127.0.0.1:8917".to_string()
}

#[derive(Clone, Deserialize)]
struct Laboratory {
    name: String,
    token: String,
}

#[derive(Clone, Deserialize)]
struct Line {
    number: u8,
    laboratory: String,
    terminal: Option<PathBuf>,
    #[serde(default)]
    speaks: String,
}

impl Settings {
    fn read(path: &Path) -> Result<Settings, String> {
        let told = |error: String| format!("{}: {}", path.display(), error);
        let text = fs::read_to_string(path).map_err(|error| told(error.to_string()))?;
        let mut settings: Settings =
            toml::from_str(&text).map_err(|error| told(error.to_string()))?;
        let near = path.parent().unwrap_or_else(|| Path::new("."));
        settings.folder = near.join(&settings.folder);
        settings.line.sort_by_key(|line| line.number);
        Ok(settings)
    }
}

/// How a device behaves.
#[derive(Clone, Copy, PartialEq)]
enum Role {
    Polite,
    Noisy,
    Floods,
    Careless,
    TakesOrders,
    Strips(usize),
}

/// Those of the lines of frames, in their order; who comes behind them is polite.
const ROLES: [Role; 6] = [
    Role::Polite,
    Role::Noisy,
    Role::Floods,
    Role::Polite,
    Role::Careless,
    Role::TakesOrders,
];

impl Role {
    fn words(self) -> &'static str {
        match self {
            Role::Polite => "a polite analyzer",
            Role::Noisy => "an analyzer on a noisy cable",
            Role::Floods => "an analyzer that floods with calibrations",
            Role::Careless => "an analyzer that now and then sends a wrong record",
            Role::TakesOrders => "an analyzer that takes orders",
            Role::Strips(_) => "a strip reader",
        }
    }
}

/// What has happened so far.
#[derive(Default)]
struct Tally {
    acknowledged: AtomicU32,
    refused: AtomicU32,
    unsure: AtomicU32,
    taken: AtomicU32,
    placed: AtomicU32,
    arrived: AtomicU32,
}

impl Tally {
    fn words(&self) -> String {
        let read = |count: &AtomicU32| count.load(Ordering::Relaxed);
        format!(
            "messages: {} acknowledged, {} refused, {} unsure, {} taken; orders: {} placed, {} arrived",
            read(&self.acknowledged),
            read(&self.refused),
            read(&self.unsure),
            read(&self.taken),
            read(&self.placed),
            read(&self.arrived)
        )
    }
}

fn count(counter: &AtomicU32) {
    counter.fetch_add(1, Ordering::Relaxed);
}

fn say(words: &str) {
    println!("rehearsal: {}", words);
}

/// A device on its line, with its own chances.
struct Device {
    line: u8,
    laboratory: String,
    tally: Arc<Tally>,
    chance: Chance,
    number: u32,
}

impl Device {
    fn play(mut self, cable: Cable, role: Role) {
        match role {
            Role::Strips(characters) => self.press(cable, characters),
            Role::TakesOrders => self.take_orders(self.analyzer(cable)),
            _ => self.send(self.analyzer(cable), role),
        }
    }

    fn analyzer(&self, cable: Cable) -> Analyzer {
        Analyzer {
            patience: PATIENCE,
            pause: PAUSE,
            pace: Some(PACE),
            ..Analyzer::new(cable)
        }
    }

    /// An analyzer sends for ever.
    fn send(&mut self, mut analyzer: Analyzer, role: Role) {
        match role {
            Role::Noisy => analyzer.spoil = Some(Noise::seeded(self.line.into(), 400, 20)),
            Role::Floods => analyzer.pace = Some(FAST_PACE),
            _ => {}
        }
        loop {
            let messages = self.messages(role);
            let fates = analyzer.transfer(&messages);
            self.tell(&fates);
            if role != Role::Floods {
                self.rest(2, 6);
            } else if fates.contains(&Fate::Refused) {
                say(&format!(
                    "line {}, {}: no room for calibration {}",
                    self.line, self.laboratory, self.number
                ));
                self.rest(6, 9);
            }
        }
    }

    /// What goes out in the next transfer.
    fn messages(&mut self, role: Role) -> Vec<Vec<u8>> {
        match role {
            Role::Floods => vec![self.message(Size::Calibration)],
            Role::Careless if self.chance.one_in(4) => {
                self.number += 1;
                let number = self.number;
                say(&format!("line {}: a wrong record goes out", self.line));
                vec![faulty(number)]
            }
            _ => {
                let count = 1 + self.chance.below(3);
                (0..count).map(|_| self.message(Size::Usual)).collect()
            }
        }
    }

    fn message(&mut self, size: Size) -> Vec<u8> {
        self.number += 1;
        result(self.line, self.number, 0, size)
    }

    /// An analyzer that takes orders, and measures what they ask for.
    fn take_orders(&mut self, analyzer: Analyzer) {
        let mut taker = OrderTaker::new(analyzer);
        loop {
            let rest = self.chance.between(seconds(6), seconds(10));
            taker.run(Instant::now() + rest);
            for text in taker.arrived() {
                count(&self.tally.arrived);
                let bytes = text.len();
                let laboratory = &self.laboratory;
                say(&format!(
                    "line {}, {}: an order of {} bytes has arrived",
                    self.line, laboratory, bytes
                ));
            }
            let message = self.message(Size::Usual);
            let fates = taker.transfer(&[message]);
            self.tell(&fates);
        }
    }

    /// Somebody presses a strip reader's key.
    fn press(&mut self, cable: Cable, characters: usize) {
        let mut reader = StripReader::new(cable, self.line, characters);
        reader.patience = PATIENCE;
        let mut acknowledged = 0;
        loop {
            self.number += 1 + self.chance.below(3);
            // It keeps what was not acknowledged.
            let numbers: Vec<u32> = (acknowledged + 1..=self.number).collect();
            let fates = reader.press(&numbers);
            let is_over = |fate: &&Fate| **fate == Fate::Acknowledged;
            acknowledged += fates.iter().filter(is_over).count() as u32;
            self.tell(&fates);
            self.rest(5, 9);
        }
    }

    fn rest(&mut self, least: u64, most: u64) {
        let rest = self.chance.between(seconds(least), seconds(most));
        thread::sleep(rest);
    }

    fn tell(&self, fates: &[Fate]) {
        for fate in fates {
            match fate {
                Fate::Acknowledged => count(&self.tally.acknowledged),
                Fate::Refused => count(&self.tally.refused),
                Fate::Unsure => count(&self.tally.unsure),
                Fate::NotSent => {}
            }
        }
    }
}

/// A laboratory's reader, and who places its orders.
struct Reader {
    name: String,
    client: Client,
    tally: Arc<Tally>,
    chance: Chance,
    is_slow: bool,
    /// The line for which it has orders.
    orders: Option<u8>,
}

impl Reader {
    /// Comes by for what waits, for ever: a slow one takes a message at a time, another some.
    fn read(mut self) {
        let mut order_due = Instant::now() + seconds(5);
        let mut number = 0;
        let mut is_told = false;
        loop {
            let (least, most) = if self.is_slow { (2, 4) } else { (0, 3) };
            let rest = self.chance.between(seconds(least), seconds(most));
            thread::sleep(rest);
            if let (Some(line), true) = (self.orders, order_due <= Instant::now()) {
                number += 1;
                order_due = Instant::now() + seconds(12);
                self.place(line, number);
            }
            let most = if self.is_slow { 1 } else { MOST_TAKEN };
            // A station that is away is told once.
            match (0..most).try_for_each(|_| self.take()) {
                Ok(()) => is_told = false,
                Err(trouble) if !is_told => {
                    is_told = true;
                    say(&format!("{}: {}", self.name, trouble));
                }
                Err(_) => {}
            }
        }
    }

    fn take(&self) -> Result<(), String> {
        let message = self.client.message().map_err(|error| error.to_string())?;
        if let Some((line, serial, _)) = message {
            let taken = self.client.confirm(line, serial);
            if taken.map_err(|error| error.to_string())? {
                count(&self.tally.taken);
            }
        }
        Ok(())
    }

    fn place(&self, line: u8, number: u32) {
        match self.client.order(line, &order(line, number)) {
            Ok(order) => {
                count(&self.tally.placed);
                say(&format!("{}: order {} is placed", self.name, order));
            }
            Err(trouble) => say(&format!("{}: no order: {}", self.name, trouble)),
        }
    }
}

fn seconds(count: u64) -> Duration {
    Duration::from_secs(count)
}

/// Each line on a pseudo-terminal with how it behaves.
fn cast(lines: &[Line]) -> Vec<(Line, Role)> {
    let mut roles = ROLES.into_iter();
    let mut cast = Vec::new();
    for line in lines {
        if line.terminal.is_none() {
            say(&format!("line {} has a port of its own", line.number));
            continue;
        }
        let role = match line.speaks.as_str() {
            "strips-10" => Role::Strips(10),
            "strips-13" => Role::Strips(13),
            _ => roles.next().unwrap_or(Role::Polite),
        };
        cast.push((line.clone(), role));
    }
    cast
}

fn start_devices(settings: &Settings, cast: &[(Line, Role)], tally: &Arc<Tally>) {
    for (line, role) in cast {
        let (number, laboratory) = (line.number, line.laboratory.clone());
        say(&format!(
            "line {}, {}: {}",
            number,
            laboratory,
            role.words()
        ));
        let path = line.terminal.clone().unwrap_or_default();
        let cable = Cable::terminal(settings.folder.join(path));
        let device = Device {
            line: number,
            laboratory,
            tally: tally.clone(),
            chance: Chance::seeded(number.into()),
            number: 0,
        };
        let role = *role;
        thread::spawn(move || device.play(cable, role));
    }
}

fn start_readers(
    settings: &Settings,
    address: SocketAddr,
    cast: &[(Line, Role)],
    tally: &Arc<Tally>,
) {
    for (laboratory, seed) in settings.laboratory.iter().zip(100..) {
        let line_with = |role: Role| {
            let mut lines = cast.iter();
            lines.find(|(line, own)| line.laboratory == laboratory.name && *own == role)
        };
        let reader = Reader {
            name: laboratory.name.clone(),
            client: Client::new(address, &laboratory.token),
            tally: tally.clone(),
            chance: Chance::seeded(seed),
            is_slow: line_with(Role::Floods).is_some(),
            orders: line_with(Role::TakesOrders).map(|(line, _)| line.number),
        };
        thread::spawn(move || reader.read());
    }
}

/// Until the time is over or a signal comes.
async fn last(time: Option<u64>, tally: &Tally) -> std::io::Result<()> {
    let mut terminate = signal(SignalKind::terminate())?;
    let mut interrupt = signal(SignalKind::interrupt())?;
    let mut tick = tokio::time::interval_at(tokio::time::Instant::now() + EVERY, EVERY);
    let over = tokio::time::sleep(seconds(time.unwrap_or(0)));
    tokio::pin!(over);
    loop {
        tokio::select! {
            _ = terminate.recv() => return Ok(()),
            _ = interrupt.recv() => return Ok(()),
            _ = &mut over, if time.is_some() => return Ok(()),
            _ = tick.tick() => say(&tally.words()),
        }
    }
}

fn rehearse(path: &str, time: Option<u64>) -> Result<(), String> {
    let settings = Settings::read(Path::new(path))?;
    let address: SocketAddr = settings
        .listen
        .parse()
        .map_err(|_| format!("{}: listen: {} is no address", path, settings.listen))?;
    let tally = Arc::new(Tally::default());
    let cast = cast(&settings.line);
    start_devices(&settings, &cast, &tally);
    start_readers(&settings, address, &cast, &tally);
    let runtime = tokio::runtime::Builder::new_current_thread()
        .enable_all()
        .build();
    let runtime = runtime.map_err(|error| error.to_string())?;
    let lasted = runtime.block_on(last(time, &tally));
    say(&format!("{}; the end", tally.words()));
    lasted.map_err(|error| error.to_string())
}

fn main() -> ExitCode {
    let arguments: Vec<String> = env::args().skip(1).collect();
    let done = match arguments.iter().map(String::as_str).collect::<Vec<_>>()[..] {
        [path] => rehearse(path, None),
        [path, time] => match time.parse() {
            Ok(time) => rehearse(path, Some(time)),
            Err(_) => Err(format!("{} is no number of seconds", time)),
        },
        _ => {
            eprintln!("usage: rehearsal SETTINGS [SECONDS]");
            return ExitCode::from(2);
        }
    };
    match done {
        Ok(()) => ExitCode::SUCCESS,
        Err(trouble) => {
            eprintln!("rehearsal: {}", trouble);
            ExitCode::FAILURE
        }
    }
}
