//! The keeper: the one owner of the gateway.
//!
//! It works in rounds. A round takes in what has come meanwhile, from all ports and readers, and gathers what is to
//! leave for it: bytes to analyzers, replies to readers. Then it saves, once for all of them, and only then lets
//! them go. So nothing leaves the station before the disk has the state that it comes from; where saving fails,
//! nothing leaves.

use crate::board::{Board, Published};
use crate::book::{now, Book};
use crate::lines::LineView;
use crate::log::Log;
use crate::orders::Orders;
use crate::requests::{cannot_save, Reply, Request};
use crate::saving::Saving;
use crate::settings::Settings;
use crate::words::words;
use chrono::{DateTime, Local, TimeZone};
use ngachodui::{Answer, Gateway, State, LINES};
use std::sync::mpsc::{Receiver, RecvTimeoutError};
use std::sync::Arc;
use std::time::{Duration, Instant};
use tokio::sync::{mpsc::UnboundedSender, oneshot, OwnedSemaphorePermit};

/// So many events are taken in before what is to leave leaves.
const MOST_IN_ROUND: usize = 256;

/// A reply that would leave so long after what it replies to is left out: an analyzer waits for 15 seconds, and takes
/// what comes later for the reply to something else.
const LATE: Duration = Duration::from_secs(10);

/// The board is told anew no more often than that.
const BOARD_EVERY: Duration = Duration::from_millis(200);

/// Held by a request until its round is over: so many of a laboratory are there at a time, also of those that do not
/// wait for the reply.
pub type Turn = Option<OwnedSemaphorePermit>;

/// What comes to the keeper.
pub enum Event {
    /// Bytes have come in on a line; its port waits until they are settled.
    Bytes {
        line: u8,
        bytes: Vec<u8>,
        came: Instant,
        done: oneshot::Sender<()>,
    },
    /// A port is open, or there is trouble with it.
    Port { line: u8, trouble: Option<String> },
    /// Somebody asks over HTTP.
    Request {
        request: Request,
        reply: oneshot::Sender<Reply>,
        turn: Turn,
    },
    /// The station is to stop.
    Stop,
}

/// An answer that no sound gateway gives: its memory was written from outside. Nothing is saved then.
#[derive(Debug)]
pub struct Damaged {
    line: u8,
    answer: Answer,
}

impl Damaged {
    pub(crate) fn at(line: u8, answer: Answer) -> Damaged {
        Damaged { line, answer }
    }
}

impl std::fmt::Display for Damaged {
    fn fmt(&self, f: &mut std::fmt::Formatter) -> std::fmt::Result {
        write!(
            f,
            "line {}: answer {}, {}; what was saved is not touched, start again",
            self.line,
            self.answer.number(),
            words(&self.answer)
        )
    }
}

/// What is to leave at the end of a round.
#[derive(Default)]
struct Leaving {
    bytes: Vec<Outgoing>,
    replies: Vec<(oneshot::Sender<Reply>, Reply, Turn)>,
    done: Vec<oneshot::Sender<()>>,
}

/// Bytes for a line. A reply has the time at which that came which it replies to; what a sending sends has none, and
/// leaves whatever comes in between, as the line counts on it.
struct Outgoing {
    line: u8,
    bytes: Vec<u8>,
    replies_to: Option<Instant>,
}

/// The one owner of the gateway.
pub struct Keeper {
    pub(crate) settings: Arc<Settings>,
    pub(crate) log: Log,
    pub(crate) gateway: Gateway,
    pub(crate) book: Book,
    pub(crate) orders: Orders,
    pub(crate) lines: Vec<LineView>,
    pub(crate) saving: Saving,
    /// Why the last archive was none.
    pub(crate) archive_trouble: Option<String>,
    pub(crate) started: i64,
    leaving: Leaving,
    /// When the bytes came that are acted on.
    came: Instant,
    ports: Vec<Option<UnboundedSender<Vec<u8>>>>,
    /// The lines were told the time up to here, but for so much.
    told: Instant,
    owed: Duration,
    archive_due: Option<DateTime<Local>>,
    published: Arc<Published>,
}

impl Keeper {
    /// Loads what was saved in the settings' folder, or begins with nothing.
    pub fn open(settings: Arc<Settings>, log: Log) -> Result<Keeper, String> {
        let mut keeper = Keeper::open_to_archive(settings, log)?;
        keeper.set_speaking()?;
        keeper.hand_lines_over()?;
        Ok(keeper)
    }

    /// The same, whatever the lines spoke and whose they were when it was saved: for archiving and no more.
    pub fn open_to_archive(settings: Arc<Settings>, log: Log) -> Result<Keeper, String> {
        let (saving, loaded) = Saving::open(&settings.folder)?;
        let (gateway, book, owed) = match loaded {
            None => {
                let gateway = Gateway::start(settings.speaks());
                (gateway, Book::default(), Some(Duration::ZERO))
            }
            Some(loaded) => (loaded.gateway, loaded.book, loaded.untold),
        };
        let waits = gateway.in_use();
        log.say(format_args!("loaded: {} bytes of messages wait", waits));
        let folder = settings.folder.join("orders");
        let sends = |line| book.sending(&gateway, line);
        let orders = Orders::load(&folder, settings.orders, sends)?;
        let mut keeper = Keeper {
            log,
            gateway,
            book,
            orders,
            lines: (0..LINES).map(|_| LineView::new()).collect(),
            saving,
            archive_trouble: None,
            started: now(),
            leaving: Leaving::default(),
            came: Instant::now(),
            ports: (0..LINES).map(|_| None).collect(),
            told: Instant::now(),
            owed: owed.unwrap_or(Duration::ZERO),
            archive_due: next_archive(&settings, Local::now()),
            published: Arc::new(Published::new()),
            settings,
        };
        if owed.is_none() {
            let ended = keeper.end_sendings();
            ended.map_err(|damaged| damaged.to_string())?;
        }
        Ok(keeper)
    }

    /// Nobody knows how long no station ran: what an analyzer says now may be no reply to what was sent then.
    fn end_sendings(&mut self) -> Result<(), Damaged> {
        for line in 0..LINES as u8 {
            // Behind a pause it asks once more.
            while self.gateway.state(line).is_sending() {
                let used = self.gateway.used(line);
                let answer = self.gateway.seconds(line, u8::MAX);
                self.act(line, used, &answer)?;
            }
        }
        self.leaving.bytes.clear();
        Ok(())
    }

    /// What a line speaks is set when a gateway is started, and a start forgets what waits: so where the settings
    /// have changed, nothing may wait.
    fn set_speaking(&mut self) -> Result<(), String> {
        let wanted = self.settings.speaks();
        let differs = |line: &u8| self.gateway.speaks(*line) != wanted[usize::from(*line)].speaks;
        match (0..LINES as u8).find(differs) {
            None => Ok(()),
            Some(line) if self.gateway.in_use() > 0 => Err(format!(
                "line {} is to speak something else than before, and messages wait: archive them first (station archive SETTINGS)",
                line
            )),
            Some(line) => {
                self.log.say(format_args!(
                    "line {} is to speak something else: begun anew, serials from 0",
                    line
                ));
                self.gateway = Gateway::start(wanted);
                self.orders.follow(|_| None);
                Ok(())
            }
        }
    }

    /// A line may go to another laboratory only where nothing of the last one waits: it is not the new one's to see.
    fn hand_lines_over(&mut self) -> Result<(), String> {
        let settings = self.settings.clone();
        let wanted = |line| settings.laboratory_of(line).unwrap_or("");
        for line in 0..LINES as u8 {
            let before = self.book.laboratory(line);
            if before != wanted(line) && self.book.waiting_count(line) > 0 {
                return Err(format!(
                    "line {} was of {:?}, whose messages wait: archive them first (station archive SETTINGS)",
                    line, before
                ));
            }
            if let Some(other) = self.orders.unfinished_of_others(line, wanted(line)) {
                return Err(format!(
                    "line {} was of {:?}, whose orders wait: have them cancelled first",
                    line, other
                ));
            }
        }
        for line in 0..LINES as u8 {
            let forgotten = self.orders.hand_over(line, wanted(line));
            forgotten.map_err(|error| format!("orders: {}", error))?;
            if self.book.laboratory(line) != wanted(line) {
                self.book.hand_over(line, wanted(line));
            }
        }
        Ok(())
    }

    /// Saves, for who runs no rounds.
    pub fn finish(mut self) -> Result<(), String> {
        self.save();
        self.saving.trouble.map_or(Ok(()), Err)
    }

    /// Where the board's numbers are to be seen, from now on.
    pub fn published(&mut self) -> Arc<Published> {
        self.publish();
        self.published.clone()
    }

    /// What is to be sent on a line goes to this port from now on.
    pub fn connect(&mut self, line: u8, port: UnboundedSender<Vec<u8>>) {
        self.ports[usize::from(line)] = Some(port);
    }

    /// Works until it is told to stop, or until the gateway is found damaged.
    pub fn run(mut self, events: Receiver<Event>) -> Result<(), Damaged> {
        let mut shown = Instant::now();
        let mut is_shown = false;
        loop {
            // Before what comes now: it is no reply to what was sent long before a kill.
            let is_later = self.tell_time()?;
            if is_later || (!is_shown && shown.elapsed() >= BOARD_EVERY) {
                shown = Instant::now();
                is_shown = true;
                self.publish();
            }
            let mut wait = Duration::from_secs(1).saturating_sub(self.untold());
            if !is_shown {
                wait = wait.min(BOARD_EVERY.saturating_sub(shown.elapsed()));
            }
            match events.recv_timeout(wait) {
                Ok(event) => {
                    is_shown = false;
                    if !self.round(event, &events)? {
                        break;
                    }
                }
                Err(RecvTimeoutError::Timeout) => {}
                Err(RecvTimeoutError::Disconnected) => break,
            }
        }
        self.save_orders();
        self.save();
        Ok(())
    }

    /// The time that the lines were not told yet.
    fn untold(&self) -> Duration {
        self.untold_at(Instant::now())
    }

    fn untold_at(&self, at: Instant) -> Duration {
        self.owed + at.saturating_duration_since(self.told)
    }

    /// Tells the lines the whole seconds that have passed, if there are some. The fraction is kept for the next time,
    /// over kills too: many kills in a row would else stop the lines' clock.
    fn tell_time(&mut self) -> Result<bool, Damaged> {
        let at = Instant::now();
        let untold = self.untold_at(at);
        let seconds = untold.as_secs();
        if seconds > 0 {
            self.told = at;
            self.owed = untold - Duration::from_secs(seconds);
            self.pass(seconds)?;
        }
        Ok(seconds > 0)
    }

    /// Takes in an event and those that wait behind it, and lets go what is to leave. False: it is to stop.
    fn round(&mut self, first: Event, events: &Receiver<Event>) -> Result<bool, Damaged> {
        let mut goes_on = self.take_in(first)?;
        for event in events.try_iter().take(MOST_IN_ROUND) {
            goes_on &= self.take_in(event)?;
        }
        self.start_orders()?;
        self.settle();
        Ok(goes_on)
    }

    fn take_in(&mut self, event: Event) -> Result<bool, Damaged> {
        match event {
            Event::Bytes {
                line,
                bytes,
                came,
                done,
            } => {
                self.came = came;
                let before = self.leaving.bytes.len();
                for byte in bytes {
                    self.hear(line, byte)?;
                }
                self.leave_out_unheard(before);
                self.leaving.done.push(done);
            }
            Event::Port { line, trouble } => self.see_port(line, trouble),
            Event::Request {
                request,
                reply,
                turn,
            } => {
                let answer = self.serve(request)?;
                self.leaving.replies.push((reply, answer, turn));
            }
            Event::Stop => return Ok(false),
        }
        Ok(true)
    }

    /// Of what was gathered behind this place for one piece of bytes: who has sent more has not waited for the replies
    /// before the last, and would take them for others.
    fn leave_out_unheard(&mut self, before: usize) {
        let gathered = self.leaving.bytes.split_off(before);
        let count = gathered.len();
        let heard = |(one, place): &(Outgoing, usize)| one.replies_to.is_none() || *place == count;
        let heard = gathered.into_iter().zip(1..).filter(heard);
        self.leaving.bytes.extend(heard.map(|(one, _)| one));
    }

    fn hear(&mut self, line: u8, byte: u8) -> Result<(), Damaged> {
        let used = self.gateway.used(line);
        let answer = self.gateway.byte(line, byte);
        self.saving.is_saved = false;
        self.lines[usize::from(line)].stir();
        self.act(line, used, &answer)
    }

    /// Whole seconds have passed: each line is told.
    fn pass(&mut self, seconds: u64) -> Result<(), Damaged> {
        let told = u8::try_from(seconds).unwrap_or(u8::MAX);
        for k in 0..self.settings.lines.len() {
            let line = self.settings.lines[k].number;
            let used = self.gateway.used(line);
            let answer = self.gateway.seconds(line, told);
            if answer != Answer::Nothing {
                self.saving.is_saved = false;
            }
            self.act(line, used, &answer)?;
            self.lines[usize::from(line)].end_second(|lost| {
                let name = name_of(&self.settings, line);
                self.log
                    .say(format_args!("{}: {} more like these", name, lost));
            });
        }
        self.book.pass(now());
        self.archive_when_due()?;
        self.start_orders()?;
        // What nobody waits for is saved within a second even so.
        self.save_orders();
        if !self.saving.is_saved {
            self.save();
        }
        self.settle();
        Ok(())
    }

    /// What follows from an answer to an event of a line.
    fn act(&mut self, line: u8, used: u32, answer: &Answer) -> Result<(), Damaged> {
        if !answer.outgoing().is_empty() {
            let sends = matches!(answer, Answer::Sending { .. } | Answer::SendingEnded { .. });
            self.leaving.bytes.push(Outgoing {
                line,
                bytes: answer.outgoing().to_vec(),
                replies_to: (!sends).then_some(self.came),
            });
        }
        let mut more = String::new();
        match answer {
            Answer::Nothing => return Ok(()),
            Answer::Sending { outgoing } if outgoing.is_empty() => return Ok(()),
            Answer::WrongSize | Answer::BeyondLimits | Answer::Broken => {
                return Err(Damaged::at(line, answer.clone()));
            }
            Answer::Stored | Answer::Filed => {
                let entry = self.book.store(&self.gateway, line, used, now());
                more = format!(", serial {}, {} bytes", entry.serial, entry.bytes);
            }
            Answer::Faulty { .. } | Answer::NoMessage | Answer::NoRoom | Answer::Crowded => {
                let text = self.gateway.refused(line);
                self.lines[usize::from(line)].refuse(answer, text);
                more = format!(
                    ", {} of {} bytes used",
                    self.gateway.in_use(),
                    ngachodui::JOURNAL_SIZE
                );
            }
            Answer::SendingEnded { .. } | Answer::GivenUp => {
                let acknowledged = *answer == Answer::SendingEnded { acknowledged: true };
                let at = Instant::now();
                self.book.end_sending(line);
                let order = self.orders.ended(line, acknowledged, &words(answer), at);
                self.save_orders();
                more = order.map_or(String::new(), |number| format!(", order {}", number));
            }
            _ => {}
        }
        self.note(line, answer, &more);
        Ok(())
    }

    /// Puts an answer on the board and into the log.
    fn note(&mut self, line: u8, answer: &Answer, more: &str) {
        let view = &mut self.lines[usize::from(line)];
        view.note(answer);
        if view.may_log() {
            let name = name_of(&self.settings, line);
            self.log.say(format_args!(
                "{}: {}, {}{}",
                name,
                answer.number(),
                words(answer),
                more
            ));
        }
    }

    fn see_port(&mut self, line: u8, trouble: Option<String>) {
        let view = &mut self.lines[usize::from(line)];
        if view.see_port(trouble) {
            let name = name_of(&self.settings, line);
            let said = view.trouble().unwrap_or_else(|| "connected".to_string());
            self.log.say(format_args!("{}: port {}", name, said));
        }
    }

    /// Starts the next order of each line that has been silent for a while.
    fn start_orders(&mut self) -> Result<(), Damaged> {
        let at = Instant::now();
        for k in 0..self.settings.lines.len() {
            let line = self.settings.lines[k].number;
            let is_free = self.gateway.state(line) == State::Neutral
                && self.lines[usize::from(line)].is_silent(at, self.settings.orders.silence);
            let due = is_free.then(|| self.orders.due(line, at)).flatten();
            if let Some((number, text)) = due {
                if let Err(error) = self.orders.started(number) {
                    self.orders.rest(line, at);
                    self.log
                        .say(format_args!("order {} not begun: {}", number, error));
                    continue;
                }
                let answer = self.gateway.send(line, &text);
                match answer {
                    Answer::Sending { .. } => self.book.begin_sending(line, number),
                    // Its line has got a strip reader since, say.
                    _ => drop(self.orders.ended(line, false, &words(&answer), at)),
                }
                self.saving.is_saved = false;
                self.lines[usize::from(line)].stir();
                self.act(line, self.gateway.used(line), &answer)?;
            }
        }
        Ok(())
    }

    /// At its time of the day. Where that fails it is tried again every minute.
    fn archive_when_due(&mut self) -> Result<(), Damaged> {
        let at = Local::now();
        // The wall's clock was set back.
        if self
            .archive_due
            .map_or(false, |due| due - at > chrono::Duration::days(2))
        {
            self.archive_due = next_archive(&self.settings, at);
        }
        if self.archive_due.map_or(false, |due| due <= at) {
            self.archive_due = match self.archive()? {
                Ok(_) => next_archive(&self.settings, at),
                Err(_) => Some(at + chrono::Duration::minutes(1)),
            };
        }
        Ok(())
    }

    /// What is in memory is not what the disk has.
    pub(crate) fn has_changed(&mut self) {
        self.saving.is_saved = false;
    }

    /// Saves the gateway and its book.
    pub(crate) fn save(&mut self) {
        let began = Instant::now();
        let untold = self.untold();
        let saved = self.saving.save(&self.gateway, &self.book, untold);
        if self.saving.note(&saved, began.elapsed()) {
            self.log.say(match saved {
                Err(why) => format!("saving fails: {}; nothing is acknowledged", why),
                Ok(()) => "saving works again".to_string(),
            });
        }
    }

    /// Keeps what became of orders. Where that fails they may be sent again, and nothing else waits for it.
    fn save_orders(&mut self) {
        self.orders.save();
        if let Some(news) = self.orders.news() {
            self.log.say(news);
        }
    }

    /// Lets go what is to leave, once the disk has what it comes from.
    fn settle(&mut self) {
        let leaving = std::mem::take(&mut self.leaving);
        let leaves = !leaving.bytes.is_empty() || !leaving.replies.is_empty();
        if leaves && !self.saving.is_saved {
            self.save();
        }
        let may_leave = self.saving.is_saved;
        for outgoing in leaving.bytes.into_iter().filter(|_| may_leave) {
            let line = outgoing.line;
            let is_late = |came: Instant| came.elapsed() > LATE;
            if outgoing.replies_to.map_or(false, is_late) {
                let name = name_of(&self.settings, line);
                self.log.say(format_args!("{}: too late to reply", name));
            } else if let Some(port) = &self.ports[usize::from(line)] {
                // A port that is gone takes nothing: what is sent to it is lost, as on a cable.
                let _ = port.send(outgoing.bytes);
            }
        }
        for (reply, answer, _turn) in leaving.replies {
            let answer = match may_leave {
                true => answer,
                false => cannot_save(),
            };
            let _ = reply.send(answer);
        }
        for done in leaving.done {
            let _ = done.send(());
        }
    }

    fn publish(&mut self) {
        self.published.put(&Board::of(self));
    }
}

/// When the archive's time of the day comes next. Where summer time leaves it out, it is an hour later.
fn next_archive(settings: &Settings, at: DateTime<Local>) -> Option<DateTime<Local>> {
    let time = settings.archive_at?;
    let days = at.date_naive().iter_days().take(3);
    let due = |time| Local.from_local_datetime(&time).earliest();
    let later = chrono::Duration::hours(1);
    days.map(|day| day.and_time(time))
        .filter_map(|time| due(time).or_else(|| due(time + later)))
        .find(|due| *due > at)
}

/// A line with its laboratory, for the log.
pub(crate) fn name_of(settings: &Settings, line: u8) -> String {
    match settings.laboratory_of(line) {
        Some(laboratory) => format!("line {} ({})", line, laboratory),
        None => format!("line {}", line),
    }
}

#[cfg(test)]
mod tests;
