//! The log: one line an event, on standard error. Who logs never waits for whoever reads it.

use chrono::{Local, SecondsFormat};
use std::fmt::Display;
use std::io::{self, Write};
use std::sync::atomic::{AtomicUsize, Ordering};
use std::sync::mpsc::{sync_channel, Receiver, SyncSender};
use std::sync::Arc;
use std::thread;
use std::time::Duration;

/// So many lines may wait for a slow reader of the log. Then lines are lost, and how many is said.
const MOST_WAITING: usize = 4_096;

/// How long a log that is to end may take for what waits.
const LAST_LINES: Duration = Duration::from_secs(1);

/// A line, or who wants to know when all before it is written.
pub enum Entry {
    Line(String),
    Flush(SyncSender<()>),
}

#[derive(Clone)]
pub struct Log {
    lines: SyncSender<Entry>,
    lost: Arc<AtomicUsize>,
}

impl Log {
    /// Writes what comes to standard error, on a thread of its own.
    pub fn to_stderr() -> Log {
        let (log, waiting) = Log::with(MOST_WAITING);
        let lost = log.lost.clone();
        thread::spawn(move || write_all(waiting, &lost, || io::stderr().lock()));
        log
    }

    /// A log, and the other end of it.
    pub fn with(most: usize) -> (Log, Receiver<Entry>) {
        let (lines, waiting) = sync_channel(most);
        let lost = Arc::new(AtomicUsize::new(0));
        (Log { lines, lost }, waiting)
    }

    pub fn say(&self, what: impl Display) {
        let at = Local::now().to_rfc3339_opts(SecondsFormat::Millis, false);
        let line = Entry::Line(format!("{} {}\n", at, what));
        if self.lines.try_send(line).is_err() {
            self.lost.fetch_add(1, Ordering::Relaxed);
        }
    }

    /// Waits a little until what was said is written.
    pub fn flush(&self) {
        let (done, written) = sync_channel(1);
        if self.lines.try_send(Entry::Flush(done)).is_ok() {
            let _ = written.recv_timeout(LAST_LINES);
        }
    }
}

fn write_all<W: Write>(waiting: Receiver<Entry>, lost: &AtomicUsize, out: impl Fn() -> W) {
    for entry in waiting {
        let line = match entry {
            Entry::Line(line) => line,
            Entry::Flush(done) => {
                let _ = done.send(());
                continue;
            }
        };
        let many = lost.swap(0, Ordering::Relaxed);
        let mut out = out();
        let said = match many {
            0 => Ok(()),
            _ => writeln!(out, "{} lines of the log were lost here", many),
        };
        // A log that cannot be written is no reason to stop.
        if said.and_then(|()| out.write_all(line.as_bytes())).is_err() {
            lost.fetch_add(1, Ordering::Relaxed);
        }
    }
}

#[cfg(test)]
mod tests {
    use super::*;
    use std::sync::Mutex;

    struct Shared<'a>(&'a Mutex<Vec<u8>>);

    impl Write for Shared<'_> {
        fn write(&mut self, bytes: &[u8]) -> io::Result<usize> {
            self.0.lock().expect("not poisoned").write(bytes)
        }
        fn flush(&mut self) -> io::Result<()> {
            Ok(())
        }
    }

    #[test]
    fn what_nobody_reads_is_lost_and_said() {
        let (log, waiting) = Log::with(2);
        for k in 0..5 {
            log.say(k);
        }
        let lost = log.lost.clone();
        drop(log);
        let out = Mutex::new(Vec::new());
        write_all(waiting, &lost, || Shared(&out));
        let text = String::from_utf8(out.into_inner().expect("not poisoned")).expect("UTF-8");
        let lines: Vec<&str> = text.lines().collect();
        assert_eq!(lines.len(), 3);
        assert_eq!(lines[0], "3 lines of the log were lost here");
        assert!(lines[1].ends_with(" 0") && lines[2].ends_with(" 1"));
    }
}
