//! A cable from a device that is played to the station. It survives the station's death.

use nix::fcntl::{fcntl, FcntlArg, OFlag};
use nix::poll::{poll, PollFd, PollFlags};
use nix::pty::{grantpt, posix_openpt, ptsname_r, unlockpt, PtyMaster};
use nix::sys::termios::{cfmakeraw, tcflush, tcgetattr, tcsetattr, FlushArg, SetArg};
use std::collections::VecDeque;
use std::fs::{self, File, OpenOptions};
use std::io::{ErrorKind, Read, Write};
use std::net::{SocketAddr, TcpListener, TcpStream};
use std::os::unix::fs::{MetadataExt, OpenOptionsExt};
use std::os::unix::io::{AsRawFd, RawFd};
use std::path::{Path, PathBuf};
use std::thread;
use std::time::{Duration, Instant};

/// What cannot be sent in this time is lost.
const SENDING: Duration = Duration::from_millis(500);

/// So often it is looked whether the station's link points elsewhere.
const LOOK: Duration = Duration::from_millis(50);

/// So long it rests where the other end is away.
const REST: Duration = Duration::from_millis(10);

/// A link that has not changed since its terminal failed is tried again after this time. The terminal's number may
/// have gone to another line of a station that is just starting and has not set its links yet.
const OLD_LINK: Duration = Duration::from_millis(300);

pub(super) trait Port: Read + Write + AsRawFd + Send {}
impl<T: Read + Write + AsRawFd + Send> Port for T {}

/// Where the other end is found.
enum End {
    Terminal(Terminal),
    /// The master of a pseudo-terminal, which is never given up, by the path of its slave.
    Master(PathBuf),
    Listener(TcpListener),
}

/// A terminal that the station made, by the path of its link.
struct Terminal {
    path: PathBuf,
    /// The link through which it was opened, and when it was last seen to be good.
    opened: Option<(Link, Instant)>,
}

/// What tells one link from the next that is put in its place.
type Link = (u64, i64, i64);

fn link_at(path: &Path) -> Option<Link> {
    let link = fs::symlink_metadata(path).ok()?;
    link.file_type()
        .is_symlink()
        .then(|| (link.ino(), link.mtime(), link.mtime_nsec()))
}

impl Terminal {
    fn is_elsewhere(&self) -> bool {
        let link = link_at(&self.path);
        link.is_some() && link != self.opened.map(|(link, _)| link)
    }

    fn open(&mut self) -> Option<Box<dyn Port>> {
        let link = link_at(&self.path);
        if let (Some(now), Some((then, good))) = (link, self.opened) {
            if now == then && good.elapsed() < OLD_LINK {
                return None;
            }
        }
        let terminal = open_raw(&self.path)?;
        if link_at(&self.path) != link {
            return None;
        }
        self.opened = link.map(|link| (link, Instant::now()));
        Some(Box::new(terminal))
    }

    /// It was good up to now.
    fn fail(&mut self) {
        if let Some((_, good)) = &mut self.opened {
            *good = Instant::now();
        }
    }
}

/// Opens a terminal so that bytes go through it as they are.
pub(super) fn open_raw(path: &Path) -> Option<File> {
    let flags = OFlag::O_NOCTTY | OFlag::O_NONBLOCK;
    let mut options = OpenOptions::new();
    options.read(true).write(true).custom_flags(flags.bits());
    let terminal = options.open(path).ok()?;
    let mut settings = tcgetattr(terminal.as_raw_fd()).ok()?;
    cfmakeraw(&mut settings);
    tcsetattr(terminal.as_raw_fd(), SetArg::TCSANOW, &settings).ok()?;
    Some(terminal)
}

/// Waits for one of these events, or for a hang-up; what has come.
pub(super) fn wait(fd: RawFd, events: PollFlags, patience: Duration) -> PollFlags {
    let mut polled = [PollFd::new(fd, events)];
    // Rounded up: with 0 for what is left of a millisecond it would be asked again and again.
    let milliseconds = (patience.as_micros() + 999) / 1_000;
    match poll(&mut polled, milliseconds as i32) {
        Ok(count) if count > 0 => polled[0].revents().unwrap_or(PollFlags::empty()),
        _ => PollFlags::empty(),
    }
}

/// A stream of bytes to the station and back. What is sent while the station is away is lost.
pub struct Cable {
    end: End,
    port: Option<Box<dyn Port>>,
    /// Of a master: nobody has the slave open.
    is_idle: bool,
    heard: VecDeque<u8>,
}

impl Cable {
    fn with(end: End, port: Option<Box<dyn Port>>) -> Cable {
        Cable {
            end,
            port,
            is_idle: false,
            heard: VecDeque::new(),
        }
    }

    /// To a pseudo-terminal that the station made, by the path of its link or its own. It is opened anew when it
    /// fails or the link points elsewhere.
    pub fn terminal(path: impl Into<PathBuf>) -> Cable {
        let path = path.into();
        let opened = None;
        Cable::with(End::Terminal(Terminal { path, opened }), None)
    }

    /// A pseudo-terminal, and the path of the slave, which the station opens as a serial device.
    ///
    /// # Panics
    ///
    /// If the system has no pseudo-terminal to give.
    pub fn master() -> (Cable, PathBuf) {
        let (master, path) = new_master().expect("a pseudo-terminal");
        // Opened and closed once, it echoes nothing, and is told from one that the station has open.
        open_raw(&path).expect("its slave");
        let end = End::Master(path.clone());
        (Cable::with(end, Some(Box::new(master))), path)
    }

    /// A TCP serial server on a free port of this machine, to which the station connects.
    ///
    /// # Panics
    ///
    /// If the system has no port to give.
    pub fn listener() -> (Cable, SocketAddr) {
        let listener = TcpListener::bind("127.0.0.1:0").expect("a port");
        listener.set_nonblocking(true).expect("a socket's setting");
        let address = listener.local_addr().expect("a socket's address");
        (Cable::with(End::Listener(listener), None), address)
    }

    /// Whether the station has the other end.
    pub fn is_up(&mut self) -> bool {
        self.listen(Duration::ZERO);
        self.port.is_some() && !self.is_idle
    }

    /// Waits until the station has the other end; whether it has.
    pub fn await_up(&mut self, patience: Duration) -> bool {
        let until = Instant::now() + patience;
        while !self.is_up() {
            if Instant::now() >= until {
                return false;
            }
            thread::sleep(REST);
        }
        true
    }

    /// Sends what can be sent in half a second.
    pub fn send(&mut self, bytes: &[u8]) {
        if !self.is_up() {
            return;
        }
        let until = Instant::now() + SENDING;
        let mut rest = bytes;
        while let (Some(port), false) = (&mut self.port, rest.is_empty()) {
            match port.write(rest) {
                Ok(sent) if sent > 0 => {
                    rest = &rest[sent..];
                    continue;
                }
                Err(error) if error.kind() == ErrorKind::Interrupted => continue,
                Err(error) if error.kind() != ErrorKind::WouldBlock => return self.lose(),
                _ => {}
            }
            let left = until.saturating_duration_since(Instant::now());
            let events = wait(port.as_raw_fd(), PollFlags::POLLOUT, left);
            if events.contains(PollFlags::POLLHUP) {
                return self.lose();
            }
            if left.is_zero() {
                return;
            }
        }
    }

    /// The next byte. None where none comes in time, and at once where the station goes away meanwhile; where it
    /// was away before, it may come back in that time.
    pub fn receive(&mut self, patience: Duration) -> Option<u8> {
        let until = Instant::now() + patience;
        let was_up = !self.heard.is_empty() || self.is_up();
        while self.heard.is_empty() {
            let left = until.saturating_duration_since(Instant::now());
            self.listen(left);
            let is_gone = was_up && (self.port.is_none() || self.is_idle);
            if self.heard.is_empty() && (left.is_zero() || is_gone) {
                return None;
            }
        }
        self.heard.pop_front()
    }

    /// Drops what has come and was not received.
    pub fn forget(&mut self) {
        self.listen(Duration::ZERO);
        while !self.heard.is_empty() {
            self.heard.clear();
            self.listen(Duration::ZERO);
        }
    }

    /// Waits for bytes, and for the other end where it is away: a while, and not longer than this.
    fn listen(&mut self, patience: Duration) {
        self.connect();
        let patience = patience.min(LOOK);
        let fd = match (&self.port, &self.end) {
            (Some(port), _) => port.as_raw_fd(),
            (None, End::Listener(listener)) => listener.as_raw_fd(),
            (None, _) => return thread::sleep(patience.min(REST)),
        };
        let events = wait(fd, PollFlags::POLLIN, patience);
        if self.port.is_none() {
            return self.connect();
        }
        if !events.contains(PollFlags::POLLHUP) {
            self.is_idle = false;
        }
        if !events.is_empty() {
            self.read();
        }
        if self.is_idle {
            // A hang-up is told at once and again and again.
            thread::sleep(patience.min(REST));
        }
    }

    fn connect(&mut self) {
        match &mut self.end {
            End::Terminal(terminal) => {
                if self.port.is_some() && terminal.is_elsewhere() {
                    self.port = None;
                }
                if self.port.is_none() {
                    self.port = terminal.open();
                }
            }
            End::Listener(listener) if self.port.is_none() => self.port = accept(listener),
            _ => {}
        }
    }

    fn read(&mut self) {
        let mut bytes = [0; 4_096];
        let read = match &mut self.port {
            Some(port) => port.read(&mut bytes),
            None => return,
        };
        match read {
            Ok(0) => self.lose(),
            Ok(count) => self.heard.extend(&bytes[..count]),
            Err(error) => match error.kind() {
                ErrorKind::WouldBlock | ErrorKind::Interrupted => {}
                _ => self.lose(),
            },
        }
    }

    /// The other end is away.
    fn lose(&mut self) {
        match &mut self.end {
            End::Master(path) => {
                // A station that opens the slave again would find what the last one has not read.
                if !self.is_idle {
                    let slave = open_raw(path);
                    slave.map(|slave| tcflush(slave.as_raw_fd(), FlushArg::TCIOFLUSH));
                }
                self.is_idle = true;
            }
            End::Terminal(terminal) => {
                terminal.fail();
                self.port = None;
            }
            End::Listener(_) => self.port = None,
        }
    }
}

/// The master of a new pseudo-terminal, and the path of its slave.
fn new_master() -> nix::Result<(PtyMaster, PathBuf)> {
    let master = posix_openpt(OFlag::O_RDWR | OFlag::O_NOCTTY)?;
    grantpt(&master)?;
    unlockpt(&master)?;
    let path = ptsname_r(&master)?;
    let flags = FcntlArg::F_SETFL(OFlag::O_NONBLOCK);
    fcntl(master.as_raw_fd(), flags)?;
    Ok((master, path.into()))
}

fn accept(listener: &TcpListener) -> Option<Box<dyn Port>> {
    let (stream, _): (TcpStream, _) = listener.accept().ok()?;
    stream.set_nonblocking(true).ok()?;
    stream.set_nodelay(true).ok()?;
    Some(Box::new(stream))
}

#[cfg(test)]
mod tests {
    use super::*;
    use nix::time::{clock_gettime, ClockId};
    use std::os::unix::fs::symlink;

    const SHORT: Duration = Duration::from_millis(200);

    /// What comes at the station's end, or as much of it as is expected.
    fn arrived(port: &mut impl Read, expected: usize) -> Vec<u8> {
        let mut bytes = vec![0; expected];
        port.read_exact(&mut bytes).expect("bytes");
        bytes
    }

    fn heard(cable: &mut Cable, expected: usize) -> Vec<u8> {
        (0..expected).filter_map(|_| cable.receive(SHORT)).collect()
    }

    /// Bytes go both ways as they are, and nothing else comes.
    fn holds(cable: &mut Cable, port: &mut (impl Read + Write)) {
        assert!(cable.await_up(SHORT));
        let all: Vec<u8> = (0..=255).collect();
        cable.send(&all);
        assert_eq!(arrived(port, 256), all);
        port.write_all(&all).expect("room");
        assert_eq!(heard(cable, 256), all);
        assert_eq!(cable.receive(Duration::ZERO), None);
    }

    /// Seconds of the processor that this thread takes for it.
    fn busy(work: impl FnOnce()) -> Duration {
        let now = || clock_gettime(ClockId::CLOCK_THREAD_CPUTIME_ID).expect("a clock");
        let before = now();
        work();
        Duration::from(now()) - Duration::from(before)
    }

    /// The other end is away: nothing comes, in time and without haste.
    fn is_away(cable: &mut Cable) {
        cable.receive(SHORT);
        assert!(!cable.is_up());
        let began = Instant::now();
        let busy = busy(|| assert_eq!(cable.receive(SHORT), None));
        assert!(began.elapsed() >= SHORT);
        assert!(busy < SHORT / 4, "busy for {:?}", busy);
        cable.send(b"lost");
        assert!(!cable.await_up(Duration::ZERO));
    }

    #[test]
    fn a_master_whose_slave_is_closed_and_opened_again() {
        let (mut cable, path) = Cable::master();
        is_away(&mut cable);
        for _ in 0..2 {
            let mut options = OpenOptions::new();
            let mut station = options.read(true).write(true).open(&path).expect("a slave");
            holds(&mut cable, &mut station);
            cable.send(b"never read");
            drop(station);
            is_away(&mut cable);
        }
    }

    /// The station's end of a terminal, with a link to it.
    fn linked(path: &Path) -> PtyMaster {
        let (master, slave) = new_master().expect("a pseudo-terminal");
        let _ = fs::remove_file(path);
        symlink(slave, path).expect("a link");
        fcntl(master.as_raw_fd(), FcntlArg::F_SETFL(OFlag::empty())).expect("a setting");
        master
    }

    #[test]
    fn a_terminal_is_opened_anew() {
        let folder = std::env::temp_dir().join(format!("cable-{}", std::process::id()));
        fs::create_dir_all(&folder).expect("a folder");
        let path = folder.join("line0");
        let mut cable = Cable::terminal(&path);
        is_away(&mut cable);
        let mut station = linked(&path);
        holds(&mut cable, &mut station);
        // Its number may be another test's terminal soon.
        fs::remove_file(&path).expect("a link");
        drop(station);
        is_away(&mut cable);
        let mut station = linked(&path);
        holds(&mut cable, &mut station);
        // The link points elsewhere while the terminal is still good.
        let mut other = linked(&path);
        holds(&mut cable, &mut other);
        fs::remove_dir_all(&folder).expect("its end");
    }

    #[test]
    fn a_listener_takes_a_new_connection_for_a_broken_one() {
        let (mut cable, address) = Cable::listener();
        is_away(&mut cable);
        for _ in 0..2 {
            let mut station = TcpStream::connect(address).expect("a connection");
            holds(&mut cable, &mut station);
            drop(station);
            is_away(&mut cable);
        }
    }

    #[test]
    fn a_break_is_told_at_once() {
        let (mut cable, address) = Cable::listener();
        let station = TcpStream::connect(address).expect("a connection");
        assert!(cable.await_up(SHORT));
        let ends = thread::spawn(move || {
            thread::sleep(SHORT / 4);
            drop(station);
        });
        let began = Instant::now();
        assert_eq!(cable.receive(20 * SHORT), None);
        assert!(began.elapsed() < 5 * SHORT);
        ends.join().expect("the end");
    }

    #[test]
    fn a_station_that_reads_nothing_holds_nobody_up() {
        let (mut cable, path) = Cable::master();
        let station = open_raw(&path).expect("a slave");
        let began = Instant::now();
        cable.send(&[0x41; 100_000]);
        let took = began.elapsed();
        assert!((SENDING..2 * SENDING).contains(&took), "{:?}", took);
        drop(station);
    }
}
