//! The ports: a serial device, a pseudo-terminal or a TCP serial server behind each line.
//!
//! Each port has a task of its own, so that one that takes nothing blocks no other. A task hands what comes in to
//! the keeper and reads on only when the keeper is done with it: a line that floods has one piece waiting there,
//! as every other has.

use crate::keeper::Event;
use crate::settings::{Mode, Parity, PortSettings};
use nix::errno::Errno;
use nix::fcntl::OFlag;
use nix::poll::{poll, PollFd, PollFlags};
use nix::pty;
use nix::sys::socket::{setsockopt, sockopt};
use nix::sys::termios::{self, BaudRate, ControlFlags, FlushArg, InputFlags, SetArg};
use std::fs::{self, File, OpenOptions};
use std::io::{self, ErrorKind, Read, Write};
use std::os::unix::fs::{symlink, OpenOptionsExt};
use std::os::unix::io::{AsRawFd, FromRawFd, IntoRawFd};
use std::path::Path;
use std::sync::mpsc::Sender;
use std::time::{Duration, Instant};
use tokio::io::unix::AsyncFd;
use tokio::io::{AsyncReadExt, AsyncWriteExt};
use tokio::net::TcpStream;
use tokio::sync::{mpsc::UnboundedReceiver, oneshot};
use tokio::time::{sleep, timeout};

/// As much as is read at a time: a frame, and what stands around it.
const PIECE: usize = 1_024;

/// How long a port may take to accept what is sent.
const PATIENCE: Duration = Duration::from_secs(5);

/// How long between two tries to open a port, and between two looks whether somebody is at a terminal.
const REOPEN: Duration = Duration::from_secs(1);
const LOOK_AGAIN: Duration = Duration::from_millis(100);

/// After so many seconds of silence a TCP connection is tested.
const KEEPALIVE: u32 = 10;

/// An open port.
enum Port {
    Device(AsyncFd<File>),
    Tcp(TcpStream),
}

impl Port {
    /// What has come; nothing at all says that the other end is gone.
    async fn read(&mut self, piece: &mut [u8]) -> io::Result<usize> {
        match self {
            Port::Tcp(stream) => stream.read(piece).await,
            Port::Device(device) => loop {
                let mut ready = device.readable().await?;
                if let Ok(count) = ready.try_io(|device| device.get_ref().read(piece)) {
                    return count;
                }
            },
        }
    }

    async fn write(&mut self, mut bytes: &[u8]) -> io::Result<()> {
        match self {
            Port::Tcp(stream) => stream.write_all(bytes).await,
            Port::Device(device) => {
                while !bytes.is_empty() {
                    let mut ready = device.writable().await?;
                    match ready.try_io(|device| device.get_ref().write(bytes)) {
                        Ok(Ok(count)) => bytes = &bytes[count..],
                        Ok(Err(error)) => return Err(error),
                        Err(_) => {}
                    }
                }
                Ok(())
            }
        }
    }
}

/// Attends to a line's port as long as there is a keeper: opens it, again where it is lost, hands on what comes
/// and sends what is to be sent. What is to be sent while it is closed is lost, as on a cable that is pulled.
pub async fn attend(
    line: u8,
    settings: PortSettings,
    keeper: Sender<Event>,
    mut outgoing: UnboundedReceiver<Vec<u8>>,
) {
    let mut terminal = None;
    loop {
        let trouble = match open(&settings, &mut terminal).await {
            Err(error) => error,
            Ok(mut port) => {
                while outgoing.try_recv().is_ok() {}
                let told = keeper.send(Event::Port {
                    line,
                    trouble: None,
                });
                if told.is_err() {
                    return;
                }
                // Its own: a reference to a sender may not cross threads before Rust 1.72.
                let own = keeper.clone();
                let lost = serve(line, &mut port, own, &mut outgoing).await;
                match lost {
                    Some(error) => error,
                    None => return,
                }
            }
        };
        let trouble = Some(in_words(&trouble));
        if keeper.send(Event::Port { line, trouble }).is_err() {
            return;
        }
        sleep(REOPEN).await;
    }
}

/// Serves an open port until it is lost, and says why; nothing where the keeper is gone.
async fn serve(
    line: u8,
    port: &mut Port,
    keeper: Sender<Event>,
    outgoing: &mut UnboundedReceiver<Vec<u8>>,
) -> Option<io::Error> {
    let mut piece = [0; PIECE];
    loop {
        tokio::select! {
            // What is to leave goes first: else replies would gather behind a line that floods.
            biased;
            bytes = outgoing.recv() => match timeout(PATIENCE, port.write(&bytes?)).await {
                Ok(Ok(())) => {}
                Ok(Err(error)) => return Some(error),
                Err(_) => return Some(ErrorKind::WriteZero.into()),
            },
            count = port.read(&mut piece) => match count {
                Ok(0) => return Some(ErrorKind::UnexpectedEof.into()),
                Ok(count) => {
                    let (done, settled) = oneshot::channel();
                    let event = Event::Bytes {
                        line,
                        bytes: piece[..count].to_vec(),
                        came: Instant::now(),
                        done,
                    };
                    keeper.send(event).ok()?;
                    settled.await.ok()?;
                }
                Err(error) if error.kind() == ErrorKind::Interrupted => {}
                Err(error) => return Some(error),
            },
        }
    }
}

fn in_words(error: &io::Error) -> String {
    match error.kind() {
        ErrorKind::UnexpectedEof => "hung up".to_string(),
        ErrorKind::WriteZero => "takes nothing".to_string(),
        ErrorKind::TimedOut => "does not answer".to_string(),
        _ => match error.raw_os_error().map(Errno::from_i32) {
            // What a terminal says whose other end was closed.
            Some(Errno::EIO) => "hung up".to_string(),
            Some(number) => number.desc().to_lowercase(),
            None => error.to_string(),
        },
    }
}

async fn open(settings: &PortSettings, terminal: &mut Option<File>) -> io::Result<Port> {
    match settings {
        PortSettings::Serial { device, mode } => {
            let device = open_device(device)?;
            set_up(&device, Some(*mode))?;
            Ok(Port::Device(AsyncFd::new(device)?))
        }
        PortSettings::Terminal { link, .. } => {
            if terminal.is_none() {
                *terminal = Some(make_terminal(link)?);
            }
            let master = terminal.as_ref().expect("just made").try_clone()?;
            while is_alone(&master)? {
                sleep(LOOK_AGAIN).await;
            }
            Ok(Port::Device(AsyncFd::new(master)?))
        }
        PortSettings::Tcp { address } => {
            let stream = timeout(PATIENCE, TcpStream::connect(address)).await??;
            stream.set_nodelay(true)?;
            // A server that was switched off says nothing: the connection is tested when it is silent.
            setsockopt(stream.as_raw_fd(), sockopt::KeepAlive, &true)?;
            setsockopt(stream.as_raw_fd(), sockopt::TcpKeepIdle, &KEEPALIVE)?;
            setsockopt(stream.as_raw_fd(), sockopt::TcpKeepInterval, &KEEPALIVE)?;
            Ok(Port::Tcp(stream))
        }
    }
}

fn open_device(path: &Path) -> io::Result<File> {
    let flags = OFlag::O_NOCTTY | OFlag::O_NONBLOCK | OFlag::O_CLOEXEC;
    OpenOptions::new()
        .read(true)
        .write(true)
        .custom_flags(flags.bits())
        .open(path)
}

/// A pseudo-terminal whose other end the link leads to. It is ours as long as the station runs.
fn make_terminal(link: &Path) -> io::Result<File> {
    let flags = OFlag::O_RDWR | OFlag::O_NOCTTY | OFlag::O_NONBLOCK | OFlag::O_CLOEXEC;
    let master = pty::posix_openpt(flags)?;
    pty::grantpt(&master)?;
    pty::unlockpt(&master)?;
    let other = pty::ptsname_r(&master)?;
    // Opened and closed once: raw from the first byte on, and a look at the master then says that nobody is there.
    set_up(&open_device(Path::new(&other))?, None)?;
    if let Some(folder) = link.parent() {
        fs::create_dir_all(folder)?;
    }
    let mut made = link.as_os_str().to_owned();
    made.push(".new");
    let _ = fs::remove_file(&made);
    symlink(&other, &made)?;
    fs::rename(&made, link)?;
    // SAFETY: the descriptor is open, and from here on only this file's.
    Ok(unsafe { File::from_raw_fd(master.into_raw_fd()) })
}

/// Whether nobody has the other end of a terminal open.
fn is_alone(master: &File) -> io::Result<bool> {
    let mut looked = [PollFd::new(master.as_raw_fd(), PollFlags::POLLIN)];
    poll(&mut looked, 0)?;
    let seen = looked[0].revents().unwrap_or_else(PollFlags::empty);
    Ok(seen.contains(PollFlags::POLLHUP))
}

/// Raw: no echo, no translation of CR or LF, no XON and XOFF. A pseudo-terminal has no mode.
fn set_up(device: &File, mode: Option<Mode>) -> io::Result<()> {
    let mut set = termios::tcgetattr(device.as_raw_fd())?;
    termios::cfmakeraw(&mut set);
    set.input_flags
        .remove(InputFlags::IXON | InputFlags::IXOFF | InputFlags::IXANY);
    set.control_flags
        .insert(ControlFlags::CLOCAL | ControlFlags::CREAD);
    set.control_flags.remove(ControlFlags::CRTSCTS);
    if let Some(mode) = mode {
        set_mode(&mut set, mode)?;
    }
    termios::tcsetattr(device.as_raw_fd(), SetArg::TCSANOW, &set)?;
    // What came before the line was set up was not for us.
    Ok(termios::tcflush(device.as_raw_fd(), FlushArg::TCIOFLUSH)?)
}

fn set_mode(set: &mut termios::Termios, mode: Mode) -> io::Result<()> {
    let speed = baud_rate(mode.speed).ok_or(ErrorKind::InvalidInput)?;
    termios::cfsetspeed(set, speed)?;
    let flags = &mut set.control_flags;
    flags.remove(ControlFlags::CSIZE);
    flags.insert(match mode.data_bits {
        7 => ControlFlags::CS7,
        _ => ControlFlags::CS8,
    });
    flags.set(ControlFlags::CSTOPB, mode.stop_bits == 2);
    flags.set(ControlFlags::PARENB, mode.parity != Parity::None);
    flags.set(ControlFlags::PARODD, mode.parity == Parity::Odd);
    Ok(())
}

/// The speeds of serial devices.
pub fn baud_rate(speed: u32) -> Option<BaudRate> {
    Some(match speed {
        300 => BaudRate::B300,
        600 => BaudRate::B600,
        1_200 => BaudRate::B1200,
        2_400 => BaudRate::B2400,
        4_800 => BaudRate::B4800,
        9_600 => BaudRate::B9600,
        19_200 => BaudRate::B19200,
        38_400 => BaudRate::B38400,
        57_600 => BaudRate::B57600,
        115_200 => BaudRate::B115200,
        _ => return None,
    })
}

#[cfg(test)]
mod tests {
    use super::*;
    use crate::simulated::Cable;
    use nix::sys::termios::{LocalFlags, OutputFlags};
    use std::sync::mpsc::channel;
    use tokio::runtime::Builder;
    use tokio::sync::mpsc::unbounded_channel;

    const MODE: Mode = Mode {
        speed: 9_600,
        parity: Parity::None,
        data_bits: 8,
        stop_bits: 1,
    };

    /// A terminal takes any speed, and is always of 8 bits: the rest is looked at before it is set.
    #[test]
    fn a_device_is_set_as_the_settings_say() {
        let (_cable, path) = Cable::master();
        let device = open_device(&path).expect("a terminal");
        for speed in [300, 9_600, 115_200] {
            set_up(&device, Some(Mode { speed, ..MODE })).expect("a terminal");
            let set = termios::tcgetattr(device.as_raw_fd()).expect("a terminal");
            assert_eq!(termios::cfgetospeed(&set), baud_rate(speed).expect("one"));
            let translates = InputFlags::ICRNL | InputFlags::IXON | InputFlags::ISTRIP;
            assert!(!set.input_flags.intersects(translates));
            assert!(!set.output_flags.contains(OutputFlags::OPOST));
            let cooked = LocalFlags::ICANON | LocalFlags::ECHO | LocalFlags::ISIG;
            assert!(!set.local_flags.intersects(cooked));
        }
        let mut set = termios::tcgetattr(device.as_raw_fd()).expect("a terminal");
        let mut flags = |mode: Mode| {
            set_mode(&mut set, mode).expect("a speed");
            let told = ControlFlags::CSIZE
                | ControlFlags::CSTOPB
                | ControlFlags::PARENB
                | ControlFlags::PARODD;
            set.control_flags & told
        };
        let odd = Mode {
            parity: Parity::Odd,
            data_bits: 7,
            stop_bits: 2,
            ..MODE
        };
        let even = Mode {
            parity: Parity::Even,
            ..MODE
        };
        let is_odd = ControlFlags::PARENB | ControlFlags::PARODD;
        assert_eq!(
            flags(odd),
            ControlFlags::CS7 | ControlFlags::CSTOPB | is_odd
        );
        assert_eq!(flags(even), ControlFlags::CS8 | ControlFlags::PARENB);
        assert_eq!(flags(MODE), ControlFlags::CS8);
        assert!(set_mode(&mut set, Mode { speed: 1, ..MODE }).is_err());
    }

    #[test]
    fn a_port_that_takes_nothing_is_said_and_opened_again() {
        let (_cable, device) = Cable::master();
        let (keeper, events) = channel();
        let (outgoing, to_send) = unbounded_channel();
        let runtime = Builder::new_multi_thread().enable_all().build();
        let runtime = runtime.expect("threads");
        let settings = PortSettings::Serial { device, mode: MODE };
        runtime.spawn(attend(3, settings, keeper, to_send));
        let next = || match events.recv_timeout(3 * PATIENCE) {
            Ok(Event::Port { line: 3, trouble }) => trouble,
            _ => panic!("nothing is told of the port"),
        };
        assert_eq!(next(), None);
        // More than a terminal holds for who does not read.
        outgoing.send(vec![b'x'; 1 << 20]).expect("it is attended");
        assert_eq!(next().as_deref(), Some("takes nothing"));
        assert_eq!(next(), None);
        runtime.shutdown_background();
    }

    #[test]
    fn troubles_in_words() {
        let told = |error: io::Error| in_words(&error);
        assert_eq!(told(ErrorKind::TimedOut.into()), "does not answer");
        assert_eq!(told(Errno::EIO.into()), "hung up");
        assert_eq!(told(Errno::ENOENT.into()), "no such file or directory");
    }
}
