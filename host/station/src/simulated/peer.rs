//! The station's place, taken in tests by a gateway at the other end of a cable.

use super::cable::{open_raw, wait, Port};
use ngachodui::{Answer, Gateway, Settings, Speaks, TEXT_LIMIT};
use nix::poll::PollFlags;
use std::collections::VecDeque;
use std::net::{SocketAddr, TcpStream};
use std::path::PathBuf;
use std::sync::atomic::{AtomicBool, Ordering};
use std::sync::Arc;
use std::thread::{self, JoinHandle};
use std::time::{Duration, Instant};

const LINE: u8 = 0;

/// Behind a sending and behind a contention it leaves the line to the analyzer for this time.
const BREAK: Duration = Duration::from_millis(50);

/// Where the device's cable ends.
pub enum Peer {
    Slave(PathBuf),
    Tcp(SocketAddr),
}

impl Peer {
    fn open(self) -> Box<dyn Port> {
        match self {
            Peer::Slave(path) => Box::new(open_raw(&path).expect("a slave")),
            Peer::Tcp(address) => {
                let stream = TcpStream::connect(address).expect("a listener");
                stream.set_nonblocking(true).expect("a setting");
                stream.set_nodelay(true).expect("a setting");
                Box::new(stream)
            }
        }
    }
}

/// What was stored, and how many sendings were acknowledged.
#[derive(Default)]
pub struct Outcome {
    pub stored: Vec<Vec<u8>>,
    pub sent: usize,
}

/// What takes the station's place.
pub struct Station {
    gateway: Gateway,
    replies: usize,
    orders: VecDeque<Vec<u8>>,
    rests: Instant,
    outcome: Outcome,
}

impl Station {
    pub fn frames() -> Station {
        Station::speaking(Speaks::Frames)
    }

    pub fn speaking(speaks: Speaks) -> Station {
        let mut settings = [Settings::default(); 8];
        settings[usize::from(LINE)].speaks = speaks;
        Station {
            gateway: Gateway::start(settings),
            replies: usize::MAX,
            orders: VecDeque::new(),
            rests: Instant::now(),
            outcome: Outcome::default(),
        }
    }

    /// Only so many replies reach the device.
    pub fn mute_behind(self, replies: usize) -> Station {
        Station { replies, ..self }
    }

    /// These are sent down.
    pub fn with_orders(self, orders: &[Vec<u8>]) -> Station {
        let orders = orders.iter().cloned().collect();
        Station { orders, ..self }
    }

    /// Begins at this end.
    pub fn at(mut self, peer: Peer) -> Running {
        let mut port = peer.open();
        let stop = Arc::new(AtomicBool::new(false));
        let stops = stop.clone();
        let thread = thread::spawn(move || {
            while !stops.load(Ordering::Relaxed) {
                self.step(&mut *port);
            }
            self.outcome
        });
        Running { stop, thread }
    }

    /// What has come is answered, and where nothing comes an order is begun.
    fn step(&mut self, port: &mut dyn Port) {
        let patience = Duration::from_millis(5);
        if wait(port.as_raw_fd(), PollFlags::POLLIN, patience).is_empty() {
            if let (Some(order), true) = (self.orders.front(), self.rests < Instant::now()) {
                let answer = self.gateway.send(LINE, order);
                self.settle(answer, port);
            }
            return;
        }
        let mut bytes = [0; 1_000];
        let count = port.read(&mut bytes).unwrap_or(0);
        for byte in &bytes[..count] {
            let answer = self.gateway.byte(LINE, *byte);
            self.settle(answer, port);
        }
    }

    fn settle(&mut self, answer: Answer, port: &mut dyn Port) {
        match answer {
            Answer::Stored | Answer::Filed => self.take(),
            Answer::SendingEnded { acknowledged } => {
                self.rests = Instant::now() + BREAK;
                if acknowledged {
                    self.outcome.sent += 1;
                    self.orders.pop_front();
                }
            }
            Answer::GivenUp => self.rests = Instant::now() + BREAK,
            _ => {}
        }
        let outgoing = answer.outgoing();
        if !outgoing.is_empty() && self.replies > 0 {
            self.replies -= 1;
            port.write_all(outgoing).expect("room on the cable");
        }
    }

    fn take(&mut self) {
        let mut buffer = [0; TEXT_LIMIT];
        if let Answer::Taken { length, .. } = self.gateway.take(LINE, &mut buffer) {
            self.outcome.stored.push(buffer[..length].to_vec());
        }
    }
}

/// A station that runs.
pub struct Running {
    stop: Arc<AtomicBool>,
    thread: JoinHandle<Outcome>,
}

impl Running {
    pub fn end(self) -> Outcome {
        self.stop.store(true, Ordering::Relaxed);
        self.thread.join().expect("the station's thread")
    }
}
