//! measure FOLDER: what a saved ACK costs, and how many bytes a second go through eight lines, with the state in this
//! folder. The station is the program beside this one; the analyzers are simulated, on TCP, as fast as they can.

use ngachodui_station::client::Client;
use ngachodui_station::simulated::texts::{result, Size};
use ngachodui_station::simulated::{Analyzer, Cable, Fate};
use std::fs;
use std::net::{SocketAddr, TcpListener};
use std::path::{Path, PathBuf};
use std::process::{Child, Command, Stdio};
use std::sync::atomic::{AtomicBool, AtomicUsize, Ordering};
use std::thread;
use std::time::{Duration, Instant};

const LINES: u8 = 8;

/// How many replies are timed, and how long eight lines send.
const REPLIES: usize = 2_000;
const SENDING: Duration = Duration::from_secs(10);

/// A serial line takes ten bits for a byte.
const SPEEDS: [u32; 3] = [9_600, 19_200, 115_200];
const BITS: u32 = 10;

/// A frame with all the text that it may have.
const FULL_FRAME: u32 = 247;

struct Station {
    child: Child,
    address: SocketAddr,
    cables: Vec<Cable>,
}

impl Drop for Station {
    fn drop(&mut self) {
        let _ = self.child.kill();
        let _ = self.child.wait();
    }
}

fn token(line: u8) -> String {
    format!("token-of-the-reader-{}", line)
}

fn start(folder: &Path) -> Station {
    fs::create_dir_all(folder).expect("a folder");
    let listener = TcpListener::bind("127.0.0.1:0").expect("a port");
    let address = listener.local_addr().expect("bound");
    let mut text = format!("folder = \"state\"\nlisten = \"{}\"\n", address);
    let mut cables = Vec::new();
    for line in 0..LINES {
        let (cable, server) = Cable::listener();
        cables.push(cable);
        text += &format!(
            "[[laboratory]]\nname = \"{0}\"\ntoken = \"{1}\"\n[[line]]\nnumber = {0}\nlaboratory = \"{0}\"\ntcp = \"{2}\"\n",
            line, token(line), server
        );
    }
    let settings = folder.join("settings.toml");
    fs::write(&settings, text).expect("written");
    drop(listener);
    let program = std::env::current_exe().expect("a program");
    let child = Command::new(program.with_file_name("station"))
        .arg(settings)
        .stdout(Stdio::null())
        .stderr(Stdio::null())
        .spawn()
        .expect("the station beside this program");
    Station {
        child,
        address,
        cables,
    }
}

/// Takes what waits on a line until it is over.
fn take_all(address: SocketAddr, line: u8, is_over: &AtomicBool) {
    let reader = Client::new(address, &token(line));
    while !is_over.load(Ordering::SeqCst) {
        match reader.message() {
            Ok(Some((line, serial, _))) => {
                reader.confirm(line, serial).expect("it was just given");
            }
            _ => thread::sleep(Duration::from_millis(1)),
        }
    }
}

/// From ENQ to ACK, over and over, on one line: each ACK waits for a save. In microseconds, sorted.
fn time_replies(cable: &mut Cable) -> Vec<u128> {
    cable.await_up(Duration::from_secs(10));
    let mut times = Vec::new();
    for _ in 0..REPLIES {
        let began = Instant::now();
        cable.send(&[0x05]);
        assert_eq!(cable.receive(Duration::from_secs(5)), Some(0x06));
        times.push(began.elapsed().as_micros());
        cable.send(&[0x04]);
    }
    times.sort_unstable();
    times
}

/// Eight lines send messages of this size; bytes of text that were acknowledged, messages, and the time.
fn send_on_all(station: &mut Station, size: Size) -> (usize, usize, Duration) {
    let is_over = AtomicBool::new(false);
    let (bytes, messages) = (AtomicUsize::new(0), AtomicUsize::new(0));
    let address = station.address;
    let began = Instant::now();
    thread::scope(|scope| {
        for (cable, line) in std::mem::take(&mut station.cables).into_iter().zip(0..) {
            let (is_over, bytes, messages) = (&is_over, &bytes, &messages);
            scope.spawn(move || take_all(address, line, is_over));
            scope.spawn(move || {
                let mut analyzer = Analyzer::new(cable);
                analyzer.pause = Duration::from_millis(5);
                for number in 0.. {
                    if is_over.load(Ordering::SeqCst) {
                        break;
                    }
                    let text = result(line, number, 0, size);
                    let length = text.len();
                    if analyzer.transfer(&[text]) == [Fate::Acknowledged] {
                        bytes.fetch_add(length, Ordering::SeqCst);
                        messages.fetch_add(1, Ordering::SeqCst);
                    }
                }
            });
        }
        thread::sleep(SENDING);
        is_over.store(true, Ordering::SeqCst);
    });
    (
        bytes.load(Ordering::SeqCst),
        messages.load(Ordering::SeqCst),
        began.elapsed(),
    )
}

fn main() {
    let folder = std::env::args_os().nth(1).map(PathBuf::from);
    let folder = folder.expect("usage: measure FOLDER");
    for speed in SPEEDS {
        println!(
            "line at {} baud: {} bytes a second, eight lines {}; a full frame takes {} ms",
            speed,
            speed / BITS,
            u32::from(LINES) * speed / BITS,
            FULL_FRAME * BITS * 1_000 / speed
        );
    }
    let times = time_replies(&mut start(&folder.join("one")).cables[0]);
    println!(
        "saved ACK, one line: median {} us, 99 of 100 below {} us, longest {} us",
        times[times.len() / 2],
        times[times.len() * 99 / 100],
        times[times.len() - 1]
    );
    for (name, size) in [("usual", Size::Usual), ("calibrations", Size::Calibration)] {
        let mut station = start(&folder.join(name));
        let (bytes, messages, took) = send_on_all(&mut station, size);
        let second = |count: usize| (count as f64 / took.as_secs_f64()) as usize;
        println!(
            "eight lines, {}: {} bytes of text and {} messages a second, stored, read and confirmed",
            name,
            second(bytes),
            second(messages)
        );
    }
}
