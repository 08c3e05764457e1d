//! A station to test: started with settings of its own, killed and started again, asked over HTTP.

use ngachodui_station::client::Client;
use ngachodui_station::simulated::cable::Cable;
use ngachodui_station::testing::Folder;
use serde_json::Value;
use std::fs::{self, File};
use std::net::{SocketAddr, TcpListener};
use std::path::PathBuf;
use std::process::{Child, Command, Stdio};
use std::sync::atomic::{AtomicBool, Ordering};
use std::thread::sleep;
use std::time::{Duration, Instant};

pub const OPERATOR: &str = "token-of-the-operator";

/// How long a test waits for what has to come.
pub const PATIENCE: Duration = Duration::from_secs(30);

/// A line of the settings file, but for its number.
pub struct LineOf {
    laboratory: &'static str,
    port: String,
    speaks: &'static str,
}

/// A line, and the cable to it.
pub fn serial(laboratory: &'static str) -> (LineOf, Cable) {
    let (cable, path) = Cable::master();
    let port = format!("serial = {:?}", path);
    (line(laboratory, port), cable)
}

pub fn tcp(laboratory: &'static str) -> (LineOf, Cable) {
    let (cable, address) = Cable::listener();
    (line(laboratory, format!("tcp = \"{}\"", address)), cable)
}

pub fn line(laboratory: &'static str, port: String) -> LineOf {
    LineOf {
        laboratory,
        port,
        speaks: "frames",
    }
}

impl LineOf {
    pub fn speaking(self, speaks: &'static str) -> LineOf {
        LineOf { speaks, ..self }
    }
}

/// A station; it is killed when it is dropped.
pub struct Station {
    pub folder: Folder,
    pub address: SocketAddr,
    child: Option<Child>,
}

impl Station {
    /// A station with these lines, on a disk. `more` stands at the head of its settings.
    pub fn with(more: &str, lines: &[LineOf]) -> Station {
        Station::in_folder(Folder::new(), more, lines)
    }

    pub fn in_folder(folder: Folder, more: &str, lines: &[LineOf]) -> Station {
        // Free now; a station that is killed and started again gets the same one.
        let listener = TcpListener::bind("127.0.0.1:0").expect("a port");
        let address = listener.local_addr().expect("bound");
        let mut text = format!(
            "folder = \"state\"\nlisten = \"{}\"\noperator = \"{}\"\n{}\n",
            address, OPERATOR, more
        );
        let mut names: Vec<&str> = lines.iter().map(|line| line.laboratory).collect();
        names.sort_unstable();
        names.dedup();
        for name in names {
            let token = token(name);
            text += &format!(
                "[[laboratory]]\nname = \"{}\"\ntoken = \"{}\"\n",
                name, token
            );
        }
        for (line, number) in lines.iter().zip(0..) {
            text += &format!(
                "[[line]]\nnumber = {}\nlaboratory = \"{}\"\n{}\nspeaks = \"{}\"\n",
                number, line.laboratory, line.port, line.speaks
            );
        }
        fs::write(folder.path.join("settings.toml"), text).expect("written");
        drop(listener);
        let mut station = Station {
            folder,
            address,
            child: None,
        };
        station.start();
        station
    }

    pub fn command(&self) -> Command {
        let log = File::options()
            .create(true)
            .append(true)
            .open(self.folder.path.join("log"))
            .expect("a log");
        let mut command = Command::new(env!("CARGO_BIN_EXE_station"));
        command.stdout(Stdio::null()).stderr(log);
        command
    }

    pub fn settings(&self) -> PathBuf {
        self.folder.path.join("settings.toml")
    }

    pub fn start(&mut self) {
        let child = self.command().arg(self.settings()).spawn();
        self.child = Some(child.expect("the station's program"));
        let anybody = self.anybody();
        until("the station answers", || anybody.get("/board").is_ok());
    }

    /// SIGKILL, at once. Its terminals may be those of another test then, so that no link leads to them.
    pub fn kill(&mut self) {
        if let Some(mut child) = self.child.take() {
            let _ = fs::remove_dir_all(self.folder.path.join("state/ports"));
            child.kill().expect("it runs");
            child.wait().expect("it ran");
        }
    }

    /// It is told to stop; whether it ended well.
    pub fn stop(&mut self, signal: &str) -> bool {
        let process = self.process().to_string();
        let told = Command::new("kill").args([signal, &process]).status();
        assert!(told.expect("kill").success());
        let mut child = self.child.take().expect("started");
        child.wait().expect("it ran").success()
    }

    /// Whether it runs still.
    pub fn runs(&mut self) -> bool {
        let child = self.child.as_mut().expect("started");
        child.try_wait().expect("a child").is_none()
    }

    pub fn process(&self) -> u32 {
        self.child.as_ref().expect("started").id()
    }

    /// How many KiB of memory it has.
    pub fn memory(&self) -> u64 {
        let path = format!("/proc/{}/status", self.process());
        let status = fs::read_to_string(path).expect("it runs");
        let line = status.lines().find(|line| line.starts_with("VmRSS:"));
        let size = line.and_then(|line| line.split_whitespace().nth(1)?.parse().ok());
        size.expect("a size in KiB")
    }

    pub fn log(&self) -> String {
        fs::read_to_string(self.folder.path.join("log")).unwrap_or_default()
    }

    pub fn anybody(&self) -> Client {
        Client::new(self.address, "")
    }

    pub fn reader(&self, laboratory: &str) -> Client {
        Client::new(self.address, &token(laboratory))
    }

    pub fn operator(&self) -> Client {
        Client::new(self.address, OPERATOR)
    }

    pub fn board(&self) -> Value {
        self.anybody().get("/board").expect("a board").json()
    }

    /// A board that was made after this was called: it tells all that was answered before.
    pub fn next_board(&self) -> Value {
        let before = self.board();
        let mut next = before.clone();
        until("the board is made anew", || {
            next = self.board();
            next["now"] != before["now"]
        });
        next
    }

    /// A line's part of the board.
    pub fn line(&self, number: usize) -> Value {
        self.board()["lines"][number].clone()
    }

    pub fn await_connected(&self, lines: usize) {
        until("every port is open", || {
            let board = self.board();
            (0..lines).all(|line| board["lines"][line]["connected"] == true)
        });
    }
}

impl Drop for Station {
    fn drop(&mut self) {
        self.kill();
        if std::thread::panicking() {
            eprintln!("the station's log:\n{}", tail(&self.log()));
        }
    }
}

fn tail(log: &str) -> String {
    let lines: Vec<&str> = log.lines().collect();
    lines[lines.len().saturating_sub(30)..].join("\n")
}

pub fn token(laboratory: &str) -> String {
    format!("token-of-the-reader-of-{}", laboratory)
}

/// Sets a flag when it goes, also where a test fails: what waits for the flag ends then, and the failure is told.
pub struct Sets<'a>(pub &'a AtomicBool);

impl Drop for Sets<'_> {
    fn drop(&mut self) {
        self.0.store(true, Ordering::SeqCst);
    }
}

/// Waits until something is so.
pub fn until(what: &str, mut is_so: impl FnMut() -> bool) {
    let began = Instant::now();
    while !is_so() {
        assert!(began.elapsed() < PATIENCE, "waited too long until {}", what);
        sleep(Duration::from_millis(20));
    }
}
