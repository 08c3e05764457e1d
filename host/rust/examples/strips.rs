//! Two strip readers beside an analyzer, and prints the dialogue.
//!
//! The gateway is a host's; readers and analyzer are played here, each on its own line, and all speak at once,
//! byte by byte. Blocks are spoilt and replies lost at fixed places, so that every run prints the same. This is
//! what a host has to do with strip readers: it says at the start which lines have one, hands over every
//! byte that comes in, and sends all that the answers have with them.

use ngachodui::{cut, Answer, Gateway, Settings, Speaks, CUT_LIMIT, TEXT_LIMIT};
use std::collections::VecDeque;

/// A reader waits so many seconds for a reply, and asks so often before it stops.
const PATIENCE: u32 = 15;
const MOST_ASKED: u32 = 4;

const SPM: u8 = b'<';
const END: u8 = b':';

/// STX to ETX, the two test bytes, CR.
fn block(inside: &str) -> Vec<u8> {
    let mut bytes = format!("\x02{}\x03", inside).into_bytes();
    let test = bytes.iter().fold(0, |test, byte| test ^ byte);
    bytes.extend([0x30 | test >> 4, 0x30 | test & 15, b'\r']);
    bytes
}

fn control(code: u8) -> Vec<u8> {
    block(&char::from(code).to_string())
}

/// What a finding and its colours have in common.
fn head(letter: char, patient: &str, characters: usize, number: usize) -> String {
    let patient = format!("{:<1$}", patient, characters);
    format!(";{} {} {:05} 15.03.01 09:30 ", letter, patient, number)
}

/// The results of a strip: sugar rises with the number, so that findings differ.
fn finding(patient: &str, characters: usize, number: usize) -> Vec<u8> {
    let mut inside = head('E', patient, characters, number);
    inside += "SG1.030      PH  7      LEU     500/ul ++++ NITpos pos  ";
    inside += "PRO   0.75 g/l ++++ ";
    inside += &format!("GLU{:>4} mg/dl  ++++ ", 50 * number);
    inside += "KET            neg  UBG           norm  BIL            neg  ";
    inside += "ERY      25/ul   ++ NAG                 ";
    block(&inside)
}

fn colours(patient: &str, characters: usize, number: usize) -> Vec<u8> {
    let inside = head('D', patient, characters, number);
    block(&format!("{}{:<18} {:<18} ", inside, "yellow", "clear"))
}

/// What is connected to a line.
trait Device {
    /// The next byte to the host, if it is speaking.
    fn byte(&mut self) -> Option<u8>;
    /// What comes from the host.
    fn hear(&mut self, bytes: &[u8]);
    /// A second has passed in silence.
    fn second(&mut self);
    /// What it sent last, in words; nothing where its dialogue is not to be told.
    fn said(&self) -> Option<&str>;
}

/// Where a reader is in its dialogue.
#[derive(Clone, Copy, PartialEq)]
enum Phase {
    Silent,
    Asking,
    Results,
    Colours,
}

/// A reader with findings to send. It sends what was not acknowledged again.
struct Reader {
    characters: usize,
    patient: &'static str,
    /// The number of the finding that it is at, and of the last.
    at: usize,
    last: usize,
    phase: Phase,
    waited: u32,
    asked: u32,
    /// Which of its blocks are spoilt on their way, and which replies are lost, counted from 1.
    spoilt: &'static [usize],
    lost: &'static [usize],
    sent: usize,
    heard: usize,
    speaks: VecDeque<u8>,
    said: String,
}

impl Reader {
    /// Somebody presses the key that sends.
    fn press(&mut self) {
        self.asked = 0;
        self.ask();
    }

    fn ask(&mut self) {
        self.phase = Phase::Asking;
        self.send("SPM", control(SPM));
    }

    fn send(&mut self, said: &str, mut bytes: Vec<u8>) {
        self.sent += 1;
        self.waited = 0;
        self.said = said.to_string();
        if self.spoilt.contains(&self.sent) {
            self.said += ", spoilt";
            bytes[1] ^= 0x04;
        }
        self.speaks.extend(bytes);
    }

    fn send_finding(&mut self) {
        self.phase = Phase::Results;
        let block = finding(self.patient, self.characters, self.at);
        self.send(&format!("E {}", self.at), block);
    }

    /// MOR: what comes next.
    fn go_on(&mut self) {
        if self.phase != Phase::Asking {
            self.asked = 0;
        }
        match self.phase {
            Phase::Silent => {}
            Phase::Asking => self.send_finding(),
            Phase::Results => {
                self.phase = Phase::Colours;
                let block = colours(self.patient, self.characters, self.at);
                self.send(&format!("D {}", self.at), block);
            }
            Phase::Colours if self.at == self.last => {
                self.at += 1;
                self.phase = Phase::Silent;
                self.send("END", control(END));
            }
            Phase::Colours => {
                self.at += 1;
                self.send_finding();
            }
        }
    }
}

impl Device for Reader {
    fn byte(&mut self) -> Option<u8> {
        self.speaks.pop_front()
    }

    fn hear(&mut self, bytes: &[u8]) {
        self.heard += 1;
        if self.lost.contains(&self.heard) {
            println!("{:>30} the reply is lost", "");
            return;
        }
        match (bytes, self.phase) {
            (b"\x02>\x033?\r", _) => self.go_on(),
            (_, Phase::Asking) => self.ask(),
            _ => self.send_finding(),
        }
    }

    fn second(&mut self) {
        self.waited += 1;
        if self.phase == Phase::Silent || self.waited < PATIENCE {
            return;
        }
        self.asked += 1;
        if self.asked > MOST_ASKED {
            self.phase = Phase::Silent;
        } else {
            self.ask();
        }
    }

    fn said(&self) -> Option<&str> {
        Some(&self.said)
    }
}

/// An analyzer that sends one message in frames.
struct Analyzer {
    is_told: bool,
    waiting: VecDeque<(String, Vec<u8>)>,
    speaks: VecDeque<u8>,
    said: String,
}

impl Analyzer {
    fn with(text: &[u8]) -> Analyzer {
        let mut out = [0; CUT_LIMIT];
        let length = cut(text, &mut out).expect("a message");
        let mut waiting = VecDeque::from([("ENQ".to_string(), vec![0x05])]);
        for (frame, k) in out[..length]
            .split_inclusive(|byte| *byte == b'\n')
            .zip(1..)
        {
            waiting.push_back((format!("frame {}", k), frame.to_vec()));
        }
        waiting.push_back(("EOT".to_string(), vec![0x04]));
        let mut analyzer = Analyzer {
            is_told: true,
            waiting,
            speaks: VecDeque::new(),
            said: String::new(),
        };
        analyzer.go_on();
        analyzer
    }

    fn go_on(&mut self) {
        if let Some((said, bytes)) = self.waiting.pop_front() {
            self.said = said;
            self.speaks.extend(bytes);
        }
    }
}

impl Device for Analyzer {
    fn byte(&mut self) -> Option<u8> {
        self.speaks.pop_front()
    }

    fn hear(&mut self, _: &[u8]) {
        self.go_on();
    }

    fn second(&mut self) {}

    fn said(&self) -> Option<&str> {
        self.is_told.then_some(&self.said)
    }
}

struct Host {
    gateway: Gateway,
    seconds: u32,
}

impl Host {
    /// All devices speak until they have been silent for so many seconds.
    fn run(&mut self, devices: &mut [(u8, &mut dyn Device)], silence: u32) {
        let mut silent = 0;
        while silent < silence {
            let mut spoke = false;
            for (line, device) in devices.iter_mut() {
                if let Some(byte) = device.byte() {
                    spoke = true;
                    let answer = self.gateway.byte(*line, byte);
                    self.tell(*line, device.said(), &answer);
                    // All that the answer has with it goes out, a byte or a block.
                    if !answer.outgoing().is_empty() {
                        device.hear(answer.outgoing());
                    }
                }
            }
            if spoke {
                silent = 0;
                continue;
            }
            silent += 1;
            self.seconds += 1;
            for (line, device) in devices.iter_mut() {
                // A reader keeps its own time, and its line needs none; a line of frames does.
                self.gateway.seconds(*line, 1);
                device.second();
            }
        }
    }

    /// A line of the dialogue: when, on which line, what has come, the answer's number, what goes back.
    fn tell(&self, line: u8, said: Option<&str>, answer: &Answer) {
        if let (Some(said), true) = (said, *answer != Answer::Nothing) {
            let (number, back) = (answer.number(), shown(answer.outgoing()));
            println!(
                "{:>4} s  line {}  {:<12} {:>3}  {}",
                self.seconds, line, said, number, back
            );
        }
    }

    /// Takes what waits on a line; how many messages that were.
    fn take_all(&mut self, line: u8, show: bool) -> usize {
        let mut buffer = [0; TEXT_LIMIT];
        let mut taken = 0;
        while let Answer::Taken { length, serial } = self.gateway.take(line, &mut buffer) {
            taken += 1;
            if show {
                let text = String::from_utf8_lossy(&buffer[..length]).replace('\r', "/");
                println!("line {}, message {}: {}", line, serial, text);
            }
        }
        taken
    }
}

fn shown(bytes: &[u8]) -> &'static str {
    match bytes {
        b"\x02>\x033?\r" => "MOR",
        b"\x02?\x033>\r" => "REP",
        [0x06] => "ACK",
        [0x15] => "NAK",
        _ => "--",
    }
}

/// A reader that has measured so much.
fn reader(characters: usize, patient: &'static str, last: usize) -> Reader {
    Reader {
        characters,
        patient,
        at: 1,
        last,
        phase: Phase::Silent,
        waited: 0,
        asked: 0,
        spoilt: &[],
        lost: &[],
        sent: 0,
        heard: 0,
        speaks: VecDeque::new(),
        said: String::new(),
    }
}

/// A message of an analyzer, so long.
fn message(length: usize) -> Vec<u8> {
    let mut text = b"H|\\^&|".to_vec();
    text.resize(length - 5, b'x');
    text.extend_from_slice(b"\rL|1\r");
    text
}

fn main() {
    let mut settings = [Settings::default(); 8];
    settings[2].speaks = Speaks::Strips10;
    settings[5].speaks = Speaks::Strips13;
    let mut host = Host {
        gateway: Gateway::start(settings),
        seconds: 0,
    };

    println!("two readers and an analyzer at once");
    let mut analyzer = Analyzer::with(b"H|\\^&\rP|1||4711\rO|1\rR|1|^^^GLU|5.2|mmol/L\rL|1|N\r");
    // A block is spoilt, and sent again; a reply is lost, and the reader asks and repeats what is stored.
    let mut first = Reader {
        spoilt: &[1, 3],
        lost: &[6],
        ..reader(10, "4711", 2)
    };
    let mut second = reader(13, "A&B|7", 1);
    first.press();
    second.press();
    host.run(
        &mut [(0, &mut analyzer), (2, &mut first), (5, &mut second)],
        20,
    );
    host.take_all(2, true);
    host.take_all(5, true);
    host.take_all(0, false);

    println!("a journal that an analyzer has filled up to the others' shares");
    for length in [4_000, 4_000, 4_000, 4_000, 2_390] {
        let mut analyzer = Analyzer::with(&message(length));
        analyzer.is_told = false;
        host.run(&mut [(0, &mut analyzer)], 1);
    }
    println!("line 0 uses {} bytes", host.gateway.used(0));
    let mut third = reader(10, "4712", 12);
    third.press();
    host.run(&mut [(2, &mut third)], 70);
    println!(
        "the reader has stopped at finding {}; its messages are taken, and its key is pressed",
        third.at
    );
    let before = host.take_all(2, false);
    third.press();
    host.run(&mut [(2, &mut third)], 20);
    let behind = host.take_all(2, false);
    assert_eq!(before + behind, 12);
    println!(
        "{} findings and {} more are stored, each once",
        before, behind
    );
}
