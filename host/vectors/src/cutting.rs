//! Messages cut into frames, sent to a gateway and taken from it again, and read.
//!
//!     = TITLE        a fresh gateway; the lent memory keeps what it holds;   # TEXT   nothing
//!     M L N TEXT     TEXT is cut into a buffer of N bytes; then ENQ, the frames and EOT come on line L
//!     O L N TEXT     the same without EOT: the transfer stays open
//!     C L N TEXT     the same without ENQ and EOT, E L N TEXT without ENQ: the frames' numbers go on
//!     T L N TEXT     a taking from line L with a buffer of N bytes, compared with TEXT; where there is
//!                    none, with the last one
//!     R 0 N TEXT     TEXT, or where there is none the last one, is read into memories of N slots
//!
//! How a TEXT is spelt: `script::spelt`.

use crate::boundary;
use crate::frames::{check_digits, next_number, CR, ENQ, EOT, ETB, ETX, LF, STX};
use crate::layout::{FRAMES_SIZE, JOURNAL_SIZE, NEXT, UNFINISHED_SIZE};
use crate::library::{numbered, Gateway};
use crate::script::{decimal, each_step, spelt, unknown, Step};

/// What a buffer holds before it is lent: no byte of a frame and no byte of a text.
const FILLER: u8 = 0x7F;
const WIDE_FILLER: u16 = 0x7F7F;

/// The most that a script may ask for as a buffer's length.
const MOST: usize = 65_535;

/// A gateway, and the last text.
struct Run {
    gateway: Gateway,
    text: Vec<u8>,
}

/// Runs a script.
pub fn run(script: &str) -> Result<bool, String> {
    let memory = |size| vec![0; size].into();
    let mut run = Run {
        gateway: Gateway::fresh(
            memory(JOURNAL_SIZE),
            memory(UNFINISHED_SIZE),
            memory(FRAMES_SIZE),
        ),
        text: Vec::new(),
    };
    let renew = |run: &mut Run| {
        run.gateway.renew();
        run.text.clear();
    };
    each_step(script, &mut run, renew, Run::step)?;
    Ok(true)
}

impl Run {
    fn step(&mut self, step: &Step) -> Result<(), String> {
        let (room, text) = match step.words()?.split_once(' ') {
            Some((room, text)) => (room, Some(text)),
            None => (step.words()?, None),
        };
        let room = decimal(room, MOST)?;
        if let Some(text) = text {
            self.text = spelt(text)?;
        }
        match (step.letter, text) {
            ('T', _) => self.take(step.digit, room),
            ('R', _) => {
                step.no_line()?;
                self.read(room);
            }
            ('M' | 'O' | 'C' | 'E', None) => return Err("a cutting without a text".to_string()),
            ('M' | 'O' | 'C' | 'E', _) => self.message(step.letter, step.line()?, room),
            _ => return unknown(step.letter),
        }
        Ok(())
    }

    /// The text is cut, and its frames are sent.
    fn message(&mut self, letter: char, line: usize, room: usize) {
        let mut out = vec![FILLER; room];
        let made = boundary::cut(&self.text, &mut out);
        print!("cut {} into {}:", self.text.len(), room);
        match made.number {
            0 => print!(" length {}", made.length),
            number => print!(" answer {}", numbered(number, made.place)),
        }
        println!("{}", behind(&out, made.length));
        if made.number != 0 {
            return;
        }
        let frames = &mut out[..made.length];
        let opens = matches!(letter, 'M' | 'O');
        let ends = matches!(letter, 'M' | 'E');
        if !opens {
            go_on(self.gateway.line(line)[NEXT] as u8, frames);
        }
        show_frames(frames);
        let (enq, eot) = (&[ENQ][usize::from(!opens)..], &[EOT][usize::from(!ends)..]);
        self.send(line as u8, &[enq, frames, eot].concat());
        self.show_ledger(line as u8);
    }

    /// Bytes come on a line. Equal answers in a row are counted and shown as one.
    fn send(&mut self, line: u8, bytes: &[u8]) {
        let answers: Vec<u8> = bytes
            .iter()
            .map(|&byte| self.gateway.byte(line, byte).number)
            .collect();
        print!("line {}:", line);
        let mut left = &answers[..];
        while let Some(number) = left.first() {
            let times = left.iter().take_while(|other| *other == number).count();
            print!(" {}", number);
            if times > 1 {
                print!("*{}", times);
            }
            left = &left[times..];
        }
        println!();
    }

    fn take(&mut self, line: u8, room: usize) {
        let mut buffer = vec![FILLER; room];
        let answer = self.gateway.take(line, &mut buffer);
        print!(
            "taken from {} into {}: answer {}",
            line, room, answer.number
        );
        if answer.number == 8 {
            print!(", length {}, serial {}", answer.length, answer.serial);
            let same = buffer.get(..answer.length) == Some(&self.text);
            print!(
                ", {}",
                if same {
                    "the same bytes"
                } else {
                    "OTHER BYTES"
                }
            );
        }
        println!("{}", behind(&buffer, answer.length));
        self.show_ledger(line);
    }

    /// The text is read: each record's type, offset, length and owner.
    fn read(&self, slots: usize) {
        let mut types = vec![FILLER; slots];
        let mut wide = [(); 3].map(|()| vec![WIDE_FILLER; slots]);
        let [offsets, lengths, owners] = &mut wide;
        let made = boundary::read(&self.text, &mut types, offsets, lengths, owners);
        print!("read {} into {}:", self.text.len(), slots);
        match made.number {
            0 => print!(" records {}", made.length),
            number => print!(" answer {}", numbered(number, made.place)),
        }
        let mut columns = wide.iter();
        if is_left(&types, made.length, FILLER)
            && columns.all(|column| is_left(column, made.length, WIDE_FILLER))
        {
            println!(", slots as before {}", slots - made.length);
        } else {
            println!(", slots CHANGED");
        }
        let [offsets, lengths, owners] = &wide;
        for i in 0..made.length {
            let kind = char::from(types[i]);
            println!("  {} {} {} {}", kind, offsets[i], lengths[i], owners[i]);
        }
    }

    /// The bytes in use, and the line's used count and next serial.
    fn show_ledger(&self, line: u8) {
        print!("in use {}", self.gateway.in_use());
        if let Some((used, serial)) = self.gateway.count(line) {
            print!(", used {}, serial {}", used, serial);
        }
        println!();
    }
}

/// The rest of a buffer, behind what was written: how many bytes, where all are as before.
fn behind(buffer: &[u8], length: usize) -> String {
    if is_left(buffer, length, FILLER) {
        format!(", behind it {:02x}*{}", FILLER, buffer.len() - length)
    } else {
        ", behind it CHANGED".to_string()
    }
}

/// Whether a memory is as before from here on.
fn is_left<T: PartialEq>(memory: &[T], from: usize, filler: T) -> bool {
    match memory.get(from..) {
        Some(rest) => rest.iter().all(|element| *element == filler),
        None => false,
    }
}

/// A transfer's frames are numbered through, and a cutting numbers from 1: a second message's frames
/// are numbered anew, from the number that the line expects.
fn go_on(first: u8, frames: &mut [u8]) {
    let mut number = first;
    for frame in frames.split_inclusive_mut(|&byte| byte == LF) {
        if let [STX, counted @ .., high, low, CR, LF] = frame {
            counted[0] = b'0' + number;
            let check = check_digits(counted);
            *high = check[0];
            *low = check[1];
        }
        number = next_number(number);
    }
}

/// Each frame: its number, its end, how long its text is, and its check.
fn show_frames(frames: &[u8]) {
    let mut count = 0;
    for frame in frames.split_inclusive(|&byte| byte == LF) {
        match frame {
            [STX, number, text @ .., end @ (ETB | ETX), high, low, CR, LF] => println!(
                "  {} {} {} {}{}",
                char::from(*number),
                if *end == ETB { "ETB" } else { "ETX" },
                text.len(),
                char::from(*high),
                char::from(*low)
            ),
            _ => println!("  no frame: {:02x?}", frame),
        }
        count += 1;
    }
    println!(" {} frames", count);
}
