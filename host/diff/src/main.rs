//! Compares the library with the model, operation by operation.
//!
//!     diff 10000000 SEED     so many events: bytes, seconds, starts, beginnings and takings
//!     diff 5s SEED           so many seconds
//!     diff --faults SEED     sees that faults put into what the library did are found
//!
//! After each operation everything is compared: the answer, its reply byte and its values, a frame or a reply that
//! was fetched, the eight records and the blocks kept beside them, the ledger, and every byte of every memory, those that are not lent and a
//! fence around each included.
//! The same seed gives the same operations. Status 1: a difference, or an answer or an outcome that never
//! came up, told on standard output. For what has not come up a run goes on, at most ten times as long.

#[path = "../../rust/src/boundary.rs"]
mod boundary;
mod compare;
mod counts;
mod edges;
mod faults;
mod fenced;
mod headers;
#[path = "../../rust/src/layout.rs"]
mod layout;
mod library;
mod reading_faults;
mod sending_faults;
mod texts;

use compare::{answer_difference, state_difference};
use counts::Counts;
use faults::Fault;
use layout::{LAST, NEXT, REFUSING, SECONDS, STATE};
use library::Library;
use ngachodui_model::lines::Kind;
use ngachodui_model::traffic::random::Random;
use ngachodui_model::traffic::{Mix, Traffic};
use ngachodui_model::world::{Memory, Op, Text, World, BLANK};
use ngachodui_model::Answer;
use std::process::exit;
use std::time::{Duration, Instant};
use texts::Function;

/// Operations from one fresh start to the next.
const RUN: u64 = 50_000;

/// Full journals after each run, then texts.
const FULL_JOURNALS: u64 = 10;
const TEXTS: u64 = 1_000;

/// How often an event comes on a record that the model cannot hold.
const ODD_RECORD_ONCE_IN: usize = 1_000;

/// How many times as long as it was asked to a run goes on for what has not come up.
const PATIENCE: u32 = 10;

/// How many events a fault is looked for in: most are found in far fewer.
const FAULT_EVENTS: u64 = 4_000_000;

/// How many of the operations before a difference are told.
const TOLD: usize = 12;

const MIXES: [Mix; 19] = [
    Mix::Noise,
    Mix::Polite,
    Mix::Damaged,
    Mix::Records,
    Mix::NotAllowed,
    Mix::Long,
    Mix::Clock,
    Mix::Flood,
    Mix::Takings,
    Mix::Sending,
    Mix::Upload,
    Mix::BrokenJournal,
    Mix::BeyondLimits,
    Mix::OddSending,
    Mix::OddReader,
    Mix::WrongSizes,
    Mix::WrongLines,
    Mix::FullJournal,
    Mix::Renewal,
];

/// Lines that send, and now and then receive in between.
const SENDINGS: [Mix; 4] = [Mix::Sending, Mix::Sending, Mix::Polite, Mix::OddSending];

/// Lines with strip readers, and what such a line needs besides.
const READINGS: [Mix; 7] = [
    Mix::Upload,
    Mix::Upload,
    Mix::Takings,
    Mix::Polite,
    Mix::OddReader,
    Mix::FullJournal,
    Mix::BrokenJournal,
];

/// When to stop.
#[derive(Clone, Copy)]
enum Limit {
    Events(u64),
    Time { start: Instant, length: Duration },
}

impl Limit {
    fn is_reached(self, counts: &Counts) -> bool {
        self.is_passed(counts, PATIENCE) || self.is_passed(counts, 1) && counts.missing().is_empty()
    }

    fn is_passed(self, counts: &Counts, times: u32) -> bool {
        match self {
            Limit::Events(events) => counts.events >= u64::from(times) * events,
            Limit::Time { start, length } => start.elapsed() >= times * length,
        }
    }
}

/// Both sides and what drives them.
struct Pair {
    world: World,
    library: Library,
    fault: Option<Fault>,
    random: Random,
    past: Vec<Op>,
}

impl Pair {
    fn fresh(mut random: Random, fault: Option<Fault>) -> Pair {
        let contents = random.byte();
        let front = random.below(8);
        Pair {
            world: World::fresh(contents),
            library: Library::fresh(contents, front),
            fault,
            random,
            past: Vec::new(),
        }
    }

    /// One operation on both sides.
    fn step(&mut self, op: Op, counts: &mut Counts) -> Result<(), String> {
        self.past.push(op.clone());
        let is_reader = self.is_reader(&op);
        let before = self.fault.map(|_| self.library.book.clone());
        let expected = self.world.apply(&op);
        let mut found = self.library.apply(&op);
        if let (Some(fault), Some(before)) = (self.fault, before) {
            match found.as_mut() {
                Some(answer) => fault.spoil(&op, &before, &mut self.library, answer),
                None => fault.spoil_fetched(&op, &mut self.library),
            }
        }
        counts.operation(&op, found, is_reader);
        if let Op::Outgoing { .. } = op {
            counts.fetched(self.library.fetched.made, is_reader);
        }
        if let Some(difference) = answer_difference(expected, found) {
            return Err(difference);
        }
        match state_difference(&self.world, &self.library, &op) {
            Some(difference) => Err(difference),
            None => Ok(()),
        }
    }

    /// Whether an event or what is fetched is of a line with a strip reader.
    fn is_reader(&self, op: &Op) -> bool {
        let line = match *op {
            Op::Event { line, .. } | Op::Outgoing { line, .. } => usize::from(line),
            _ => return false,
        };
        let reader = self.world.model.readers.get(line);
        reader.map_or(false, |reader| reader.patient().is_some())
    }

    /// A difference, with where it was met and what came before it.
    fn tell(&self, counts: &Counts, difference: &str) -> String {
        let start = self.past.len().saturating_sub(TOLD);
        let mut told = format!(
            "run {}, operation {}, event {} of all\n  {}\nlast operations",
            counts.runs,
            self.past.len(),
            counts.events,
            difference
        );
        for op in &self.past[start..] {
            told += &format!("\n  {:?}", op);
        }
        told
    }

    /// An event or a start on a record with a number that no record has, or a frame of it that is fetched:
    /// 42, and nothing changed. A memory of another size is answered first.
    fn odd_record(&mut self, counts: &mut Counts) -> Result<(), String> {
        let line = self.random.below(8) as u8;
        let (field, least) = self.random.pick(&[
            (STATE, 6),
            (SECONDS, 256),
            (NEXT, 256),
            (LAST, 257),
            (REFUSING, 2),
        ]);
        let value = match self.random.below(3) {
            0 => least,
            1 => 65_535,
            _ => self.random.between(least, 65_535),
        };
        let op = self.odd_call(line);
        let kept = *self.library.number(line, field);
        *self.library.number(line, field) = value as u16;
        let found = self.library.apply(&op);
        let after = *self.library.number(line, field);
        *self.library.number(line, field) = kept;
        counts.odd_record();

        let expected = self.odd_answer(&op);
        let odd = format!("number {} set to {}, {:?}", field, value, op);
        if let Some(difference) = answer_difference(expected, found) {
            return Err(format!("{}: {}", odd, difference));
        }
        if usize::from(after) != value {
            return Err(format!("{}: changed to {}", odd, after));
        }
        match state_difference(&self.world, &self.library, &op) {
            Some(difference) => Err(format!("{}: {}", odd, difference)),
            None => Ok(()),
        }
    }

    /// Something that is done with a line's record.
    fn odd_call(&mut self, line: u8) -> Op {
        let kind = match self.random.below(6) {
            0 => Kind::Seconds(self.random.byte()),
            1 => Kind::Byte(self.random.byte()),
            2 => {
                let text = Text(b"H|\\^&\rL|1\r".to_vec());
                return Op::Start { line, text };
            }
            3 => return Op::Outgoing { line, room: 247 },
            _ => Kind::Byte(self.random.pick(&[0x02, 0x04, 0x05, 0x06, 0x0A, 0x15])),
        };
        Op::Event { line, kind }
    }

    /// What it is answered. The model cannot be asked, so what it would have fetched is set here.
    fn odd_answer(&mut self, op: &Op) -> Option<Answer> {
        let of_memory = |right: bool| if right { 42 } else { 41 };
        if let Op::Outgoing { room, .. } = *op {
            let right = self.world.lent[Memory::Unfinished as usize] == Memory::Unfinished.size();
            self.world.fetched.outcome = Err(of_memory(right));
            self.world.fetched.out = vec![BLANK; room];
            return None;
        }
        let right = Memory::ALL.map(Memory::size) == self.world.lent;
        Some(Answer::plain(of_memory(right)))
    }
}

/// The traffic of a run: all mixes, or of four runs those of sendings in one, those of readers in another and up
/// to three mixes in a third.
fn traffic(run: u64, random: &mut Random) -> Traffic {
    let seed = random.number();
    match run % 4 {
        1 => Traffic::of(seed, &SENDINGS),
        2 => Traffic::of(seed, &READINGS),
        3 => {
            let mixes: Vec<Mix> = (0..random.between(1, 3))
                .map(|_| random.pick(&MIXES))
                .collect();
            Traffic::of(seed, &mixes)
        }
        _ => Traffic::new(seed),
    }
}

/// One run from fresh, then full journals and texts.
fn run(seed: u64, fault: Option<Fault>, limit: Limit, counts: &mut Counts) -> Result<(), String> {
    let mut random = Random::new(seed);
    let mut traffic = traffic(counts.runs, &mut random);
    counts.runs += 1;

    let mut pair = Pair::fresh(random, fault);
    for operation in 1..=RUN {
        let op = traffic.next(&pair.world);
        let mut outcome = pair.step(op, counts);
        if outcome.is_ok() && pair.random.once_in(ODD_RECORD_ONCE_IN) {
            outcome = pair.odd_record(counts);
        }
        outcome.map_err(|difference| pair.tell(counts, &difference))?;
        if operation % 1_000 == 0 && limit.is_reached(counts) {
            break;
        }
    }
    for _ in 0..FULL_JOURNALS {
        for op in edges::full_journal(&mut pair.random) {
            pair.step(op, counts)
                .map_err(|difference| pair.tell(counts, &difference))?;
        }
    }
    for text in 1..=TEXTS {
        texts::compare(&mut traffic, &mut pair.random, fault, counts).map_err(|difference| {
            format!("run {}, text {}\n  {}", counts.runs, text, difference)
        })?;
    }
    Ok(())
}

/// Every header: its text told, cut, read and on a line, and its delimiters to escape and unescape with.
fn compare_headers(seed: u64, fault: Option<Fault>, counts: &mut Counts) -> Result<(), String> {
    let mut pair = Pair::fresh(Random::new(seed), fault);
    for text in headers::others() {
        texts::compare_text(&text, &mut pair.random, fault, counts)?;
    }
    for text in headers::decided() {
        texts::compare_text(&text, &mut pair.random, fault, counts)?;
        for op in headers::on_a_line(&text) {
            pair.step(op, counts)
                .map_err(|difference| pair.tell(counts, &difference))?;
        }
    }
    for four in headers::fours() {
        for text in headers::components(four) {
            for function in [Function::Escape(four), Function::Unescape(four)] {
                texts::compare_output(function, &text, &mut pair.random, fault, counts)?;
            }
        }
    }
    Ok(())
}

/// Runs until the limit, each with its own seed; then every header.
fn compare(
    seed: u64,
    fault: Option<Fault>,
    limit: Limit,
    counts: &mut Counts,
) -> Result<(), String> {
    texts::compare_most()?;
    let mut seeds = Random::new(seed);
    loop {
        run(seeds.number(), fault, limit, counts)?;
        if limit.is_reached(counts) {
            break;
        }
    }
    compare_headers(seeds.number(), fault, counts)
}

/// Every fault must be found.
fn try_faults(seed: u64) -> bool {
    let mut all_found = true;
    for fault in Fault::ALL {
        let mut counts = Counts::default();
        match compare(seed, Some(fault), Limit::Events(FAULT_EVENTS), &mut counts) {
            Err(difference) => {
                let words = difference.lines().nth(1).unwrap_or("").trim();
                let words: String = words.chars().take(100).collect();
                println!("{:?}: found, event {}: {}", fault, counts.events, words);
            }
            Ok(()) => {
                println!("{:?}: NOT FOUND in {} events", fault, counts.events);
                all_found = false;
            }
        }
    }
    all_found
}

fn usage() -> ! {
    eprintln!("usage: diff EVENTS SEED | diff SECONDSs SEED | diff --faults SEED");
    exit(2)
}

fn number(text: &str) -> u64 {
    text.parse().unwrap_or_else(|_| usage())
}

fn main() {
    let arguments: Vec<String> = std::env::args().skip(1).collect();
    let (what, seed) = match &arguments[..] {
        [what, seed] => (what.as_str(), number(seed)),
        _ => usage(),
    };
    if what == "--faults" {
        exit(if try_faults(seed) { 0 } else { 1 });
    }
    assert_eq!(boundary::sizes(), boundary::own_sizes());
    let start = Instant::now();
    let limit = match what.strip_suffix('s') {
        Some(seconds) => Limit::Time {
            start,
            length: Duration::from_secs(number(seconds)),
        },
        None => Limit::Events(number(what)),
    };
    let mut counts = Counts::default();
    let outcome = compare(seed, None, limit, &mut counts);
    println!("seed {}, {:.1} s", seed, start.elapsed().as_secs_f64());
    counts.print();
    if let Err(difference) = outcome {
        println!("DIFFERENCE with seed {}: {}", seed, difference);
        exit(1);
    }
    let missing = counts.missing();
    if !missing.is_empty() {
        println!("NEVER CAME UP with seed {}: {}", seed, missing.join(", "));
        exit(1);
    }
    println!("no difference; every answer came up");
}
