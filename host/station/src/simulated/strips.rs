//! A urine strip reader (Miditron Junior II), which sends its findings in blocks.

use super::analyzer::Fate;
use super::cable::Cable;
use super::chance::Noise;
use super::texts::name;
use super::{CR, ETX, STX};
use std::time::{Duration, Instant};

const SPM: u8 = b'<';
const REP: u8 = b'?';
const MOR: u8 = b'>';
const END: u8 = b':';

/// What the host replied to a block.
#[derive(Clone, Copy, PartialEq)]
enum Heard {
    More,
    Again,
    Spoilt,
    Nothing,
}

/// A strip reader at its cable.
pub struct StripReader {
    pub cable: Cable,
    /// How long it waits for a reply.
    pub patience: Duration,
    /// How often it asks, and repeats what got no reply, before it stops.
    pub asks: u32,
    /// What comes behind MOR to SPM is dropped until so long nothing has come: it may be a late reply to what was
    /// sent before.
    pub settle: Duration,
    pub spoil: Option<Noise>,
    line: u8,
    characters: usize,
}

impl StripReader {
    /// With the times of the device, and no noise. The line stands in what it sends; patient numbers have 10 or 13
    /// characters.
    pub fn new(cable: Cable, line: u8, characters: usize) -> StripReader {
        StripReader {
            cable,
            patience: Duration::from_secs(15),
            asks: 4,
            settle: Duration::from_millis(20),
            spoil: None,
            line,
            characters,
        }
    }

    /// Somebody presses the key that sends: the findings with these numbers go out, in order. It stops at the first
    /// that gets no MOR, which is unsure; pressed again with that number it sends the same block.
    pub fn press(&mut self, numbers: &[u32]) -> Vec<Fate> {
        let mut fates = vec![Fate::NotSent; numbers.len()];
        if !self.ask() {
            return fates;
        }
        for (number, fate) in numbers.iter().zip(&mut fates) {
            *fate = Fate::Unsure;
            if !self.send_finding(*number, fate) {
                return fates;
            }
        }
        self.say(&control(END));
        fates
    }

    /// SPM until MOR comes.
    fn ask(&mut self) -> bool {
        for _ in 0..self.asks {
            if self.offer(&control(SPM)) == Heard::More {
                while self.cable.receive(self.settle).is_some() {}
                return true;
            }
        }
        false
    }

    /// Results and colours. A REP to either has both sent again, as the device does: where it was to the colours,
    /// the finding is stored already and comes twice. What gets no reply is sent again behind SPM.
    fn send_finding(&mut self, number: u32, fate: &mut Fate) -> bool {
        let results = finding(self.line, self.characters, number);
        let colours = colours(self.line, self.characters, number);
        for _ in 0..=self.asks {
            let mut heard = self.offer(&results);
            if heard == Heard::More {
                *fate = Fate::Acknowledged;
                heard = self.offer(&colours);
            }
            match heard {
                Heard::More => return true,
                Heard::Again => {}
                _ => {
                    if !self.ask() {
                        return false;
                    }
                }
            }
        }
        false
    }

    fn offer(&mut self, block: &[u8]) -> Heard {
        self.cable.await_up(self.patience);
        self.cable.forget();
        self.say(block);
        self.hear_out()
    }

    /// The reply, which it asks for once more where it is spoilt.
    fn hear_out(&mut self) -> Heard {
        let heard = self.hear();
        if heard != Heard::Spoilt {
            return heard;
        }
        self.cable.forget();
        self.say(&control(REP));
        self.hear()
    }

    fn say(&mut self, block: &[u8]) {
        match &mut self.spoil {
            Some(noise) => self.cable.send(&noise.carry(block)),
            None => self.cable.send(block),
        }
    }

    /// From STX to CR.
    fn hear(&mut self) -> Heard {
        let until = Instant::now() + self.patience;
        let mut block = Vec::new();
        while block.last() != Some(&CR) {
            let left = until.saturating_duration_since(Instant::now());
            match self.receive(left) {
                Some(STX) => block = vec![STX],
                Some(byte) => block.push(byte),
                None if block.is_empty() => return Heard::Nothing,
                None => return Heard::Spoilt,
            }
        }
        if block == control(MOR) {
            Heard::More
        } else if block == control(REP) {
            Heard::Again
        } else {
            Heard::Spoilt
        }
    }

    /// The next byte, or the one behind it where the next is lost.
    fn receive(&mut self, patience: Duration) -> Option<u8> {
        loop {
            let byte = self.cable.receive(patience)?;
            let arrived = match &mut self.spoil {
                Some(noise) => noise.reply(byte),
                None => Some(byte),
            };
            if arrived.is_some() {
                return arrived;
            }
        }
    }
}

/// STX to ETX, the two test bytes, CR.
fn block(inside: &str) -> Vec<u8> {
    let mut bytes = vec![STX];
    bytes.extend(inside.bytes());
    bytes.push(ETX);
    let test = bytes.iter().fold(0, |test, byte| test ^ byte);
    bytes.extend([0x30 | test >> 4, 0x30 | test & 15, CR]);
    bytes
}

fn control(code: u8) -> Vec<u8> {
    block(&char::from(code).to_string())
}

/// What results and colours have in common. The patient number is the finding's name.
fn head(letter: char, line: u8, characters: usize, number: u32) -> String {
    let patient = format!("{:<1$}", name(line, number, 0), characters);
    let (hour, minute) = (number / 60 % 24, number % 60);
    let number = number % 100_000;
    format!(
        ";{} {} {:05} 17.11.26 {:02}:{:02} ",
        letter, patient, number, hour, minute
    )
}

/// The block with the results of a strip.
pub fn finding(line: u8, characters: usize, number: u32) -> Vec<u8> {
    let mut inside = head('E', line, characters, number);
    inside += "SG1.030      PH  7      LEU     500/ul ++++ NITpos pos  ";
    inside += "PRO   0.75 g/l ++++ ";
    inside += &format!("GLU{:>4} mg/dl  ++++ ", 50 * (1 + number % 20));
    inside += "KET            neg  UBG           norm  BIL            neg  ";
    inside += "ERY      25/ul   ++ NAG                 ";
    block(&inside)
}

/// The block with its colours.
pub fn colours(line: u8, characters: usize, number: u32) -> Vec<u8> {
    let inside = head('D', line, characters, number);
    block(&format!("{}{:<18} {:<18} ", inside, "yellow", "clear"))
}

#[cfg(test)]
mod tests {
    use super::super::peer::{Peer, Station};
    use super::super::texts::identity;
    use super::*;
    use ngachodui::Speaks;

    fn hasty(cable: Cable, characters: usize) -> StripReader {
        StripReader {
            patience: Duration::from_millis(300),
            ..StripReader::new(cable, 5, characters)
        }
    }

    /// The numbers of what was stored.
    fn numbers(stored: &[Vec<u8>]) -> Vec<u32> {
        let number = |text: &Vec<u8>| match identity(text) {
            Some((5, number, 0)) => number,
            other => panic!("{:?}", other),
        };
        stored.iter().map(number).collect()
    }

    #[test]
    fn findings_arrive_in_order() {
        for (speaks, characters) in [(Speaks::Strips10, 10), (Speaks::Strips13, 13)] {
            let (cable, path) = Cable::master();
            let station = Station::speaking(speaks).at(Peer::Slave(path));
            let mut reader = hasty(cable, characters);
            let sent: Vec<u32> = (70_000..70_020).collect();
            let fates = reader.press(&sent);
            assert_eq!(fates, [Fate::Acknowledged; 20]);
            assert_eq!(numbers(&station.end().stored), sent);
        }
    }

    #[test]
    fn findings_arrive_over_a_noisy_cable() {
        let (cable, address) = Cable::listener();
        let station = Station::speaking(Speaks::Strips10).at(Peer::Tcp(address));
        let mut reader = hasty(cable, 10);
        reader.patience = Duration::from_millis(60);
        reader.spoil = Some(Noise::seeded(3, 2_500, 200));
        let sent: Vec<u32> = (0..60).collect();
        let mut at = 0;
        for _ in 0..20 {
            let fates = reader.press(&sent[at..]);
            let arrived = fates.iter().filter(|fate| **fate == Fate::Acknowledged);
            at += arrived.count();
        }
        assert_eq!(at, sent.len());
        let mut stored = numbers(&station.end().stored);
        // A finding comes twice where its colours were spoilt.
        assert!(stored.len() < 80, "{}", stored.len());
        stored.dedup();
        assert_eq!(stored, sent);
    }

    #[test]
    fn a_reply_that_is_lost_leaves_it_unsure_and_the_finding_comes_once() {
        let (cable, address) = Cable::listener();
        // MOR to SPM, to the first finding and to its colours.
        let station = Station::speaking(Speaks::Strips10)
            .mute_behind(3)
            .at(Peer::Tcp(address));
        let mut reader = hasty(cable, 10);
        reader.patience = Duration::from_millis(150);
        let fates = reader.press(&[1, 2, 3]);
        let expected = [Fate::Acknowledged, Fate::Unsure, Fate::NotSent];
        assert_eq!(fates, expected);
        assert_eq!(numbers(&station.end().stored), [1, 2]);
    }
}
