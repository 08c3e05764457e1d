//! An analyzer that sends its messages in frames (E1381).

use super::cable::Cable;
use super::chance::Noise;
use super::{ACK, CR, ENQ, EOT, ETB, ETX, LF, NAK, STX};
use std::thread;
use std::time::Duration;

/// A frame that is refused or gets no reply is sent so often.
const MOST_SENT: u32 = 6;

/// The most text of a frame.
const PIECE: usize = 240;

/// Where the station wants to send at the same moment, the analyzer asks again after this time at the latest.
const CONTENTION: Duration = Duration::from_secs(1);

/// What became of a message.
#[derive(Clone, Copy, PartialEq, Eq, Debug)]
pub enum Fate {
    /// ACK came to its last frame: the station has it.
    Acknowledged,
    /// Its last frame was sent, and neither ACK nor NAK each time came: the station may have it.
    Unsure,
    /// Every sending of its last frame got NAK: the station does not have it.
    Refused,
    /// Its last frame was not sent: the station does not have it.
    NotSent,
}

/// What became of a frame.
#[derive(Clone, Copy, PartialEq)]
enum Offered {
    Accepted,
    Refused,
    Unheard,
}

/// An analyzer at its cable.
pub struct Analyzer {
    pub cable: Cable,
    /// How long it waits for a reply.
    pub patience: Duration,
    /// How long it waits behind an ENQ that was refused or not heard, and how often it asks in all.
    pub pause: Duration,
    pub asks: u32,
    /// What comes after a reply that is no ACK, and behind what was sent more than once, is dropped until so long
    /// nothing has come: a late reply would be taken for that to the next frame.
    pub settle: Duration,
    /// Bytes a second, where it is to take its time as a serial line does.
    pub pace: Option<u32>,
    /// Whether a message that fits into one frame goes in one, as some analyzers send theirs.
    pub together: bool,
    pub spoil: Option<Noise>,
}

impl Analyzer {
    /// With the times of the standard, and no noise.
    pub fn new(cable: Cable) -> Analyzer {
        Analyzer {
            cable,
            patience: Duration::from_secs(15),
            pause: Duration::from_secs(10),
            asks: 6,
            settle: Duration::from_millis(20),
            pace: None,
            together: false,
            spoil: None,
        }
    }

    /// One transfer with these messages, in order. It ends behind the first that is not acknowledged.
    pub fn transfer(&mut self, messages: &[Vec<u8>]) -> Vec<Fate> {
        let mut fates = vec![Fate::NotSent; messages.len()];
        if !self.ask() {
            return fates;
        }
        let mut sent = 0;
        for (message, fate) in messages.iter().zip(&mut fates) {
            let frames = match self.together && message.len() <= PIECE {
                true => vec![frame(number_behind(sent), message, ETX)],
                false => frames(message, sent),
            };
            sent += frames.len();
            *fate = self.offer_all(&frames);
            if *fate != Fate::Acknowledged {
                break;
            }
        }
        self.say(&[EOT]);
        fates
    }

    /// ENQ, until it is accepted or has been sent as often as may be.
    fn ask(&mut self) -> bool {
        for asked in 0..self.asks {
            self.cable.await_up(self.patience);
            self.cable.forget();
            self.say(&[ENQ]);
            match self.hear() {
                Some(ACK) => {
                    if asked > 0 {
                        self.settle();
                    }
                    return true;
                }
                // The station asks as well, and gives way.
                Some(ENQ) => {
                    thread::sleep(self.pause.min(CONTENTION));
                    continue;
                }
                Some(_) => self.say(&[EOT]),
                // The station may be inside a frame whose LF was lost, and take all this for its text.
                None => self.say(&[LF, EOT]),
            }
            thread::sleep(self.pause);
        }
        false
    }

    /// The frames of a message.
    fn offer_all(&mut self, frames: &[Vec<u8>]) -> Fate {
        for (frame, k) in frames.iter().zip(1..) {
            let is_last = k == frames.len();
            match self.offer(frame) {
                Offered::Accepted => {}
                Offered::Refused if is_last => return Fate::Refused,
                Offered::Unheard if is_last => return Fate::Unsure,
                _ => return Fate::NotSent,
            }
        }
        Fate::Acknowledged
    }

    fn offer(&mut self, frame: &[u8]) -> Offered {
        let mut offered = Offered::Refused;
        for sent in 1..=MOST_SENT {
            self.cable.await_up(self.patience);
            self.cable.forget();
            self.say(frame);
            match self.hear() {
                // EOT is an ACK with which the receiver asks for the line.
                Some(ACK) | Some(EOT) => {
                    if sent > 1 {
                        self.settle();
                    }
                    return Offered::Accepted;
                }
                Some(NAK) => self.settle(),
                // A spoilt reply counts as a refusal, and may have been an ACK.
                Some(_) => {
                    offered = Offered::Unheard;
                    self.settle();
                }
                None => offered = Offered::Unheard,
            }
        }
        offered
    }

    fn say(&mut self, bytes: &[u8]) {
        let carried = match &mut self.spoil {
            Some(noise) => noise.carry(bytes),
            None => bytes.to_vec(),
        };
        match self.pace {
            Some(pace) => {
                // Some thirty times a second.
                let piece = (pace / 30).max(1);
                for piece in carried.chunks(piece as usize) {
                    self.cable.send(piece);
                    thread::sleep(Duration::from_secs(1) * piece.len() as u32 / pace);
                }
            }
            None => self.cable.send(&carried),
        }
    }

    fn hear(&mut self) -> Option<u8> {
        let byte = self.cable.receive(self.patience)?;
        match &mut self.spoil {
            Some(noise) => noise.reply(byte),
            None => Some(byte),
        }
    }

    fn settle(&mut self) {
        while self.cable.receive(self.settle).is_some() {}
    }
}

/// The frames of a text, each record in its own ones; so many of the transfer went before. Where the text is a
/// message and begins a transfer they are those of [`ngachodui::cut`], which cuts nothing else.
pub fn frames(text: &[u8], before: usize) -> Vec<Vec<u8>> {
    let mut frames: Vec<Vec<u8>> = Vec::new();
    for record in text.split_inclusive(|byte| *byte == CR) {
        let count = (record.len() + PIECE - 1) / PIECE;
        for (piece, k) in record.chunks(PIECE).zip(1..) {
            let end = if k == count { ETX } else { ETB };
            let number = number_behind(before + frames.len());
            frames.push(frame(number, piece, end));
        }
    }
    frames
}

/// The number of the frame behind so many of a transfer.
fn number_behind(sent: usize) -> u8 {
    ((sent + 1) % 8) as u8
}

fn frame(number: u8, text: &[u8], end: u8) -> Vec<u8> {
    let mut inside = vec![b'0' + number];
    inside.extend_from_slice(text);
    inside.push(end);
    let check = inside.iter().fold(0u8, |sum, byte| sum.wrapping_add(*byte));
    let mut frame = vec![STX];
    frame.extend(inside);
    frame.extend(format!("{:02X}", check).bytes());
    frame.extend([CR, LF]);
    frame
}

#[cfg(test)]
mod tests {
    use super::super::peer::{Peer, Station};
    use super::super::texts::{faulty, identity, result, Size};
    use super::*;
    use ngachodui::{cut, CUT_LIMIT};

    /// An analyzer that does not wait long.
    fn hasty(cable: Cable) -> Analyzer {
        Analyzer {
            patience: Duration::from_millis(300),
            pause: Duration::from_millis(5),
            ..Analyzer::new(cable)
        }
    }

    #[test]
    fn frames_are_those_of_the_library() {
        for number in 0..64 {
            let text = result(1, number, 0, Size::by_number(number));
            let mut out = [0; CUT_LIMIT];
            let length = cut(&text, &mut out).expect("a message");
            assert_eq!(frames(&text, 0).concat(), &out[..length]);
        }
        let behind = frames(b"H|\\^&\rL|1|N\r", 6);
        assert!(behind[0].starts_with(b"\x027H") && behind[1].starts_with(b"\x020L"));
    }

    #[test]
    fn transfers_arrive_whole_and_in_order() {
        let (cable, path) = Cable::master();
        let station = Station::frames().at(Peer::Slave(path));
        let mut analyzer = hasty(cable);
        let messages: Vec<Vec<u8>> = (0..24)
            .map(|number| result(3, number, 0, Size::by_number(number)))
            .collect();
        for transfer in messages.chunks(5) {
            let fates = analyzer.transfer(transfer);
            assert_eq!(fates, vec![Fate::Acknowledged; transfer.len()]);
        }
        assert_eq!(station.end().stored, messages);
    }

    #[test]
    fn transfers_arrive_over_a_noisy_cable() {
        let (cable, address) = Cable::listener();
        let station = Station::frames().at(Peer::Tcp(address));
        let mut analyzer = hasty(cable);
        analyzer.patience = Duration::from_millis(100);
        analyzer.spoil = Some(Noise::seeded(7, 1_500, 40));
        let mut acknowledged = Vec::new();
        let mut number = 0;
        while acknowledged.len() < 40 {
            let message = result(2, number, 0, Size::by_number(number));
            // What is not sure to have arrived is another message the next time.
            if analyzer.transfer(std::slice::from_ref(&message)) == [Fate::Acknowledged] {
                acknowledged.push(message);
            }
            number += 1;
        }
        let stored = station.end().stored;
        let mut left = stored.iter();
        for message in &acknowledged {
            assert!(left.any(|text| text == message), "{:?}", identity(message));
        }
        for text in &stored {
            let (line, number, attempt) = identity(text).expect("a name");
            let sent = result(line, number, attempt, Size::by_number(number));
            assert_eq!(*text, sent);
        }
    }

    #[test]
    fn what_is_wrong_is_refused_and_the_rest_not_sent() {
        let (cable, address) = Cable::listener();
        let station = Station::frames().at(Peer::Tcp(address));
        let mut analyzer = hasty(cable);
        let right = |number| result(0, number, 0, Size::Small);
        let fates = analyzer.transfer(&[right(1), faulty(2), right(3)]);
        let expected = [Fate::Acknowledged, Fate::Refused, Fate::NotSent];
        assert_eq!(fates, expected);
        let fates = analyzer.transfer(&[right(4)]);
        assert_eq!(fates, [Fate::Acknowledged]);
        assert_eq!(station.end().stored, [right(1), right(4)]);
    }

    #[test]
    fn an_ack_that_is_lost_leaves_it_unsure_and_the_message_comes_once() {
        let (cable, address) = Cable::listener();
        let message = result(0, 1, 0, Size::Small);
        // ENQ and all frames but the last get their replies.
        let replies = frames(&message, 0).len();
        let station = Station::frames()
            .mute_behind(replies)
            .at(Peer::Tcp(address));
        let mut analyzer = hasty(cable);
        analyzer.patience = Duration::from_millis(150);
        let fates = analyzer.transfer(&[message.clone(), message.clone()]);
        assert_eq!(fates, [Fate::Unsure, Fate::NotSent]);
        assert_eq!(station.end().stored, [message]);
    }

    #[test]
    fn nobody_there_means_not_sent() {
        let (cable, _path) = Cable::master();
        let mut analyzer = hasty(cable);
        analyzer.patience = Duration::from_millis(10);
        let fates = analyzer.transfer(&[result(0, 1, 0, Size::Small)]);
        assert_eq!(fates, [Fate::NotSent]);
    }
}
