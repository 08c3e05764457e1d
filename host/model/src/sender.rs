//! The sending side of E1381: what each event makes of a sending, and the frame that is offered.
//!
//! A sending is started with a text. The line then *asks*: our ENQ awaits its reply. Where that is refused
//! it *pauses* for 10 seconds and asks again. Acknowledged, it *offers* one frame after the other, and each
//! awaits its reply. At the end comes our EOT, or the sending is given up; either way the line is neutral.
//! [S1, S3]

use crate::answers::Answer;
use crate::cutting::PIECE;
use crate::frames::{after, write};
use crate::lines::{Kind, Line, State};
use crate::texts::{ACK, CR, ENQ, EOT, ETB, ETX, STX};

/// How many seconds a reply is waited for, and how many a line pauses. [S10, S8]
pub const REPLY_SECONDS: usize = 15;
pub const PAUSE_SECONDS: usize = 10;

/// How often our ENQ is refused at most, and how often a frame is sent. [S9, S7]
pub const MOST_TRIES: usize = 6;

/// The number of a sending's first frame.
const FIRST: u8 = 1;

/// What an event makes of a sending.
#[derive(Clone, Copy, PartialEq, Eq, Debug)]
enum Turn {
    /// Nothing: the byte is ignored.
    Stays,
    /// Seconds are counted, and the wait goes on.
    Waits(usize),
    /// Our ENQ was refused, so often by now.
    Pauses(usize),
    /// The pause is over: our ENQ is sent again.
    Asks,
    /// A frame is sent: how often by now, where its text starts, its number.
    Offers {
        tries: usize,
        place: usize,
        number: u8,
    },
    /// Our EOT is sent.
    Ends,
    /// Nothing is sent, and the sending is over.
    GivesUp,
}

/// The record of a line as a start leaves it, with a text of this length. [L13]
pub fn started(length: usize) -> Line {
    Line {
        joined: length,
        ..Line::cleared(State::Asking)
    }
}

/// One event on a line that sends `text`.
pub fn step(line: &mut Line, kind: Kind, text: &[u8]) -> Answer {
    match turn(line, kind, text) {
        Turn::Stays => Answer::plain(0),
        Turn::Waits(seconds) => {
            line.seconds = seconds;
            Answer::sending(None)
        }
        Turn::Pauses(tries) => {
            go_on(line, State::Pausing, tries);
            Answer::sending(None)
        }
        Turn::Asks => {
            go_on(line, State::Asking, line.tries);
            Answer::sending(Some(ENQ))
        }
        Turn::Offers {
            tries,
            place,
            number,
        } => {
            go_on(line, State::Offering, tries);
            line.place = place;
            line.next = number;
            Answer::sending(Some(STX))
        }
        Turn::Ends => {
            *line = Line::fresh();
            Answer::sending(Some(EOT))
        }
        Turn::GivesUp => {
            *line = Line::fresh();
            Answer::plain(61)
        }
    }
}

/// Each step of a sending begins a wait of its own: no seconds are carried on. [S10, L14]
fn go_on(line: &mut Line, state: State, tries: usize) {
    line.state = state;
    line.tries = tries;
    line.seconds = 0;
}

/// The table: a line's state and an event, and what becomes of the sending.
fn turn(line: &Line, kind: Kind, text: &[u8]) -> Turn {
    let Line { tries, place, .. } = *line;
    let seconds = |more: u8| line.seconds + usize::from(more);
    match (line.state, kind) {
        (State::Asking, Kind::Byte(ACK)) => offer(text, 0, FIRST),
        // Both ends want to send: ours gives way. [S5]
        (State::Asking, Kind::Byte(ENQ)) => Turn::GivesUp,
        // Any other byte refuses, EOT too.
        (State::Asking, Kind::Byte(_)) if tries + 1 < MOST_TRIES => Turn::Pauses(tries + 1),
        (State::Asking, Kind::Byte(_)) => Turn::GivesUp,
        (State::Asking, Kind::Seconds(more)) if seconds(more) < REPLY_SECONDS => {
            Turn::Waits(seconds(more))
        }
        (State::Asking, Kind::Seconds(_)) => Turn::Ends,

        // Not even ENQ is heard now. [S8]
        (State::Pausing, Kind::Byte(_)) => Turn::Stays,
        (State::Pausing, Kind::Seconds(more)) if seconds(more) < PAUSE_SECONDS => {
            Turn::Waits(seconds(more))
        }
        (State::Pausing, Kind::Seconds(_)) => Turn::Asks,

        // No run reaches this: nothing stands at the place, so there is nothing to send once more.
        (State::Offering, Kind::Byte(_)) if place >= text.len() => Turn::Ends,
        // EOT asks us to stop, and acknowledges too. [S6]
        (State::Offering, Kind::Byte(ACK | EOT)) => {
            let behind = place + piece(text, place).len();
            offer(text, behind, after(line.next))
        }
        // Any other byte refuses, ENQ too.
        (State::Offering, Kind::Byte(_)) if tries < MOST_TRIES => Turn::Offers {
            tries: tries + 1,
            place,
            number: line.next,
        },
        (State::Offering, Kind::Byte(_)) => Turn::Ends,
        (State::Offering, Kind::Seconds(more)) if seconds(more) < REPLY_SECONDS => {
            Turn::Waits(seconds(more))
        }
        (State::Offering, Kind::Seconds(_)) => Turn::Ends,

        (State::Neutral | State::Waiting | State::Inside, _) => {
            unreachable!("the line does not send")
        }
    }
}

/// The frame whose text starts here, for the first time; our EOT behind the last one.
fn offer(text: &[u8], place: usize, number: u8) -> Turn {
    if place >= text.len() {
        return Turn::Ends;
    }
    Turn::Offers {
        tries: 1,
        place,
        number,
    }
}

/// The text of the frame that starts at a place: up to its record's end, as far as a frame has room. It is
/// empty past the text. [C2]
fn piece(text: &[u8], place: usize) -> &[u8] {
    let rest = text.get(place..).unwrap_or(&[]);
    let room = rest.len().min(PIECE);
    let end = rest[..room].iter().position(|&byte| byte == CR);
    &rest[..end.map_or(room, |cr| cr + 1)]
}

/// The frame that a line offers, byte for byte; none in any other state, and none past the text. [S2]
pub fn outgoing(line: &Line, text: &[u8]) -> Vec<u8> {
    if line.state != State::Offering || line.place >= text.len() {
        return Vec::new();
    }
    let piece = piece(text, line.place);
    let end = if piece.ends_with(&[CR]) { ETX } else { ETB };
    write(line.next, piece, end)
}

#[cfg(test)]
mod tests {
    use super::*;
    use crate::lines::{COLLECTED_LIMIT, SECONDS_LIMIT};

    /// Two records, so two frames: at 0 and at 6.
    const TEXT: &[u8] = b"H|\\^&\rL|1|N\r";

    /// A line that sends it, with what a sending keeps of a record set to what shows.
    fn sends(state: State, tries: usize, place: usize) -> Line {
        Line {
            state,
            tries,
            place,
            collected: COLLECTED_LIMIT,
            joined: TEXT.len(),
            seconds: 3,
            next: 7,
            last: Some(5),
            refusing: true,
        }
    }

    fn neutral(first: Option<u8>) -> (Answer, Line) {
        (Answer::sending(first), Line::fresh())
    }

    fn given_up() -> (Answer, Line) {
        (Answer::plain(61), Line::fresh())
    }

    fn after_event(mut line: Line, kind: Kind) -> (Answer, Line) {
        let answer = step(&mut line, kind, TEXT);
        (answer, line)
    }

    #[test]
    fn every_byte_while_asking() {
        for tries in 0..=5 {
            let line = sends(State::Asking, tries, 0);
            for byte in 0..=255 {
                let expected = match byte {
                    0x06 => {
                        let frame = Line {
                            state: State::Offering,
                            tries: 1,
                            seconds: 0,
                            next: 1,
                            ..line
                        };
                        (Answer::sending(Some(0x02)), frame)
                    }
                    0x05 => given_up(),
                    _ if tries == 5 => given_up(),
                    _ => {
                        let pause = Line {
                            state: State::Pausing,
                            tries: tries + 1,
                            seconds: 0,
                            ..line
                        };
                        (Answer::sending(None), pause)
                    }
                };
                let found = after_event(line, Kind::Byte(byte));
                assert_eq!(found, expected, "{:02X} behind {}", byte, tries);
            }
        }
    }

    #[test]
    fn every_byte_while_pausing() {
        for tries in 0..=5 {
            let line = sends(State::Pausing, tries, 0);
            for byte in 0..=255 {
                let found = after_event(line, Kind::Byte(byte));
                assert_eq!(found, (Answer::plain(0), line), "{:02X}", byte);
            }
        }
    }

    /// Every byte in reply to the frame at a place, sent so often, where ACK comes to `next`.
    fn every_byte_to_a_frame(place: usize, next: fn(Line) -> (Answer, Line)) {
        for tries in 0..=6 {
            let line = sends(State::Offering, tries, place);
            let again = Line {
                tries: tries + 1,
                seconds: 0,
                ..line
            };
            for byte in 0..=255 {
                let expected = match byte {
                    0x04 | 0x06 => next(line),
                    _ if tries == 6 => neutral(Some(0x04)),
                    _ => (Answer::sending(Some(0x02)), again),
                };
                let found = after_event(line, Kind::Byte(byte));
                assert_eq!(found, expected, "{:02X} to send {}", byte, tries);
            }
        }
    }

    #[test]
    fn every_byte_to_a_frame_with_one_behind_it() {
        every_byte_to_a_frame(0, |line| {
            let next = Line {
                tries: 1,
                place: 6,
                seconds: 0,
                // Behind 7 comes 0.
                next: 0,
                ..line
            };
            (Answer::sending(Some(0x02)), next)
        });
    }

    #[test]
    fn every_byte_to_the_last_frame() {
        every_byte_to_a_frame(6, |_| neutral(Some(0x04)));
    }

    #[test]
    fn seconds_of_every_wait() {
        for (state, limit) in [
            (State::Asking, 15),
            (State::Pausing, 10),
            (State::Offering, 15),
        ] {
            for before in 0..=SECONDS_LIMIT {
                for more in [0, 1, 9, 10, 14, 15, 226, 241, 255] {
                    let line = Line {
                        seconds: before,
                        ..sends(state, 4, 0)
                    };
                    let sum = before + usize::from(more);
                    let expected = if sum < limit {
                        let waits = Line {
                            seconds: sum,
                            ..line
                        };
                        (Answer::sending(None), waits)
                    } else if state == State::Pausing {
                        // What is over 10 is not carried on.
                        let asks = Line {
                            state: State::Asking,
                            seconds: 0,
                            ..line
                        };
                        (Answer::sending(Some(0x05)), asks)
                    } else {
                        neutral(Some(0x04))
                    };
                    let found = after_event(line, Kind::Seconds(more));
                    assert_eq!(found, expected, "{:?}, {} and {}", state, before, more);
                }
            }
        }
    }

    #[test]
    fn a_place_past_the_text_has_no_frame() {
        for place in [TEXT.len(), TEXT.len() + 1, 4_000] {
            for tries in 0..=6 {
                let line = sends(State::Offering, tries, place);
                assert_eq!(outgoing(&line, TEXT), b"");
                for byte in 0..=255 {
                    assert_eq!(after_event(line, Kind::Byte(byte)), neutral(Some(0x04)));
                }
                let waits = Line {
                    seconds: 14,
                    ..line
                };
                let found = after_event(line, Kind::Seconds(11));
                assert_eq!(found, (Answer::sending(None), waits));
                assert_eq!(after_event(waits, Kind::Seconds(1)), neutral(Some(0x04)));
            }
        }
    }

    #[test]
    fn no_text_no_frame() {
        let mut line = Line {
            joined: 0,
            ..sends(State::Asking, 2, 0)
        };
        let answer = step(&mut line, Kind::Byte(ACK), b"");
        assert_eq!((answer, line), neutral(Some(0x04)));
    }

    #[test]
    fn a_piece_ends_with_its_record_or_at_240_bytes() {
        let text = [&vec![b'a'; 500][..], b"\r\rL"].concat();
        let sizes = [
            (0, 240),
            (239, 240),
            (260, 240),
            (261, 240),
            (262, 239),
            (500, 1),
            (501, 1),
            (502, 1),
            (503, 0),
            (4_000, 0),
        ];
        for (place, size) in sizes {
            assert_eq!(piece(&text, place).len(), size, "{}", place);
        }
    }

    #[test]
    fn the_frame_that_is_offered() {
        let offered = |place, next, text: &[u8]| {
            let line = Line {
                next,
                ..sends(State::Offering, 3, place)
            };
            outgoing(&line, text)
        };
        assert_eq!(offered(0, 1, TEXT), b"\x021H|\\^&\r\x03E5\r\n");
        assert_eq!(offered(6, 2, TEXT), b"\x022L|1|N\r\x0305\r\n");
        // ETX where a record ends, ETB where it goes on or where the text breaks off.
        let ends = |text: &[u8]| {
            let frame = offered(0, 0, text);
            frame[frame.len() - 5]
        };
        let record = |length: usize| [&vec![b'x'; length - 1][..], b"\r"].concat();
        assert_eq!((ends(&record(240)), ends(&record(241))), (ETX, ETB));
        assert_eq!((ends(b"\r"), ends(b"H")), (ETX, ETB));
        assert_eq!(offered(0, 0, &record(241)).len(), 247);
        // No other state offers one.
        for state in State::ALL {
            if state != State::Offering {
                let line = sends(state, 1, 0);
                assert_eq!(outgoing(&line, TEXT), b"", "{:?}", state);
            }
        }
    }

    #[test]
    fn a_start_sets_the_record_anew() {
        let expected = Line {
            state: State::Asking,
            joined: 12,
            ..Line::fresh()
        };
        assert_eq!(started(12), expected);
    }
}
