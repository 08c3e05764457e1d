//! One line's record: what it holds, its limits, and the events that need no frame judged.

use crate::texts::{ENQ, EOT, LF, STX};

/// Where a line is: without a transfer, in one between frames, or in a frame [E2]; or, in a sending, where
/// our ENQ awaits its reply, in the 10 seconds behind a refusal, or where a frame awaits its reply. [S3]
#[derive(Clone, Copy, PartialEq, Eq, Debug)]
pub enum State {
    Neutral,
    Waiting,
    Inside,
    Asking,
    Pausing,
    Offering,
}

impl State {
    /// By their numbers, from 0.
    pub const ALL: [State; 6] = [
        State::Neutral,
        State::Waiting,
        State::Inside,
        State::Asking,
        State::Pausing,
        State::Offering,
    ];

    pub fn is_sending(self) -> bool {
        matches!(self, State::Asking | State::Pausing | State::Offering)
    }

    /// The most tries that a record in this state may have: refusals of our ENQ while it asks or pauses,
    /// sends of the frame while it offers one, none while nothing is sent.
    pub fn most_tries(self) -> usize {
        match self {
            State::Neutral | State::Waiting | State::Inside => 0,
            State::Asking | State::Pausing => 5,
            State::Offering => 6,
        }
    }

    /// The most that its place may be: where a frame is offered, anywhere in the longest text.
    pub fn most_place(self) -> usize {
        match self {
            State::Offering => JOINED_LIMIT,
            _ => 0,
        }
    }
}

/// What can happen on a line. [E4]
#[derive(Clone, Copy, PartialEq, Eq, Debug)]
pub enum Kind {
    Byte(u8),
    Seconds(u8),
}

/// The record of a line. The counts are wider than their limits, so that a test can break them.
#[derive(Clone, Copy, PartialEq, Eq, Debug)]
pub struct Line {
    pub state: State,
    /// How many bytes of the open frame stand in the line's part of the frames.
    pub collected: usize,
    /// How many bytes of unfinished text stand in the line's part; in a sending, of the text that is sent.
    pub joined: usize,
    /// Seconds since the transfer opened or a frame was judged; in a sending, since the wait began.
    pub seconds: usize,
    /// The number the next frame must have; where one is offered, its number.
    pub next: u8,
    /// The number of the last accepted frame of this transfer.
    pub last: Option<u8>,
    /// A message was decided against in this transfer.
    pub refusing: bool,
    /// How often our ENQ was refused, or the frame that is offered was sent.
    pub tries: usize,
    /// Where the text of the frame that is offered starts in the line's text.
    pub place: usize,
}

/// The limits of a record; each value itself is within. [E11]
pub const COLLECTED_LIMIT: usize = 245;
pub const JOINED_LIMIT: usize = 4_000;
pub const SECONDS_LIMIT: usize = 29;
pub const NUMBER_LIMIT: u8 = 7;

/// What an event asks for once 40, 41 and 42 are past.
#[derive(Clone, Copy, PartialEq, Eq, Debug)]
pub enum Step {
    /// The event is done with this answer; only the record has changed, or nothing.
    Done(u8),
    /// The byte is collected and the frame goes on.
    Collect,
    /// The byte is collected and the frame is judged.
    Judge,
    /// The line sends: `sender` has the rules.
    Send,
}

impl Line {
    /// What the start and the end of a transfer or a sending leave of a record, besides its state.
    /// [L5, L6]
    pub fn cleared(state: State) -> Line {
        Line {
            state,
            collected: 0,
            joined: 0,
            seconds: 0,
            next: 1,
            last: None,
            refusing: false,
            tries: 0,
            place: 0,
        }
    }

    /// A line of a fresh gateway: as after answer 5. [E3]
    pub fn fresh() -> Line {
        Line::cleared(State::Neutral)
    }

    /// Answer 42 is given where this fails. State and counts need not agree, nor a place and the text's
    /// length; tries and place belong to states of a sending, and are 0 in the others. [E11, S3, H3]
    pub fn is_within_limits(&self) -> bool {
        self.is_within(COLLECTED_LIMIT)
    }

    /// The same where another number of bytes is the most that can be collected.
    pub fn is_within(&self, most_collected: usize) -> bool {
        self.collected <= most_collected
            && self.joined <= JOINED_LIMIT
            && self.seconds <= SECONDS_LIMIT
            && self.next <= NUMBER_LIMIT
            && self.last.unwrap_or(0) <= NUMBER_LIMIT
            && self.tries <= self.state.most_tries()
            && self.place <= self.state.most_place()
    }

    /// One event on a record within its limits. A frame is not judged here, only called for.
    pub fn step(&mut self, kind: Kind) -> Step {
        match (self.state, kind) {
            (State::Neutral, Kind::Byte(byte)) => self.byte_while_neutral(byte),
            (State::Waiting, Kind::Byte(byte)) => self.byte_while_waiting(byte),
            (State::Inside, Kind::Byte(byte)) => self.byte_inside(byte),
            // Seconds are counted while a transfer is open, so not here.
            (State::Neutral, Kind::Seconds(_)) => Step::Done(0),
            (State::Waiting | State::Inside, Kind::Seconds(seconds)) => self.pass(seconds),
            (State::Asking | State::Pausing | State::Offering, _) => Step::Send,
        }
    }

    /// A byte on a neutral line. [E5]
    fn byte_while_neutral(&mut self, byte: u8) -> Step {
        if byte == ENQ {
            // Neutral, ENQ: a transfer opens; memory stays as it is.
            *self = Line::cleared(State::Waiting);
            return Step::Done(1);
        }
        // Neutral, any other byte.
        Step::Done(0)
    }

    /// A byte on a waiting line. [E6]
    fn byte_while_waiting(&mut self, byte: u8) -> Step {
        match byte {
            STX => {
                // Waiting, STX: a frame begins; the collected count stays what it is.
                self.state = State::Inside;
                Step::Done(0)
            }
            EOT => {
                // Waiting, EOT: the answer tells whether text is dropped.
                let answer = if self.joined == 0 { 5 } else { 6 };
                *self = Line::cleared(State::Neutral);
                Step::Done(answer)
            }
            // Waiting, ENQ: refused (house).
            ENQ => Step::Done(20),
            // Waiting, any other byte.
            _ => Step::Done(0),
        }
    }

    /// A byte inside a frame. [E7]
    fn byte_inside(&mut self, byte: u8) -> Step {
        // Inside, the end of a frame: LF, or as many bytes as one can have.
        if byte == LF || self.collected + 1 == 246 {
            return Step::Judge;
        }
        // Inside, any other byte, STX and EOT too.
        Step::Collect
    }

    /// Seconds while a transfer is open. [E8, E9, E10]
    fn pass(&mut self, seconds: u8) -> Step {
        let total = self.seconds + usize::from(seconds);
        if total >= 30 {
            // The time-out: the transfer ends, as with EOT.
            *self = Line::cleared(State::Neutral);
            return Step::Done(7);
        }
        self.seconds = total;
        Step::Done(0)
    }
}

#[cfg(test)]
mod tests {
    use super::*;

    fn waiting() -> Line {
        let mut line = Line::fresh();
        assert_eq!(line.step(Kind::Byte(ENQ)), Step::Done(1));
        line
    }

    #[test]
    fn only_enq_moves_a_neutral_line() {
        for byte in 0..=255 {
            let mut line = Line::fresh();
            let step = line.step(Kind::Byte(byte));
            if byte == 0x05 {
                assert_eq!((step, line.state), (Step::Done(1), State::Waiting));
            } else {
                assert_eq!((step, line), (Step::Done(0), Line::fresh()));
            }
        }
        let mut line = Line::fresh();
        assert_eq!(line.step(Kind::Seconds(255)), Step::Done(0));
        assert_eq!(line, Line::fresh());
    }

    #[test]
    fn enq_clears_what_an_odd_record_holds() {
        let mut line = Line {
            collected: 9,
            joined: 4_000,
            seconds: 29,
            next: 7,
            last: Some(7),
            refusing: true,
            ..Line::fresh()
        };
        assert!(line.is_within_limits());
        assert_eq!(line.step(Kind::Byte(ENQ)), Step::Done(1));
        assert_eq!(line, waiting());
    }

    #[test]
    fn a_waiting_line_knows_three_bytes() {
        for byte in 0..=255 {
            let mut line = waiting();
            let step = line.step(Kind::Byte(byte));
            let mut expected = waiting();
            let number = match byte {
                0x02 => {
                    expected.state = State::Inside;
                    0
                }
                0x04 => {
                    expected = Line::fresh();
                    5
                }
                0x05 => 20,
                _ => 0,
            };
            assert_eq!((step, line), (Step::Done(number), expected));
        }
    }

    #[test]
    fn eot_tells_whether_text_was_dropped() {
        let mut line = waiting();
        line.joined = 1;
        line.refusing = true;
        assert_eq!(line.step(Kind::Byte(EOT)), Step::Done(6));
        assert_eq!(line, Line::fresh());
    }

    #[test]
    fn stx_keeps_a_collected_count_that_no_run_leaves() {
        let mut line = waiting();
        line.collected = 245;
        assert_eq!(line.step(Kind::Byte(STX)), Step::Done(0));
        assert_eq!((line.state, line.collected), (State::Inside, 245));
        assert_eq!(line.step(Kind::Byte(b'1')), Step::Judge);
    }

    #[test]
    fn a_frame_ends_at_lf_or_at_its_246th_byte() {
        let mut line = waiting();
        line.state = State::Inside;
        for collected in 0..=245 {
            line.collected = collected;
            assert_eq!(line.step(Kind::Byte(LF)), Step::Judge);
            let other = if collected == 245 {
                Step::Judge
            } else {
                Step::Collect
            };
            for byte in [b'A', EOT, ENQ, STX, 0x00, 0xFF] {
                assert_eq!(line.step(Kind::Byte(byte)), other, "{}", collected);
            }
        }
    }

    #[test]
    fn thirty_seconds_end_a_transfer() {
        for state in [State::Waiting, State::Inside] {
            let mut line = Line { state, ..waiting() };
            assert_eq!(line.step(Kind::Seconds(0)), Step::Done(0));
            assert_eq!(line.step(Kind::Seconds(29)), Step::Done(0));
            assert_eq!(line.seconds, 29);
            assert_eq!(line.step(Kind::Seconds(0)), Step::Done(0));
            assert_eq!(line.step(Kind::Seconds(1)), Step::Done(7));
            assert_eq!(line, Line::fresh());
        }
        // 29 and 255 are 284, which is 28 modulo 256: a narrow sum would miss it.
        let mut line = Line {
            seconds: 29,
            ..waiting()
        };
        assert_eq!(line.step(Kind::Seconds(255)), Step::Done(7));
    }

    #[test]
    fn tries_and_place_have_limits_of_their_own_in_each_state() {
        let limits = [(0, 0), (0, 0), (0, 0), (5, 0), (5, 0), (6, 4_000)];
        for (state, (tries, place)) in State::ALL.into_iter().zip(limits) {
            let at = Line {
                state,
                tries,
                place,
                ..Line::fresh()
            };
            assert!(at.is_within_limits(), "{:?}", at);
            let tries = tries + 1;
            assert!(!Line { tries, ..at }.is_within_limits(), "{:?}", state);
            let place = place + 1;
            assert!(!Line { place, ..at }.is_within_limits(), "{:?}", state);
            // As few as it says: a frame that no run has sent, at a place past the text.
            let least = Line { tries: 0, ..at };
            assert!(least.is_within_limits());
        }
    }

    #[test]
    fn a_line_that_sends_is_left_to_the_sender() {
        for state in [State::Asking, State::Pausing, State::Offering] {
            assert!(state.is_sending());
            let mut line = Line {
                state,
                ..Line::fresh()
            };
            let before = line;
            for kind in [Kind::Byte(ENQ), Kind::Byte(STX), Kind::Seconds(255)] {
                assert_eq!((line.step(kind), line), (Step::Send, before));
            }
        }
    }

    #[test]
    fn each_limit_has_two_sides() {
        let at = Line {
            collected: 245,
            joined: 4_000,
            seconds: 29,
            next: 7,
            last: Some(7),
            ..Line::fresh()
        };
        assert!(at.is_within_limits());
        let beyond = [
            Line {
                collected: 246,
                ..at
            },
            Line {
                joined: 4_001,
                ..at
            },
            Line { seconds: 30, ..at },
            Line { next: 8, ..at },
            Line {
                last: Some(8),
                ..at
            },
        ];
        for line in beyond {
            assert!(!line.is_within_limits(), "{:?}", line);
        }
    }
}
