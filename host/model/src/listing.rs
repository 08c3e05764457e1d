//! The replay listing: a trace in, one row for each event out (docs/RULES.md, T).

use crate::answers::Answer;
use crate::lines::Kind;
use crate::model::Model;
use crate::{FRAMES, JOURNAL, UNFINISHED};

/// A longer input line is not an event (house); only zeros in front of a number could fill one.
pub const LINE_LIMIT: usize = 4_096;

/// What one input line asks for.
#[derive(Clone, Copy, PartialEq, Eq, Debug)]
pub enum Call {
    Event { line: u8, kind: Kind },
    Take { line: u8, buffer: usize },
}

/// The whole output for a whole input. [T7, T9, T10]
pub fn listing(input: &[u8]) -> String {
    let mut model = Model::fresh();
    // Fresh memory may hold anything; nothing in the listing tells.
    let mut journal = vec![0; JOURNAL];
    let mut unfinished = vec![0; UNFINISHED];
    let mut frames = vec![0; FRAMES];
    let mut buffer = vec![0; 4_000];

    let mut output = String::from("event line answer reply\n");
    let mut events = 0;
    for text in input_lines(input) {
        let call = match parse(text) {
            Some(call) => call,
            None => {
                // A line that is no event: the run ends, without a count.
                output.push_str(&format!("line {}: not an event\n", events + 1));
                return output;
            }
        };
        events += 1;
        let (line, answer) = match call {
            Call::Event { line, kind } => (
                line,
                model.event(line, kind, &mut journal, &mut unfinished, &mut frames),
            ),
            Call::Take { line, buffer: size } => {
                (line, model.take(line, &mut journal, &mut buffer[..size]))
            }
        };
        output.push_str(&format!(
            "{} {} {} {}\n",
            events,
            line,
            answer.number,
            last_column(answer)
        ));
    }
    output.push_str(&format!("{} events\n", events));
    output
}

/// The last column: the length of a message taken, else the reply byte, or `--` for none. [T8]
fn last_column(answer: Answer) -> String {
    if answer.number == 8 {
        return answer.length.to_string();
    }
    match answer.reply {
        Some(byte) => format!("{:02X}", byte),
        None => String::from("--"),
    }
}

/// The input's lines. A newline at the end opens no further line; one may be missing there.
fn input_lines(input: &[u8]) -> Vec<&[u8]> {
    let mut lines: Vec<&[u8]> = input.split(|&byte| byte == b'\n').collect();
    if lines[lines.len() - 1].is_empty() {
        lines.pop();
    }
    lines
}

/// An input line: a digit for the line, a letter and its operand (two hex digits, seconds, or the
/// length of a buffer), with one space between the parts and nothing else. A line digit 8 or 9 is an
/// event, for the gateway to refuse; leading zeros and small hex digits are no fault.
/// [T1, T2, T3, T4, T5]
pub fn parse(text: &[u8]) -> Option<Call> {
    if text.len() > LINE_LIMIT {
        return None;
    }
    let parts: Vec<&[u8]> = text.split(|&byte| byte == b' ').collect();
    if parts.len() != 3 || parts[0].len() != 1 || !parts[0][0].is_ascii_digit() {
        return None;
    }
    let line = parts[0][0] - b'0';
    match parts[1] {
        b"B" => Some(Call::Event {
            line,
            kind: Kind::Byte(hex(parts[2])?),
        }),
        b"S" => Some(Call::Event {
            line,
            kind: Kind::Seconds(decimal(parts[2], 255)? as u8),
        }),
        b"T" => Some(Call::Take {
            line,
            buffer: decimal(parts[2], 4_000)?,
        }),
        _ => None,
    }
}

fn hex(digits: &[u8]) -> Option<u8> {
    if digits.len() != 2 {
        return None;
    }
    let high = (digits[0] as char).to_digit(16)?;
    let low = (digits[1] as char).to_digit(16)?;
    Some((16 * high + low) as u8)
}

/// A number of digits alone, if it is at most `limit`.
fn decimal(digits: &[u8], limit: usize) -> Option<usize> {
    if digits.is_empty() {
        return None;
    }
    let mut value = 0;
    for &digit in digits {
        if !digit.is_ascii_digit() {
            return None;
        }
        value = 10 * value + usize::from(digit - b'0');
        // Stopping here keeps the value small, however many digits follow.
        if value > limit {
            return None;
        }
    }
    Some(value)
}

#[cfg(test)]
mod tests {
    use super::*;

    #[test]
    fn the_listing_of_the_rules() {
        assert_eq!(
            listing(b"0 B 05\n0 B 04\n0 T 4000\n"),
            "event line answer reply\n1 0 1 06\n2 0 5 --\n3 0 44 --\n3 events\n"
        );
    }

    #[test]
    fn a_message_stored_and_taken() {
        let mut trace = String::from("3 B 05\n");
        for byte in b"\x021H|\\^&\rL|1|N\r\x03B5\r\n" {
            trace.push_str(&format!("3 B {:02x}\n", byte));
        }
        trace.push_str("3 B 05\n3 T 11\n3 T 12\n3 S 30\n9 T 0\n8 S 007");
        let output = listing(trace.as_bytes());
        let rows: Vec<&str> = output.lines().collect();
        assert_eq!(rows.len(), 28);
        assert_eq!(rows[1], "1 3 1 06");
        assert_eq!(rows[2], "2 3 0 --");
        let last = [
            "20 3 4 06",
            "21 3 20 15",
            "22 3 45 --",
            "23 3 8 12",
            "24 3 7 --",
            "25 9 40 --",
            "26 8 40 --",
            "26 events",
        ];
        assert_eq!(rows[20..], last);
    }

    #[test]
    fn no_input_no_events() {
        assert_eq!(listing(b""), "event line answer reply\n0 events\n");
    }

    #[test]
    fn a_bad_line_ends_the_run() {
        for input in ["0 B 05\n\n0 B 04\n", "0 B 05\nx", "0 B 05\n0 B 04\r\n"] {
            assert_eq!(
                listing(input.as_bytes()),
                "event line answer reply\n1 0 1 06\nline 2: not an event\n",
                "{:?}",
                input
            );
        }
        assert_eq!(
            listing(b"\n"),
            "event line answer reply\nline 1: not an event\n"
        );
        assert_eq!(
            listing(b"0 B 05\n\n"),
            "event line answer reply\n1 0 1 06\nline 2: not an event\n"
        );
    }

    #[test]
    fn what_is_an_event_and_what_is_not() {
        let good = [
            ("7 B fF", Kind::Byte(0xFF)),
            ("7 B 0a", Kind::Byte(0x0A)),
            ("7 S 0", Kind::Seconds(0)),
            ("7 S 255", Kind::Seconds(255)),
            ("7 S 0000000000000000000000000255", Kind::Seconds(255)),
        ];
        for (text, kind) in good {
            let call = Call::Event { line: 7, kind };
            assert_eq!(parse(text.as_bytes()), Some(call), "{}", text);
        }
        for (text, buffer) in [("9 T 0", 0), ("9 T 4000", 4_000), ("9 T 04000", 4_000)] {
            let call = Call::Take { line: 9, buffer };
            assert_eq!(parse(text.as_bytes()), Some(call), "{}", text);
        }
        let bad = [
            "",
            " ",
            "0",
            "0 B",
            "0 B ",
            "0 B 5",
            "0 B 005",
            "0 B 0x",
            "0 B 0G",
            "0 B +5",
            "0 b 05",
            "0 S 256",
            "0 S -1",
            "0 S +1",
            "0 S",
            "0 S ",
            "0 T 4001",
            "0 T 99999999999999999999999",
            "0 T",
            "10 B 05",
            "x B 05",
            " 0 B 05",
            "0 B 05 ",
            "0  B 05",
            "0 B  05",
            "0\tB 05",
            "0 B 05\r",
            "0 X 05",
            "0 BB 05",
            "0 B 05 06",
            "0B05",
        ];
        for text in bad {
            assert_eq!(parse(text.as_bytes()), None, "{:?}", text);
        }
        assert_eq!(parse(b"0 B \xFF\xFF"), None);
    }

    #[test]
    fn a_line_over_the_limit_is_not_an_event() {
        let line = |length: usize| format!("7 S {:0>1$}", 30, length - "7 S ".len());
        let kind = Kind::Seconds(30);
        let call = Call::Event { line: 7, kind };
        assert_eq!(line(LINE_LIMIT).len(), LINE_LIMIT);
        assert_eq!(parse(line(LINE_LIMIT).as_bytes()), Some(call));
        assert_eq!(parse(line(LINE_LIMIT + 1).as_bytes()), None);
    }
}
