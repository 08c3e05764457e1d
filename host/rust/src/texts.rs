//! Messages cut, read, escaped and unescaped: no gateway needed.

use crate::answers::Refusal;
use crate::boundary::{self, Made};

/// One record of a message.
#[derive(Clone, Copy, PartialEq, Eq, Debug)]
pub struct Record {
    /// Its type letter: one of H P O R Q L C M.
    pub kind: u8,
    /// Where it starts in the text.
    pub offset: usize,
    /// Its length, without the CR behind it.
    pub length: usize,
    /// The number, from 1, of the record that owns it, or 0 for H and L.
    pub owner: usize,
}

/// The delimiters of a message. Allowed are four different marks of ASCII: 21 to 7E without the
/// digits and the letters.
#[derive(Clone, Copy, PartialEq, Eq, Debug)]
pub struct Delimiters {
    /// Between fields.
    pub field: u8,
    /// Between repeats of a field.
    pub repeat: u8,
    /// Between the components of a field.
    pub component: u8,
    /// Around escapes.
    pub escape: u8,
}

impl Delimiters {
    /// `|`, `\`, `^` and `&`, which most analyzers name.
    pub const STANDARD: Delimiters = Delimiters {
        field: b'|',
        repeat: b'\\',
        component: b'^',
        escape: b'&',
    };

    /// The four that a message names behind its H, whether they are allowed or not; none where the text
    /// has fewer than five bytes.
    ///
    /// ```
    /// use ngachodui::Delimiters;
    ///
    /// let delimiters = Delimiters::of(b"H!~$%\rL!1!N\r").expect("five bytes");
    /// assert_eq!((delimiters.field, delimiters.repeat), (b'!', b'~'));
    /// assert_eq!((delimiters.component, delimiters.escape), (b'$', b'%'));
    /// assert_eq!(Delimiters::of(b"H|\\^&\rL|1|N\r"), Some(Delimiters::STANDARD));
    /// assert_eq!(Delimiters::of(b"H|\\^"), None);
    /// ```
    pub fn of(text: &[u8]) -> Option<Delimiters> {
        match *text {
            [_, field, repeat, component, escape, ..] => Some(Delimiters {
                field,
                repeat,
                component,
                escape,
            }),
            _ => None,
        }
    }

    /// As they stand in a header.
    fn in_order(self) -> boundary::Delimiters {
        [self.field, self.repeat, self.component, self.escape]
    }
}

fn outcome(made: Made) -> Result<usize, Refusal> {
    if made.number == 0 {
        return Ok(made.length);
    }
    match Refusal::of(made.number, made.place) {
        Some(refusal) => Err(refusal),
        None => unreachable!("no text is answered {}", made.number),
    }
}

/// Whether a text is a message: 1 to 4,000 allowed bytes, records ended by CR from H to L, in an order
/// and with sequence numbers by the rules R1 to R11 of `docs/RULES.md`. It is read with the
/// [`Delimiters`] that it names.
///
/// ```
/// assert!(ngachodui::is_message(b"H|\\^&\rL|1|N\r"));
/// assert!(ngachodui::is_message(b"H!~$%\rL!1!N\r"));
/// assert!(!ngachodui::is_message(b"H!~$%\rL|1|N\r"));
/// assert!(!ngachodui::is_message(b"L|1|N\r"));
/// ```
pub fn is_message(text: &[u8]) -> bool {
    boundary::is_message(text)
}

/// Cuts a message into the frames that send it and says how many bytes they are, at most
/// [`CUT_LIMIT`](crate::CUT_LIMIT); the rest of `out` keeps its bytes. To send a message use
/// [`Gateway::send`](crate::Gateway::send): it sends these frames, each when its turn has come.
///
/// ```
/// let mut out = [0; 26];
/// assert_eq!(ngachodui::cut(b"H|\\^&\rL|1|N\r", &mut out), Ok(26));
/// assert_eq!(&out, b"\x021H|\\^&\r\x03E5\r\n\x022L|1|N\r\x0305\r\n");
/// ```
///
/// # Errors
///
/// [`Refusal::Malformed`]: the text has over 4,000 bytes or one that is not allowed. [`Refusal::Faulty`]:
/// it is no message for another reason. [`Refusal::NotFitting`]: `out` is too short.
pub fn cut(text: &[u8], out: &mut [u8]) -> Result<usize, Refusal> {
    outcome(boundary::cut(text, out))
}

/// Reads a message, record by record.
///
/// ```
/// let text = b"H|\\^&\rP|1\rL|1\r";
/// let records = ngachodui::read(text)?;
/// let patient = records[1];
/// assert_eq!((patient.kind, patient.owner), (b'P', 1));
/// assert_eq!(&text[patient.offset..][..patient.length], b"P|1");
/// # Ok::<(), ngachodui::Refusal>(())
/// ```
///
/// # Errors
///
/// [`Refusal::Malformed`]: the text has over 4,000 bytes or one that is not allowed. [`Refusal::Faulty`]:
/// it is no message for another reason, which is told with the record that is wrong first.
///
/// ```
/// use ngachodui::{Fault, Refusal};
///
/// let refusal = ngachodui::read(b"H|\\^&\rP|1\rR|1\rL|1\r").unwrap_err();
/// assert_eq!(refusal, Refusal::Faulty { fault: Fault::Misplaced, place: 3 });
/// assert_eq!(refusal.to_string(), "record 3: a type that may not stand there");
///
/// let refusal = ngachodui::read(b"H|\\||\rL|1\r").unwrap_err();
/// assert_eq!(refusal, Refusal::Faulty { fault: Fault::BadDelimiters, place: 1 });
/// ```
pub fn read(text: &[u8]) -> Result<Vec<Record>, Refusal> {
    // Each record ends with a CR, so this many slots are enough.
    let slots = text.iter().filter(|&&byte| byte == b'\r').count();
    let mut kinds = vec![0; slots];
    let mut offsets = vec![0; slots];
    let mut lengths = vec![0; slots];
    let mut owners = vec![0; slots];
    let count = outcome(boundary::read(
        text,
        &mut kinds,
        &mut offsets,
        &mut lengths,
        &mut owners,
    ))?;
    let record = |i: usize| Record {
        kind: kinds[i],
        offset: usize::from(offsets[i]),
        length: usize::from(lengths[i]),
        owner: usize::from(owners[i]),
    };
    Ok((0..count).map(record).collect())
}

/// Writes a text so that it can stand in a field of a message with these delimiters: of each that stands
/// in it, its letter between two escape delimiters, F for the field's, S for the component's, R for the
/// repeat's and E for the escape's. Says how long it is: at most three times the text. The rest of `out`
/// keeps its bytes.
///
/// ```
/// use ngachodui::Delimiters;
///
/// let mut out = [0; 9];
/// assert_eq!(ngachodui::escape(Delimiters::STANDARD, b"1|2&3", &mut out), Ok(9));
/// assert_eq!(&out, b"1&F&2&E&3");
///
/// // For a message that names others, those: `|` and `&` are then bytes like any other.
/// let message = b"H!~$%\rL!1!N\r";
/// let delimiters = Delimiters::of(message).expect("five bytes");
/// assert_eq!(ngachodui::escape(delimiters, b"1|2&3!", &mut out), Ok(8));
/// assert_eq!(&out[..8], b"1|2&3%F%");
/// ```
///
/// # Errors
///
/// [`Refusal::BadDelimiters`]: they are not allowed, which is told first. [`Refusal::NotFitting`]: `out` is
/// too short.
pub fn escape(delimiters: Delimiters, text: &[u8], out: &mut [u8]) -> Result<usize, Refusal> {
    outcome(boundary::escape(&delimiters.in_order(), text, out))
}

/// The way back from [`escape`], with the same delimiters.
///
/// ```
/// use ngachodui::{Delimiters, Refusal};
///
/// let mut out = [0; 5];
/// assert_eq!(ngachodui::unescape(Delimiters::STANDARD, b"1&F&2&E&3", &mut out), Ok(5));
/// assert_eq!(&out, b"1|2&3");
/// let refusal = ngachodui::unescape(Delimiters::STANDARD, b"1|2", &mut out);
/// assert_eq!(refusal, Err(Refusal::Malformed));
///
/// // The value of a result that came with other delimiters.
/// let message = b"H!~$%\rO!1\rR!1!GLU!5%F%2|\rL!1\r";
/// let delimiters = Delimiters::of(message).expect("five bytes");
/// let result = ngachodui::read(message)?[2];
/// let result = &message[result.offset..][..result.length];
/// let value = result.split(|&byte| byte == delimiters.field).nth(3).expect("four fields");
/// assert_eq!(ngachodui::unescape(delimiters, value, &mut out), Ok(4));
/// assert_eq!(&out[..4], b"5!2|");
/// # Ok::<(), Refusal>(())
/// ```
///
/// # Errors
///
/// [`Refusal::BadDelimiters`]: they are not allowed, which is told first. [`Refusal::Malformed`]: a field,
/// repeat or component delimiter stands there, or an escape delimiter that begins none of the four
/// escapes. [`Refusal::NotFitting`]: `out` is too short.
pub fn unescape(
    delimiters: Delimiters,
    component: &[u8],
    out: &mut [u8],
) -> Result<usize, Refusal> {
    outcome(boundary::unescape(&delimiters.in_order(), component, out))
}

#[cfg(test)]
mod tests {
    use super::*;
    use crate::Fault;

    const TEXT: &[u8] = b"H|\\^&\rP|1\rO|1\rR|1|^^^GLU|5.2\rC|1\rL|1|N\r";

    #[test]
    fn records_with_their_owners() {
        let records = read(TEXT).expect("a message");
        let told: Vec<(u8, usize)> = records.iter().map(|r| (r.kind, r.owner)).collect();
        let expected = [
            (b'H', 0),
            (b'P', 1),
            (b'O', 2),
            (b'R', 3),
            (b'C', 4),
            (b'L', 0),
        ];
        assert_eq!(told, expected);
        let result = records[3];
        let end = result.offset + result.length;
        assert_eq!(&TEXT[result.offset..end], b"R|1|^^^GLU|5.2");
    }

    #[test]
    fn what_is_no_message_is_not_read() {
        let cases: [(&[u8], Fault, u16); 14] = [
            (b"", Fault::NoHeader, 1),
            (b"H|\\^\rL|1\r", Fault::NoHeader, 1),
            (b"H|\\\r^&\rL|1\r", Fault::NoHeader, 1),
            (b"H|\\||\rL|1\r", Fault::BadDelimiters, 1),
            (b"H|A^&\rX\r", Fault::BadDelimiters, 1),
            (b"H|\\^1\r", Fault::BadDelimiters, 1),
            (b"H!~$%\rP|1\rL!1\r", Fault::UnknownType, 2),
            (b"\r\r\r", Fault::NoHeader, 1),
            (b"L|1\r", Fault::NoHeader, 1),
            (b"H|\\^&\r\rL|1\r", Fault::UnknownType, 2),
            (b"H|\\^&\r", Fault::Misplaced, 1),
            (b"H|\\^&\rP|5\r", Fault::Misplaced, 2),
            (b"H|\\^&\rP|1\rL|2\r", Fault::Misnumbered, 3),
            (&TEXT[..TEXT.len() - 1], Fault::NoFinalCr, 6),
        ];
        for (text, fault, place) in cases {
            assert_eq!(read(text), Err(Refusal::Faulty { fault, place }));
            assert_eq!(cut(text, &mut []), Err(Refusal::Faulty { fault, place }));
            assert!(!is_message(text));
        }
    }

    #[test]
    fn what_is_no_text_is_not_read() {
        // A record is wrong too: length and bytes go before it.
        for text in [&b"H|\\^&\r\nX\r"[..], &[b'\r'; 4_001]] {
            assert_eq!(read(text), Err(Refusal::Malformed));
            assert_eq!(cut(text, &mut []), Err(Refusal::Malformed));
            assert!(!is_message(text));
        }
    }

    /// The same text with the standard delimiters exchanged for `!~$%`.
    fn exchanged(text: &[u8]) -> Vec<u8> {
        let pairs = Delimiters::STANDARD.in_order().into_iter().zip(*b"!~$%");
        let mut bytes = text.to_vec();
        for (from, to) in pairs {
            for byte in &mut bytes {
                if *byte == from {
                    *byte = to;
                }
            }
        }
        bytes
    }

    #[test]
    fn other_delimiters_make_the_same_records() {
        let text = exchanged(TEXT);
        assert!(text.starts_with(b"H!~$%\rP!1\r"));
        assert!(is_message(&text));
        assert_eq!(read(&text), read(TEXT));
    }

    #[test]
    fn round_trips_with_other_delimiters() {
        let other = Delimiters::of(b"H!~$%").expect("five bytes");
        for delimiters in [Delimiters::STANDARD, other] {
            let text: Vec<u8> = (0..=255).collect();
            let mut escaped = [0; 264];
            assert_eq!(escape(delimiters, &text, &mut escaped), Ok(264));
            let mut back = [0; 256];
            assert_eq!(unescape(delimiters, &escaped, &mut back), Ok(256));
            assert_eq!(&back[..], &text[..]);
        }
    }

    #[test]
    fn delimiters_that_are_not_allowed_are_told_first() {
        // The component has a wrong escape, and nothing has room.
        let standard = Delimiters::STANDARD;
        let bad = [
            Delimiters {
                field: b'F',
                ..standard
            },
            Delimiters {
                repeat: b' ',
                ..standard
            },
            Delimiters {
                component: b'0',
                ..standard
            },
            Delimiters {
                escape: b'|',
                ..standard
            },
        ];
        for delimiters in bad {
            let mut out = [0xEE; 1];
            let refusal = Err(Refusal::BadDelimiters);
            assert_eq!(escape(delimiters, b"a|b", &mut out), refusal);
            assert_eq!(unescape(delimiters, b"a|&", &mut out), refusal);
            assert_eq!(unescape(delimiters, b"", &mut out), refusal);
            assert_eq!(out, [0xEE]);
        }
    }

    #[test]
    fn outputs_one_byte_short_are_left_alone() {
        let standard = Delimiters::STANDARD;
        let mut out = [0xEE; 25];
        assert_eq!(cut(b"H|\\^&\rL|1|N\r", &mut out), Err(Refusal::NotFitting));
        let escaped = escape(standard, b"&&&&&&&&&", &mut out);
        assert_eq!(escaped, Err(Refusal::NotFitting));
        let plain = unescape(standard, &[b'x'; 26], &mut out);
        assert_eq!(plain, Err(Refusal::NotFitting));
        assert_eq!(out, [0xEE; 25]);
    }
}
