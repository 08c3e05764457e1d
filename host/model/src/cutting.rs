//! A message cut into frames (docs/RULES.md, C).

use crate::answers::Refusal;
use crate::frames::{after, write};
use crate::records::read;
use crate::texts::{ETB, ETX};

/// The text of one frame: a longer record goes on in the next. [C2]
pub const PIECE: usize = 240;

/// The frames of a message written to the start of `out`, and how many bytes they are; 46 or a fault
/// where the text is no message, then 47 where they do not fit. A refusal changes nothing.
/// [O6, C1, C2, C3, C4]
pub fn cut(text: &[u8], out: &mut [u8]) -> Result<usize, Refusal> {
    // What can be cut: messages, and nothing else.
    let records = read(text)?;
    let mut bytes = Vec::new();
    // Numbers: the first frame of a transfer has 1.
    let mut number = 1;
    // Pieces: no frame holds bytes of two records.
    for record in records {
        // A piece counts the CR that ends its record.
        let with_cr = &text[record.offset..record.offset + record.length + 1];
        let mut rest = with_cr;
        while !rest.is_empty() {
            let (piece, behind) = rest.split_at(rest.len().min(PIECE));
            // Ends: ETX only where the record ends too.
            let end = if behind.is_empty() { ETX } else { ETB };
            bytes.extend_from_slice(&write(number, piece, end));
            number = after(number);
            rest = behind;
        }
    }
    // The output: 47 if it is too short; bytes behind the frames stay.
    if bytes.len() > out.len() {
        return Err(Refusal::plain(47));
    }
    out[..bytes.len()].copy_from_slice(&bytes);
    Ok(bytes.len())
}

#[cfg(test)]
mod tests {
    use super::*;

    #[test]
    fn the_shortest_message_byte_for_byte() {
        let mut out = [0xEE; 30];
        assert_eq!(cut(b"H|\\^&\rL|1|N\r", &mut out), Ok(26));
        assert_eq!(
            out,
            *b"\x021H|\\^&\r\x03E5\r\n\x022L|1|N\r\x0305\r\n\xEE\xEE\xEE\xEE"
        );
    }

    #[test]
    fn a_buffer_one_short_is_left_alone() {
        let mut out = [0xEE; 25];
        let shortest = b"H|\\^&\rL|1|N\r";
        assert_eq!(cut(shortest, &mut out), Err(Refusal::plain(47)));
        // What is wrong with the text comes before 47.
        assert_eq!(cut(b"\n", &mut out), Err(Refusal::plain(46)));
        assert_eq!(cut(b"L|1|N\r", &mut out), Err(Refusal::faulty(50, 1)));
        assert_eq!(cut(b"", &mut []), Err(Refusal::faulty(50, 1)));
        assert_eq!(cut(b"H|\\^&\rP", &mut out), Err(Refusal::faulty(54, 2)));
        assert_eq!(out, [0xEE; 25]);
    }

    #[test]
    fn records_of_240_and_241_bytes() {
        for (with_cr, frames) in [(239, 2), (240, 2), (241, 3), (480, 3), (481, 4)] {
            let mut text = b"H|\\^&".to_vec();
            text.resize(with_cr - 1, b'x');
            text.extend_from_slice(b"\rL|1\r");
            let mut out = vec![0; 600];
            // The length: a frame adds 7 bytes to its text.
            let length = text.len() + 7 * frames;
            assert_eq!(cut(&text, &mut out), Ok(length), "{}", with_cr);
            let first_end = out[2 + with_cr.min(240)];
            assert_eq!(first_end, if with_cr <= 240 { ETX } else { ETB });
            if with_cr == 241 {
                assert_eq!(out[247..254], *b"\x022\r\x0342\r");
            }
        }
    }

    #[test]
    fn the_eighth_frame_has_number_0() {
        let mut text = b"H|\\^&\r".to_vec();
        for number in 1..=7 {
            text.extend_from_slice(format!("P|{}\r", number).as_bytes());
        }
        text.extend_from_slice(b"L|1\r");
        let mut out = vec![0; 1_000];
        let length = cut(&text, &mut out).unwrap();
        assert_eq!(length, text.len() + 7 * 9);
        let numbers: Vec<u8> = (0..length)
            .filter(|&place| out[place] == 0x02)
            .map(|place| out[place + 1])
            .collect();
        assert_eq!(numbers, b"123456701");
    }
}
