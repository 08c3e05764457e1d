//! The frame: its check, what is wrong with one by its bytes alone (21 to 25), and its writing.

use crate::texts::{is_allowed, CR, ETB, ETX, LF, STX};

/// A frame that passed 21 to 25.
#[derive(Clone, Copy, PartialEq, Eq, Debug)]
pub struct Frame<'a> {
    /// 0 to 7.
    pub number: u8,
    pub text: &'a [u8],
    /// ETX closes it, not ETB.
    pub is_etx: bool,
}

/// The check: the low byte of the sum of `counted`, in two hex digits with capitals. Counted are
/// the number digit, the text, and the ETB or ETX behind it. [F2, F3]
pub fn check(counted: &[u8]) -> [u8; 2] {
    let mut sum: u32 = 0;
    for &byte in counted {
        sum += u32::from(byte);
    }
    let sum = sum % 256;
    [digit(sum / 16), digit(sum % 16)]
}

fn digit(value: u32) -> u8 {
    b"0123456789ABCDEF"[value as usize]
}

/// The collected bytes of a frame, from the number digit to the byte it is judged at, taken
/// apart; or the first of 21 to 25 that applies. [A21, A22, A23, A24, A25]
pub fn take_apart(bytes: &[u8]) -> Result<Frame<'_>, u8> {
    let count = bytes.len();
    // 21: as long as a frame can be, and not ended.
    if count == 246 && bytes[245] != LF {
        return Err(21);
    }
    // 22, too short: number, ETB or ETX, two digits, CR, LF with no text are 6.
    if count < 6 {
        return Err(22);
    }
    // 22, the line end: CR stands before LF.
    if bytes[count - 2] != CR {
        return Err(22);
    }
    // 22, the text's end: two digits, CR and LF stand behind it.
    let end = bytes[count - 5];
    if end != ETB && end != ETX {
        return Err(22);
    }
    // 23: the digits say another sum.
    if bytes[count - 4..count - 2] != check(&bytes[..count - 4]) {
        return Err(23);
    }
    // 24: the text's bytes.
    let text = &bytes[1..count - 5];
    if !text.iter().all(|&byte| is_allowed(byte)) {
        return Err(24);
    }
    // 25: the number digit.
    if !(b'0'..=b'7').contains(&bytes[0]) {
        return Err(25);
    }
    Ok(Frame {
        number: bytes[0] - b'0',
        text,
        is_etx: end == ETX,
    })
}

/// A frame, byte for byte, with its STX in front and its check behind the end byte. Texts over 240
/// bytes are written just as well: the traffic needs over-long frames too. [F1]
pub fn write(number: u8, text: &[u8], end: u8) -> Vec<u8> {
    let mut frame = vec![STX, b'0' + number];
    frame.extend_from_slice(text);
    frame.push(end);
    let digits = check(&frame[1..]);
    frame.extend_from_slice(&digits);
    frame.extend_from_slice(&[CR, LF]);
    frame
}

/// Numbers: 0 comes after 7. [F4]
pub fn after(number: u8) -> u8 {
    (number + 1) % 8
}

#[cfg(test)]
mod tests {
    use super::*;

    /// What is collected of a frame: all but its STX.
    fn collected(number: u8, text: &[u8], end: u8) -> Vec<u8> {
        write(number, text, end)[1..].to_vec()
    }

    #[test]
    fn a_written_frame_is_taken_apart_again() {
        for length in [0, 1, 239, 240] {
            for (end, is_etx) in [(ETB, false), (ETX, true)] {
                let text = vec![b'a'; length];
                let bytes = collected(7, &text, end);
                assert_eq!(bytes.len(), length + 6);
                let frame = take_apart(&bytes).unwrap();
                assert_eq!((frame.number, frame.text), (7, &text[..]));
                assert_eq!(frame.is_etx, is_etx);
            }
        }
        // The longest frame.
        assert_eq!(write(1, &[b'a'; 240], ETB).len(), 247);
    }

    #[test]
    fn the_246th_byte_must_be_lf() {
        let mut bytes = collected(1, &[b'a'; 240], ETX);
        assert_eq!(bytes.len(), 246);
        bytes[245] = b'x';
        assert_eq!(take_apart(&bytes), Err(21));
        // One text byte more, and the CR stands where the LF should.
        assert_eq!(take_apart(&collected(1, &[b'a'; 241], ETX)[..246]), Err(21));
    }

    #[test]
    fn the_form_comes_before_the_check() {
        for count in 1..6 {
            let mut bytes = vec![b'1'; count];
            bytes[count - 1] = LF;
            assert_eq!(take_apart(&bytes), Err(22), "{}", count);
        }
        let right = collected(1, b"A", ETX);
        for (index, byte) in [(5, b'x'), (2, b'x'), (2, 0x04)] {
            let mut bytes = right.clone();
            bytes[index] = byte;
            assert_eq!(take_apart(&bytes), Err(22), "{}", index);
        }
    }

    #[test]
    fn check_digits_are_capitals_and_count_from_number_to_end() {
        let right = collected(1, b"H|\\^&\r", ETX);
        assert_eq!(&right[8..10], b"E5");
        for digits in [*b"e5", *b"E6", *b"F5", *b"5E", *b"E7", *b"E2"] {
            // E7 counts STX as well, E2 stops before ETX.
            let mut bytes = right.clone();
            bytes[8..10].copy_from_slice(&digits);
            assert_eq!(take_apart(&bytes), Err(23), "{:?}", digits);
        }
    }

    #[test]
    fn a_bad_text_byte_comes_before_a_bad_number() {
        for byte in 0..=255 {
            let result = take_apart(&collected(8, &[byte], ETX)).map(|_| ());
            let expected = if is_allowed(byte) { 25 } else { 24 };
            assert_eq!(result, Err(expected), "{:02X}", byte);
        }
    }

    #[test]
    fn eight_bytes_are_numbers() {
        for byte in 0..=255_u8 {
            let mut bytes = vec![byte, ETB];
            let digits = check(&bytes);
            bytes.extend_from_slice(&digits);
            bytes.extend_from_slice(&[CR, LF]);
            let number = take_apart(&bytes).map(|frame| frame.number);
            if (0x30..0x38).contains(&byte) {
                assert_eq!(number, Ok(byte - 0x30));
            } else {
                assert_eq!(number, Err(25));
            }
        }
    }

    #[test]
    fn numbers_run_round() {
        let mut number = 1;
        let mut seen = Vec::new();
        for _ in 0..9 {
            seen.push(number);
            number = after(number);
        }
        assert_eq!(seen, [1, 2, 3, 4, 5, 6, 7, 0, 1]);
    }
}
