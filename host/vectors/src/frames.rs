//! Bytes of the lines, and frames.

pub const STX: u8 = 0x02;
pub const ETX: u8 = 0x03;
pub const EOT: u8 = 0x04;
pub const ENQ: u8 = 0x05;
pub const LF: u8 = 0x0A;
pub const CR: u8 = 0x0D;
pub const ETB: u8 = 0x17;

/// The bytes of a frame around its text: STX and the number; ETB or ETX, two check digits, CR, LF.
pub const AROUND_TEXT: usize = 7;

/// The number behind this one: 1 to 7, 0, 1 and so on.
pub fn next_number(number: u8) -> u8 {
    (number % 8 + 1) % 8
}

/// The check digits of the bytes from the number to ETB or ETX.
pub fn check_digits(counted: &[u8]) -> [u8; 2] {
    const DIGITS: &[u8; 16] = b"0123456789ABCDEF";
    let sum = counted
        .iter()
        .fold(0, |sum: u8, &byte| sum.wrapping_add(byte));
    [DIGITS[usize::from(sum >> 4)], DIGITS[usize::from(sum & 15)]]
}

/// A frame: its number as a digit, its text, and ETB or ETX.
pub fn frame(digit: u8, text: &[u8], end: u8) -> Vec<u8> {
    let counted = [&[digit], text, &[end]].concat();
    let check = check_digits(&counted);
    [&[STX][..], &counted, &check, &[CR, LF]].concat()
}
