//! Single bytes: the control bytes by name, and which bytes may stand in a text.

pub const STX: u8 = 0x02;
pub const ETX: u8 = 0x03;
pub const EOT: u8 = 0x04;
pub const ENQ: u8 = 0x05;
pub const ACK: u8 = 0x06;
pub const LF: u8 = 0x0A;
pub const CR: u8 = 0x0D;
pub const DC1: u8 = 0x11;
pub const NAK: u8 = 0x15;
pub const ETB: u8 = 0x17;

/// The bytes that E1394 lets a text hold: five control bytes, and all from 20 on but 7F and FF.
/// [F5]
pub fn is_allowed(byte: u8) -> bool {
    matches!(byte, 0x07 | 0x09 | 0x0B | 0x0C | 0x0D | 0x20..=0x7E | 0x80..=0xFE)
}

#[cfg(test)]
mod tests {
    use super::*;

    #[test]
    fn as_many_as_the_rules_count() {
        assert_eq!((0..=255).filter(|&byte| is_allowed(byte)).count(), 227);
    }

    #[test]
    fn no_byte_that_steers_a_line_is_text() {
        for byte in [STX, ETX, EOT, ENQ, ACK, LF, DC1, NAK, ETB, 0x00, 0x7F, 0xFF] {
            assert!(!is_allowed(byte), "{:02X}", byte);
        }
        assert!(is_allowed(CR));
    }
}
