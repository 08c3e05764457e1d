//! The delimiters of a message: which stand in its header, and which may (docs/RULES.md, R2 and R3).

/// Four bytes in their parts, allowed or not.
#[derive(Clone, Copy, PartialEq, Eq, Debug)]
pub struct Delimiters {
    pub field: u8,
    pub repeat: u8,
    pub component: u8,
    pub escape: u8,
}

/// The bytes that may be delimiters, one by one. [R2]
pub const POSSIBLE: &[u8; 32] = b"!\"#$%&'()*+,-./:;<=>?@[\\]^_`{|}~";

impl Delimiters {
    /// Those that most analyzers name. [R2]
    pub const STANDARD: Delimiters = Delimiters {
        field: b'|',
        repeat: b'\\',
        component: b'^',
        escape: b'&',
    };

    /// Four bytes in the order of a header. [R3]
    pub fn in_order([field, repeat, component, escape]: [u8; 4]) -> Delimiters {
        Delimiters {
            field,
            repeat,
            component,
            escape,
        }
    }

    /// The same, back.
    pub fn bytes(self) -> [u8; 4] {
        [self.field, self.repeat, self.component, self.escape]
    }

    /// The four behind the first byte of a record, where it has so many. [R3]
    pub fn of(record: &[u8]) -> Option<Delimiters> {
        let four = record.get(1..5)?;
        Some(Delimiters::in_order([four[0], four[1], four[2], four[3]]))
    }

    /// Whether a message may name them: each is a possible one, and no two are the same. [R2]
    pub fn are_allowed(self) -> bool {
        let bytes = self.bytes();
        bytes
            .iter()
            .enumerate()
            .all(|(place, byte)| POSSIBLE.contains(byte) && !bytes[place + 1..].contains(byte))
    }
}

/// The text with the bytes of one four exchanged for those of the other, part for part. What was a
/// delimiter of the other four only becomes one of the first, so that exchanging back gives the text.
pub fn exchanged(text: &[u8], from: Delimiters, to: Delimiters) -> Vec<u8> {
    let (from, to) = (from.bytes(), to.bytes());
    let freed = from.iter().filter(|byte| !to.contains(byte));
    let taken = to.iter().filter(|byte| !from.contains(byte));
    let pairs: Vec<(&u8, &u8)> = from.iter().zip(&to).chain(taken.zip(freed)).collect();
    let exchange = |byte: &u8| match pairs.iter().find(|(old, _)| *old == byte) {
        Some((_, new)) => **new,
        None => *byte,
    };
    text.iter().map(exchange).collect()
}

#[cfg(test)]
mod tests {
    use super::*;

    #[test]
    fn the_possible_ones_are_those_of_the_rule() {
        // The marks of ASCII: no digits, no letters.
        let found: Vec<u8> = (0x21..=0x7E)
            .filter(|byte: &u8| !byte.is_ascii_digit() && !byte.is_ascii_alphabetic())
            .collect();
        assert_eq!(found, POSSIBLE);
    }

    #[test]
    fn each_byte_at_each_place() {
        for place in 0..4 {
            let mut allowed = Vec::new();
            for byte in 0..=255 {
                let mut four = *b"|\\^&";
                four[place] = byte;
                if Delimiters::in_order(four).are_allowed() {
                    allowed.push(byte);
                }
            }
            // All 32 but the three that stand at the other places.
            let mut others = b"|\\^&".to_vec();
            others.remove(place);
            let expected: Vec<u8> = POSSIBLE
                .iter()
                .copied()
                .filter(|byte| !others.contains(byte))
                .collect();
            assert_eq!(expected.len(), 29);
            assert_eq!(allowed, expected, "place {}", place);
        }
    }

    #[test]
    fn no_two_of_the_four_are_the_same() {
        for four in [b"!!$%", b"!~!%", b"!~$!", b"!~~%", b"!~$~", b"!~$$"] {
            assert!(!Delimiters::in_order(*four).are_allowed(), "{:?}", four);
        }
        assert!(Delimiters::in_order(*b"!~$%").are_allowed());
        assert!(Delimiters::STANDARD.are_allowed());
    }

    #[test]
    fn they_stand_behind_the_first_byte() {
        let in_order = Delimiters::in_order(*b"!~$%");
        assert_eq!(Delimiters::of(b"H!~$%"), Some(in_order));
        assert_eq!(Delimiters::of(b"H!~$%!x"), Some(in_order));
        assert_eq!(in_order.bytes(), *b"!~$%");
        assert_eq!(Delimiters::of(b"H!~$"), None);
        assert_eq!(Delimiters::of(b""), None);
        let standard = Delimiters::in_order(*b"|\\^&");
        assert_eq!(standard, Delimiters::STANDARD);
    }

    #[test]
    fn exchanging_loses_nothing() {
        let standard = Delimiters::STANDARD;
        let all: Vec<u8> = (0..=255).collect();
        // None in common, some in other parts, the same in another order.
        let cases = [
            (b"!~$%", "a!b~c$d%e", "a|b\\c^d&e"),
            (b"^|!&", "a^b|c!d&e", "a|b\\c^d&e"),
            (b"&^\\|", "a&b^c\\d|e", "a|b\\c^d&e"),
        ];
        for (four, other, text) in cases {
            let other_four = Delimiters::in_order(*four);
            let there = |text: &[u8]| exchanged(text, standard, other_four);
            let back = |text: &[u8]| exchanged(text, other_four, standard);
            assert_eq!(there(text.as_bytes()), other.as_bytes());
            assert_eq!(back(other.as_bytes()), text.as_bytes());
            let mut bytes = there(&all);
            assert_eq!(back(&bytes), all);
            bytes.sort_unstable();
            assert_eq!(bytes, all);
        }
        assert_eq!(
            exchanged(b"!|", standard, Delimiters::in_order(*b"!~$%")),
            b"|!"
        );
    }
}
