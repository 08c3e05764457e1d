//! Field text with its delimiters escaped, and back (docs/RULES.md, R17 to R21).

use crate::delimiters::Delimiters;

/// The escapes: the letter of each delimiter, which stands between two of the last. [R17]
fn escapes(delimiters: Delimiters) -> [(u8, [u8; 3]); 4] {
    let around = delimiters.escape;
    [
        (delimiters.field, [around, b'F', around]),
        (delimiters.component, [around, b'S', around]),
        (delimiters.repeat, [around, b'R', around]),
        (delimiters.escape, [around, b'E', around]),
    ]
}

/// The text with each delimiter escaped, written to the start of `out`, and its length; 55 where the
/// delimiters are not allowed, then 47 where it does not fit. Every text can be escaped: 46 is only for
/// what is unescaped. [R19]
pub fn escape(delimiters: Delimiters, text: &[u8], out: &mut [u8]) -> Result<usize, u8> {
    if !delimiters.are_allowed() {
        return Err(55);
    }
    let escapes = escapes(delimiters);
    let mut bytes = Vec::new();
    for &byte in text {
        match escapes.iter().find(|(plain, _)| *plain == byte) {
            Some((_, escaped)) => bytes.extend_from_slice(&escaped[..]),
            None => bytes.push(byte),
        }
    }
    fill(&bytes, out)
}

/// The component with each escape undone, written to the start of `out`, and its length; 55 where the
/// delimiters are not allowed, then 46 where any of it is malformed, then 47 where it does not fit. [R18]
pub fn unescape(delimiters: Delimiters, component: &[u8], out: &mut [u8]) -> Result<usize, u8> {
    if !delimiters.are_allowed() {
        return Err(55);
    }
    let escapes = escapes(delimiters);
    let mut bytes = Vec::new();
    let mut place = 0;
    while place < component.len() {
        let byte = component[place];
        if byte == delimiters.escape {
            // It must begin one of the four escapes.
            let escape = component.get(place..place + 3);
            let known = escapes
                .iter()
                .find(|(_, escaped)| escape == Some(&escaped[..]));
            match known {
                Some((plain, _)) => bytes.push(*plain),
                None => return Err(46),
            }
            place += 3;
        } else if delimiters.bytes().contains(&byte) {
            // Another delimiter cannot stand inside a component.
            return Err(46);
        } else {
            bytes.push(byte);
            place += 1;
        }
    }
    fill(&bytes, out)
}

/// 47 where the buffer is too short; a longer one keeps its rest.
fn fill(bytes: &[u8], out: &mut [u8]) -> Result<usize, u8> {
    if bytes.len() > out.len() {
        return Err(47);
    }
    out[..bytes.len()].copy_from_slice(bytes);
    Ok(bytes.len())
}

#[cfg(test)]
mod tests {
    use super::*;
    use crate::delimiters::{exchanged, POSSIBLE};

    const STANDARD: Delimiters = Delimiters::STANDARD;

    fn escaped(delimiters: Delimiters, text: &[u8]) -> Vec<u8> {
        let mut out = vec![0; 3 * text.len()];
        let length = escape(delimiters, text, &mut out).unwrap();
        out.truncate(length);
        out
    }

    fn unescaped(delimiters: Delimiters, component: &[u8]) -> Result<Vec<u8>, u8> {
        let mut out = vec![0; component.len()];
        let length = unescape(delimiters, component, &mut out)?;
        out.truncate(length);
        Ok(out)
    }

    /// Fours in which each possible byte has each part.
    fn fours() -> Vec<Delimiters> {
        let all = POSSIBLE.len();
        let at = |start: usize, step: usize| POSSIBLE[(start + step) % all];
        let mut fours = Vec::new();
        for start in 0..all {
            for [second, third, fourth] in [[1, 2, 3], [7, 31, 12]] {
                let four = [
                    at(start, 0),
                    at(start, second),
                    at(start, third),
                    at(start, fourth),
                ];
                fours.push(Delimiters::in_order(four));
            }
        }
        fours
    }

    #[test]
    fn the_four_escapes() {
        assert_eq!(escaped(STANDARD, b"a|b^c\\d&e"), b"a&F&b&S&c&R&d&E&e");
        assert_eq!(unescaped(STANDARD, b"&F&&S&&R&&E&").unwrap(), b"|^\\&");
        assert_eq!(escaped(STANDARD, b""), b"");
        assert_eq!(unescaped(STANDARD, b"").unwrap(), b"");
        let other = Delimiters::in_order(*b"!~$%");
        assert_eq!(escaped(other, b"a!b$c~d%e"), b"a%F%b%S%c%R%d%E%e");
        assert_eq!(unescaped(other, b"%F%%S%%R%%E%").unwrap(), b"!$~%");
        // The standard ones are text there.
        assert_eq!(escaped(other, b"a|b^c\\d&e"), b"a|b^c\\d&e");
        assert_eq!(unescaped(other, b"&F&|&").unwrap(), b"&F&|&");
    }

    #[test]
    fn every_possible_delimiter_in_every_part() {
        for delimiters in fours() {
            assert!(delimiters.are_allowed(), "{:?}", delimiters);
            let [field, repeat, component, around] = delimiters.bytes();
            let parts = [
                (field, b'F'),
                (repeat, b'R'),
                (component, b'S'),
                (around, b'E'),
            ];
            for (plain, letter) in parts {
                let component = [around, letter, around];
                assert_eq!(escaped(delimiters, &[plain]), component);
                assert_eq!(unescaped(delimiters, &component).unwrap(), [plain]);
                if plain != around {
                    assert_eq!(unescaped(delimiters, &[plain]), Err(46));
                }
            }
            for plain in POSSIBLE.iter().filter(|b| !delimiters.bytes().contains(b)) {
                assert_eq!(escaped(delimiters, &[*plain]), [*plain]);
                assert_eq!(unescaped(delimiters, &[*plain]).unwrap(), [*plain]);
            }
        }
    }

    #[test]
    fn escaping_then_unescaping_gives_the_text_back() {
        let mut text: Vec<u8> = (0..=255).collect();
        text.extend_from_slice(b"&F&F&||&&");
        for delimiters in fours() {
            let component = escaped(delimiters, &text);
            assert_eq!(unescaped(delimiters, &component).unwrap(), text);
        }
    }

    #[test]
    fn unescaping_then_escaping_gives_an_accepted_component_back() {
        // Every component of up to four of these bytes, and the same with other delimiters.
        let alphabet = b"&FE|x\r";
        for delimiters in [STANDARD, Delimiters::in_order(*b"!~$%")] {
            let mut accepted = 0;
            for length in 0..=4 {
                for mut code in 0..alphabet.len().pow(length) {
                    let mut component = Vec::new();
                    for _ in 0..length {
                        component.push(alphabet[code % alphabet.len()]);
                        code /= alphabet.len();
                    }
                    let component = exchanged(&component, STANDARD, delimiters);
                    if let Ok(text) = unescaped(delimiters, &component) {
                        accepted += 1;
                        assert_eq!(escaped(delimiters, &text), component);
                    }
                }
            }
            // Without an escape 4 letters stand free: 1 + 4 + 16 + 64 + 256; with one of the two
            // 2 of three bytes, and 2 * 4 * 2 of four.
            assert_eq!(accepted, 341 + 2 + 16);
        }
    }

    #[test]
    fn what_is_malformed() {
        let bad: [&[u8]; 12] = [
            b"|", b"a^", b"\\a", b"&", b"&&", b"&F", b"&f&", b"&H&", b"&FF&", b"&F&F&", b"a&E",
            b"& &",
        ];
        for delimiters in fours() {
            for component in bad {
                let component = exchanged(component, STANDARD, delimiters);
                assert_eq!(
                    unescaped(delimiters, &component),
                    Err(46),
                    "{:?}",
                    component
                );
            }
        }
    }

    #[test]
    fn each_byte_among_the_four() {
        for place in 0..4 {
            for byte in 0..=255 {
                let mut four = *b"|\\^&";
                four[place] = byte;
                let others: Vec<u8> = (0..4).filter(|&p| p != place).map(|p| four[p]).collect();
                let allowed = POSSIBLE.contains(&byte) && !others.contains(&byte);
                let expected = if allowed { Ok(1) } else { Err(55) };
                let delimiters = Delimiters::in_order(four);
                assert_eq!(escape(delimiters, b"x", &mut [0]), expected);
                assert_eq!(unescape(delimiters, b"x", &mut [0]), expected);
            }
        }
    }

    #[test]
    fn fifty_five_before_all_and_nothing_changed() {
        let bad = [
            b"!!$%", b"!~!%", b"!~$!", b"!~~%", b"!~$~", b"!~$$", b"A~$%", b"!0$%", b"!~ %",
            b"!~$z",
        ];
        for four in bad {
            let delimiters = Delimiters::in_order(*four);
            let mut out = [0xEE; 3];
            // What has room, what has none, and what has a wrong escape.
            for text in [&b""[..], b"abc", b"abcd", b"%", b"!", b"%X%abc"] {
                assert_eq!(escape(delimiters, text, &mut out), Err(55));
                assert_eq!(unescape(delimiters, text, &mut out), Err(55));
            }
            assert_eq!(out, [0xEE; 3]);
        }
    }

    #[test]
    fn forty_six_before_forty_seven_and_nothing_changed() {
        let mut out = [0xEE; 3];
        assert_eq!(unescape(STANDARD, b"abcd|", &mut out), Err(46));
        assert_eq!(unescape(STANDARD, b"abcd", &mut out), Err(47));
        assert_eq!(escape(STANDARD, b"a|", &mut out), Err(47));
        assert_eq!(out, [0xEE; 3]);
        assert_eq!(unescape(STANDARD, b"&F&", &mut out), Ok(1));
        assert_eq!(out, [b'|', 0xEE, 0xEE]);
        assert_eq!(escape(STANDARD, b"^", &mut out), Ok(3));
        assert_eq!(out, *b"&S&");
    }
}
