//! Reading a script: a step to a line, a letter, a hex digit and the rest, with one space between.
//! What is no step is refused, so that a slip of the pen does not become another test.

use crate::frames::CR;
use crate::layout::LINES;

/// The most times that a byte comes in a text.
const MOST: usize = 65_535;

/// A line of a script.
pub enum Said<'a> {
    /// `= TITLE`, whole.
    Title(&'a str),
    /// `# TEXT`, whole.
    Comment(&'a str),
    /// `: STEP`, what is behind the colon.
    Piece(&'a str),
    Step(Step<'a>),
}

pub struct Step<'a> {
    pub text: &'a str,
    pub letter: char,
    /// The line, in most steps.
    pub digit: u8,
    rest: Option<&'a str>,
}

/// Does each line of a script; a message that refuses one is told with its place.
pub fn each<'a>(
    script: &'a str,
    mut does: impl FnMut(Said<'a>) -> Result<(), String>,
) -> Result<(), String> {
    for (i, text) in script.lines().enumerate() {
        said(text)
            .and_then(&mut does)
            .map_err(|message| format!("script line {}: {}", i + 1, message))?;
    }
    Ok(())
}

/// Runs a script that has no pieces: titles and comments are written out, and a title makes the run
/// new.
pub fn each_step<R>(
    script: &str,
    run: &mut R,
    renew: impl Fn(&mut R),
    does: impl Fn(&mut R, &Step) -> Result<(), String>,
) -> Result<(), String> {
    each(script, |said| {
        match said {
            Said::Title(text) => {
                println!("{}", text);
                renew(run);
            }
            Said::Comment(text) => println!("{}", text),
            Said::Piece(_) => return unknown(':'),
            Said::Step(step) => return does(run, &step),
        }
        Ok(())
    })
}

fn said(text: &str) -> Result<Said<'_>, String> {
    match text.split_once(' ') {
        Some(("=", _)) => Ok(Said::Title(text)),
        Some(("#", _)) => Ok(Said::Comment(text)),
        Some((":", step)) => Ok(Said::Piece(step)),
        _ => step(text).map(Said::Step),
    }
}

fn step(text: &str) -> Result<Step<'_>, String> {
    let (letter, behind) = lettered(text)?;
    let (digit, rest) = word(behind);
    Ok(Step {
        text,
        letter,
        digit: one(digit).and_then(hex_digit)?,
        rest,
    })
}

/// A piece: a step with a dot for its line.
pub fn piece(text: &str) -> Result<(char, Option<&str>), String> {
    let (letter, behind) = lettered(text)?;
    match word(behind) {
        (".", rest) => Ok((letter, rest)),
        (line, _) => Err(format!("'{}' where a piece has a dot for its line", line)),
    }
}

fn lettered(text: &str) -> Result<(char, &str), String> {
    let (letter, behind) = word(text);
    let behind = behind.ok_or_else(|| format!("'{}' is no step", text))?;
    Ok((one(letter)?, behind))
}

/// The first word and what is behind its space.
fn word(text: &str) -> (&str, Option<&str>) {
    match text.split_once(' ') {
        Some((first, rest)) => (first, Some(rest)),
        None => (text, None),
    }
}

/// A word of one letter.
fn one(word: &str) -> Result<char, String> {
    let mut letters = word.chars();
    match (letters.next(), letters.next()) {
        (Some(letter), None) => Ok(letter),
        _ => Err(format!("'{}' is not one letter", word)),
    }
}

fn hex_digit(digit: char) -> Result<u8, String> {
    match digit.to_digit(16) {
        Some(value) => Ok(value as u8),
        None => Err(format!("'{}' is no hex digit", digit)),
    }
}

/// The bytes that hex digits spell.
pub fn hex(digits: &str) -> Result<Vec<u8>, String> {
    let values = digits
        .chars()
        .map(hex_digit)
        .collect::<Result<Vec<u8>, _>>()?;
    if values.is_empty() || values.len() % 2 != 0 {
        return Err(format!("'{}' spells no bytes", digits));
    }
    Ok(values
        .chunks(2)
        .map(|pair| 16 * pair[0] + pair[1])
        .collect())
}

/// The bytes that a text spells: <CR> is CR, <hh> the byte hh, <N*X> the byte X N times, <N*CR> so many
/// CRs, <> nothing, and any other byte is itself.
pub fn spelt(text: &str) -> Result<Vec<u8>, String> {
    let mut bytes = Vec::new();
    let mut left = text;
    while let Some((plain, behind)) = left.split_once('<') {
        bytes.extend_from_slice(plain.as_bytes());
        let (inside, rest) = match behind.split_once('>') {
            Some(parts) => parts,
            None => return Err(format!("'<{}' has no end", behind)),
        };
        bytes.extend(marked(inside)?);
        left = rest;
    }
    bytes.extend_from_slice(left.as_bytes());
    Ok(bytes)
}

/// What stands between < and >.
fn marked(inside: &str) -> Result<Vec<u8>, String> {
    match (inside, inside.split_once('*')) {
        ("", _) => Ok(Vec::new()),
        ("CR", _) => Ok(vec![CR]),
        (_, Some((times, "CR"))) => Ok(vec![CR; decimal(times, MOST)?]),
        (_, Some((times, byte))) if byte.len() == 1 => {
            Ok(byte.repeat(decimal(times, MOST)?).into_bytes())
        }
        _ if inside.len() == 2 => hex(inside),
        _ => Err(format!("'<{}>' spells nothing", inside)),
    }
}

/// A number in decimal digits, `most` at most.
pub fn decimal(digits: &str, most: usize) -> Result<usize, String> {
    if digits.is_empty() || !digits.bytes().all(|digit| digit.is_ascii_digit()) {
        return Err(format!("'{}' is no number", digits));
    }
    match digits.parse() {
        Ok(number) if number <= most => Ok(number),
        _ => Err(format!("{} is over {}", digits, most)),
    }
}

/// What a step has behind its digit.
pub fn needed(rest: Option<&str>) -> Result<&str, String> {
    rest.ok_or_else(|| "something is missing behind the step".to_string())
}

pub fn nothing(rest: Option<&str>) -> Result<(), String> {
    match rest {
        None => Ok(()),
        Some(rest) => Err(format!("'{}' behind a step that is complete", rest)),
    }
}

pub fn unknown<T>(letter: char) -> Result<T, String> {
    Err(format!("'{}' is no step", letter))
}

impl<'a> Step<'a> {
    pub fn rest(&self) -> Option<&'a str> {
        self.rest
    }

    pub fn words(&self) -> Result<&'a str, String> {
        needed(self.rest)
    }

    pub fn number(&self, most: usize) -> Result<usize, String> {
        decimal(self.words()?, most)
    }

    /// The digit as one of the eight lines.
    pub fn line(&self) -> Result<usize, String> {
        let line = usize::from(self.digit);
        if line < LINES {
            Ok(line)
        } else {
            Err(format!("there is no line {}", line))
        }
    }

    /// A step that is of no line: its digit is 0.
    pub fn no_line(&self) -> Result<(), String> {
        match self.digit {
            0 => Ok(()),
            _ => Err(format!("digit {} where 0 stands", self.digit)),
        }
    }

    /// The number of such a step.
    pub fn plain_number(&self, most: usize) -> Result<usize, String> {
        self.no_line()?;
        self.number(most)
    }
}
