//! The blocks of a strip reader (document 001): what each byte of one has to be, its test bytes, what is
//! wrong with one (70 to 72), and the message that is made of a finding.
//!
//! Of document 001 the part that is for uploads is here, with the European test bytes. A reader is set up for
//! patient numbers of 10 or of 13 characters, and the lengths of its blocks follow from that. [B2, B5]

use crate::delimiters::Delimiters;
use crate::escapes::escape;
use crate::texts::{CR, ETX, STX};

/// The frame codes of an upload. [B4, B5]
pub const END: u8 = 0x3A;
pub const SPE: u8 = 0x3B;
pub const SPM: u8 = 0x3C;
pub const MOR: u8 = 0x3E;
pub const REP: u8 = 0x3F;

const SP: u8 = 0x20;

/// How long a control block is: STX, the code, ETX, two test bytes, CR.
pub const CONTROL: usize = 6;

/// The most bytes that a block has, on any line.
pub const LONGEST: usize = 239;

/// How many characters a reader's patient numbers have, as it is set up.
#[derive(Clone, Copy, PartialEq, Eq, Debug)]
pub enum Patient {
    Ten,
    Thirteen,
}

impl Patient {
    pub const ALL: [Patient; 2] = [Patient::Ten, Patient::Thirteen];

    pub fn characters(self) -> usize {
        match self {
            Patient::Ten => 10,
            Patient::Thirteen => 13,
        }
    }

    /// The bytes of an E block, from STX to CR: document 001 counts them.
    pub fn results_length(self) -> usize {
        match self {
            Patient::Ten => 236,
            Patient::Thirteen => 239,
        }
    }

    /// The bytes of a D block.
    pub fn colours_length(self) -> usize {
        match self {
            Patient::Ten => 78,
            Patient::Thirteen => 81,
        }
    }
}

/// What a byte of a block has to be.
#[derive(Clone, Copy, PartialEq, Eq, Debug)]
pub enum Place {
    Fixed(u8),
    /// 20 to 7D.
    Datum,
    /// One of the two test bytes, which are looked at before.
    Test,
}

/// The results of an E block: a name, so many bytes of data, so many spaces.
pub const RESULTS: [(&[u8], usize, usize); 11] = [
    (b"SG", 5, 6),
    (b"PH", 3, 6),
    (b"LEU", 11 + 5, 1),
    (b"NIT", 3 + 5, 1),
    (b"PRO", 11 + 5, 1),
    (b"GLU", 11 + 5, 1),
    (b"KET", 11 + 5, 1),
    (b"UBG", 11 + 5, 1),
    (b"BIL", 11 + 5, 1),
    (b"ERY", 11 + 5, 1),
    (b"NAG", 0, 17),
];

/// A block in the writing, place by place.
#[derive(Default)]
struct Form(Vec<Place>);

impl Form {
    fn fixed(mut self, bytes: &[u8]) -> Form {
        self.0.extend(bytes.iter().map(|&byte| Place::Fixed(byte)));
        self
    }

    fn data(mut self, count: usize) -> Form {
        self.0.extend(vec![Place::Datum; count]);
        self
    }

    /// Data with a space behind it, as most fields are.
    fn field(self, count: usize) -> Form {
        self.data(count).fixed(&[SP])
    }

    fn spaces(self, count: usize) -> Form {
        self.fixed(&vec![SP; count])
    }

    /// ETX, the test bytes, CR.
    fn close(self) -> Vec<Place> {
        let mut places = self.fixed(&[ETX]).0;
        places.extend([Place::Test, Place::Test, Place::Fixed(CR)]);
        places
    }
}

/// The start of every data block: patient number, sequence number, date, time.
fn head(patient: Patient, letter: u8) -> Form {
    Form::default()
        .fixed(&[STX, SPE, letter, SP])
        .field(patient.characters())
        .field(5)
        .field(8)
        .field(5)
}

/// An E block, byte by byte. [B5]
pub fn results(patient: Patient) -> Vec<Place> {
    let mut form = head(patient, b'E');
    for (name, data, spaces) in RESULTS {
        form = form.fixed(name).data(data).spaces(spaces);
    }
    form.close()
}

/// A D block, byte by byte: colour and turbidity. [B5]
pub fn colours(patient: Patient) -> Vec<Place> {
    head(patient, b'D').field(18).field(18).close()
}

/// The test bytes of all that stands before them: the halves of one byte, each joined with 30. [B3]
pub fn test_bytes(before: &[u8]) -> [u8; 2] {
    let mut sum = 0;
    for &byte in before {
        sum ^= byte;
    }
    [0x30 | sum >> 4, 0x30 | sum & 0x0F]
}

/// A control block with this code. [B4]
pub fn control(code: u8) -> [u8; CONTROL] {
    let [first, second] = test_bytes(&[STX, code, ETX]);
    [STX, code, ETX, first, second, CR]
}

/// A right block of an upload.
#[derive(Clone, Copy, PartialEq, Eq, Debug)]
pub enum Block {
    /// SPM: the reader asks whether it may begin.
    Begin,
    /// REP: it asks for our last reply.
    Again,
    /// END: it has nothing more.
    End,
    /// An E block: the results of one measurement.
    Finding,
    /// A D block: colour and turbidity.
    Colours,
}

/// What a block is, from STX to the byte it is judged at; or the first of 70 to 72 that applies.
/// [A70, A71, A72]
pub fn judge(patient: Patient, block: &[u8]) -> Result<Block, u8> {
    let count = block.len();
    let [results_length, colours_length] = [patient.results_length(), patient.colours_length()];
    // 70: no block of this line has so many bytes.
    if count != CONTROL && count != results_length && count != colours_length {
        return Err(70);
    }
    // 71: by where the test bytes stand in such a block, wherever an ETX is.
    if block[count - 3..count - 1] != test_bytes(&block[..count - 3]) {
        return Err(71);
    }
    // 72: what such a block has in each place.
    let (form, kind) = if count == results_length {
        (results(patient), Block::Finding)
    } else if count == colours_length {
        (colours(patient), Block::Colours)
    } else {
        let kind = match block[1] {
            SPM => Block::Begin,
            REP => Block::Again,
            END => Block::End,
            _ => return Err(72),
        };
        (Form::default().fixed(&[STX, block[1]]).close(), kind)
    };
    let is_right = form.iter().zip(block).all(|(place, &byte)| match *place {
        Place::Fixed(fixed) => byte == fixed,
        Place::Datum => (0x20..=0x7D).contains(&byte),
        Place::Test => true,
    });
    is_right.then_some(kind).ok_or(72)
}

/// The message of a right E block. [B8]
pub fn message(patient: Patient, block: &[u8]) -> Vec<u8> {
    let mut text = b"H|\\^&\r".to_vec();
    let patient_end = 4 + patient.characters();
    let mut record = |parts: &[&[u8]]| {
        text.extend(parts.join(&b'|'));
        text.push(CR);
    };
    record(&[b"P", b"1", &tidy(&block[4..patient_end])]);
    record(&[b"O", b"1", &tidy(&block[patient_end + 1..][..5])]);
    // Behind the time and its space.
    let mut place = patient_end + 22;
    for (index, (name, data, spaces)) in RESULTS.into_iter().enumerate() {
        let length = name.len() + data + spaces;
        let (found, rest) = block[place..place + length].split_at(name.len());
        let number = (index + 1).to_string();
        record(&[b"R", number.as_bytes(), &tidy(found), &tidy(rest)]);
        place += length;
    }
    record(&[b"L", b"1"]);
    text
}

/// What stands in a field, without the spaces at both ends, and escaped.
fn tidy(field: &[u8]) -> Vec<u8> {
    let is_text = |byte: &u8| *byte != SP;
    let trimmed = match (
        field.iter().position(is_text),
        field.iter().rposition(is_text),
    ) {
        (Some(first), Some(last)) => &field[first..=last],
        _ => &[],
    };
    let mut out = vec![0; 3 * trimmed.len()];
    let length =
        escape(Delimiters::STANDARD, trimmed, &mut out).expect("the standard four, and room");
    out.truncate(length);
    out
}

/// The two test bytes set right, wherever else something is wrong.
pub fn mend(block: &mut [u8]) {
    let end = block.len() - 3;
    let right = test_bytes(&block[..end]);
    block[end..end + 2].copy_from_slice(&right);
}

/// A block of this form, the data as `datum` gives them, with right test bytes.
pub fn filled(form: &[Place], mut datum: impl FnMut() -> u8) -> Vec<u8> {
    let mut block: Vec<u8> = form
        .iter()
        .map(|place| match *place {
            Place::Fixed(byte) => byte,
            Place::Datum => datum(),
            Place::Test => 0,
        })
        .collect();
    mend(&mut block);
    block
}

#[cfg(test)]
mod tests {
    use super::*;
    use crate::{is_message, read, unescape};

    /// A finding as a reader sends it: patient 4711, sequence number 00012.
    const FINDING: &[u8] = b"\x02;E 4711       00012 15.03.01 09:30 SG1.030      PH  7      LEU     500/ul ++++ NITpos pos  PRO   0.75 g/l ++++ GLU  56 mmol/l ++++ KET 0.5 mmol/l   ++ UBG  68 umol/l ++++ BIL  50 umol/l ++++ ERY      25/ul ++++ NAG                 \x0330\r";

    /// And the message that it makes.
    const MESSAGE: &[u8] = b"H|\\^&\rP|1|4711\rO|1|00012\rR|1|SG|1.030\rR|2|PH|7\rR|3|LEU|500/ul ++++\rR|4|NIT|pos pos\rR|5|PRO|0.75 g/l ++++\rR|6|GLU|56 mmol/l ++++\rR|7|KET|0.5 mmol/l   ++\rR|8|UBG|68 umol/l ++++\rR|9|BIL|50 umol/l ++++\rR|10|ERY|25/ul ++++\rR|11|NAG|\rL|1\r";

    #[test]
    fn control_blocks_as_document_001_prints_them() {
        assert_eq!(control(MOR), *b"\x02>\x033?\r");
        assert_eq!(control(REP), *b"\x02?\x033>\r");
        assert_eq!(control(SPM), *b"\x02<\x033=\r");
        assert_eq!(control(END), *b"\x02:\x033;\r");
        // Its worked example of test bytes.
        assert_eq!(test_bytes(&[0x62, 0x03, 0x36, 0x3A, 0x3E]), [0x35, 0x33]);
    }

    #[test]
    fn forms_have_the_counted_lengths() {
        for patient in Patient::ALL {
            assert_eq!(results(patient).len(), patient.results_length());
            assert_eq!(colours(patient).len(), patient.colours_length());
        }
        assert_eq!(Patient::Thirteen.results_length(), LONGEST);
    }

    /// The byte numbers that document 001 prints, counted from 1, for patient numbers of 10; with 13 all
    /// behind the patient number stand three further.
    #[test]
    fn fields_stand_where_document_001_counts_them() {
        let starts = [37, 50, 61, 81, 93, 113, 133, 153, 173, 193, 213];
        for patient in Patient::ALL {
            let further = patient.characters() - 10;
            let form = results(patient);
            for ((name, _, _), start) in RESULTS.into_iter().zip(starts) {
                let place = start + further - 1;
                let fixed: Vec<Place> = name.iter().map(|&byte| Place::Fixed(byte)).collect();
                assert_eq!(form[place..place + name.len()], fixed[..]);
            }
            for (number, byte) in [
                (15, SP),
                (21, SP),
                (30, SP),
                (36, SP),
                (233, ETX),
                (236, CR),
            ] {
                assert_eq!(form[number + further - 1], Place::Fixed(byte), "{}", number);
            }
            let form = colours(patient);
            for (number, byte) in [(36, SP), (55, SP), (74, SP), (75, ETX), (78, CR)] {
                assert_eq!(form[number + further - 1], Place::Fixed(byte), "{}", number);
            }
            for (first, last) in [(16, 20), (22, 29), (31, 35), (37, 54), (56, 73)] {
                let data = &form[first + further - 1..last + further];
                assert!(data.iter().all(|place| *place == Place::Datum));
            }
        }
    }

    #[test]
    fn the_finding_becomes_its_message() {
        assert_eq!(judge(Patient::Ten, FINDING), Ok(Block::Finding));
        assert_eq!(message(Patient::Ten, FINDING), MESSAGE);
        assert_eq!((FINDING.len(), MESSAGE.len()), (236, 232));
        let mut longer = FINDING.to_vec();
        longer.splice(14..14, *b"   ");
        mend(&mut longer);
        assert_eq!(longer[236..238], *b"10");
        assert_eq!(judge(Patient::Thirteen, &longer), Ok(Block::Finding));
        assert_eq!(message(Patient::Thirteen, &longer), MESSAGE);
        // Each is too long or too short where the other is right.
        assert_eq!(judge(Patient::Thirteen, FINDING), Err(70));
        assert_eq!(judge(Patient::Ten, &longer), Err(70));
        let mut other = FINDING.to_vec();
        other[4..9].copy_from_slice(b"A&B|7");
        mend(&mut other);
        assert_eq!(other[233..235], *b"7=");
        let text = message(Patient::Ten, &other);
        assert!(text.windows(14).any(|part| part == b"\rP|1|A&E&B&F&7"));
    }

    #[test]
    fn every_filling_is_a_message_that_reads_back() {
        for patient in Patient::ALL {
            let lengths: Vec<usize> = [b'x', b' ', b'|', b'&', b'\\', b'^']
                .into_iter()
                .map(|datum| {
                    let block = filled(&results(patient), || datum);
                    assert_eq!(judge(patient, &block), Ok(Block::Finding));
                    let text = message(patient, &block);
                    assert!(is_message(&text), "{}", datum);
                    let records = read(&text).expect("a message");
                    assert_eq!(records.len(), 15);
                    // The patient number, unescaped, is what the block has.
                    let record = &text[records[1].offset..][..records[1].length];
                    let mut plain = [0; 20];
                    let length = unescape(Delimiters::STANDARD, &record[4..], &mut plain)
                        .expect("a component");
                    let expected = if datum == b' ' {
                        0
                    } else {
                        patient.characters()
                    };
                    assert_eq!(plain[..length], vec![datum; expected][..]);
                    text.len()
                })
                .collect();
            let most = 3 * (patient.characters() + 5 + 8 + 8 * 16 - 16 + 8) + 119;
            assert_eq!(lengths[1], 119);
            assert!(
                lengths[2..].iter().all(|&length| length == most),
                "{:?}",
                lengths
            );
        }
        let longest = message(
            Patient::Thirteen,
            &filled(&results(Patient::Thirteen), || b'|'),
        );
        assert_eq!(longest.len(), 557);
    }

    #[test]
    fn each_byte_of_a_data_block() {
        for patient in Patient::ALL {
            for (form, kind) in [
                (results(patient), Block::Finding),
                (colours(patient), Block::Colours),
            ] {
                let right = filled(&form, || b'x');
                assert_eq!(judge(patient, &right), Ok(kind));
                for (index, place) in form.iter().enumerate() {
                    for byte in 0..=255 {
                        let mut block = right.clone();
                        block[index] = byte;
                        // With the test bytes as they were, the other byte is found by them.
                        let unmended = judge(patient, &block);
                        let behind = index == form.len() - 1;
                        if byte != right[index] && !behind {
                            assert_eq!(unmended, Err(71));
                        }
                        if matches!(place, Place::Test) {
                            continue;
                        }
                        mend(&mut block);
                        let is_right = match *place {
                            Place::Fixed(fixed) => byte == fixed,
                            _ => (0x20..=0x7D).contains(&byte),
                        };
                        let expected = if is_right { Ok(kind) } else { Err(72) };
                        assert_eq!(judge(patient, &block), expected, "{} {:02X}", index, byte);
                    }
                }
            }
        }
    }

    #[test]
    fn lengths_and_codes() {
        for patient in Patient::ALL {
            for length in 1..=patient.results_length() {
                let mut block = vec![b'x'; length];
                let found = judge(patient, &block);
                let known = [6, patient.colours_length(), patient.results_length()];
                let expected = if known.contains(&length) { 71 } else { 70 };
                assert_eq!(found, Err(expected), "{}", length);
                if expected == 71 {
                    mend(&mut block);
                    assert_eq!(judge(patient, &block), Err(72));
                }
            }
            for code in 0..=255 {
                let expected = match code {
                    0x3A => Ok(Block::End),
                    0x3C => Ok(Block::Begin),
                    0x3F => Ok(Block::Again),
                    _ => Err(72),
                };
                assert_eq!(judge(patient, &control(code)), expected, "{:02X}", code);
            }
            // The American check, and a block of the other letter.
            for printed in [b"\x02<\x033C\r", b"\x02?\x033F\r"] {
                assert_eq!(judge(patient, printed), Err(71));
            }
            for (mut block, letter) in [
                (filled(&results(patient), || b'1'), b'D'),
                (filled(&colours(patient), || b'1'), b'E'),
            ] {
                block[2] = letter;
                mend(&mut block);
                assert_eq!(judge(patient, &block), Err(72));
            }
        }
    }
}
