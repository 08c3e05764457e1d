//! Blocks of strip readers for traffic: right ones of every filling, and such with something wrong.

use super::random::Random;
use crate::blocks::{
    colours, control, filled, mend, message, results, Patient, Place, END, MOR, REP, SPE, SPM,
};
use crate::texts::{CR, ETX, STX};

/// Bytes that are data, among them the delimiters of the message that is made.
const PLAIN: &[u8] = b"0123456789abcXYZ.,:+-/";
const MARKS: &[u8] = b"|\\^&";

/// A datum of one sort or another.
fn datum(random: &mut Random, sort: usize) -> u8 {
    match sort {
        0 => b' ',
        1 => random.pick(MARKS),
        2 => random.between(0x20, 0x7D) as u8,
        3 => random.pick(b"  x"),
        _ => random.pick(PLAIN),
    }
}

fn of(random: &mut Random, form: &[Place]) -> Vec<u8> {
    let all = random.below(6);
    let mixed = random.once_in(3);
    filled(form, || {
        let sort = if mixed { random.below(6) } else { all };
        datum(random, sort)
    })
}

/// A right E block.
pub fn finding(random: &mut Random, patient: Patient) -> Vec<u8> {
    of(random, &results(patient))
}

/// A right D block.
pub fn colour(random: &mut Random, patient: Patient) -> Vec<u8> {
    of(random, &colours(patient))
}

/// The fewest bytes that a finding's message has.
pub const LEAST: usize = 119;

/// A right E block whose message has this length, or the nearest that there is.
pub fn finding_of(random: &mut Random, patient: Patient, length: usize) -> Vec<u8> {
    let form = results(patient);
    let mut block = filled(&form, || b' ');
    let places: Vec<usize> = (0..form.len())
        .filter(|&place| form[place] == Place::Datum)
        .collect();
    for place in places {
        let now = message(patient, &block).len();
        if now >= length {
            break;
        }
        // A space inside a field counts once it has something on both sides, so not every byte is one more.
        block[place] = if now + 3 <= length && random.once_in(3) {
            random.pick(MARKS)
        } else {
            random.pick(PLAIN)
        };
    }
    mend(&mut block);
    block
}

/// A control block: most often one that a reader sends.
pub fn short(random: &mut Random) -> Vec<u8> {
    let code = match random.below(8) {
        0..=2 => SPM,
        3 | 4 => REP,
        5 | 6 => END,
        _ => {
            let any = random.byte();
            random.pick(&[MOR, SPE, b'=', 0x00, CR, any])
        }
    };
    control(code).to_vec()
}

/// A block with something wrong, or nearly.
pub fn damaged(random: &mut Random, patient: Patient) -> Vec<u8> {
    let mut block = match random.below(4) {
        0 => control(random.pick(&[SPM, REP, END])).to_vec(),
        1 => colour(random, patient),
        _ => finding(random, patient),
    };
    let count = block.len();
    match random.below(14) {
        // One byte another, found by the test bytes or only by its place.
        0 => {
            let place = random.below(count);
            block[place] ^= 1 << random.below(8);
        }
        1..=3 => {
            let place = random.between(1, count - 2);
            block[place] = random.pick(&[0x1F, 0x20, 0x7D, 0x7E, 0x7F, 0x80, STX, ETX, CR, b'x']);
            mend(&mut block);
        }
        // The letter, the ETX, the CR.
        4 => {
            block[2] = random.pick(b"EDAe");
            mend(&mut block);
        }
        5 => {
            block[count - 4] = random.pick(&[b' ', b'x', STX]);
            mend(&mut block);
        }
        6 => block[count - 1] = random.pick(&[b' ', b'x', STX]),
        // The test bytes alone.
        7 => block[count - 2] = random.pick(b"0123456789:;<=>?AF"),
        8 => block.swap(count - 3, count - 2),
        // A byte lost, or one too many.
        9 => {
            let place = random.below(count);
            block.remove(place);
        }
        10 => {
            let place = random.between(1, count - 1);
            block.insert(place, random.pick(b" x0"));
        }
        // A byte just outside of what is data, where data stand.
        11 | 12 => {
            let form = results(patient);
            block = of(random, &form);
            let places: Vec<usize> = (0..form.len())
                .filter(|&place| form[place] == Place::Datum)
                .collect();
            block[random.pick(&places)] = random.pick(&[0x1F, 0x7E]);
            mend(&mut block);
        }
        // The block of a reader that is set up otherwise.
        _ => {
            let other = match patient {
                Patient::Ten => Patient::Thirteen,
                Patient::Thirteen => Patient::Ten,
            };
            return if random.once_in(2) {
                finding(random, other)
            } else {
                colour(random, other)
            };
        }
    }
    block
}

#[cfg(test)]
mod tests {
    use super::*;
    use crate::blocks::{judge, Block};

    #[test]
    fn right_blocks_and_wrong_ones() {
        let mut random = Random::new(1);
        let mut lengths = Vec::new();
        let mut wrong = [0; 256];
        for _ in 0..2_000 {
            for patient in Patient::ALL {
                let block = finding(&mut random, patient);
                assert_eq!(judge(patient, &block), Ok(Block::Finding));
                lengths.push(message(patient, &block).len());
                let block = colour(&mut random, patient);
                assert_eq!(judge(patient, &block), Ok(Block::Colours));
                let block = damaged(&mut random, patient);
                wrong[usize::from(judge(patient, &block).err().unwrap_or(0))] += 1;
            }
        }
        assert!(lengths.contains(&119) && lengths.iter().any(|&length| length > 400));
        for number in [0, 70, 71, 72] {
            assert!(wrong[number] > 50, "{}: {}", number, wrong[number]);
        }
    }

    #[test]
    fn findings_of_a_length() {
        let mut random = Random::new(2);
        for patient in Patient::ALL {
            for length in LEAST..=200 {
                let block = finding_of(&mut random, patient, length);
                assert_eq!(judge(patient, &block), Ok(Block::Finding));
                assert_eq!(message(patient, &block).len(), length);
            }
        }
    }
}
