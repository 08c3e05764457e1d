//! Every header: each byte at each place of the four delimiters, each pair of them the same, each possible
//! delimiter in each part, and headers that are too short. Traffic meets a few of them.

use ngachodui_model::delimiters::{exchanged, POSSIBLE};
use ngachodui_model::frames::write;
use ngachodui_model::lines::Kind;
use ngachodui_model::texts::{ENQ, EOT, ETX};
use ngachodui_model::world::{Memory, Op};
use ngachodui_model::{Delimiters, UNFINISHED_PART};

/// A message with every type of record, and with delimiters, escapes and other delimiters in its fields.
const EVERY_TYPE: &[u8] =
    b"H|\\^&|a^b\\c&F&!~$%\rC|1|&\rP|1||^\\\rO|1|~!\rR|1|^^^GLU|5.2\rM|1\rQ|1\rL|1|N\r";

/// Which line the texts come on.
const LINE: u8 = 3;

/// Each byte at each place, and each pair the same.
pub fn fours() -> Vec<Delimiters> {
    let mut fours = Vec::new();
    for place in 0..4 {
        for byte in 0..=255 {
            let mut four = *b"|\\^&";
            four[place] = byte;
            fours.push(Delimiters::in_order(four));
        }
    }
    for four in [b"!!$%", b"!~!%", b"!~$!", b"!~~%", b"!~$~", b"!~$$"] {
        fours.push(Delimiters::in_order(*four));
    }
    fours
}

/// The header that names these.
fn head(four: Delimiters) -> Vec<u8> {
    [b"H", &four.bytes()[..]].concat()
}

/// A text with this header whose other records use its delimiters too.
fn of_its_own(four: Delimiters) -> Vec<u8> {
    let field = [four.field];
    [&head(four)[..], b"\rP", &field, b"1\rL", &field, b"1\r"].concat()
}

/// Texts that are decided on a line.
pub fn decided() -> Vec<Vec<u8>> {
    let mut texts: Vec<Vec<u8>> = fours().into_iter().map(of_its_own).collect();
    // Each possible byte in each part, with its neighbours in the others.
    for start in 0..POSSIBLE.len() {
        for step in [1, 5, 31] {
            let at = |place: usize| POSSIBLE[(start + step * place) % POSSIBLE.len()];
            let four = Delimiters::in_order([at(0), at(1), at(2), at(3)]);
            texts.push(exchanged(EVERY_TYPE, Delimiters::STANDARD, four));
        }
    }
    // One byte after the other missing from the header.
    for length in 0..=5 {
        for rest in [&b"\rL|1\r"[..], b"\r^&\rL|1\r"] {
            for header in [b"H|\\^&", b"H||||", b"L|\\^&"] {
                texts.push([&header[..length], rest].concat());
            }
        }
    }
    texts
}

/// Texts that are only cut and read: other records with the standard delimiters, one of them with a fault; no
/// CR at the end, a byte that is not allowed behind it; a header with nothing behind it.
pub fn others() -> Vec<Vec<u8>> {
    let mut texts = Vec::new();
    for four in fours() {
        texts.push([&head(four)[..], b"\rP|1\rL|1\r"].concat());
        texts.push([&head(four)[..], b"\rX|1\rL|1\r"].concat());
        let own = of_its_own(four);
        texts.push(own[..own.len() - 1].to_vec());
        texts.push([&own[..], b"\n\r"].concat());
        texts.push([&head(four)[..], b"\r"].concat());
        texts.push(head(four));
    }
    for length in 0..5 {
        for header in [b"H|\\^&", b"H||||", b"L|\\^&"] {
            texts.push(header[..length].to_vec());
            texts.push([&header[..length], b"\r"].concat());
        }
    }
    texts
}

/// The text comes in one frame; or by hand up to its fifth byte, and the rest in a frame.
pub fn on_a_line(text: &[u8]) -> Vec<Op> {
    let mut ops = opened();
    send(&mut ops, text);
    if text.len() > 5 {
        ops.extend(opened());
        for (place, &value) in text[..5].iter().enumerate() {
            ops.push(Op::Poke {
                memory: Memory::Unfinished,
                index: usize::from(LINE) * UNFINISHED_PART + place,
                value,
            });
        }
        ops.push(Op::Joined {
            line: LINE,
            count: 5,
        });
        send(&mut ops, &text[5..]);
    }
    ops
}

fn opened() -> Vec<Op> {
    let mut ops = vec![Op::Fresh];
    bytes(&mut ops, &[ENQ]);
    ops
}

fn send(ops: &mut Vec<Op>, text: &[u8]) {
    bytes(ops, &write(1, text, ETX));
    bytes(ops, &[EOT]);
}

fn bytes(ops: &mut Vec<Op>, bytes: &[u8]) {
    ops.extend(bytes.iter().map(|&byte| Op::Event {
        line: LINE,
        kind: Kind::Byte(byte),
    }));
}

/// Texts to escape and unescape with these delimiters: each of them alone and in its escape, wrong escapes,
/// and nothing.
pub fn components(four: Delimiters) -> Vec<Vec<u8>> {
    let mut components = vec![
        Vec::new(),
        b"abc".to_vec(),
        four.bytes().to_vec(),
        b"|\\^&".to_vec(),
    ];
    for (byte, letter) in four.bytes().into_iter().zip(*b"FRSE") {
        components.push(vec![byte]);
        components.push(vec![b'a', four.escape, letter, four.escape, b'b']);
        components.push(vec![four.escape, letter]);
    }
    components
}
