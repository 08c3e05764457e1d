//! Worked examples from outside: whole dialogues of source documents 002 (PLEDIA), 003 (ADVIA) and
//! 004 (MODULAR), as sent between ENQ and EOT, with the answers that the rules give them.

use crate::records::{field, result_fields};
use crate::texts::{ENQ, EOT, LF};
use crate::world::World;
use crate::{cut, is_message, read, Delimiters, Refusal};

fn bytes(hex: &str) -> Vec<u8> {
    assert_eq!(hex.len() % 2, 0);
    (0..hex.len() / 2)
        .map(|index| u8::from_str_radix(&hex[2 * index..2 * index + 2], 16).unwrap())
        .collect()
}

/// ENQ, the frames, EOT on a fresh line 4: the answers that are not 0, and the world after.
fn run(frames: &[u8]) -> (Vec<u8>, World) {
    let mut world = World::fresh(0x77);
    let sent = [&[ENQ][..], frames, &[EOT]].concat();
    let mut answers = world.bytes(4, &sent);
    answers.retain(|&answer| answer != 0);
    (answers, world)
}

fn answers(frames: &[u8]) -> Vec<u8> {
    run(frames).0
}

/// The texts of the frames, joined.
fn joined(frames: &[u8]) -> Vec<u8> {
    let mut text = Vec::new();
    for frame in frames.split_inclusive(|&byte| byte == LF) {
        text.extend_from_slice(&frame[2..frame.len() - 5]);
    }
    text
}

/// The frames are stored as one message, which is then taken, and cut it has this length.
fn stored(frames: &[u8], frame_count: usize, text: usize, length: usize) {
    let (seen, mut world) = run(frames);
    let mut expected = vec![1];
    expected.extend(std::iter::repeat(2).take(frame_count - 1));
    expected.extend_from_slice(&[4, 5]);
    assert_eq!(seen, expected);
    let message = joined(frames);
    assert_eq!(message.len(), text);
    let answer = world.take(4, 4_000);
    assert_eq!((answer.number, answer.length), (8, text));
    assert_eq!(world.buffer[..text], message[..]);
    let mut out = vec![0; 4_000];
    assert_eq!(cut(&message, &mut out), Ok(length));
    // Cut by our own rule it is stored just as well.
    let (seen, mut world) = run(&out[..length]);
    assert_eq!(seen[seen.len() - 2..], [4, 5]);
    assert_eq!(world.take(4, text).length, text);
    assert_eq!(world.buffer, message);
}

/// The bytes with one letter changed.
fn changed(hex: &str, place: usize, from: u8, to: u8) -> Vec<u8> {
    let mut frames = bytes(hex);
    assert_eq!(frames[place], from);
    frames[place] = to;
    frames
}

#[test]
fn modular_test_inquiry() {
    stored(&bytes(M1), 1, 105, 126);
}

#[test]
fn modular_inquiry_after_bar_code_error() {
    // The printed digits belong to status A, not to the printed status O.
    assert_eq!(answers(&bytes(M2)), [1, 23, 5]);
    stored(&changed(M2, 97, b'O', b'A'), 1, 103, 124);
}

#[test]
fn modular_order_download() {
    // The printed digits belong to action N; A and C are printed with the same ones.
    assert_eq!(answers(&bytes(M3)), [1, 23, 5]);
    assert_eq!(answers(&changed(M3, 120, b'A', b'C')), [1, 23, 5]);
    stored(&changed(M3, 120, b'A', b'N'), 1, 165, 200);
}

#[test]
fn modular_routine_result_in_two_frames() {
    stored(&bytes(M5), 2, 341, 390);
}

#[test]
fn modular_raw_data_in_seven_frames() {
    // Printed with its L record twice, which no message may have.
    let twice = bytes(M8);
    assert_eq!(twice.len(), 1_533);
    assert_eq!(answers(&twice), [1, 2, 2, 2, 2, 2, 2, 52, 5]);
    let text = joined(&twice);
    assert_eq!(text.len(), 1_484);
    assert_eq!(read(&text), Err(Refusal::faulty(52, 9)));
    let mut once = twice[..twice.len() - 11].to_vec();
    once.extend_from_slice(b"\x0311\r\n");
    assert_eq!(once.len(), 1_527);
    stored(&once, 7, 1_478, 1_562);
}

#[test]
fn modular_ise_calibration() {
    stored(&bytes(M9), 1, 196, 217);
}

#[test]
fn worked_sums_have_right_digits_but_no_cr() {
    assert_eq!(bytes(M11), b"\x021Test\x03D4\r\n");
    assert_eq!(answers(&bytes(M11)), [1, 29, 5]);
    assert_eq!(bytes(A1), b"\x021ABCDE\x0383\r\n");
    assert_eq!(answers(&bytes(A1)), [1, 29, 5]);
}

#[test]
fn pledia_dialogues() {
    // The text, its length, the check digits of its frames.
    let cases = [
        (
            "H|\\^&|||OC PLEDIA^1.003|||||||||20150204140916<CR>O|1|12345678901234^006|00007^05^1^0|^^^F-Hb^90||||||||||||||N <CR>R|1|^^^F-Hb^90|Negative^34|ng/mL||||||||20150204140915<CR>C|1|I|^-<CR>L|1|N<CR>",
            180,
            "29 88 0B 00 08",
        ),
        (
            "H|\\^&|||OC PLEDIA^1.003|||||||||20150204141032<CR>O|1|23456789012345^002|00006^03^1^0|^^^F-Hb^90||||||||||||||N <CR>R|1|^^^F-Hb^90|Positive^251|ng/mL||||||||20150204141031<CR>C|1|I|^+<CR>L|1|N<CR>",
            181,
            "1F 85 52 FE 08",
        ),
        (
            "H|\\^&|||OC PLEDIA^1.003|||||||||20150204160527<CR>O|1|01234567890123^099|00001^09^ ^|^^^F-Hb^90||||||||||||||C1<CR>R|1|^^^F-Hb^90|^156|ng/mL||||||||20150204160526<CR>C|1|I|<CR>L|1|N<CR>",
            170,
            "29 53 0D 75 08",
        ),
        (
            "H|\\^&|||OC PLEDIA^1.003|||||||||20150204160527<CR>O|1|CONT2^099|00002^10^ ^|^^^F-Hb^90||||||||||||||C2<CR>R|1|^^^F-Hb^90|^416|ng/mL||||||||20150205160526<CR>C|1|I<CR>L|1|N<CR>",
            160,
            "29 E0 0D F9 08",
        ),
        (
            "H|\\^&|||OC PLEDIA^2.000|||||||||20180328151647<CR>O|1|123456789^021|00081^03^1^0|^^^F-Hb^90||||||||||||||N |Operator Name^^^^^^<CR>R|1|^^^F-Hb^90|^|ng/mL||||||Operator001||20180328151445<CR>C|1|I|01<CR>L|1|N<CR>",
            196,
            "34 28 58 D6 08",
        ),
        (
            "H|\\^&|||OC PLEDIA^2.000|||||||||20180328151647<CR>O|1|123456789^002|00003^05^1^0|^^^F-Hb^90||||||||||||||N |Operator Name^^^^^^<CR>R|1|^^^F-Hb^90|Positive^|ng/mL||||||Operator001||20180328151445<CR>C|1|I|05^+<CR>L|1|N<CR>",
            206,
            "34 23 AB 63 08",
        ),
    ];
    for (written, length, digits) in cases {
        let text = written.replace("<CR>", "\r").into_bytes();
        assert_eq!(text.len(), length);
        let mut frames = vec![0; length + 35];
        assert_eq!(cut(&text, &mut frames), Ok(length + 35), "{}", written);
        let seen: Vec<String> = frames
            .split_inclusive(|&byte| byte == LF)
            .map(|frame| String::from_utf8_lossy(&frame[frame.len() - 4..][..2]).into_owned())
            .collect();
        assert_eq!(seen.join(" "), digits, "{}", written);
        let (seen, mut world) = run(&frames);
        assert_eq!(seen, [1, 2, 2, 2, 2, 4, 5]);
        assert_eq!(world.take(4, length).length, length);
        assert_eq!(world.buffer, text);
    }
}

#[test]
fn modular_l_record_printed_with_blanks_is_none() {
    assert!(!is_message(b"H|\\^&\rL | 1 | N\r"));
}

#[test]
fn modular_result_records() {
    // Test, value, units, flag, status; the time stands in field 12 or nowhere, so that field 13,
    // the completion time, is empty in all six.
    let cases = [
        (
            "R|1|^^^2/1/not|8.60|nmol/L||N||F||BMSERV|||E11",
            "^^^2/1/not 8.60 nmol/L N F",
            "",
        ),
        (
            "R|1|^^^2/1/not|8.60|nmol/L||N||F||BMSERV|20050912165312||E11",
            "^^^2/1/not 8.60 nmol/L N F",
            "20050912165312",
        ),
        (
            "R|1|^^^64/1/not|46.22|IU/L||H||F||BMSERV|20050915150011||E11",
            "^^^64/1/not 46.22 IU/L H F",
            "20050915150011",
        ),
        (
            "R|1|^^^64/1/not|46.22^1|IU/L||H||F||BMSERV|20050915150011||E11",
            "^^^64/1/not 46.22^1 IU/L H F",
            "20050915150011",
        ),
        (
            "R|1|^^^66/1/not|-1^1.61|COI||N||F||BMSERV|20050817180922||E11",
            "^^^66/1/not -1^1.61 COI N F",
            "20050817180922",
        ),
        (
            "R|1|^^^66/1/not|-1|COI||N||F||BMSERV|20050822191251||E11",
            "^^^66/1/not -1 COI N F",
            "20050822191251",
        ),
    ];
    for (record, five, twelfth) in cases {
        let record = record.as_bytes();
        let standard = Delimiters::STANDARD;
        let read = result_fields(standard, record);
        let seen = [read.test, read.value, read.units, read.flag, read.status].join(&b' ');
        assert_eq!(seen, five.as_bytes());
        assert_eq!(read.completion, b"");
        assert_eq!(field(standard, record, 12), twelfth.as_bytes());
        assert_eq!(field(standard, record, 14), b"E11");
    }
}

const M1: &str = "\
0231487c5c5e267c7c7c48373630305e317c7c7c7c7c686f73747c54535245515e5245414c7c507c310d517c317c5e5e\
202020202020202020202020202020203030303031365e305e353233305e315e5e53315e53437c7c414c4c7c7c7c7c7c\
7c7c7c4f0d4c7c317c4e0d0345300d0a";

const M2: &str = "\
0231487c5c5e267c7c7c48373630305e317c7c7c7c7c686f73747c54535245515e5245414c7c507c310d517c317c5e5e\
2a2a2a2a2a2a2a2a2a2a2a2a2a2a2a2a2a2a2a2a2a2a5e305e303233305e345e5e53315e7c7c414c4c7c7c7c7c7c7c7c\
7c4f0d4c7c317c4e0d0341460d0a";

const M3: &str = "\
0231487c5c5e267c7c7c4153544d2d486f73745e7c7c7c7c7c7c545344574e5e5245504c590d507c317c7c5061744944\
7c7c7c7c7c4d7c7c7c7c7c7c34305e590d4f7c317c3030303031367c305e353233305e315e5e53315e53437c5e5e5e32\
5e317c527c7c32303030303533303134333734317c7c7c7c417c7c7c7c317c7c7c7c7c7c7c7c7c7c4f0d437c317c4c7c\
43315e43325e43335e43345e43357c470d4c7c317c4e0d0343370d0a";

const M5: &str = "\
0231487c5c5e267c7c7c48373630305e317c7c7c7c7c686f73747c525355504c5e5245414c7c507c310d507c317c7c7c\
7c7c7c7c4d7c7c7c7c7c7c34305e590d4f7c317c202020202020202020202020202020203030303031367c305e353233\
305e315e5e53315e53437c5e5e5e325e317c527c7c32303030303533303134333734317c7c7c7c4e7c7c7c7c317c7c7c\
7c7c7c7c32303030303533303137323334347c7c7c460d437c317c497c43312020202020202020202020202020202020\
20202020202020202020205e433220202020202020202020202020202020202020202020205e43332020202020202020\
20201734430d0a023220202020202020205e4334202020202020202020202020205e433520202020202020207c470d52\
7c317c5e5e5e322f312f6e6f747c382e39387c6e6d6f6c2f4c7c7c4e7c7c467c7c424d534552567c7c7c4531310d437c\
317c497c307c490d4c7c317c4e0d0336440d0a";

const M8: &str = "\
0231487c5c5e267c7c7c48373630305e317c7c7c7c7c686f73747c454655504c5e42415443487c507c310d507c317c7c\
7c7c7c7c7c557c7c7c7c7c7c5e0d4f7c317c303030303031202020202020202020202020202020207c315e353233385e\
315e5e53315e53437c5e5e5e325e317c527c7c32303030303532393132353535347c7c7c7c4e7c7c7c7c317c7c7c7c7c\
7c7c32303030303532393132353634337c7c7c460d437c317c497c202020202020202020202020202020202020202020\
2020202020202020205e485350312020202020202020202020202020202020202020205e202020202020202020202020\
20201730440d0a02322020202020205e2020202020202020202020202020205e202020202020202020207c470d527c31\
7c5e5e5e322f312f6e6f747c382e36307c6e6d6f6c2f4c7c7c4e7c7c467c7c424d534552567c7c7c4531310d437c317c\
497c307c490d4d7c317c4546537c4531317c343936355c353738365c353731395c363535335c383030365c383035305c\
363732345c353736355c353938325c373830365c383732315c393731365c393934385c393234335c383339365c363939\
385c363034355c353434305c363133305c363630345c373433315c373834315c373536375c373339385c363833365c36\
3437325c363934345c1730430d0a0233363133395c363039315c363830305c373232335c373031335c373137305c3738\
35355c383739395c393132385c383736335c383132395c373131325c373931365c373234365c363635355c353936375c\
353636305c353236305c353437345c353733305c373436325c383631305c383737375c383034315c373737395c373836\
395c373939355c383536335c393230345c383531395c363939345c353933385c353535315c363630305c373239325c37\
3836395c373531365c363935355c373430335c373239355c373538335c373637305c363731345c353635335c35363632\
5c353936355c373530325c373830385c1735420d0a0234373231305c363635325c363830385c363734315c383235365c\
383037315c32393531325c34303731355c34353330365c34373039345c34373735355c34373934345c34373933315c34\
373835325c34373733315c34373630345c34373437335c34373334305c34373232365c34373039385c34363938305c34\
363836315c34363735305c34363634325c34363533305c34363434305c34363334305c34363233385c34363134375c34\
363035385c34353937355c34353839385c34353831335c34353734325c34353635335c34353536335c34353438385c34\
353432395c34353335365c34353238345c34353233355c1745380d0a023534353135305c34353130325c34353032355c\
34343936375c34343930395c34343834395c34343739345c34343733335c34343638315c34343632335c34343535335c\
34343530375c34343436305c34343430375c34343335365c34343331375c34343236305c34343231305c34343136365c\
34343133345c34343037315c34343033305c34333938335c34333934395c34333839395c34333836325c34333832315c\
34333738365c34333734305c34333638365c34333634355c34333632305c34333538305c34333533345c34333439365c\
34333436335c34333431385c34333338375c34333334365c34333331335c1736440d0a023634333238345c3433323533\
5c34333231305c34333232335c34333232355c34333234315c34333234335c34333138385c34333137315c3433313434\
5c34333037345c34333032365c34323936305c34323837315c34323833335c34323739325c34323736315c3432373230\
5c34323637385c34323634395c34323632315c34323630365c34323538305c34323534315c34323531315c3432343836\
5c34323433395c34323434305c34323530335c34323530305c34323530395c34323530395c34323438315c3432343134\
5c34323336315c34323333325c34323238325c34323236385c34323233365c34323139325c1746390d0a023734323137\
385c34323136345c34323136345c34323134387c313039353030300d4c7c317c4e0d4c7c317c4e0d0345310d0a";

const M9: &str = "\
0231487c5c5e267c7c7c7379735e317c7c7c7c7c686f737c494355504c5e5245414c7c507c310d4d7c317c4943527c48\
49545352567c495345317c31347c31347c31347c5e5e5e345e305e305e305e307c5e5e5e345e305e305e305e307c5e5e\
5e345e32315e305e305e307c2d33302e365e2d33312e355e2d32352e325e2d32392e305e5e5e5e7c2d33332e345e2d34\
322e395e2d32322e365e2d33332e335e5e5e5e7c3132342e315e3132352e375e3131382e375e3132322e355e5e5e5e0d\
4c7c317c4e0d0341360d0a";

const M11: &str = "\
0231546573740344340d0a";

const A1: &str = "\
023141424344450338330d0a";
