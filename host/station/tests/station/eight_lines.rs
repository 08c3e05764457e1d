//! Eight devices at once: each message that is acknowledged arrives at its reader, once and in order.

use crate::harness::{line, serial, tcp, Sets, Station};
use ngachodui_station::client::Client;
use ngachodui_station::simulated::analyzer::{Analyzer, Fate};
use ngachodui_station::simulated::cable::Cable;
use ngachodui_station::simulated::chance::Noise;
use ngachodui_station::simulated::strips::StripReader;
use ngachodui_station::simulated::texts::{identity, result, Size};
use std::sync::atomic::{AtomicBool, Ordering};
use std::thread;
use std::time::Duration;

/// Messages of an analyzer, findings of a strip reader.
const MESSAGES: u32 = 48;
const FINDINGS: u32 = 24;

fn analyzer(line: u8, cable: Cable) -> Analyzer {
    let mut analyzer = Analyzer {
        patience: Duration::from_secs(5),
        pause: Duration::from_millis(100),
        asks: 100,
        ..Analyzer::new(cable)
    };
    // One cable is a poor one, towards the station: replies come whole, so no message is sent anew.
    if line == 3 {
        analyzer.patience = Duration::from_millis(300);
        analyzer.spoil = Some(Noise::seeded(7, 400, 0));
    }
    analyzer
}

/// Sends its messages three to a transfer, each until it is acknowledged.
fn send_all(line: u8, mut analyzer: Analyzer) {
    let mut number = 0;
    while number < MESSAGES {
        let last = MESSAGES.min(number + 3);
        let texts: Vec<Vec<u8>> = (number..last)
            .map(|number| result(line, number, 0, Size::by_number(number)))
            .collect();
        let fates = analyzer.transfer(&texts);
        let acknowledged = |fate: &&Fate| **fate == Fate::Acknowledged;
        number += fates.iter().take_while(acknowledged).count() as u32;
    }
}

/// Takes messages until nothing waits and nobody sends; by line, in the order in which they came.
fn take_all(reader: &Client, is_over: &AtomicBool) -> Vec<(u8, Vec<u8>)> {
    let mut taken = Vec::new();
    loop {
        let was_over = is_over.load(Ordering::SeqCst);
        match reader.message().expect("a reply") {
            Some((line, serial, text)) => {
                assert!(reader.confirm(line, serial).expect("a reply"));
                taken.push((line, text));
            }
            None if was_over => return taken,
            None => thread::sleep(Duration::from_millis(10)),
        }
    }
}

/// A strip reader's key is pressed until all its findings are acknowledged.
fn press(line: u8, characters: usize, cable: Cable) {
    let mut reader = StripReader::new(cable, line, characters);
    let numbers: Vec<u32> = (0..FINDINGS).collect();
    let mut sent = 0;
    while sent < numbers.len() {
        let fates = reader.press(&numbers[sent..]);
        let acknowledged = |fate: &&Fate| **fate == Fate::Acknowledged;
        sent += fates.iter().filter(acknowledged).count();
    }
}

/// Everybody at once; what each of these laboratories has taken.
fn run(station: &Station, names: [&str; 4], cables: Vec<Cable>) -> Vec<Vec<(u8, Vec<u8>)>> {
    let is_over = &AtomicBool::new(false);
    thread::scope(|scope| {
        let _ends = Sets(is_over);
        let readers =
            names.map(|name| scope.spawn(move || take_all(&station.reader(name), is_over)));
        let devices: Vec<_> = cables
            .into_iter()
            .zip(0..)
            .map(|(cable, line)| {
                scope.spawn(move || match line {
                    6 => press(line, 10, cable),
                    7 => press(line, 13, cable),
                    _ => send_all(line, analyzer(line, cable)),
                })
            })
            .collect();
        for device in devices {
            device.join().expect("it has sent all");
        }
        is_over.store(true, Ordering::SeqCst);
        let taken = readers.map(|reader| reader.join().expect("it has taken all"));
        taken.into()
    })
}

/// What a line has stored is what was sent there, in order.
fn check_line(line: u8, texts: &[&Vec<u8>]) {
    let same = if line < 6 {
        let sent = (0..MESSAGES).map(|number| result(line, number, 0, Size::by_number(number)));
        texts.iter().map(|text| text.to_vec()).eq(sent)
    } else {
        let sent = (0..FINDINGS).map(|number| Some((line, number, 0)));
        texts.iter().map(|text| identity(text)).eq(sent)
    };
    assert!(same, "line {}", line);
}

#[test]
fn each_message_arrives_once_and_in_order() {
    let (line0, cable0) = serial("north");
    let (line1, cable1) = tcp("north");
    let (line2, cable2) = serial("south");
    let (line3, cable3) = tcp("south");
    let line4 = line("east", "terminal = \"ports/line4\"".to_string());
    let line5 = line("east", "terminal = \"ports/line5\"".to_string());
    let (line6, cable6) = tcp("west");
    let (line7, cable7) = serial("west");
    let (line6, line7) = (line6.speaking("strips-10"), line7.speaking("strips-13"));
    let lines = [line0, line1, line2, line3, line4, line5, line6, line7];
    let station = Station::with("", &lines);
    let made = |name: &str| Cable::terminal(station.folder.path.join("state/ports").join(name));
    let made = [made("line4"), made("line5")];
    let mut cables = vec![cable0, cable1, cable2, cable3];
    cables.extend(made);
    cables.extend([cable6, cable7]);

    let taken = run(&station, ["north", "south", "east", "west"], cables);
    for (messages, own) in taken.iter().zip([[0, 1], [2, 3], [4, 5], [6, 7]]) {
        // Nothing of another laboratory's.
        assert!(messages.iter().all(|(line, _)| own.contains(line)));
        for line in own {
            let texts = messages.iter().filter(|(of, _)| *of == line);
            let texts: Vec<&Vec<u8>> = texts.map(|(_, text)| text).collect();
            check_line(line, &texts);
        }
    }
    let board = station.next_board();
    assert_eq!(board["journal"]["in_use"], 0);
    for line in 0..8 {
        let expected = if line < 6 { MESSAGES } else { FINDINGS };
        assert_eq!(board["lines"][line]["stored_today"], expected);
        assert_eq!(board["lines"][line]["waiting"], 0);
    }
    // The poor cable shows, in words.
    let answers = board["lines"][3]["answers"].to_string();
    assert!(answers.contains("frame"), "{}", answers);
}
