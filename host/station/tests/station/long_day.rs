//! A day of a hundred thousand messages: the station's memory does not grow.

use crate::harness::{tcp, Sets, Station};
use ngachodui_station::client::Client;
use ngachodui_station::simulated::analyzer::{Analyzer, Fate};
use ngachodui_station::simulated::cable::Cable;
use ngachodui_station::simulated::texts::{identity, result, Size};
use ngachodui_station::testing::Folder;
use std::sync::atomic::{AtomicBool, AtomicU32, Ordering};
use std::thread;
use std::time::Duration;

const LINES: u8 = 8;
const MESSAGES: u32 = 100_000;
const EACH: u32 = MESSAGES / LINES as u32;

/// What the station may grow from a tenth of the day to its end, in KiB.
const MOST_GROWN: u64 = 2_048;

fn send_all(line: u8, cable: Cable, is_over: &AtomicBool) {
    let mut analyzer = Analyzer {
        patience: Duration::from_secs(10),
        pause: Duration::from_millis(5),
        asks: 10_000,
        together: true,
        ..Analyzer::new(cable)
    };
    let mut number = 0;
    while number < EACH && !is_over.load(Ordering::Relaxed) {
        let last = EACH.min(number + 10);
        let texts: Vec<Vec<u8>> = (number..last)
            .map(|number| result(line, number, 0, Size::Small))
            .collect();
        let fates = analyzer.transfer(&texts);
        let acknowledged = |fate: &&Fate| **fate == Fate::Acknowledged;
        number += fates.iter().take_while(acknowledged).count() as u32;
    }
}

/// Takes a line's messages, each as it comes, and counts them.
fn take_all(reader: &Client, taken: &AtomicU32) {
    for number in 0..EACH {
        let (line, serial, text) = loop {
            match reader.message().expect("a reply") {
                Some(message) => break message,
                None => thread::sleep(Duration::from_millis(1)),
            }
        };
        assert_eq!(identity(&text), Some((line, number, 0)));
        assert_eq!(serial, number as u16);
        assert!(reader.confirm(line, serial).expect("a reply"));
        taken.fetch_add(1, Ordering::Relaxed);
    }
}

#[test]
fn a_hundred_thousand_messages() {
    let names = ["a", "b", "c", "d", "e", "f", "g", "h"];
    let (lines, cables): (Vec<_>, Vec<_>) = names.iter().map(|name| tcp(name)).unzip();
    // In memory: what is looked at here is not the disk.
    let mut station = Station::in_folder(Folder::in_memory(), "", &lines);
    let readers = names.map(|name| station.reader(name));
    let taken = &AtomicU32::new(0);
    let is_over = &AtomicBool::new(false);
    let early = thread::scope(|scope| {
        let _ends = Sets(is_over);
        for (cable, line) in cables.into_iter().zip(0..) {
            scope.spawn(move || send_all(line, cable, is_over));
        }
        let readers = readers.map(|reader| scope.spawn(move || take_all(&reader, taken)));
        while taken.load(Ordering::Relaxed) < MESSAGES / 10 {
            assert!(!readers.iter().any(|reader| reader.is_finished()));
            thread::sleep(Duration::from_millis(50));
        }
        let early = station.memory();
        for reader in readers {
            reader.join().expect("it has taken all");
        }
        early
    });
    assert_eq!(taken.load(Ordering::Relaxed), MESSAGES);
    let late = station.memory();
    assert!(station.runs());
    println!("{} KiB behind a tenth, {} KiB at the end", early, late);
    assert!(late < early + MOST_GROWN);
}
