//! Ports that are missing, hang up and come back: that is said, and survived.

use crate::harness::{line, tcp, until, Station};
use ngachodui_station::simulated::analyzer::{Analyzer, Fate};
use ngachodui_station::simulated::cable::Cable;
use ngachodui_station::simulated::texts::{result, Size};
use ngachodui_station::testing::Folder;
use std::fs;
use std::os::unix::fs::symlink;

fn acknowledged(cable: Cable, line: u8, number: u32) -> Cable {
    let mut analyzer = Analyzer::new(cable);
    let fates = analyzer.transfer(&[result(line, number, 0, Size::Usual)]);
    assert_eq!(fates, [Fate::Acknowledged]);
    analyzer.cable
}

#[test]
fn a_device_that_is_missing_hangs_up_and_comes_back() {
    let folder = Folder::new();
    let device = folder.path.join("ttyUSB0");
    let (line1, mut other) = tcp("north");
    let lines = [line("north", format!("serial = {:?}", device)), line1];
    let mut station = Station::with("", &lines);
    let trouble = |station: &Station| station.line(0)["trouble"].to_string();
    until("it is told as missing", || {
        trouble(&station).contains("no such file or directory")
    });
    other = acknowledged(other, 1, 0);

    for number in 0..2 {
        // Plugged in.
        let (cable, path) = Cable::master();
        symlink(&path, &device).expect("made");
        until("it is open", || station.line(0)["connected"] == true);
        let cable = acknowledged(cable, 0, number);
        other = acknowledged(other, 1, number + 1);
        // Unplugged.
        fs::remove_file(&device).expect("there");
        drop(cable);
        until("it is told as gone", || {
            station.line(0)["connected"] == false
        });
        until("it is told as missing", || {
            trouble(&station).contains("no such file or directory")
        });
    }
    assert!(station.runs());
    assert_eq!(station.next_board()["lines"][0]["waiting"], 2);
    let log = station.log();
    assert_eq!(log.matches("line 0 (north): port connected").count(), 2);
    assert!(
        log.matches("line 0 (north): port hung up").count() >= 1,
        "{}",
        log
    );
}

#[test]
fn a_server_that_goes_away_and_a_terminal_that_nobody_has() {
    let (line0, cable) = tcp("north");
    let line1 = line("north", "terminal = \"ports/line1\"".to_string());
    let station = Station::with("", &[line0, line1]);
    let cable = acknowledged(cable, 0, 0);
    drop(cable);
    until("the server is told as gone", || {
        let trouble = station.line(0)["trouble"].to_string();
        trouble.contains("connection refused")
    });
    let path = station.folder.path.join("state/ports/line1");
    for number in 0..2 {
        assert_eq!(station.line(1)["connected"], false);
        let cable = acknowledged(Cable::terminal(&path), 1, number);
        until("the terminal is told as open", || {
            station.line(1)["connected"] == true
        });
        drop(cable);
        until("the terminal is told as left", || {
            station.line(1)["connected"] == false
        });
    }
    assert_eq!(station.next_board()["lines"][1]["waiting"], 2);
}

/// Two stations with one folder, or at one address, are told.
#[test]
fn a_second_station_is_refused() {
    let (line, _cable) = tcp("north");
    let station = Station::with("", &[line]);
    let status = station
        .command()
        .arg(station.settings())
        .status()
        .expect("it ran");
    assert_eq!(status.code(), Some(1));
    assert!(station
        .log()
        .contains("a station runs with this folder already"));
    assert!(station.log().contains("has every token"));
    let status = station
        .command()
        .arg("no-such-file")
        .status()
        .expect("it ran");
    assert_eq!(status.code(), Some(1));
    let status = station.command().status().expect("it ran");
    assert_eq!(status.code(), Some(2));
}

#[test]
fn it_stops_when_it_is_told() {
    let (line, mut cable) = tcp("north");
    let mut station = Station::with("", &[line]);
    for (signal, number) in [("-TERM", 0), ("-INT", 1)] {
        cable = acknowledged(cable, 0, number);
        assert!(station.stop(signal), "{}", station.log());
        station.start();
        let stored = &station.line(0)["waiting"];
        assert_eq!(stored, number + 1);
    }
}
