//! What waits goes to the archive: on demand, and while no station runs.

use crate::harness::{tcp, Station};
use ngachodui_station::simulated::analyzer::{Analyzer, Fate};
use ngachodui_station::simulated::texts::{result, Size};
use std::fs;
use std::slice;

/// The one file of a laboratory.
fn archived(station: &Station, laboratory: &str) -> Vec<u8> {
    let folder = station.folder.path.join("state/archive").join(laboratory);
    let mut names = fs::read_dir(folder).expect("archived");
    let path = names.next().expect("a file").expect("a name").path();
    assert!(names.next().is_none());
    assert!(path.to_string_lossy().ends_with(".messages"));
    fs::read(path).expect("archived")
}

/// Where a text stands in a file, behind its line.
fn place(file: &[u8], head: &str, text: &[u8]) -> usize {
    let entry = [text, b"\n"].concat();
    let at = file.windows(entry.len()).position(|bytes| bytes == entry);
    let at = at.expect("the bytes as they came");
    let line = file[..at - 1].rsplit(|byte| *byte == b'\n').next();
    let line = String::from_utf8(line.expect("a line").to_vec()).expect("ASCII");
    assert!(line.starts_with(head), "{}", line);
    assert!(
        line.ends_with(&format!(" bytes {}", text.len())),
        "{}",
        line
    );
    at
}

#[test]
fn every_waiting_message_goes_to_its_laboratory() {
    let (line0, cable0) = tcp("north");
    let (line1, cable1) = tcp("north");
    let (line2, cable2) = tcp("south");
    let mut station = Station::with("", &[line0, line1, line2]);
    let texts: Vec<Vec<u8>> = (0..3).map(|line| result(line, 0, 0, Size::Long)).collect();
    let mut analyzers = [cable0, cable1, cable2].map(Analyzer::new);
    for (analyzer, text) in analyzers.iter_mut().zip(&texts) {
        assert_eq!(
            analyzer.transfer(slice::from_ref(text)),
            [Fate::Acknowledged]
        );
    }
    let reply = station.operator().post("/archive", b"").expect("a reply");
    assert_eq!(
        (reply.status, reply.json()["messages"].as_u64()),
        (200, Some(3))
    );
    let board = station.next_board();
    assert_eq!(board["journal"]["in_use"], 0);
    assert_eq!(board["archive"]["messages"], 3);
    let north = archived(&station, "north");
    let first = place(&north, "line 0 serial 0 stored 20", &texts[0]);
    let second = place(&north, "line 1 serial 0 stored 20", &texts[1]);
    assert!(first < second);
    place(
        &archived(&station, "south"),
        "line 2 serial 0 stored 20",
        &texts[2],
    );
    assert!(station
        .reader("north")
        .message()
        .expect("a reply")
        .is_none());

    // More of the same day goes behind it, also while no station runs.
    let more = result(2, 1, 0, Size::Small);
    assert_eq!(
        analyzers[2].transfer(slice::from_ref(&more)),
        [Fate::Acknowledged]
    );
    let mut command = station.command();
    command.arg("archive").arg(station.settings());
    assert_eq!(command.status().expect("it ran").code(), Some(1));
    assert!(station
        .log()
        .contains("a station runs with this folder already"));
    station.kill();
    assert_eq!(command.status().expect("it ran").code(), Some(0));
    let south = archived(&station, "south");
    let first = place(&south, "line 2 serial 0 stored 20", &texts[2]);
    assert!(first < place(&south, "line 2 serial 1 stored 20", &more));
    station.start();
    assert!(station
        .reader("south")
        .message()
        .expect("a reply")
        .is_none());
}
