//! Each laboratory sees its own and nothing else; who asks wrongly gets a clear error, and nobody else notices.

use crate::harness::{tcp, token, Station, PATIENCE};
use ngachodui_station::client::{Client, Reply};
use ngachodui_station::simulated::analyzer::{Analyzer, Fate};
use ngachodui_station::simulated::texts::{faulty, order, result, Size};
use std::io::{Read, Write};
use std::net::TcpStream;
use std::time::{Duration, Instant};

/// Two laboratories, with two messages and a refused one each.
fn station() -> Station {
    let (line0, cable0) = tcp("north");
    let (line1, cable1) = tcp("south");
    let (line2, cable2) = tcp("south");
    let line2 = line2.speaking("strips-13");
    let station = Station::with("", &[line0, line1, line2]);
    for (cable, line) in [(cable0, 0), (cable1, 1)] {
        let mut analyzer = Analyzer::new(cable);
        for number in 0..2 {
            let fates = analyzer.transfer(&[result(line, number, 0, Size::Usual)]);
            assert_eq!(fates, [Fate::Acknowledged]);
        }
        assert_eq!(
            analyzer.transfer(&[faulty(u32::from(line))]),
            [Fate::Refused]
        );
    }
    drop(cable2);
    station
}

fn error(reply: Reply, status: u16) -> String {
    let told = reply.json()["error"].as_str().map(str::to_string);
    assert_eq!(reply.status, status, "{:?}", told);
    told.expect("an error in words")
}

#[test]
fn each_laboratory_sees_its_own() {
    let station = station();
    for (name, own, other) in [("north", 0, 1), ("south", 1, 0)] {
        let reader = station.reader(name);
        let waiting = reader.waiting().expect("a list");
        let serials: Vec<(u8, u16)> = waiting.iter().map(|m| (m.line, m.serial)).collect();
        assert_eq!(serials, [(own, 0), (own, 1)]);
        let refused = reader.get("/refused").expect("a list").json();
        assert_eq!(refused["messages"].as_array().map(Vec::len), Some(1));
        assert_eq!(refused["messages"][0]["line"], own);
        let text = refused["messages"][0]["text"].as_str().expect("a text");
        assert_eq!(text.as_bytes(), faulty(u32::from(own)));

        // The other's line is as if there were none, whatever is asked of it.
        let paths = [
            format!("/message?line={}", other),
            format!("/message?line={}", 7),
        ];
        for path in paths {
            assert!(error(reader.get(&path).expect("a reply"), 404).contains("not a line of"));
        }
        let path = format!("/message/{}/0", other);
        assert!(error(reader.delete(&path).expect("a reply"), 404).contains("not a line of"));
        let path = format!("/orders/{}", other);
        let text = order(other, 0);
        assert!(error(reader.post(&path, &text).expect("a reply"), 404).contains("not a line of"));

        // Given again until it is confirmed.
        for _ in 0..3 {
            let (line, serial, text) = reader.message().expect("a reply").expect("one waits");
            assert_eq!((line, serial), (own, 0));
            assert_eq!(text, result(own, 0, 0, Size::Usual));
        }
        assert!(error(
            reader
                .delete(&format!("/message/{}/1", own))
                .expect("a reply"),
            409
        )
        .contains("older"));
        assert!(reader.confirm(own, 0).expect("a reply"));
        assert!(!reader.confirm(own, 0).expect("a reply"));
        let (_, serial, text) = reader.message().expect("a reply").expect("one waits");
        assert_eq!((serial, text), (1, result(own, 1, 0, Size::Usual)));
    }
    // An order of one is none of the other's.
    let number = station
        .reader("north")
        .order(0, &order(0, 5))
        .expect("placed");
    let path = format!("/orders/{}", number);
    assert_eq!(
        station.reader("north").get(&path).expect("a reply").status,
        200
    );
    let south = station.reader("south");
    assert!(error(south.get(&path).expect("a reply"), 404).contains("no such order"));
    assert!(error(south.delete(&path).expect("a reply"), 404).contains("no such order"));
    assert!(south.orders().expect("a list").is_empty());
}

#[test]
fn who_asks_wrongly_is_told() {
    let station = station();
    let nobody = station.anybody();
    let wrong = Client::new(station.address, "token-of-the-reader-of-nortH");
    for path in ["/message", "/waiting", "/refused", "/orders"] {
        assert!(error(nobody.get(path).expect("a reply"), 401).contains("token"));
        assert!(error(wrong.get(path).expect("a reply"), 401).contains("token"));
    }
    let south = station.reader("south");
    assert!(error(south.post("/archive", b"").expect("a reply"), 401).contains("operator"));
    assert!(error(station.operator().get("/message").expect("a reply"), 401).contains("token"));
    assert!(error(south.get("/nothing").expect("a reply"), 404).contains("no such page"));
    assert!(error(south.get("/message?n=1").expect("a reply"), 400).contains("line=NUMBER"));
    assert!(error(south.get("/orders/x").expect("a reply"), 404).contains("number"));
    let refused = south.post("/waiting", b"").expect("a reply");
    assert_eq!(refused.header("allow"), Some("GET"));
    error(refused, 405);
    // Orders that cannot be sent.
    assert!(
        error(south.post("/orders/2", &order(2, 0)).expect("a reply"), 409)
            .contains("strip reader")
    );
    let refused = south.post("/orders/1", &faulty(1)).expect("a reply");
    assert_eq!(refused.json()["number"], 51);
    assert!(error(refused, 422).contains("an unknown type"));
    assert!(error(
        south.post("/orders/1", &[b'x'; 4_001]).expect("a reply"),
        413
    )
    .contains("4000"));
    // And the board shows what is refused, and no text.
    station.next_board();
    let board = station.anybody().get("/board").expect("a board");
    let shown = board.json()["lines"][1]["refused"][0].clone();
    assert_eq!(
        (shown["number"].as_u64(), shown["kind"].as_str()),
        (Some(51), Some("X"))
    );
    let text = String::from_utf8(board.body).expect("UTF-8");
    assert!(!text.contains("P|1") && !text.contains(&token("south")));
    let metrics = nobody.get("/metrics").expect("a page").body;
    let metrics = String::from_utf8(metrics).expect("UTF-8");
    assert!(metrics.contains("station_line_messages_waiting{line=\"1\",laboratory=\"south\"} 2\n"));
    let page = nobody.get("/").expect("a page");
    assert!(page.header("content-security-policy").is_some());
    assert_eq!(page.body, include_bytes!("../../board/board.html"));
}

/// A connection on which these bytes were sent. Who reads from it does not wait for ever.
fn sent(station: &Station, bytes: &[u8]) -> TcpStream {
    let mut stream = TcpStream::connect(station.address).expect("a connection");
    stream.set_read_timeout(Some(PATIENCE)).expect("a socket");
    stream.write_all(bytes).expect("taken");
    stream
}

/// Sends bytes, and reads what comes back until the other end closes.
fn raw(station: &Station, bytes: &[u8]) -> String {
    let mut stream = sent(station, bytes);
    let mut reply = Vec::new();
    let _ = stream.read_to_end(&mut reply);
    String::from_utf8_lossy(&reply).to_string()
}

#[test]
fn slow_and_broken_readers_disturb_nobody() {
    let station = station();
    // Heads that never end, bodies that never come, readers that do not read: a hundred of each at once.
    let head = format!(
        "POST /orders/1 HTTP/1.1\r\nauthorization: Bearer {}\r\ncontent-length: 100\r\n\r\n",
        token("south")
    );
    let many = b"GET /board HTTP/1.1\r\n\r\n".repeat(50);
    let mut slow = Vec::new();
    for bytes in [&b"GET /board HTT"[..], head.as_bytes(), &many] {
        for _ in 0..100 {
            slow.push(sent(&station, bytes));
        }
    }
    let reader = station.reader("north");
    let began = Instant::now();
    for _ in 0..20 {
        let message = reader.message().expect("a reply").expect("one waits");
        assert_eq!(message.2, result(0, 0, 0, Size::Usual));
    }
    assert!(
        began.elapsed() < Duration::from_secs(2),
        "{:?}",
        began.elapsed()
    );
    // Too large a head, a line that is none.
    let large = [b"GET /", &[b'x'; 40_000][..], b" HTTP/1.1\r\n\r\n"].concat();
    assert!(raw(&station, &large).starts_with("HTTP/1.1 431 "));
    assert!(raw(&station, b"rubbish\r\n\r\n").starts_with("HTTP/1.1 400 "));
    // The slow ones are told, and let go.
    let mut told = String::new();
    slow[0].read_to_string(&mut told).expect("a reply");
    assert!(
        told.starts_with("HTTP/1.1 408 ") && told.contains("took too long"),
        "{}",
        told
    );
    told.clear();
    slow[100].read_to_string(&mut told).expect("a reply");
    assert!(
        told.starts_with("HTTP/1.1 408 ") && told.contains("body"),
        "{}",
        told
    );
    assert!(reader.confirm(0, 0).expect("a reply"));
}
