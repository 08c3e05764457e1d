//! Fifty kills at random moments, under eight devices: nothing that was acknowledged is lost, nothing is stored that
//! was not sent, and within a transfer nothing is stored twice.

use crate::harness::{line, serial, tcp, until, Sets, Station};
use ngachodui_station::client::Client;
use ngachodui_station::simulated::analyzer::{Analyzer, Fate};
use ngachodui_station::simulated::cable::Cable;
use ngachodui_station::simulated::chance::Chance;
use ngachodui_station::simulated::orders::OrderTaker;
use ngachodui_station::simulated::strips::StripReader;
use ngachodui_station::simulated::texts::{identity, order, result, Size};
use std::collections::{HashMap, HashSet};
use std::sync::atomic::{AtomicBool, Ordering};
use std::thread;
use std::time::{Duration, Instant};

const KILLS: u32 = 50;

/// What a device has sent: each attempt with its text, in order, and whether its last frame was acknowledged.
type Sent = Vec<((u8, u32, u32), Vec<u8>, Fate)>;

fn analyzer(cable: Cable) -> Analyzer {
    Analyzer {
        patience: Duration::from_secs(2),
        pause: Duration::from_millis(50),
        asks: 1_000,
        settle: Duration::from_millis(50),
        ..Analyzer::new(cable)
    }
}

/// Sends messages until it is over. What was not acknowledged is sent anew as another attempt.
fn send(line: u8, is_over: &AtomicBool, mut transfer: impl FnMut(&[Vec<u8>]) -> Vec<Fate>) -> Sent {
    let mut sent = Sent::new();
    let (mut number, mut attempt) = (0, 0);
    while !is_over.load(Ordering::SeqCst) {
        let texts: Vec<Vec<u8>> = (number..number + 2)
            .map(|number| result(line, number, attempt, Size::by_number(number)))
            .collect();
        for (fate, text) in transfer(&texts).into_iter().zip(texts) {
            let told = identity(&text).expect("a message of ours");
            sent.push((told, text, fate));
            match fate {
                Fate::Acknowledged => number += 1,
                // Counted on and on, so that no text is sent in two transfers.
                _ => {
                    attempt += 1;
                    break;
                }
            }
        }
    }
    sent
}

/// Takes messages until nothing waits and nobody sends. What is given again before it is confirmed is the same.
fn take(reader: &Client, is_over: &AtomicBool) -> Vec<(u8, u16, Vec<u8>)> {
    let mut taken: Vec<(u8, u16, Vec<u8>)> = Vec::new();
    loop {
        let was_over = is_over.load(Ordering::SeqCst);
        match reader.message() {
            // It was killed.
            Err(_) => thread::sleep(Duration::from_millis(20)),
            Ok(None) if was_over => return taken,
            Ok(None) => thread::sleep(Duration::from_millis(5)),
            Ok(Some(message)) => {
                let known = taken
                    .iter()
                    .rev()
                    .take(8)
                    .find(|last| (last.0, last.1) == (message.0, message.1));
                match known {
                    Some(known) => assert_eq!(known, &message, "given again, and not the same"),
                    None => taken.push(message.clone()),
                }
                // Lost with a kill: then it is given again.
                let _ = reader.confirm(message.0, message.1);
            }
        }
    }
}

fn check_line(line: u8, sent: &Sent, taken: &[&Vec<u8>]) {
    let by_name: HashMap<_, _> = sent.iter().map(|(told, text, _)| (*told, text)).collect();
    let mut seen = HashSet::new();
    for text in taken {
        let told = identity(text).expect("nothing is stored that was not sent");
        assert_eq!(by_name.get(&told), Some(text), "stored as it was sent");
        assert!(
            seen.insert(told),
            "line {}: {:?} is stored twice",
            line,
            told
        );
    }
    for (told, _, fate) in sent {
        if *fate == Fate::Acknowledged {
            assert!(seen.contains(told), "line {}: {:?} is lost", line, told);
        }
        if *fate == Fate::NotSent {
            assert!(
                !seen.contains(told),
                "line {}: {:?} was not sent whole",
                line,
                told
            );
        }
    }
    let order: Vec<_> = taken.iter().filter_map(|text| identity(text)).collect();
    let as_sent = sent
        .iter()
        .map(|(told, ..)| *told)
        .filter(|told| seen.contains(told));
    assert!(
        order.iter().copied().eq(as_sent),
        "line {}: out of order",
        line
    );
}

/// The devices' ends of the eight lines.
struct Ends {
    analyzers: Vec<Cable>,
    takes_orders: Cable,
    strips: Cable,
}

/// A station with ports of every kind, and what is connected to them.
fn station() -> (Station, Ends) {
    let (line0, cable0) = serial("north");
    let (line1, cable1) = tcp("north");
    let (line2, cable2) = serial("south");
    let line3 = line("south", "terminal = \"ports/line3\"".to_string());
    let line4 = line("east", "terminal = \"ports/line4\"".to_string());
    let (line5, cable5) = tcp("east");
    let (line6, takes_orders) = tcp("west");
    let (line7, strips) = tcp("west");
    let line7 = line7.speaking("strips-10");
    let lines = [line0, line1, line2, line3, line4, line5, line6, line7];
    // Behind a sending that was dropped the line rests for longer than the analyzer waits for a reply: with less the
    // two would meet again and again.
    let orders = "orders = { silence = 0, again = 3, starts = 1000 }";
    let station = Station::with(orders, &lines);
    let made = |name: &str| Cable::terminal(station.folder.path.join("state/ports").join(name));
    let analyzers = vec![cable0, cable1, cable2, made("line3"), made("line4"), cable5];
    let ends = Ends {
        analyzers,
        takes_orders,
        strips,
    };
    (station, ends)
}

/// When devices, readers and the desk are to end.
#[derive(Default)]
struct Over {
    devices: AtomicBool,
    readers: AtomicBool,
    desk: AtomicBool,
}

/// What has come of it.
struct Outcome {
    sent: Vec<Sent>,
    findings: u32,
    placed: u32,
    /// The orders that have arrived.
    orders: Vec<Vec<u8>>,
    taken: Vec<(u8, u16, Vec<u8>)>,
}

/// Sends results, and listens for orders in between; what was sent, and which orders have arrived.
fn take_orders(cable: Cable, is_over: &AtomicBool) -> (Sent, Vec<Vec<u8>>) {
    let mut taker = OrderTaker::new(analyzer(cable));
    let mut orders = Vec::new();
    let sent = send(6, is_over, |texts| {
        let fates = taker.transfer(texts);
        taker.run(Instant::now() + Duration::from_millis(300));
        orders.extend(taker.arrived());
        fates
    });
    (sent, orders)
}

/// Places orders until it is over; how many there are.
fn place_all(desk: &Client, is_over: &AtomicBool) -> u32 {
    let mut number = 0;
    while !is_over.load(Ordering::SeqCst) {
        number += place(desk, number);
        thread::sleep(Duration::from_millis(1_500));
    }
    number
}

/// Everybody at once, and kills.
fn run(station: &mut Station, ends: Ends) -> Outcome {
    let over = &Over::default();
    let readers = ["north", "south", "east", "west"].map(|name| station.reader(name));
    let desk = station.reader("west");
    thread::scope(|scope| {
        let _ends = [&over.devices, &over.readers, &over.desk].map(Sets);
        let readers = readers.map(|reader| scope.spawn(move || take(&reader, &over.readers)));
        let mut devices = Vec::new();
        for (cable, line) in ends.analyzers.into_iter().zip(0..) {
            devices.push(scope.spawn(move || {
                let mut analyzer = analyzer(cable);
                send(line, &over.devices, |texts| analyzer.transfer(texts))
            }));
        }
        let taker = scope.spawn(move || take_orders(ends.takes_orders, &over.devices));
        let strips = scope.spawn(move || press(ends.strips, &over.devices));
        let desk = scope.spawn(move || place_all(&desk, &over.desk));

        kill_often(station);
        over.desk.store(true, Ordering::SeqCst);
        let placed = desk.join().expect("placed");
        until("every order has gone down", || {
            let all = station.reader("west").orders().unwrap_or_default();
            all.len() >= placed as usize && all.iter().all(|order| order.state == "sent")
        });
        over.devices.store(true, Ordering::SeqCst);
        let sent = devices
            .into_iter()
            .map(|device| device.join().expect("sent"));
        let mut sent: Vec<Sent> = sent.collect();
        let (last, orders) = taker.join().expect("sent");
        sent.push(last);
        let findings = strips.join().expect("sent");
        over.readers.store(true, Ordering::SeqCst);
        let taken = readers.map(|reader| reader.join().expect("taken"));
        Outcome {
            sent,
            findings,
            placed,
            orders,
            taken: taken.into_iter().flatten().collect(),
        }
    })
}

fn kill_often(station: &mut Station) {
    let seed = u64::from(std::process::id());
    println!("seed {}", seed);
    let mut chance = Chance::seeded(seed);
    for _ in 0..KILLS {
        let (least, most) = (Duration::from_millis(50), Duration::from_millis(700));
        thread::sleep(chance.between(least, most));
        station.kill();
        station.start();
    }
}

#[test]
fn fifty_kills() {
    let (mut station, ends) = station();
    let outcome = run(&mut station, ends);
    let of_line = |line: u8| -> Vec<&Vec<u8>> {
        let own = outcome.taken.iter().filter(|(of, ..)| *of == line);
        own.map(|(.., text)| text).collect()
    };
    for (sent, line) in outcome.sent.iter().zip(0..) {
        check_line(line, sent, &of_line(line));
    }
    let told = |text: &Vec<u8>| identity(text).expect("one of ours").1;
    // A strip reader's finding has no attempts: each is there once, in order.
    let findings: Vec<u32> = of_line(7).into_iter().map(told).collect();
    assert!(findings.iter().copied().eq(0..findings.len() as u32));
    assert!(findings.len() as u32 >= outcome.findings);
    // An order may arrive twice where a kill ate its last ACK, but each has arrived.
    let orders: HashSet<u32> = outcome.orders.iter().map(told).collect();
    assert_eq!(orders, (0..outcome.placed).collect());

    let messages: usize = outcome.sent.iter().map(Vec::len).sum();
    println!(
        "{} messages, {} findings, {} orders",
        messages, outcome.findings, outcome.placed
    );
    assert!(messages > 200 && outcome.findings > 10 && outcome.placed > 5);
    let starts = station.log().matches("loaded:").count();
    assert_eq!(starts as u32, KILLS + 1);
}

/// How many orders there are.
fn count(desk: &Client) -> usize {
    let mut count = None;
    until("the desk hears of its orders", || {
        count = desk.orders().ok().map(|all| all.len());
        count.is_some()
    });
    count.expect("just heard")
}

/// Places an order; 1 if it was accepted. A kill may eat the reply: then it is looked for.
fn place(desk: &Client, number: u32) -> u32 {
    let before = count(desk);
    match desk.order(6, &order(6, number)) {
        Ok(_) => 1,
        Err(_) => u32::from(count(desk) > before),
    }
}

/// A strip reader sends finding after finding; how many were acknowledged.
fn press(cable: Cable, is_over: &AtomicBool) -> u32 {
    let mut reader = StripReader::new(cable, 7, 10);
    reader.patience = Duration::from_secs(2);
    let mut number = 0;
    while !is_over.load(Ordering::SeqCst) {
        if reader.press(&[number]) == [Fate::Acknowledged] {
            number += 1;
        }
    }
    number
}
