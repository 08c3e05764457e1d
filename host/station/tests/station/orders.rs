//! Work orders go down, and what became of them is told.

use crate::harness::{tcp, until, Station};
use ngachodui_station::simulated::analyzer::Analyzer;
use ngachodui_station::simulated::orders::OrderTaker;
use ngachodui_station::simulated::texts::{order, result, Size};
use std::time::{Duration, Instant};

#[test]
fn orders_go_down_in_turn() {
    let (line, cable) = tcp("north");
    let station = Station::with("orders = { silence = 1, again = 1, starts = 3 }", &[line]);
    let desk = station.reader("north");
    let numbers: Vec<u64> = (0..3)
        .map(|number| desk.order(0, &order(0, number)).expect("placed"))
        .collect();
    assert_eq!(numbers, [1, 2, 3]);
    // The last is cancelled before its turn.
    assert_eq!(desk.delete("/orders/3").expect("a reply").status, 200);
    let mut taker = OrderTaker::new(Analyzer::new(cable));
    let mut arrived = Vec::new();
    until("both have arrived", || {
        taker.run(Instant::now() + Duration::from_millis(200));
        arrived.extend(taker.arrived());
        arrived.len() == 2
    });
    assert_eq!(arrived, [order(0, 0), order(0, 1)]);
    until("both are told as sent", || {
        taker.run(Instant::now() + Duration::from_millis(50));
        let told = desk.orders().expect("a list");
        let states: Vec<&str> = told.iter().map(|order| order.state.as_str()).collect();
        states == ["sent", "sent", "cancelled"]
    });
    assert_eq!(desk.delete("/orders/1").expect("a reply").status, 409);
    assert_eq!(station.next_board()["lines"][0]["orders"]["sent_today"], 2);
    // The line receives as ever.
    let fates = taker.transfer(&[result(0, 0, 0, Size::Small)]);
    assert_eq!(
        fates,
        [ngachodui_station::simulated::analyzer::Fate::Acknowledged]
    );
}

#[test]
fn an_order_that_nobody_takes_fails() {
    let (line, mut cable) = tcp("north");
    let station = Station::with("orders = { silence = 0, again = 1, starts = 2 }", &[line]);
    let desk = station.reader("north");
    let number = desk.order(0, &order(0, 0)).expect("placed");
    let told = || desk.orders().expect("a list").remove(0);
    // The analyzer answers each ENQ with its own: it wants to send, and the sending is dropped.
    until("it has failed", || {
        if cable.receive(Duration::from_millis(100)) == Some(0x05) {
            assert_eq!(told().state, "sending");
            let sending = station.next_board()["lines"][0]["sending"].clone();
            assert_eq!(sending["order"], number);
            cable.send(&[0x05]);
        }
        told().state == "failed"
    });
    let order = told();
    assert_eq!((order.order, order.starts), (number, 2));
    assert!(order.words.expect("words").contains("not taken"));
}
