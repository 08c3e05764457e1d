//! An analyzer that takes work orders, and sends its results beside them.

use super::analyzer::{Analyzer, Fate};
use ngachodui::{Answer, Gateway, TEXT_LIMIT};
use std::time::{Duration, Instant};

/// The gateway in the place of the analyzer has one line.
const LINE: u8 = 0;

/// So long it waits for a byte before it looks at the clock.
const LOOK: Duration = Duration::from_millis(50);

/// An analyzer whose receiving side is a gateway of its own.
pub struct OrderTaker {
    pub analyzer: Analyzer,
    gateway: Gateway,
    /// Whether the station has a transfer open.
    is_open: bool,
    /// Up to when the gateway was told the time.
    told: Instant,
    arrived: Vec<Vec<u8>>,
}

impl OrderTaker {
    pub fn new(analyzer: Analyzer) -> OrderTaker {
        OrderTaker {
            analyzer,
            gateway: Gateway::fresh(),
            is_open: false,
            told: Instant::now(),
            arrived: Vec::new(),
        }
    }

    /// Answers the station until then.
    pub fn run(&mut self, until: Instant) {
        while Instant::now() < until {
            self.step();
        }
    }

    /// Sends results, in one transfer, as soon as the station has none open.
    pub fn transfer(&mut self, messages: &[Vec<u8>]) -> Vec<Fate> {
        while self.is_open {
            self.step();
        }
        let fates = self.analyzer.transfer(messages);
        // The gateway is neutral, and that time means nothing to it.
        self.told = Instant::now();
        fates
    }

    /// The orders that have arrived since this was last asked, in order.
    pub fn arrived(&mut self) -> Vec<Vec<u8>> {
        std::mem::take(&mut self.arrived)
    }

    fn step(&mut self) {
        if let Some(byte) = self.analyzer.cable.receive(LOOK) {
            let answer = self.gateway.byte(LINE, byte);
            self.settle(answer);
        }
        let seconds = self.told.elapsed().as_secs().min(255);
        if seconds > 0 {
            self.told += Duration::from_secs(seconds);
            let answer = self.gateway.seconds(LINE, seconds as u8);
            self.settle(answer);
        }
    }

    fn settle(&mut self, answer: Answer) {
        match answer {
            Answer::Opened => self.is_open = true,
            Answer::Ended | Answer::Dropped | Answer::TimedOut => self.is_open = false,
            Answer::Stored => self.keep(),
            _ => {}
        }
        self.analyzer.cable.send(answer.outgoing());
    }

    fn keep(&mut self) {
        let mut buffer = [0; TEXT_LIMIT];
        if let Answer::Taken { length, .. } = self.gateway.take(LINE, &mut buffer) {
            self.arrived.push(buffer[..length].to_vec());
        }
    }
}

#[cfg(test)]
mod tests {
    use super::super::cable::Cable;
    use super::super::peer::{Peer, Station};
    use super::super::texts::{order, result, Size};
    use super::*;

    #[test]
    fn orders_and_results_pass_each_other() {
        let (cable, path) = Cable::master();
        let orders: Vec<Vec<u8>> = (0..8).map(|number| order(0, number)).collect();
        let station = Station::frames().with_orders(&orders).at(Peer::Slave(path));
        let mut analyzer = Analyzer::new(cable);
        analyzer.patience = Duration::from_millis(300);
        analyzer.pause = Duration::from_millis(5);
        let mut taker = OrderTaker::new(analyzer);
        let mut results = Vec::new();
        let mut arrived = Vec::new();
        let until = Instant::now() + Duration::from_secs(5);
        while arrived.len() < orders.len() && Instant::now() < until {
            taker.run(Instant::now() + Duration::from_millis(60));
            arrived.extend(taker.arrived());
            let message = result(0, results.len() as u32, 0, Size::Usual);
            let fates = taker.transfer(std::slice::from_ref(&message));
            assert_eq!(fates, [Fate::Acknowledged]);
            results.push(message);
        }
        taker.run(Instant::now() + Duration::from_millis(20));
        let outcome = station.end();
        assert_eq!(arrived, orders);
        assert_eq!(outcome.sent, orders.len());
        assert_eq!(outcome.stored, results);
    }
}
