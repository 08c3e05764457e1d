//! A line that floods, and whose reader takes nothing, leaves the others their share and their time.

use crate::harness::{tcp, until, Sets, Station};
use ngachodui_station::simulated::analyzer::{Analyzer, Fate};
use ngachodui_station::simulated::cable::Cable;
use ngachodui_station::simulated::texts::{result, Size};
use std::sync::atomic::{AtomicBool, Ordering};
use std::thread;
use std::time::{Duration, Instant};

/// What a station may have, in KiB.
const MOST_MEMORY: u64 = 16 * 1_024;

fn analyzer(cable: Cable) -> Analyzer {
    Analyzer {
        patience: Duration::from_secs(5),
        pause: Duration::from_millis(20),
        ..Analyzer::new(cable)
    }
}

/// Sends calibrations until one is refused, and then ENQ after ENQ, as fast as it can, without listening to a reply.
fn flood(cable: Cable, is_full: &AtomicBool, is_over: &AtomicBool) {
    let mut analyzer = analyzer(cable);
    for number in 0.. {
        let calibration = result(0, number, 0, Size::Calibration);
        if analyzer.transfer(&[calibration]) == [Fate::Refused] {
            break;
        }
    }
    is_full.store(true, Ordering::SeqCst);
    while !is_over.load(Ordering::SeqCst) {
        analyzer.cable.send(&[0x05; 4_096]);
    }
}

#[test]
fn the_others_keep_their_share() {
    let (mut lines, mut cables) = (Vec::new(), Vec::new());
    for name in ["flood", "a", "b", "c", "d", "e", "f", "g"] {
        let (line, cable) = tcp(name);
        lines.push(line);
        cables.push(cable);
    }
    let station = Station::with("", &lines);
    station.await_connected(8);
    let (is_full, is_over) = (AtomicBool::new(false), AtomicBool::new(false));
    let mut cables = cables.into_iter();
    let flooding = cables.next().expect("eight");
    let slowest = thread::scope(|scope| {
        let _ends = Sets(&is_over);
        scope.spawn(|| flood(flooding, &is_full, &is_over));
        until("the flood is refused", || is_full.load(Ordering::SeqCst));
        // Each fills its share: so many messages of so many bytes, four more for each.
        let others: Vec<_> = cables
            .zip(1..)
            .map(|(cable, line)| scope.spawn(move || fill(line, cable)))
            .collect();
        let times = others
            .into_iter()
            .map(|other| other.join().expect("not refused"));
        times.max().expect("seven")
    });
    // Each of the seven waited for its own frames' saves, and not for the flood.
    assert!(slowest < Duration::from_secs(5), "{:?}", slowest);
    println!("the others took {:?} at most", slowest);
    // Replies to the flood do not gather.
    assert!(station.memory() < MOST_MEMORY, "{} KiB", station.memory());
    let board = station.next_board();
    let used = board["lines"][0]["used"].as_u64();
    assert!(used.expect("a count") > 2_048);
    let refused = board["lines"][0]["refused"][0]["number"].clone();
    assert_eq!(refused, 31);
    for line in 1..8 {
        let used = board["lines"][line]["used"].as_u64().expect("a count");
        assert!(
            (1_900..=2_048).contains(&used),
            "line {} uses {}",
            line,
            used
        );
    }
    let claimed = board["journal"]["claimed"].as_u64();
    assert!(claimed.expect("a count") <= 32_768);
}

/// Sends small messages as long as they fit into a share; how long that took.
fn fill(line: u8, cable: Cable) -> Duration {
    let mut analyzer = analyzer(cable);
    let began = Instant::now();
    let mut used = 0;
    for number in 0.. {
        let text = result(line, number, 0, Size::Small);
        used += text.len() + 4;
        if used > 2_048 {
            break;
        }
        let fates = analyzer.transfer(&[text]);
        assert_eq!(
            fates,
            [Fate::Acknowledged],
            "line {}, message {}",
            line,
            number
        );
    }
    began.elapsed()
}
