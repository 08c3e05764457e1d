//! The keeper without ports and HTTP: events in, and what leaves.

use super::*;
use crate::simulated::texts::{self, Size};
use crate::store::Store;
use crate::testing::Folder;
use std::fs;
use std::path::Path;
use tokio::sync::mpsc::{unbounded_channel, UnboundedReceiver};

const ENQ: &[u8] = b"\x05";
const FRAME: &[u8] = b"\x021H|\\^&\rL|1|N\r\x03B5\r\n";
const ACK: &[u8] = b"\x06";
const EOT: &[u8] = b"\x04";
const STX: u8 = 0x02;

/// A keeper with two lines of one laboratory, and what goes out on each.
struct Bench {
    keeper: Keeper,
    ports: Vec<UnboundedReceiver<Vec<u8>>>,
}

fn settings(folder: &Path, speaks: &str) -> Arc<Settings> {
    settings_of(folder, speaks, "north")
}

/// Line 1 is of this laboratory.
fn settings_of(folder: &Path, speaks: &str, laboratory: &str) -> Arc<Settings> {
    let text = format!(
        r#"
        folder = "."
        orders = {{ silence = 0, starts = 2 }}
        [[laboratory]]
        name = "north"
        token = "0123456789abcdef"
        [[laboratory]]
        name = "south"
        token = "0123456789abcdeF"
        [[line]]
        number = 0
        laboratory = "north"
        tcp = "a:1"
        [[line]]
        number = 1
        laboratory = "{}"
        tcp = "a:2"
        speaks = "{}"
        "#,
        laboratory, speaks
    );
    let path = folder.join("settings.toml");
    fs::create_dir_all(folder).expect("a folder");
    fs::write(&path, text).expect("written");
    let mut settings = Settings::read(&path).expect("right settings");
    // A test does not wait.
    settings.orders.again = Duration::ZERO;
    Arc::new(settings)
}

fn quiet() -> Log {
    Log::with(0).0
}

fn bench(folder: &Folder) -> Bench {
    bench_with(settings(&folder.path, "frames"))
}

fn bench_with(settings: Arc<Settings>) -> Bench {
    let mut keeper = Keeper::open(settings, quiet()).expect("a folder of its own");
    let mut ports = Vec::new();
    for line in [0, 1] {
        let (outgoing, sent) = unbounded_channel();
        keeper.connect(line, outgoing);
        keeper.see_port(line, None);
        ports.push(sent);
    }
    Bench { keeper, ports }
}

impl Bench {
    /// Bytes come in on a line; what has gone out on it when they are settled.
    fn hear(&mut self, line: u8, bytes: &[u8]) -> Vec<u8> {
        self.hear_late(line, bytes, Instant::now())
    }

    /// The same, of bytes that have come a while ago.
    fn hear_late(&mut self, line: u8, bytes: &[u8], came: Instant) -> Vec<u8> {
        let (done, mut settled) = oneshot::channel();
        let event = Event::Bytes {
            line,
            bytes: bytes.to_vec(),
            came,
            done,
        };
        self.keeper.take_in(event).expect("sound");
        self.keeper.settle();
        assert_eq!(settled.try_recv(), Ok(()));
        self.sent(line)
    }

    fn sent(&mut self, line: u8) -> Vec<u8> {
        let port = &mut self.ports[usize::from(line)];
        let mut all = Vec::new();
        while let Ok(bytes) = port.try_recv() {
            all.extend(bytes);
        }
        all
    }

    fn ask(&mut self, request: Request) -> Reply {
        let (reply, mut answered) = oneshot::channel();
        let event = Event::Request {
            request,
            reply,
            turn: None,
        };
        self.keeper.take_in(event).expect("sound");
        self.keeper.settle();
        answered.try_recv().expect("settled")
    }

    /// A second passes, and the line begins an order.
    fn asks(&mut self, line: u8) {
        self.keeper.pass(1).expect("sound");
        assert_eq!(self.sent(line), ENQ);
    }

    fn place(&mut self, line: u8, text: &[u8]) {
        let text = text.to_vec();
        assert_eq!(self.ask(Request::Place { line, text }).status, 202);
    }

    /// Its power is cut, and another begins with what the disk has.
    fn again(self, folder: &Folder) -> Bench {
        drop(self);
        bench(folder)
    }

    /// The same, with what it does last: the files of orders are written, and the gateway is not saved any more.
    fn again_unsaved(mut self, folder: &Folder, last: impl FnOnce(&mut Bench)) -> Bench {
        let state = folder.path.join("state");
        let before = fs::read(&state).expect("saved");
        last(&mut self);
        drop(self);
        fs::write(&state, before).expect("written");
        bench(folder)
    }

    /// An analyzer takes what a line sends up to the last frame; that is not acknowledged yet.
    fn take_all_frames(&mut self, line: u8, text: &[u8]) {
        let mut frames = [0; ngachodui::CUT_LIMIT];
        let length = ngachodui::cut(text, &mut frames).expect("a message");
        let count = frames[..length].iter().filter(|byte| **byte == STX).count();
        for _ in 0..count {
            assert_eq!(self.hear(line, ACK)[0], STX);
        }
    }
}

/// What a station would load that is started now.
fn on_disk(folder: &Folder) -> Keeper {
    let copy = Folder::new();
    fs::copy(folder.path.join("state"), copy.path.join("state")).expect("saved");
    let settings = settings(&copy.path, "frames");
    Keeper::open_to_archive(settings, quiet()).expect("whole")
}

#[test]
fn what_leaves_is_on_the_disk() {
    let folder = Folder::new();
    let mut bench = bench(&folder);
    assert_eq!(bench.hear(0, ENQ), ACK);
    assert_eq!(on_disk(&folder).gateway.state(0), State::Waiting);
    let (last, before) = FRAME.split_last().expect("bytes");
    let saves = bench.keeper.saving.count();
    assert_eq!(bench.hear(0, before), b"");
    assert_eq!(bench.keeper.saving.count(), saves);
    assert_eq!(bench.hear(0, &[*last]), ACK);
    let saved = on_disk(&folder);
    assert_eq!(
        (saved.gateway.used(0), saved.book.waiting_count(0)),
        (16, 1)
    );
    // A reader gets what the disk has, and what it has taken is gone there.
    assert_eq!(
        bench.ask(Request::Message(vec![0, 1])).body,
        b"H|\\^&\rL|1|N\r"
    );
    let confirm = Request::Confirm { line: 0, serial: 0 };
    assert_eq!(bench.ask(confirm).status, 200);
    assert_eq!(on_disk(&folder).gateway.used(0), 0);
}

/// Whatever it is that leaves, the disk has the very state that it comes from.
#[test]
fn everything_that_leaves_is_on_the_disk() {
    let folder = Folder::new();
    let mut bench = bench_with(settings(&folder.path, "strips-10"));
    let saved = |gateway: &Gateway| {
        let mut bytes = Vec::new();
        gateway.save(&mut bytes);
        bytes
    };
    let (ack, nak) = (&b"\x06"[..], &b"\x15"[..]);
    let (mor, rep) = (&b"\x02>\x033?\r"[..], &b"\x02?\x033>\r"[..]);
    let steps: [(u8, &[u8], &[u8]); 11] = [
        (0, ENQ, ack),
        (0, b"\x021H|\\^&\r\x03E5\r\n", ack), // accepted
        (0, b"\x021H|\\^&\r\x03E5\r\n", ack), // a repeat
        (0, b"\x022L|1|N\r\x0300\r\n", nak),  // spoilt
        (0, b"\x022L|1|N\r\x0305\r\n", ack),  // stored
        (0, ENQ, nak),                        // busy
        (0, b"\x023L|1|N\r\x0306\r\n", nak),  // no message
        (1, b"\x02<\x033=\r", mor),           // SPM
        (1, b"\x02;E 4711\x0300\r", rep),     // of no length
        (1, rep, rep),                        // REP
        (0, b"\x04\x05", ack),                // over, and another transfer
    ];
    for (line, bytes, reply) in steps {
        assert_eq!(bench.hear(line, bytes), reply, "{:?}", bytes);
        let on_disk = on_disk(&folder);
        assert_eq!(saved(&on_disk.gateway), saved(&bench.keeper.gateway));
        assert_eq!(on_disk.book, bench.keeper.book);
    }
}

#[test]
fn nothing_leaves_while_saving_fails() {
    let folder = Folder::new();
    let mut bench = bench(&folder);
    fs::remove_dir_all(&folder.path).expect("there");
    assert_eq!(bench.hear(0, ENQ), b"");
    assert_eq!(bench.hear(0, FRAME), b"");
    assert_eq!(bench.ask(Request::Message(vec![0])).status, 503);
    assert!(bench.keeper.saving.trouble.is_some());
    // An order is not kept that its reader is told is not.
    let text = texts::order(0, 1);
    fs::create_dir_all(folder.path.join("orders")).expect("made");
    fs::create_dir_all(folder.path.join("state")).expect("made");
    assert_eq!(bench.ask(Request::Place { line: 0, text }).status, 503);
    assert_eq!(bench.keeper.orders.of_lines(&[0]).count(), 0);
    fs::remove_dir_all(&folder.path).expect("there");
    // It works again: the analyzer repeats its frame, and only now hears that it is stored.
    fs::create_dir_all(&folder.path).expect("made");
    assert_eq!(bench.hear(0, FRAME), ACK);
    assert_eq!(bench.keeper.saving.trouble, None);
    assert_eq!(on_disk(&folder).book.waiting_count(0), 1);
}

/// An analyzer takes a reply for that to what it sent last: so one that it did not wait for must not come.
#[test]
fn replies_that_come_too_late_do_not_leave() {
    let folder = Folder::new();
    let mut bench = bench(&folder);
    // A disk that takes 11 seconds.
    let came = Instant::now().checked_sub(Duration::from_secs(11));
    assert_eq!(bench.hear(0, ENQ), ACK);
    assert_eq!(bench.hear_late(0, FRAME, came.expect("uptime")), b"");
    assert_eq!(on_disk(&folder).book.waiting_count(0), 1);
    // It is resent, and known.
    assert_eq!(bench.hear(0, FRAME), ACK);
    assert_eq!(bench.keeper.book.waiting_count(0), 1);
    // The analyzer gives up twice while nobody listens, and asks a third time: one ACK, for that.
    assert_eq!(bench.hear(0, b"\x04\x05\x04\x05\x04\x05"), ACK);
}

/// A line counts each frame that it has to send as sent: none of them stays here.
#[test]
fn frames_leave_whatever_comes_in_between() {
    let folder = Folder::new();
    let mut bench = bench(&folder);
    bench.place(0, &texts::order(0, 1));
    bench.asks(0);
    let came = Instant::now().checked_sub(Duration::from_secs(11));
    let first = bench.hear_late(0, ACK, came.expect("uptime"));
    assert_eq!(first[..2], [STX, b'1']);
    // Two at a time, of which one is noise.
    let sent = bench.hear(0, &[ACK, ACK].concat());
    let numbers: Vec<u8> = sent
        .split(|byte| *byte == STX)
        .skip(1)
        .map(|f| f[0])
        .collect();
    assert_eq!(numbers, b"23");
}

#[test]
fn a_frame_resent_after_a_kill_is_a_repeat() {
    let folder = Folder::new();
    let mut bench = bench(&folder);
    bench.hear(0, ENQ);
    bench.hear(0, FRAME);
    let mut bench = bench.again(&folder);
    assert_eq!(bench.hear(0, FRAME), ACK);
    assert_eq!(bench.keeper.book.waiting_count(0), 1);
    assert_eq!(bench.keeper.book.stored_today(0), 1);
}

#[test]
fn the_seconds_in_between_are_told() {
    let folder = Folder::new();
    let mut bench = bench(&folder);
    bench.hear(0, ENQ);
    let mut bench = bench.again(&folder);
    assert!(bench.keeper.untold() < Duration::from_secs(1));
    bench.keeper.owed = Duration::from_secs(29);
    assert!(bench.keeper.tell_time().expect("sound"));
    assert_eq!(bench.keeper.gateway.state(0), State::Waiting);
    bench.keeper.owed = Duration::from_secs(1);
    assert!(bench.keeper.tell_time().expect("sound"));
    assert_eq!(bench.keeper.gateway.state(0), State::Neutral);
}

/// Many kills in a row, each soon after a start, do not stop the lines' clock.
#[test]
fn fractions_of_seconds_add_up_over_kills() {
    let folder = Folder::in_memory();
    let mut bench = bench(&folder);
    bench.hear(0, ENQ);
    let mut kills = 0;
    while bench.keeper.gateway.state(0) != State::Neutral {
        bench.keeper.owed += Duration::from_millis(450);
        bench.keeper.save();
        bench = bench.again(&folder);
        bench.keeper.tell_time().expect("sound");
        kills += 1;
    }
    // 30 seconds, and what the test itself takes.
    assert!((40..=67).contains(&kills), "{} kills", kills);
}

/// The machine was started anew: an EOT of the analyzer's own is not taken for the last frame's acknowledgement.
#[test]
fn what_was_sent_is_over_where_nobody_knows_how_long_ago() {
    let folder = Folder::new();
    let mut bench = bench(&folder);
    let text = texts::order(0, 1);
    bench.place(0, &text);
    bench.asks(0);
    bench.take_all_frames(0, &text);
    drop(bench);
    let told = fs::read_to_string("/proc/sys/kernel/random/boot_id").expect("Linux");
    let told = told.trim().as_bytes();
    let (mut store, saved) = Store::open(&folder.path).expect("whole");
    let mut saved = saved.expect("saved");
    let place = saved.windows(told.len()).position(|part| part == told);
    saved[place.expect("with the boot's name")] ^= 1;
    store.save(|out| out.extend(&saved)).expect("room");
    drop(store);
    let mut bench = bench_with(settings(&folder.path, "frames"));
    assert_eq!(bench.keeper.gateway.state(0), State::Neutral);
    assert_eq!(bench.hear(0, EOT), b"");
    let tally = bench.keeper.orders.tally(0);
    assert_eq!((tally.waiting, tally.sent_today), (1, 0));
}

#[test]
fn an_order_goes_out_and_is_kept() {
    let folder = Folder::new();
    let mut bench = bench(&folder);
    let text = texts::order(0, 1);
    bench.place(0, &text);
    // Its line is told its seconds; it asks, and the station is killed before the analyzer replies.
    bench.asks(0);
    let mut bench = bench.again(&folder);
    assert!(bench.keeper.orders.under_way(0).is_some());
    bench.take_all_frames(0, &text);
    assert_eq!(bench.hear(0, ACK), EOT);
    let tally = bench.keeper.orders.tally(0);
    assert_eq!(
        (tally.waiting, tally.sent_today, tally.failed_today),
        (0, 1, 0)
    );
    let bench = bench.again(&folder);
    assert_eq!(bench.keeper.orders.tally(0), tally);
}

/// What the gateway sends is the order that it was saved with, whatever the next one's file says.
#[test]
fn an_order_begun_and_not_saved_waits() {
    let folder = Folder::new();
    let mut bench = bench(&folder);
    let orders = [texts::order(0, 1), texts::order(0, 2)];
    orders.iter().for_each(|text| bench.place(0, text));
    bench.asks(0);
    bench.take_all_frames(0, &orders[0]);
    let mut bench = bench.again_unsaved(&folder, |bench| {
        assert_eq!(bench.hear(0, ACK), EOT);
        bench.asks(0);
    });
    let tally = |bench: &Bench| {
        let tally = bench.keeper.orders.tally(0);
        (tally.waiting, tally.sent_today, tally.failed_today)
    };
    assert_eq!(tally(&bench), (1, 1, 0));
    // The first one's end comes again, and is no news.
    assert_eq!(bench.hear(0, ACK), EOT);
    assert_eq!(tally(&bench), (1, 1, 0));
    bench.asks(0);
    bench.take_all_frames(0, &orders[1]);
    assert_eq!(bench.hear(0, ACK), EOT);
    assert_eq!(tally(&bench), (0, 2, 0));
}

/// What was told of a sending that was dropped, told before that was saved, is not the last word.
#[test]
fn an_order_that_is_still_sent_is_not_over() {
    let folder = Folder::new();
    let drops: [fn(&mut Bench); 3] = [
        |_| {},
        |bench| {
            let (lines, number) = (vec![0, 1], 2);
            assert_eq!(bench.ask(Request::Cancel { lines, number }).status, 200);
        },
        |bench| {
            bench.asks(0);
            assert_eq!(bench.hear(0, ENQ), b"");
            assert_eq!(bench.keeper.orders.tally(0).failed_today, 1);
        },
    ];
    let mut bench = bench(&folder);
    for (then, sent) in drops.into_iter().zip(0..) {
        let text = texts::order(0, sent);
        bench.place(0, &text);
        bench.asks(0);
        // The analyzer asks for itself, the sending is dropped, and the kill undoes that.
        bench = bench.again_unsaved(&folder, |bench| {
            assert_eq!(bench.hear(0, ENQ), b"");
            assert!(bench.keeper.orders.under_way(0).is_none());
            then(bench);
        });
        assert!(bench.keeper.orders.under_way(0).is_some());
        bench.take_all_frames(0, &text);
        assert_eq!(bench.hear(0, ACK), EOT);
        let tally = bench.keeper.orders.tally(0);
        let sent = sent as usize + 1;
        assert_eq!(
            (tally.waiting, tally.sent_today, tally.failed_today),
            (0, sent, 0)
        );
    }
}

#[test]
fn an_order_that_is_not_taken_fails_in_the_end() {
    let folder = Folder::new();
    let mut bench = bench(&folder);
    bench.place(1, &texts::order(1, 1));
    for sending in 1..=2 {
        bench.keeper.pass(1).expect("sound");
        assert_eq!(bench.sent(1), ENQ, "sending {}", sending);
        // The analyzer asks for itself: the sending is dropped.
        assert_eq!(bench.hear(1, ENQ), b"");
    }
    bench.keeper.pass(1).expect("sound");
    assert_eq!(bench.sent(1), b"");
    assert_eq!(bench.keeper.orders.tally(1).failed_today, 1);
}

#[test]
fn what_a_line_speaks_changes_only_where_nothing_waits() {
    let folder = Folder::new();
    let mut bench = bench(&folder);
    bench.hear(0, ENQ);
    bench.hear(0, FRAME);
    drop(bench);
    let settings = settings(&folder.path, "strips-10");
    let why = Keeper::open(settings.clone(), quiet()).err();
    assert!(why.expect("one waits").contains("archive them first"));
    let mut keeper = Keeper::open_to_archive(settings.clone(), quiet()).expect("whole");
    assert_eq!(keeper.archive().expect("sound"), Ok(1));
    keeper.finish().expect("saved");
    let keeper = Keeper::open(settings, quiet()).expect("nothing waits");
    assert_eq!(keeper.gateway.speaks(1), ngachodui::Speaks::Strips10);
}

#[test]
fn a_damaged_gateway_stops_the_station() {
    let folder = Folder::new();
    let mut bench = bench(&folder);
    for answer in [Answer::WrongSize, Answer::BeyondLimits, Answer::Broken] {
        let damaged = bench.keeper.act(1, 0, &answer).expect_err("damage");
        assert!(damaged.to_string().starts_with("line 1: answer 4"));
    }
    bench.keeper.act(1, 0, &Answer::Busy).expect("no damage");
}

#[test]
fn serials_that_are_confirmed() {
    let folder = Folder::new();
    let mut bench = bench(&folder);
    let text = texts::result(0, 7, 1, Size::Small);
    for number in 0..3 {
        let mut frames = [0; ngachodui::CUT_LIMIT];
        let length = ngachodui::cut(&text, &mut frames).expect("a message");
        bench.hear(0, ENQ);
        bench.hear(0, &frames[..length]);
        bench.hear(0, EOT);
        assert_eq!(bench.keeper.book.waiting_count(0), number + 1);
    }
    let mut confirm = |serial| {
        let reply = bench.ask(Request::Confirm { line: 0, serial });
        (reply.status, String::from_utf8(reply.body).expect("JSON"))
    };
    assert_eq!(confirm(1).0, 409);
    assert_eq!(confirm(3).0, 404);
    assert_eq!(confirm(0), (200, "{\"taken\":true}\n".to_string()));
    assert_eq!(confirm(0), (200, "{\"taken\":false}\n".to_string()));
    assert_eq!((confirm(1).0, confirm(2).0), (200, 200));
    assert_eq!(confirm(2), (200, "{\"taken\":false}\n".to_string()));
    assert_eq!((confirm(3).0, confirm(65_535).0), (404, 200));
}

#[test]
fn the_archive_has_its_time() {
    let folder = Folder::new();
    let mut bench = bench(&folder);
    bench.hear(0, ENQ);
    bench.hear(0, FRAME);
    bench.keeper.pass(1).expect("sound");
    assert_eq!(bench.keeper.book.waiting_count(0), 1);
    bench.keeper.archive_due = Some(Local::now());
    bench.keeper.pass(1).expect("sound");
    assert_eq!(bench.keeper.book.waiting_count(0), 0);
    assert_eq!(on_disk(&folder).gateway.used(0), 0);
    assert!(folder.path.join("archive/north").is_dir());
    assert_eq!(bench.keeper.archive_due, None);
}

#[test]
fn an_archive_that_fails_takes_nothing_and_is_tried_again() {
    let folder = Folder::new();
    let mut bench = bench(&folder);
    bench.hear(0, ENQ);
    bench.hear(0, FRAME);
    // A file stands where the folder should.
    fs::write(folder.path.join("archive"), "").expect("written");
    assert_eq!(bench.ask(Request::Archive).status, 500);
    bench.keeper.archive_due = Some(Local::now());
    bench.keeper.pass(1).expect("sound");
    assert_eq!(bench.keeper.book.waiting_count(0), 1);
    let due = bench.keeper.archive_due.expect("in a minute");
    let wait = (due - Local::now()).num_seconds();
    assert!((50..=60).contains(&wait), "{} s", wait);
    // The board says so until it works again.
    let mut told = |metric: &str| {
        let pages = bench.keeper.published().get();
        assert!(pages.metrics.contains(metric), "{}", pages.metrics);
        let board: serde_json::Value = serde_json::from_str(&pages.board).expect("JSON");
        let trouble = board["archive"]["trouble"].is_string();
        fs::remove_file(folder.path.join("archive")).ok();
        (trouble, bench.ask(Request::Archive).status)
    };
    assert_eq!(told("station_archive_trouble 1\n"), (true, 200));
    assert_eq!(told("station_archive_trouble 0\n"), (false, 200));
}

/// Each number of the board has a name for a monitoring system, and the manual has each name.
#[test]
fn metrics() {
    let folder = Folder::new();
    let mut bench = bench(&folder);
    bench.hear(0, ENQ);
    bench.hear(0, FRAME);
    bench.hear(1, ENQ);
    bench.hear(1, b"\x021H|\\^&\rX\rL|1|N\r\x031A\r\n");
    bench.place(0, &texts::order(0, 1));
    let text = bench.keeper.published().get().metrics.clone();
    let manual = include_str!("../../README.md");
    let mut names = 0;
    for line in text.lines().filter(|line| line.starts_with("# TYPE ")) {
        let name = line.split(' ').nth(2).expect("a name");
        assert!(manual.contains(&format!("`{}`", name)), "{}", name);
        names += 1;
    }
    assert_eq!(manual.matches("| `station_").count(), names);
    let value = |name: &str| -> f64 {
        let told = text.lines().find_map(|line| line.strip_prefix(name));
        told.expect(name).trim().parse().expect("a number")
    };
    assert_eq!(value("station_journal_in_use_bytes"), 16.0);
    assert_eq!(value("station_save_trouble"), 0.0);
    let of_line = |name: &str, line: u8| {
        let labels = format!("{{line=\"{}\",laboratory=\"north\"}}", line);
        value(&format!("station_line_{}{}", name, labels))
    };
    assert_eq!(of_line("messages_waiting", 0), 1.0);
    assert_eq!(of_line("used_bytes", 0), 16.0);
    assert_eq!(of_line("messages_refused_total", 0), 0.0);
    assert_eq!(of_line("messages_refused_total", 1), 1.0);
    assert_eq!(of_line("orders_waiting", 0), 1.0);
    let ago = now() as f64 / 1_000.0 - of_line("last_stored_seconds", 0);
    assert!((0.0..60.0).contains(&ago), "{} s", ago);
    // What there is not yet is left out.
    assert!(!text.contains("last_stored_seconds{line=\"1\""));
    assert!(!text.contains("\nstation_archive_seconds "));
}

#[test]
fn so_many_orders_wait_and_so_many_are_remembered() {
    let folder = Folder::in_memory();
    let mut bench = bench(&folder);
    let text = texts::order(0, 1);
    for _ in 0..100 {
        bench.place(0, &text);
    }
    let full = Request::Place {
        line: 0,
        text: text.clone(),
    };
    assert_eq!(bench.ask(full).status, 429);
    // Another line has its own.
    bench.place(1, &text);
    let cancel = |bench: &mut Bench, number| {
        let lines = vec![0, 1];
        assert_eq!(bench.ask(Request::Cancel { lines, number }).status, 200);
        bench.keeper.save_orders();
    };
    for number in (2..=1_020).filter(|number| *number != 101) {
        cancel(&mut bench, number);
        bench.place(0, &text);
    }
    // The oldest is over last, and is among those that stay; the other line's is too.
    cancel(&mut bench, 1);
    cancel(&mut bench, 101);
    let orders = &bench.keeper.orders;
    assert!(orders.get(1).is_some() && orders.get(101).is_some());
    assert_eq!(orders.tally(0).waiting, 99);
    assert_eq!(orders.of_lines(&[0]).count(), 1_099);
    let files = fs::read_dir(folder.path.join("orders")).expect("there");
    assert_eq!(files.count(), 1_100);
}

#[test]
fn when_the_archive_comes_next() {
    let folder = Folder::new();
    let mut settings = (*settings(&folder.path, "frames")).clone();
    let at = Local::now();
    assert_eq!(next_archive(&settings, at), None);
    let before = (at - chrono::Duration::minutes(5)).time();
    let behind = (at + chrono::Duration::minutes(5)).time();
    for time in [before, behind] {
        settings.archive_at = Some(time);
        let due = next_archive(&settings, at).expect("every day");
        assert!(due > at && due <= at + chrono::Duration::hours(25));
        assert_eq!(due.time(), time);
    }
    // The wall's clock was set back by a year meanwhile.
    let mut bench = bench_with(Arc::new(settings));
    bench.keeper.archive_due = Some(at + chrono::Duration::days(365));
    bench.keeper.pass(1).expect("sound");
    let due = bench.keeper.archive_due.expect("every day");
    assert!(due <= Local::now() + chrono::Duration::hours(25));
}

#[test]
fn a_line_changes_hands_only_where_nothing_waits() {
    let folder = Folder::new();
    let mut first = bench(&folder);
    first.hear(1, ENQ);
    first.hear(1, FRAME);
    drop(first);
    let other = || settings_of(&folder.path, "frames", "south");
    let refused = |what: &str| {
        let why = Keeper::open(other(), quiet()).err().expect(what);
        assert!(why.contains("line 1 was of \"north\""), "{}", why);
        assert!(why.contains(what), "{}", why);
    };
    refused("messages wait");
    // Archived with the new settings, it still goes to the old laboratory's file.
    let mut keeper = Keeper::open_to_archive(other(), quiet()).expect("whole");
    assert_eq!(keeper.archive().expect("sound"), Ok(1));
    keeper.finish().expect("saved");
    assert!(folder.path.join("archive/north").is_dir());
    assert!(!folder.path.join("archive/south").exists());

    let mut second = bench(&folder);
    second.place(1, &texts::order(1, 1));
    drop(second);
    refused("orders wait");
    let mut third = bench(&folder);
    let (lines, number) = (vec![0, 1], 1);
    assert_eq!(third.ask(Request::Cancel { lines, number }).status, 200);
    drop(third);
    // What was north's is not south's to see, and no number is given twice.
    let mut fourth = bench_with(other());
    assert_eq!(fourth.keeper.orders.of_lines(&[1]).count(), 0);
    fourth.place(1, &texts::order(1, 2));
    assert!(fourth.keeper.orders.get(1).is_none());
    assert!(fourth.keeper.orders.get(2).is_some());
    drop(fourth);
    // A state that was moved away leaves the orders, and they are whose they were.
    fs::remove_file(folder.path.join("state")).expect("saved");
    let why = Keeper::open(settings(&folder.path, "frames"), quiet()).err();
    assert!(why.expect("south's order waits").contains("\"south\""));
    let fifth = Keeper::open(other(), quiet()).expect("its own order");
    assert_eq!(fifth.orders.tally(1).waiting, 1);
}

#[test]
fn an_order_that_cannot_be_kept_is_not_sent_and_holds_nobody_up() {
    let folder = Folder::new();
    let mut bench = bench(&folder);
    assert_eq!(bench.hear(0, ENQ), ACK);
    let place = |bench: &mut Bench| {
        let text = texts::order(1, 1);
        bench.ask(Request::Place { line: 1, text }).status
    };
    assert_eq!(place(&mut bench), 202);
    fs::remove_dir_all(folder.path.join("orders")).expect("there");
    assert_eq!(place(&mut bench), 507);
    bench.keeper.pass(1).expect("sound");
    assert_eq!(bench.sent(1), b"");
    assert!(bench.keeper.orders.trouble().is_some());
    assert_eq!(bench.keeper.gateway.state(1), State::Neutral);
    assert_eq!(bench.hear(0, FRAME), ACK);
    // It can be kept again, and goes out.
    fs::create_dir_all(folder.path.join("orders")).expect("made");
    bench.asks(1);
    // Once more not: the sending is over even so, and that is kept later.
    fs::remove_dir_all(folder.path.join("orders")).expect("there");
    assert_eq!(bench.hear(1, ENQ), b"");
    assert!(bench.keeper.orders.trouble().is_some());
    assert_eq!(bench.hear(0, FRAME), ACK);
    fs::create_dir_all(folder.path.join("orders")).expect("made");
    bench.keeper.pass(1).expect("sound");
    assert_eq!(bench.keeper.orders.trouble(), None);
}

#[test]
fn an_order_for_a_line_that_has_a_strip_reader_now() {
    let folder = Folder::new();
    let mut first = bench(&folder);
    for number in [1, 2] {
        first.place(1, &texts::order(1, number));
    }
    first.asks(1);
    drop(first);
    // One is under way; the gateway begins anew, and both are tried and fail.
    let mut second = bench_with(settings(&folder.path, "strips-10"));
    for _ in 0..6 {
        second.keeper.pass(1).expect("sound");
    }
    assert_eq!(second.sent(1), b"");
    let tally = second.keeper.orders.tally(1);
    assert_eq!(
        (tally.waiting, tally.sent_today, tally.failed_today),
        (0, 0, 2)
    );
    assert!(second.keeper.orders.under_way(1).is_none());
}

#[test]
fn what_is_archived_was_saved_as_stored() {
    let folder = Folder::new();
    let mut bench = bench(&folder);
    let (done, _settled) = oneshot::channel();
    let event = Event::Bytes {
        line: 0,
        bytes: [ENQ, FRAME].concat(),
        came: Instant::now(),
        done,
    };
    bench.keeper.take_in(event).expect("sound");
    assert!(!bench.keeper.saving.is_saved);
    // Nothing is settled yet: the archive saves first, and takes nothing where it cannot.
    fs::rename(&folder.path, folder.path.with_extension("away")).expect("there");
    let why = bench
        .keeper
        .archive()
        .expect("sound")
        .expect_err("no folder");
    assert!(why.contains("saving fails"), "{}", why);
    assert_eq!(bench.keeper.book.waiting_count(0), 1);
    fs::rename(folder.path.with_extension("away"), &folder.path).expect("there");
    assert_eq!(bench.keeper.archive().expect("sound"), Ok(1));
    assert_eq!(on_disk(&folder).book.waiting_count(0), 1);
}

/// Behind a sending that was dropped the line is the analyzer's, whatever else waits to be sent.
#[test]
fn a_line_rests_behind_a_sending_that_was_dropped() {
    let folder = Folder::new();
    let mut settings = (*settings(&folder.path, "frames")).clone();
    settings.orders.again = Duration::from_secs(60);
    let mut bench = bench_with(Arc::new(settings));
    for number in [1, 2] {
        bench.place(0, &texts::order(0, number));
    }
    bench.asks(0);
    assert_eq!(bench.hear(0, ENQ), b"");
    bench.keeper.pass(1).expect("sound");
    assert_eq!(bench.sent(0), b"");
    assert_eq!(bench.keeper.orders.tally(0).waiting, 2);
    // The analyzer asks again, and is heard.
    assert_eq!(bench.hear(0, ENQ), ACK);
}
