//! station SETTINGS: runs until it is stopped. station archive SETTINGS: archives what waits while no station runs.

use ngachodui_station::http::Http;
use ngachodui_station::keeper::{Event, Keeper};
use ngachodui_station::log::Log;
use ngachodui_station::ports;
use ngachodui_station::settings::Settings;
use std::fs;
use std::io::Write;
use std::os::unix::fs::PermissionsExt;
use std::path::Path;
use std::process::ExitCode;
use std::sync::mpsc::{channel, Sender};
use std::sync::Arc;
use std::thread;
use tokio::net::TcpListener;
use tokio::signal::unix::{signal, SignalKind};
use tokio::sync::mpsc::unbounded_channel;

const USAGE: &str = "usage: station SETTINGS           run, with the settings of this file
       station archive SETTINGS   archive all that waits, while no station runs";

fn main() -> ExitCode {
    let arguments: Vec<String> = std::env::args().skip(1).collect();
    let arguments: Vec<&str> = arguments.iter().map(String::as_str).collect();
    let ended = match arguments[..] {
        ["archive", settings] => archive(Path::new(settings)),
        [settings] if !settings.starts_with('-') => run(Path::new(settings)),
        _ => {
            eprintln!("{}", USAGE);
            return ExitCode::from(2);
        }
    };
    match ended {
        Ok(()) => ExitCode::SUCCESS,
        Err(why) => {
            eprintln!("station: {}", why);
            ExitCode::FAILURE
        }
    }
}

fn archive(settings: &Path) -> Result<(), String> {
    // What the lines are to speak does not matter for it, and may have changed.
    let settings = Arc::new(Settings::read(settings)?);
    let log = Log::to_stderr();
    let mut keeper = Keeper::open_to_archive(settings, log.clone())?;
    let archived = keeper.archive().map_err(|damaged| damaged.to_string())?;
    keeper.finish()?;
    log.flush();
    say(&format!("{} messages archived", archived?));
    Ok(())
}

fn run(path: &Path) -> Result<(), String> {
    let settings = Arc::new(Settings::read(path)?);
    let log = Log::to_stderr();
    warn_of_readers(path, &log);
    let mut keeper = Keeper::open(settings.clone(), log.clone())?;
    let runtime = tokio::runtime::Builder::new_multi_thread()
        .worker_threads(2)
        .enable_all()
        .build()
        .map_err(|error| error.to_string())?;
    let listener = runtime
        .block_on(TcpListener::bind(&settings.listen))
        .map_err(|error| format!("{}: {}", settings.listen, error))?;
    let address = listener.local_addr().map_err(|error| error.to_string())?;
    let (events, coming) = channel();
    for line in &settings.lines {
        let (outgoing, to_send) = unbounded_channel();
        keeper.connect(line.number, outgoing);
        runtime.spawn(ports::attend(
            line.number,
            line.port.clone(),
            events.clone(),
            to_send,
        ));
    }
    let http = Http::new(settings, keeper.published(), events.clone(), log.clone());
    runtime.spawn(Arc::new(http).serve(listener));
    runtime.spawn(stop_when_told(events));
    let keeper = thread::spawn(move || keeper.run(coming));
    say(&format!("board at http://{}/", address));
    let ended = keeper.join();
    runtime.shutdown_background();
    log.flush();
    match ended {
        Ok(ended) => ended.map_err(|damaged| damaged.to_string()),
        Err(_) => Err("the keeper has failed; what was saved stands".to_string()),
    }
}

/// Every token is in the settings file.
fn warn_of_readers(path: &Path, log: &Log) {
    let mode = fs::metadata(path).map_or(0, |found| found.permissions().mode());
    if mode & 0o004 != 0 {
        let path = path.display();
        log.say(format_args!(
            "{}: everybody on this machine can read it, and has every token",
            path
        ));
    }
}

/// On standard output, if somebody has that.
fn say(what: &str) {
    let _ = writeln!(std::io::stdout(), "station: {}", what);
}

/// Has the keeper save and stop at SIGTERM and SIGINT.
async fn stop_when_told(events: Sender<Event>) {
    let signals = (
        signal(SignalKind::terminate()),
        signal(SignalKind::interrupt()),
    );
    if let (Ok(mut terminate), Ok(mut interrupt)) = signals {
        tokio::select! {
            _ = terminate.recv() => {}
            _ = interrupt.recv() => {}
        }
        let _ = events.send(Event::Stop);
    }
}
