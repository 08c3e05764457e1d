//! The settings file: which line has which port and which laboratory, who may ask, where things are kept.

use chrono::NaiveTime;
use ngachodui::{Speaks, LINES};
use serde::Deserialize;
use std::collections::HashSet;
use std::fmt;
use std::fs;
use std::path::{Path, PathBuf};
use std::time::Duration;

/// A token has at least so many characters.
const TOKEN_LENGTH: usize = 16;
const NAME_LENGTH: usize = 40;

/// What the file says, checked.
#[derive(Clone, Debug)]
pub struct Settings {
    /// State, orders and archive are below it.
    pub folder: PathBuf,
    pub listen: String,
    pub archive_at: Option<NaiveTime>,
    pub operator: Option<String>,
    pub laboratories: Vec<Laboratory>,
    pub lines: Vec<LineSettings>,
    pub orders: OrderSettings,
}

#[derive(Clone, Debug, Deserialize)]
#[serde(deny_unknown_fields)]
pub struct Laboratory {
    pub name: String,
    pub token: String,
}

/// One line that is in use.
#[derive(Clone, Debug)]
pub struct LineSettings {
    pub number: u8,
    /// Its place in [`Settings::laboratories`].
    pub laboratory: usize,
    pub port: PortSettings,
    pub speaks: Speaks,
}

/// What a line is connected to.
#[derive(Clone, Debug, PartialEq)]
pub enum PortSettings {
    Serial {
        device: PathBuf,
        mode: Mode,
    },
    /// A pseudo-terminal of the station's, whose other end this path leads to.
    Terminal {
        link: PathBuf,
        /// As the file has it.
        name: PathBuf,
    },
    Tcp {
        address: String,
    },
}

/// How a serial device is set.
#[derive(Clone, Copy, Debug, PartialEq)]
pub struct Mode {
    pub speed: u32,
    pub parity: Parity,
    pub data_bits: u8,
    pub stop_bits: u8,
}

#[derive(Clone, Copy, Debug, PartialEq, Deserialize)]
#[serde(rename_all = "lowercase")]
pub enum Parity {
    None,
    Even,
    Odd,
}

/// When an order is started, and how often.
#[derive(Clone, Copy, Debug)]
pub struct OrderSettings {
    /// How long a line has been silent before an order is started, so that its analyzer can send.
    pub silence: Duration,
    /// How long after a sending that was not acknowledged the next is started.
    pub again: Duration,
    pub starts: u32,
}

impl Settings {
    /// Reads a settings file; relative paths in it start at its own folder.
    pub fn read(path: &Path) -> Result<Settings, String> {
        let told = |why: String| format!("{}: {}", path.display(), why);
        let text = fs::read_to_string(path).map_err(|error| told(error.to_string()))?;
        let near = path.parent().unwrap_or_else(|| Path::new("."));
        Settings::of(&text, near).map_err(told)
    }

    fn of(text: &str, near: &Path) -> Result<Settings, String> {
        let file: File = toml::from_str(text).map_err(|error| error.to_string())?;
        file.check_names()?;
        file.check_tokens()?;
        let folder = near.join(&file.folder);
        let archive_at = file.archive_at.as_deref().map(time_of_day).transpose()?;
        let mut lines = Vec::new();
        for line in &file.line {
            lines.push(line.checked(&file.laboratory, &folder)?);
        }
        lines.sort_by_key(|line| line.number);
        check_apart(&lines)?;
        let orders = file.orders.unwrap_or_default();
        if orders.again == 0 || orders.starts == 0 {
            // Who begins at once again meets the analyzer's own ENQ again.
            return Err("orders: again and starts are at least 1".to_string());
        }
        Ok(Settings {
            folder,
            listen: file.listen,
            archive_at,
            operator: file.operator,
            laboratories: file.laboratory,
            lines,
            orders: OrderSettings {
                silence: Duration::from_secs(orders.silence),
                again: Duration::from_secs(orders.again),
                starts: orders.starts,
            },
        })
    }

    /// Whose a line is, by name.
    pub fn laboratory_of(&self, line: u8) -> Option<&str> {
        let set = self.lines.iter().find(|set| set.number == line)?;
        Some(&self.laboratories[set.laboratory].name)
    }

    /// What each line of the gateway speaks.
    pub fn speaks(&self) -> [ngachodui::Settings; LINES] {
        let mut all = [ngachodui::Settings::default(); LINES];
        for line in &self.lines {
            all[usize::from(line.number)].speaks = line.speaks;
        }
        all
    }

    /// The lines of a laboratory.
    pub fn lines_of(&self, laboratory: usize) -> Vec<u8> {
        let own = |line: &&LineSettings| line.laboratory == laboratory;
        self.lines.iter().filter(own).map(|l| l.number).collect()
    }
}

/// The file as it is written.
#[derive(Deserialize)]
#[serde(deny_unknown_fields)]
struct File {
    folder: PathBuf,
    #[serde(default = "listen")]
    listen: String,
    archive_at: Option<String>,
    operator: Option<String>,
    #[serde(default)]
    laboratory: Vec<Laboratory>,
    #[serde(default)]
    line: Vec<FileLine>,
    orders: Option<FileOrders>,
}

#[derive(Deserialize)]
#[serde(deny_unknown_fields)]
struct FileLine {
    number: u8,
    laboratory: String,
    serial: Option<PathBuf>,
    terminal: Option<PathBuf>,
    tcp: Option<String>,
    speed: Option<u32>,
    parity: Option<Parity>,
    data_bits: Option<u8>,
    stop_bits: Option<u8>,
    speaks: Option<String>,
}

#[derive(Deserialize)]
#[serde(deny_unknown_fields, default)]
struct FileOrders {
    silence: u64,
    again: u64,
    starts: u32,
}

impl Default for FileOrders {
    fn default() -> FileOrders {
        FileOrders {
            silence: 5,
            again: 30,
            starts: 5,
        }
    }
}

fn listen() -> String {
    "127.0.0.1:8917".to_string()
}

impl File {
    fn check_names(&self) -> Result<(), String> {
        let mut seen = HashSet::new();
        for laboratory in &self.laboratory {
            let name = &laboratory.name;
            if !is_name(name) {
                return Err(format!(
                    "laboratory {:?}: a name has 1 to {} letters, digits, spaces, '-', '_' and '.', and begins with a letter or digit",
                    name, NAME_LENGTH
                ));
            }
            if !seen.insert(name.to_lowercase()) {
                return Err(format!("laboratory {:?} stands there twice", name));
            }
        }
        Ok(())
    }

    fn check_tokens(&self) -> Result<(), String> {
        let mut seen = HashSet::new();
        let laboratories = self
            .laboratory
            .iter()
            .map(|l| (l.name.as_str(), l.token.as_str()));
        let operator = self.operator.as_deref().map(|token| ("operator", token));
        for (name, token) in laboratories.chain(operator) {
            if token.len() < TOKEN_LENGTH || !token.bytes().all(|b| b.is_ascii_graphic()) {
                return Err(format!(
                    "the token of {:?} has to be {} or more characters of ASCII without spaces",
                    name, TOKEN_LENGTH
                ));
            }
            if !seen.insert(token) {
                return Err(format!("the token of {:?} is another's too", name));
            }
        }
        Ok(())
    }
}

/// A laboratory's name is the name of a folder in the archive too.
fn is_name(name: &str) -> bool {
    let allowed = |c: char| c.is_alphanumeric() || matches!(c, ' ' | '-' | '_' | '.');
    name.chars().next().map_or(false, char::is_alphanumeric)
        && name.len() <= NAME_LENGTH
        && name.chars().all(allowed)
}

fn time_of_day(text: &str) -> Result<NaiveTime, String> {
    NaiveTime::parse_from_str(text, "%H:%M")
        .map_err(|_| format!("archive_at = {:?}: a time is written as \"20:00\"", text))
}

impl FileLine {
    fn checked(&self, laboratories: &[Laboratory], folder: &Path) -> Result<LineSettings, String> {
        let told = |why: String| format!("line {}: {}", self.number, why);
        if usize::from(self.number) >= LINES {
            return Err(told(format!("lines are numbered 0 to {}", LINES - 1)));
        }
        let laboratory = laboratories
            .iter()
            .position(|laboratory| laboratory.name == self.laboratory)
            .ok_or_else(|| told(format!("there is no laboratory {:?}", self.laboratory)))?;
        Ok(LineSettings {
            number: self.number,
            laboratory,
            port: self.port(folder).map_err(told)?,
            speaks: self.speaks().map_err(told)?,
        })
    }

    fn port(&self, folder: &Path) -> Result<PortSettings, String> {
        let is_set = self.speed.is_some()
            || self.parity.is_some()
            || self.data_bits.is_some()
            || self.stop_bits.is_some();
        match (&self.serial, &self.terminal, &self.tcp) {
            (Some(device), None, None) => Ok(PortSettings::Serial {
                device: device.clone(),
                mode: self.mode()?,
            }),
            (None, _, _) if is_set => {
                Err("speed, parity and bits are those of a serial device".to_string())
            }
            (None, Some(name), None) => Ok(PortSettings::Terminal {
                link: folder.join(name),
                name: name.clone(),
            }),
            (None, None, Some(address)) => Ok(PortSettings::Tcp {
                address: address.clone(),
            }),
            _ => Err("it has to have one of serial, terminal and tcp".to_string()),
        }
    }

    fn mode(&self) -> Result<Mode, String> {
        let mode = Mode {
            speed: self.speed.unwrap_or(9_600),
            parity: self.parity.unwrap_or(Parity::None),
            data_bits: self.data_bits.unwrap_or(8),
            stop_bits: self.stop_bits.unwrap_or(1),
        };
        if !matches!(mode.data_bits, 7 | 8) {
            return Err(format!("data_bits = {}: 7 or 8", mode.data_bits));
        }
        if !matches!(mode.stop_bits, 1 | 2) {
            return Err(format!("stop_bits = {}: 1 or 2", mode.stop_bits));
        }
        crate::ports::baud_rate(mode.speed)
            .map(|_| mode)
            .ok_or_else(|| format!("speed = {}: no serial device has it", mode.speed))
    }

    fn speaks(&self) -> Result<Speaks, String> {
        match self.speaks.as_deref() {
            None | Some("frames") => Ok(Speaks::Frames),
            Some("strips-10") => Ok(Speaks::Strips10),
            Some("strips-13") => Ok(Speaks::Strips13),
            Some(other) => Err(format!(
                "speaks = {:?}: frames, strips-10 or strips-13",
                other
            )),
        }
    }
}

/// What a line speaks, as the file has it.
pub fn spoken(speaks: Speaks) -> &'static str {
    match speaks {
        Speaks::Frames => "frames",
        Speaks::Strips10 => "strips-10",
        Speaks::Strips13 => "strips-13",
    }
}

/// No line and no port stands there twice.
fn check_apart(lines: &[LineSettings]) -> Result<(), String> {
    for (k, line) in lines.iter().enumerate() {
        for other in &lines[..k] {
            if other.number == line.number {
                return Err(format!("line {} stands there twice", line.number));
            }
            if other.port.place() == line.port.place() {
                return Err(format!(
                    "lines {} and {} have the same port",
                    other.number, line.number
                ));
            }
        }
    }
    Ok(())
}

impl PortSettings {
    fn place(&self) -> &Path {
        match self {
            PortSettings::Serial { device, .. } => device,
            PortSettings::Terminal { link, .. } => link,
            PortSettings::Tcp { address } => Path::new(address),
        }
    }
}

impl fmt::Display for PortSettings {
    fn fmt(&self, f: &mut fmt::Formatter) -> fmt::Result {
        match self {
            PortSettings::Serial { device, mode } => {
                write!(f, "serial {} {}", device.display(), mode)
            }
            PortSettings::Terminal { name, .. } => write!(f, "terminal {}", name.display()),
            PortSettings::Tcp { address } => write!(f, "tcp {}", address),
        }
    }
}

impl fmt::Display for Mode {
    fn fmt(&self, f: &mut fmt::Formatter) -> fmt::Result {
        let parity = match self.parity {
            Parity::None => 'N',
            Parity::Even => 'E',
            Parity::Odd => 'O',
        };
        write!(
            f,
            "{} {}{}{}",
            self.speed, self.data_bits, parity, self.stop_bits
        )
    }
}

#[cfg(test)]
mod tests {
    use super::*;

    const HEAD: &str = r#"
        folder = "state"
        [[laboratory]]
        name = "north"
        token = "0123456789abcdef"
        [[laboratory]]
        name = "south"
        token = "0123456789abcdeF"
    "#;

    fn read(rest: &str) -> Result<Settings, String> {
        Settings::of(&format!("{}\n{}", HEAD, rest), Path::new("/etc/station"))
    }

    fn line(entries: &str) -> String {
        format!("[[line]]\nlaboratory = \"north\"\n{}\n", entries)
    }

    #[test]
    fn the_example_is_right() {
        let path = Path::new(env!("CARGO_MANIFEST_DIR")).join("example.toml");
        let settings = Settings::read(&path).expect("right");
        let told: Vec<String> = settings.lines.iter().map(|l| l.port.to_string()).collect();
        assert_eq!(told[0], "serial /dev/ttyS0 9600 8N1");
        assert_eq!(told[2..], ["tcp 192.0.2.17:4001", "terminal ports/line3"]);
        assert_eq!(settings.lines[1].speaks, Speaks::Strips10);
        assert_eq!(settings.archive_at, NaiveTime::from_hms_opt(20, 0, 0));
        // What it says of what is left out.
        let usual = read(&line("number = 3\nserial = \"/dev/ttyS0\"")).expect("right");
        assert_eq!(settings.listen, usual.listen);
        assert_eq!(settings.lines[0].port, usual.lines[0].port);
        let orders = |settings: &Settings| {
            let orders = settings.orders;
            (orders.silence, orders.again, orders.starts)
        };
        assert_eq!(orders(&settings), orders(&usual));
    }

    #[test]
    fn what_is_not_said_has_its_usual_value() {
        let settings = read(&line("number = 3\nserial = \"/dev/ttyS0\"")).expect("right");
        assert_eq!(settings.folder, Path::new("/etc/station/state"));
        assert_eq!(settings.listen, "127.0.0.1:8917");
        assert_eq!(settings.archive_at, None);
        assert_eq!((settings.orders.starts, settings.lines.len()), (5, 1));
        assert_eq!(
            settings.lines[0].port.to_string(),
            "serial /dev/ttyS0 9600 8N1"
        );
        assert_eq!(settings.lines[0].speaks, Speaks::Frames);
        assert_eq!(
            (settings.lines_of(0), settings.lines_of(1)),
            (vec![3], vec![])
        );
    }

    #[test]
    fn ports_of_every_kind() {
        let text = line("number = 7\nserial = \"/dev/ttyS1\"\nspeed = 19200\nparity = \"even\"\ndata_bits = 7\nstop_bits = 2")
            + &line("number = 0\nterminal = \"ports/line0\"\nspeaks = \"strips-13\"")
            + &line("number = 2\ntcp = \"server:4001\"");
        let settings = read(&text).expect("right");
        let told: Vec<String> = settings.lines.iter().map(|l| l.port.to_string()).collect();
        let expected = [
            "terminal ports/line0",
            "tcp server:4001",
            "serial /dev/ttyS1 19200 7E2",
        ];
        assert_eq!(told, expected);
        let link = Path::new("/etc/station/state/ports/line0");
        assert_eq!(settings.lines[0].port.place(), link);
        assert_eq!(settings.speaks()[0].speaks, Speaks::Strips13);
        assert_eq!(settings.speaks()[1].speaks, Speaks::Frames);
    }

    fn refused(rest: &str, why: &str) {
        let told = read(rest).expect_err(why);
        assert!(told.contains(why), "{:?} is told as {:?}", why, told);
    }

    #[test]
    fn what_is_wrong_with_a_line_is_told() {
        let serial = "number = 1\nserial = \"/dev/ttyS0\"";
        for (more, why) in [
            ("tcp = \"a:1\"", "line 1: it has to have one of"),
            ("speed = 9601", "line 1: speed = 9601"),
            ("data_bits = 9", "line 1: data_bits = 9"),
            ("stop_bits = 3", "line 1: stop_bits = 3"),
            ("speaks = \"hl7\"", "line 1: speaks = \"hl7\""),
            ("baud = 9600", "unknown field `baud`"),
        ] {
            refused(&line(&format!("{}\n{}", serial, more)), why);
        }
        let beyond = line("number = 8\ntcp = \"a:1\"");
        refused(&beyond, "line 8: lines are numbered 0 to 7");
        refused(&line("number = 1"), "line 1: it has to have one of");
        let fast = line("number = 1\ntcp = \"a:1\"\nspeed = 9600");
        refused(&fast, "line 1: speed, parity and bits");
        let nobody = line("number = 1\ntcp = \"a:1\"").replace("north", "west");
        refused(&nobody, "line 1: there is no laboratory \"west\"");
        let one = line(serial);
        refused(&(one.clone() + &one), "line 1 stands there twice");
        let other = one.replace("number = 1", "number = 2");
        refused(&(one + &other), "lines 1 and 2 have the same port");
    }

    #[test]
    fn what_else_is_wrong_is_told() {
        let laboratory = |name: &str, token: &str| {
            format!("[[laboratory]]\nname = {:?}\ntoken = {:?}\n", name, token)
        };
        for (name, token, why) in [
            (
                "North",
                "0123456789abcdeg",
                "laboratory \"North\" stands there twice",
            ),
            (
                "../x",
                "0123456789abcdeg",
                "laboratory \"../x\": a name has",
            ),
            (
                "west",
                "0123456789abcdef",
                "the token of \"west\" is another's too",
            ),
            ("west", "short", "the token of \"west\" has to be 16"),
        ] {
            refused(&laboratory(name, token), why);
        }
        for orders in ["again = 0", "starts = 0"] {
            let rest = format!("[orders]\n{}", orders);
            refused(&rest, "orders: again and starts are at least 1");
        }
        let told = Settings::of("folder = \"f\"\narchive_at = \"25:00\"", Path::new("."));
        let told = told.expect_err("a time");
        assert!(told.contains("archive_at = \"25:00\""), "{}", told);
    }
}
