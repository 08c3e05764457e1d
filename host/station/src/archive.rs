//! The archive: a file for each laboratory and day, which only grows.
//!
//! An entry is a line that tells the message's line, serial, time and length, then its bytes as they came, then a
//! newline. What a kill has left torn at a file's end is cut off before more is written, and a message that is there
//! already is written where it is: so a kill between the writing and the taking leaves it there once. It is written
//! even so, since a disk that has failed may not have what is read back. What is no entry is never cut off.

use crate::book::{local, Moment};
use crate::store::sync_folder;
use ngachodui::TEXT_LIMIT;
use std::collections::{BTreeMap, HashMap};
use std::fs::{self, OpenOptions};
use std::io::{self, ErrorKind};
use std::os::unix::fs::{FileExt, OpenOptionsExt};
use std::path::{Path, PathBuf};

/// A message for the archive.
pub struct Archived {
    pub laboratory: String,
    pub line: u8,
    pub serial: u16,
    pub stored: Moment,
    pub text: Vec<u8>,
}

impl Archived {
    /// The line in front of the message: no two messages have the same.
    fn head(&self) -> String {
        format!(
            "line {} serial {} stored {} bytes {}\n",
            self.line,
            self.serial,
            local(self.stored).to_rfc3339(),
            self.text.len()
        )
    }

    fn entry(&self) -> Vec<u8> {
        [self.head().as_bytes(), &self.text, b"\n"].concat()
    }

    /// The file of its laboratory and of the day on which it was stored.
    fn path(&self, folder: &Path) -> PathBuf {
        let day = local(self.stored).format("%Y-%m-%d.messages");
        folder.join(&self.laboratory).join(day.to_string())
    }
}

/// Writes messages to their files, and returns when the disk has them. How many were new there.
pub fn write(folder: &Path, messages: &[Archived]) -> io::Result<usize> {
    let mut files: BTreeMap<PathBuf, Vec<&Archived>> = BTreeMap::new();
    for message in messages {
        files.entry(message.path(folder)).or_default().push(message);
    }
    let mut count = 0;
    for (path, messages) in files {
        count += append(&path, &messages)?;
    }
    Ok(count)
}

fn append(path: &Path, messages: &[&Archived]) -> io::Result<usize> {
    let near = path.parent().expect("a laboratory's folder");
    make_folders(near)?;
    let mut options = OpenOptions::new();
    let file = options
        .read(true)
        .write(true)
        .create(true)
        .mode(0o600)
        .open(path)?;
    let bytes = fs::read(path)?;
    let (places, whole) = read(&bytes);
    if !is_torn(&bytes[whole..]) {
        let why = format!(
            "{}: no entry at byte {}: move it away",
            path.display(),
            whole
        );
        return Err(io::Error::new(ErrorKind::InvalidData, why));
    }
    file.set_len(whole as u64)?;
    let mut end = whole;
    let mut count = 0;
    for message in messages {
        let entry = message.entry();
        let known = places.get(message.head().as_bytes());
        file.write_all_at(&entry, *known.unwrap_or(&end) as u64)?;
        if known.is_none() {
            end += entry.len();
            count += 1;
        }
    }
    file.sync_all()?;
    sync_folder(near)?;
    Ok(count)
}

/// Makes a folder and those above it, and returns when the disk has their names.
fn make_folders(folder: &Path) -> io::Result<()> {
    if folder.is_dir() {
        return Ok(());
    }
    let above = folder.parent().expect("a folder of the station's");
    make_folders(above)?;
    fs::create_dir(folder)?;
    sync_folder(above)
}

/// Where each whole entry of a file stands, by its first line, and how many bytes these entries are.
fn read(bytes: &[u8]) -> (HashMap<&[u8], usize>, usize) {
    let mut places = HashMap::new();
    let mut whole = 0;
    while let Some((head, last)) = entry(&bytes[whole..]) {
        if bytes.get(whole + last) != Some(&b'\n') {
            break;
        }
        places.insert(head, whole);
        whole += last + 1;
    }
    (places, whole)
}

/// Every first line begins so, and is shorter than that.
const HEAD: &[u8] = b"line ";
const MOST_HEAD: usize = 128;

/// The first entry's line, and where its last byte has to be.
fn entry(bytes: &[u8]) -> Option<(&[u8], usize)> {
    let end = bytes.iter().position(|byte| *byte == b'\n')? + 1;
    let head = &bytes[..end];
    let told = std::str::from_utf8(head).ok()?.trim_end();
    let length: usize = told.rsplit(' ').next()?.parse().ok()?;
    let is_head = head.starts_with(HEAD) && length <= TEXT_LIMIT;
    is_head.then_some((head, end + length))
}

/// Whether this is what a kill leaves of an entry, the start of it; or a power cut, zeros.
fn is_torn(bytes: &[u8]) -> bool {
    match entry(bytes) {
        Some((_, last)) => bytes.len() <= last,
        None if bytes.iter().all(|byte| *byte == 0) => true,
        None => {
            let start = &bytes[..bytes.len().min(HEAD.len())];
            bytes.len() < MOST_HEAD && !bytes.contains(&b'\n') && HEAD.starts_with(start)
        }
    }
}

#[cfg(test)]
mod tests {
    use super::*;
    use crate::testing::Folder;

    fn message(laboratory: &str, serial: u16, stored: Moment) -> Archived {
        Archived {
            laboratory: laboratory.to_string(),
            line: 3,
            serial,
            stored,
            text: format!("H|\\^&|{}\rL|1|N\r", serial).into_bytes(),
        }
    }

    /// Noon of a day, and of the next.
    const NOON: Moment = 1_760_000_000_000;
    const NEXT: Moment = NOON + 86_400_000;

    #[test]
    fn a_file_for_each_laboratory_and_day() {
        let folder = Folder::new();
        let all = [
            message("north", 0, NOON),
            message("south", 0, NOON),
            message("north", 1, NEXT),
            message("north", 2, NOON),
        ];
        assert_eq!(write(&folder.path, &all).expect("room"), 4);
        assert_ne!(all[0].path(&folder.path), all[2].path(&folder.path));
        let bytes = fs::read(all[0].path(&folder.path)).expect("written");
        let expected =
            all[0].head() + "H|\\^&|0\rL|1|N\r\n" + &all[3].head() + "H|\\^&|2\rL|1|N\r\n";
        assert_eq!(String::from_utf8(bytes).expect("ASCII"), expected);
        assert!(all[0]
            .head()
            .starts_with("line 3 serial 0 stored 2025-10-0"));
        assert!(all[0].head().ends_with(" bytes 14\n"));
    }

    /// What is no entry is told, and stays, whatever it says of its length.
    #[test]
    fn lines_that_are_none() {
        let folder = Folder::new();
        let all = [message("north", 0, NOON), message("north", 1, NOON)];
        let path = all[0].path(&folder.path);
        write(&folder.path, &all[..1]).expect("room");
        let whole = fs::read(&path).expect("written");
        for line in [
            "line 3 bytes 18446744073709551615\n",
            "line 3 bytes -1\n",
            "bytes 5\n",
            "\n",
            "line 3 bytes 4\n12345\n",
            "something else",
        ] {
            let bytes = [&whole, line.as_bytes()].concat();
            fs::write(&path, &bytes).expect("written");
            let why = write(&folder.path, &all).expect_err(line).to_string();
            let told = format!("no entry at byte {}: move it away", whole.len());
            assert!(why.ends_with(&told), "{}", why);
            assert_eq!(fs::read(&path).expect("there"), bytes);
        }
    }

    /// What is there already is written again: the disk may have another text than what is read back, or none.
    #[test]
    fn an_entry_with_another_text_is_mended() {
        let folder = Folder::new();
        let all = [message("north", 0, NOON), message("north", 1, NOON)];
        let path = all[0].path(&folder.path);
        write(&folder.path, &all).expect("room");
        let whole = fs::read(&path).expect("written");
        let mut spoilt = whole.clone();
        let text = all[0].head().len();
        spoilt[text..text + 9].fill(0);
        spoilt.extend([0; 50]);
        fs::write(&path, &spoilt).expect("written");
        assert_eq!(write(&folder.path, &all).expect("room"), 0);
        assert_eq!(fs::read(&path).expect("written"), whole);
    }

    /// However far the writing came before a kill, a second writing leaves each message once.
    #[test]
    fn a_kill_at_any_byte_leaves_each_message_once() {
        let folder = Folder::new();
        let all = [message("north", 0, NOON), message("north", 1, NOON)];
        let path = all[0].path(&folder.path);
        assert_eq!(write(&folder.path, &all[..1]).expect("room"), 1);
        let first = fs::read(&path).expect("written").len();
        assert_eq!(write(&folder.path, &all).expect("room"), 1);
        let whole = fs::read(&path).expect("written");
        for torn in 0..=whole.len() {
            fs::write(&path, &whole[..torn]).expect("written");
            let missing = match torn {
                torn if torn < first => 2,
                torn if torn < whole.len() => 1,
                _ => 0,
            };
            assert_eq!(write(&folder.path, &all).expect("room"), missing);
            assert_eq!(fs::read(&path).expect("written"), whole);
        }
    }
}
