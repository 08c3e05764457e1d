//! The state file: two places of one size, written by turns.
//!
//! A save writes the place that does not hold the last one, and waits until the disk has it. A kill or a power cut
//! in between leaves that place torn, which its check tells, and the other whole: so a save is there whole or not
//! at all, and costs one wait for the disk. Nothing is allocated for it once the file is made.

use nix::fcntl::{flock, FlockArg};
use std::fs::{self, File, OpenOptions};
use std::io::{self, ErrorKind, Read};
use std::os::unix::fs::{FileExt, OpenOptionsExt};
use std::os::unix::io::AsRawFd;
use std::path::{Path, PathBuf};

/// What a place begins with. The last digit is the version of this file; the gateway in it has its own.
const MAGIC: &[u8; 8] = b"NGASTAT1";

/// Magic, check, length and number of a save.
const HEAD: usize = 8 + 4 + 4 + 8;

/// The bytes of a place.
const PLACE: usize = 512 * 1_024;

/// The most that can be saved.
pub const MOST: usize = PLACE - HEAD;

/// A folder's state file, which is ours alone.
pub struct Store {
    folder: PathBuf,
    /// Kept open for its lock.
    _lock: File,
    /// There is none before the first save.
    file: Option<File>,
    number: u64,
    next: usize,
    written: Vec<u8>,
}

impl Store {
    /// Opens a folder, which is made where it is missing, and loads what was saved there last.
    pub fn open(folder: &Path) -> Result<(Store, Option<Vec<u8>>), String> {
        let told = |error: io::Error| format!("{}: {}", folder.display(), error);
        fs::create_dir_all(folder).map_err(told)?;
        let mut store = Store {
            _lock: locked(&folder.join("lock")).map_err(told)?,
            folder: folder.to_path_buf(),
            file: None,
            number: 0,
            next: 0,
            written: Vec::new(),
        };
        let path = store.path();
        if !path.exists() {
            return Ok((store, None));
        }
        let saved = store
            .load(&path)
            .map_err(|why| format!("{}: {}", path.display(), why))?;
        Ok((store, Some(saved)))
    }

    fn path(&self) -> PathBuf {
        self.folder.join("state")
    }

    fn load(&mut self, path: &Path) -> Result<Vec<u8>, String> {
        let mut options = OpenOptions::new();
        let mut file = options
            .read(true)
            .write(true)
            .open(path)
            .map_err(|error| error.to_string())?;
        let mut all = Vec::new();
        file.read_to_end(&mut all)
            .map_err(|error| error.to_string())?;
        let (number, place, saved) = newest(&all)?;
        // A kill before the disk had it leaves it in memory alone: the next save must not be the only one then.
        let written = &all[place * PLACE..][..HEAD + saved.len()];
        file.write_all_at(written, (place * PLACE) as u64)
            .and_then(|()| file.sync_data())
            .map_err(|error| error.to_string())?;
        self.number = number;
        self.next = 1 - place;
        self.file = Some(file);
        Ok(saved.to_vec())
    }

    /// Saves what `put` writes, and returns when the disk has it. After a failure the last save still stands.
    pub fn save(&mut self, put: impl FnOnce(&mut Vec<u8>)) -> io::Result<()> {
        self.written.clear();
        self.written.resize(HEAD, 0);
        put(&mut self.written);
        if self.written.len() > PLACE {
            return Err(io::Error::new(ErrorKind::Other, "too much to save"));
        }
        let number = self.number + 1;
        put_head(&mut self.written, number);
        match &self.file {
            None => self.file = Some(self.make()?),
            Some(file) => {
                file.write_all_at(&self.written, (self.next * PLACE) as u64)?;
                file.sync_data()?;
            }
        }
        self.number = number;
        self.next = 1 - self.next;
        Ok(())
    }

    /// The file with the first save. A file of that name holds a save, and the disk has room for two from then on.
    fn make(&self) -> io::Result<File> {
        let mut all = self.written.clone();
        all.resize(2 * PLACE, 0);
        write_whole(&self.path(), &all)?;
        OpenOptions::new().write(true).open(self.path())
    }

    /// How many saves there were since the file was made.
    pub fn count(&self) -> u64 {
        self.number
    }
}

/// Two stations with one folder would acknowledge into each other's state.
fn locked(path: &Path) -> io::Result<File> {
    let mut options = OpenOptions::new();
    let file = options.write(true).create(true).mode(0o600).open(path)?;
    match flock(file.as_raw_fd(), FlockArg::LockExclusiveNonblock) {
        Ok(()) => Ok(file),
        Err(nix::errno::Errno::EWOULDBLOCK) => Err(io::Error::new(
            ErrorKind::WouldBlock,
            "a station runs with this folder already",
        )),
        Err(error) => Err(error.into()),
    }
}

/// Waits until the disk has a folder's names.
pub fn sync_folder(folder: &Path) -> io::Result<()> {
    File::open(folder)?.sync_all()
}

/// Check, length and number in front of what is saved.
fn put_head(written: &mut [u8], number: u64) {
    let length = (written.len() - HEAD) as u32;
    written[..8].copy_from_slice(MAGIC);
    written[12..16].copy_from_slice(&length.to_le_bytes());
    written[16..24].copy_from_slice(&number.to_le_bytes());
    let check = crc32fast::hash(&written[12..]);
    written[8..12].copy_from_slice(&check.to_le_bytes());
}

/// The number and the bytes of a save, if this place holds one that is whole.
fn saved_in(place: &[u8]) -> Option<(u64, &[u8])> {
    let length = u32::from_le_bytes(place[12..16].try_into().ok()?) as usize;
    let check = u32::from_le_bytes(place[8..12].try_into().ok()?);
    let checked = place.get(12..HEAD.checked_add(length)?)?;
    let is_whole = &place[..8] == MAGIC && crc32fast::hash(checked) == check;
    let number = u64::from_le_bytes(place[16..24].try_into().ok()?);
    is_whole.then_some((number, &place[HEAD..HEAD + length]))
}

/// The last save: its number, its place, and what was saved.
fn newest(all: &[u8]) -> Result<(u64, usize, &[u8]), String> {
    if all.len() != 2 * PLACE {
        return Err(format!(
            "not {} bytes, so no state file of this version",
            2 * PLACE
        ));
    }
    [saved_in(&all[..PLACE]), saved_in(&all[PLACE..])]
        .iter()
        .enumerate()
        .filter_map(|(place, saved)| saved.map(|(number, bytes)| (number, place, bytes)))
        .max_by_key(|(number, ..)| *number)
        .ok_or_else(|| "neither of its two places holds a whole save".to_string())
}

/// Writes a file whole or not at all, and returns when the disk has it.
pub fn write_whole(path: &Path, bytes: &[u8]) -> io::Result<()> {
    let new = path.with_extension("new");
    let mut options = OpenOptions::new();
    let file = options
        .write(true)
        .create(true)
        .truncate(true)
        .mode(0o600)
        .open(&new)?;
    file.write_all_at(bytes, 0)?;
    file.sync_all()?;
    fs::rename(&new, path)?;
    sync_folder(path.parent().unwrap_or_else(|| Path::new(".")))
}

#[cfg(test)]
mod tests {
    use super::*;
    use crate::testing::Folder;
    use std::os::unix::fs::MetadataExt;

    fn open(folder: &Folder) -> (Store, Option<Vec<u8>>) {
        Store::open(&folder.path).expect("a folder of its own")
    }

    fn save(store: &mut Store, bytes: &[u8]) {
        store
            .save(|out| out.extend_from_slice(bytes))
            .expect("room");
    }

    #[test]
    fn the_last_save_is_loaded() {
        let folder = Folder::new();
        let (mut store, saved) = open(&folder);
        assert_eq!(saved, None);
        drop(store);
        for (k, bytes) in [&b"one"[..], b"", b"three", &[7; MOST]].iter().enumerate() {
            store = open(&folder).0;
            save(&mut store, bytes);
            assert_eq!(store.count(), k as u64 + 1);
            drop(store);
            assert_eq!(open(&folder).1.as_deref(), Some(*bytes));
        }
    }

    #[test]
    fn too_much_is_not_saved() {
        let folder = Folder::new();
        let (mut store, _) = open(&folder);
        save(&mut store, b"one");
        assert!(store.save(|out| out.resize(PLACE + 1, 7)).is_err());
        drop(store);
        assert_eq!(open(&folder).1.as_deref(), Some(&b"one"[..]));
    }

    /// A disk that is full afterwards has it already.
    #[test]
    fn the_first_save_has_the_room_of_all() {
        let folder = Folder::new();
        let (mut store, _) = Store::open(&folder.path).expect("a folder of its own");
        let room = || {
            let found = fs::metadata(folder.path.join("state")).expect("made");
            (found.len(), found.blocks() * 512)
        };
        store.save(|out| out.push(0)).expect("room");
        let first = room();
        assert_eq!(first.0, 2 * PLACE as u64);
        assert!(first.1 >= first.0, "{} of {} bytes", first.1, first.0);
        for _ in 0..3 {
            store.save(|out| out.resize(MOST, 1)).expect("room");
            assert_eq!(room(), first);
        }
    }

    /// A save that is torn at any byte, or has any byte altered, leaves the one before.
    #[test]
    fn a_torn_save_leaves_the_one_before() {
        let folder = Folder::new();
        let (mut store, _) = open(&folder);
        save(&mut store, b"first, and longer");
        save(&mut store, b"second");
        save(&mut store, b"third");
        drop(store);
        let path = folder.path.join("state");
        let whole = fs::read(&path).expect("saved");
        let third = HEAD + b"third".len();
        for torn in 0..third {
            let mut bytes = whole.clone();
            bytes[torn] ^= 0x40;
            assert_eq!(newest(&bytes).map(|n| n.2), Ok(&b"second"[..]));
            // The bytes of the save before last stand where the new ones have not come yet.
            let mut bytes = whole.clone();
            let mut old = vec![0; HEAD];
            old.extend_from_slice(b"first, and longer");
            put_head(&mut old, 1);
            bytes[torn..old.len()].copy_from_slice(&old[torn..]);
            let is_whole = bytes[..third] == whole[..third];
            let expected = if is_whole { &b"third"[..] } else { b"second" };
            assert_eq!(newest(&bytes).map(|n| n.2), Ok(expected));
        }
        assert_eq!(newest(&whole).map(|n| n.2), Ok(&b"third"[..]));
    }

    #[test]
    fn what_is_no_save_is_not_loaded() {
        let folder = Folder::new();
        let (mut store, _) = open(&folder);
        save(&mut store, b"one");
        drop(store);
        let path = folder.path.join("state");
        let mut bytes = fs::read(&path).expect("saved");
        bytes[HEAD] ^= 1;
        fs::write(&path, &bytes).expect("written");
        let told = Store::open(&folder.path).err().expect("damaged");
        assert!(told.contains("neither of its two places"), "{}", told);
        fs::write(&path, &bytes[1..]).expect("written");
        let told = Store::open(&folder.path).err().expect("too short");
        assert!(told.contains("no state file of this version"), "{}", told);
    }

    #[test]
    fn a_folder_has_one_station() {
        let folder = Folder::new();
        let first = open(&folder);
        let told = Store::open(&folder.path).err().expect("locked");
        assert!(told.contains("a station runs with this folder"), "{}", told);
        drop(first);
        assert_eq!(open(&folder).1, None);
    }

    #[test]
    fn a_file_is_written_over_whole() {
        let folder = Folder::new();
        let path = folder.path.join("file");
        for bytes in [&b"longer than the next"[..], b"short"] {
            write_whole(&path, bytes).expect("room");
            assert_eq!(fs::read(&path).expect("written"), bytes);
        }
        let names = fs::read_dir(&folder.path).expect("there").count();
        assert_eq!(names, 1);
    }
}
