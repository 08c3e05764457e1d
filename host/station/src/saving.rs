//! What is saved, in one piece: the gateway, its book, and up to when its lines were told the time.

use crate::book::{now, Book, Moment};
use crate::clock::{Clock, Stamp};
use crate::store::Store;
use ngachodui::{Gateway, SAVED_SIZE};
use serde::{Deserialize, Serialize};
use std::borrow::Cow;
use std::fmt::Display;
use std::io;
use std::path::Path;
use std::time::Duration;

/// What stands behind the gateway.
#[derive(Serialize, Deserialize)]
struct Beside<'a> {
    at: Stamp,
    book: Cow<'a, Book>,
}

/// What was loaded, and the time that its lines were not told, if that is known.
pub struct Loaded {
    pub gateway: Gateway,
    pub book: Book,
    pub untold: Option<Duration>,
}

/// Whether what is in memory is on the disk, and how saving goes.
pub struct Saving {
    store: Store,
    clock: Clock,
    pub is_saved: bool,
    /// Why the last save has failed.
    pub trouble: Option<String>,
    pub took: Duration,
    pub at: Option<Moment>,
}

impl Saving {
    /// Opens the folder's store, and loads what was saved there.
    pub fn open(folder: &Path) -> Result<(Saving, Option<Loaded>), String> {
        let (store, saved) = Store::open(folder)?;
        let clock = Clock::read();
        let loaded = saved.map(|bytes| load(&bytes, &clock)).transpose()?;
        let saving = Saving {
            store,
            clock,
            is_saved: false,
            trouble: None,
            took: Duration::ZERO,
            at: None,
        };
        Ok((saving, loaded))
    }

    /// Saves, and returns when the disk has it. The lines were not told so much of the time yet.
    pub fn save(&mut self, gateway: &Gateway, book: &Book, untold: Duration) -> io::Result<()> {
        let beside = Beside {
            at: self.clock.ago(untold),
            book: Cow::Borrowed(book),
        };
        self.store.save(|out| {
            gateway.save(out);
            serde_json::to_writer(out, &beside).expect("plain data");
        })
    }

    /// How a save went. True: that is news.
    pub fn note(&mut self, saved: &io::Result<()>, took: Duration) -> bool {
        let trouble = saved.as_ref().err().map(|error| error.to_string());
        let is_news = trouble != self.trouble;
        self.took = took;
        if trouble.is_none() {
            self.is_saved = true;
            self.at = Some(now());
        }
        self.trouble = trouble;
        is_news
    }

    /// How many saves there were since the state file was made.
    pub fn count(&self) -> u64 {
        self.store.count()
    }
}

fn load(bytes: &[u8], clock: &Clock) -> Result<Loaded, String> {
    let told = |why: &dyn Display| format!("the saved state: {}", why);
    if bytes.len() < SAVED_SIZE {
        return Err(told(&"too short"));
    }
    let (gateway, beside) = bytes.split_at(SAVED_SIZE);
    let gateway = Gateway::load(gateway).map_err(|why| told(&why))?;
    let beside: Beside = serde_json::from_slice(beside).map_err(|why| told(&why))?;
    let book = beside.book.into_owned();
    if !book.agrees(&gateway) {
        return Err(told(&"its book tells other messages than wait"));
    }
    Ok(Loaded {
        gateway,
        book,
        untold: clock.since(&beside.at),
    })
}

#[cfg(test)]
mod tests {
    use super::*;
    use crate::testing::Folder;

    fn refused(put: impl FnOnce(&mut Vec<u8>)) -> String {
        let folder = Folder::new();
        let (mut store, _) = Store::open(&folder.path).expect("a folder of its own");
        store.save(put).expect("room");
        drop(store);
        Saving::open(&folder.path).err().expect("it is no state")
    }

    #[test]
    fn what_is_no_state_is_not_loaded() {
        let gateway = Gateway::fresh();
        assert!(refused(|out| out.push(0)).contains("too short"));
        assert!(refused(|out| out.extend([0; SAVED_SIZE + 9])).contains("layout 0"));
        let without_book = refused(|out| gateway.save(out));
        assert!(without_book.contains("EOF"), "{}", without_book);
    }

    #[test]
    fn a_book_of_another_gateway_is_not_loaded() {
        let folder = Folder::new();
        let (mut saving, loaded) = Saving::open(&folder.path).expect("a folder of its own");
        assert!(loaded.is_none());
        let mut gateway = Gateway::fresh();
        let ago = Duration::from_secs(7);
        saving.save(&gateway, &Book::default(), ago).expect("room");
        drop(saving);
        let (mut saving, loaded) = Saving::open(&folder.path).expect("whole");
        let untold = loaded.and_then(|loaded| loaded.untold);
        let untold = untold.expect("the same start of the machine");
        assert!((ago..2 * ago).contains(&untold), "{:?}", untold);
        for byte in b"\x05\x021H|\\^&\rL|1|N\r\x03B5\r\n" {
            gateway.byte(0, *byte);
        }
        saving.save(&gateway, &Book::default(), ago).expect("room");
        drop(saving);
        let why = Saving::open(&folder.path).err().expect("they disagree");
        assert!(why.contains("other messages than wait"), "{}", why);
    }
}
