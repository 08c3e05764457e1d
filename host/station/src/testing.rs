//! What tests need.

use std::fs;
use std::path::PathBuf;
use std::sync::atomic::{AtomicUsize, Ordering};

static MADE: AtomicUsize = AtomicUsize::new(0);

/// A folder of its own, which goes when it is dropped.
pub struct Folder {
    pub path: PathBuf,
}

impl Folder {
    pub fn new() -> Folder {
        Folder::below(std::env::temp_dir())
    }

    /// Where no disk has to be waited for, if there is such a place.
    pub fn in_memory() -> Folder {
        match PathBuf::from("/dev/shm") {
            memory if memory.is_dir() => Folder::below(memory),
            _ => Folder::new(),
        }
    }

    fn below(folder: PathBuf) -> Folder {
        let number = MADE.fetch_add(1, Ordering::Relaxed);
        let name = format!("station-test-{}-{}", std::process::id(), number);
        let path = folder.join(name);
        fs::create_dir_all(&path).expect("a folder for temporary files");
        Folder { path }
    }
}

impl Default for Folder {
    fn default() -> Folder {
        Folder::new()
    }
}

impl Drop for Folder {
    fn drop(&mut self) {
        let _ = fs::remove_dir_all(&self.path);
    }
}
