//! A station: eight ports, their laboratories' readers, a board and an archive, over the proved gateway.
//!
//! One thread, the [`keeper`], owns the gateway. [`ports`] hand it what comes in, [`http`] what readers ask; what is to
//! leave, leaves when the [`store`] has on the disk what it comes from.

pub mod archive;
pub mod board;
pub mod book;
pub mod client;
pub mod clock;
pub mod http;
pub mod keeper;
pub mod lines;
pub mod log;
pub mod orders;
pub mod ports;
pub mod requests;
pub mod saving;
pub mod settings;
pub mod simulated;
pub mod store;
pub mod testing;
pub mod words;
