//! Ngachodui for hosts in Rust: a gateway between laboratory analyzers and a results dashboard.
//!
//! Analyzers send frames (ASTM E1381) with records (E1394) down eight serial lines. A [`Gateway`]
//! takes the bytes as they come, says what to send to the analyzer, and keeps each whole message until the
//! host takes it. It also sends messages of the host's, work orders, down the same lines. On lines that are
//! set so at the start ([`Settings`]) it is urine strip readers that send, and each finding becomes a message.
//! [`cut`], [`read`], [`escape`], [`unescape`] and [`is_message`] work on texts alone; each message names its
//! own [`Delimiters`].
//!
//! The work is done by a library whose every function is proved to do what its contract says. This
//! crate adds the memory and the names, and nothing of it is `unsafe` to use.

#![warn(missing_docs)]

mod answers;
#[allow(missing_docs)]
mod boundary;
mod gateway;
#[allow(missing_docs)]
mod layout;
mod saved;
mod texts;

pub use answers::{Answer, Fault, Refusal, Reply};
pub use gateway::{Gateway, Settings, Speaks, State};
pub use layout::{CUT_LIMIT, JOURNAL_SIZE, LINES, SHARE, TEXT_LIMIT, VERSION};
pub use saved::{NotLoaded, SAVED_SIZE};
pub use texts::{cut, escape, is_message, read, unescape, Delimiters, Record};
