//! A model of the rules in docs/RULES.md: the eight lines, their frames and messages, the sending of
//! messages, strip readers and their blocks, the journal with its shares, cutting, escaping and the replay
//! listing.
//!
//! It is written without the crates, for reading beside that page: answers are their
//! numbers, a comment names the subject of each rule where it is applied, and where the rules leave
//! a choice it says which reading was taken. It uses nothing but the standard library.
//!
//! The caller owns the memories and lends them to each call, as hosts do; `Model`
//! holds only the eight records and the ledger, all of it open, so that a test can also set
//! what no run reaches.

pub mod answers;
pub mod blocks;
pub mod cutting;
pub mod delimiters;
pub mod escapes;
pub mod frames;
pub mod journal;
pub mod lines;
pub mod listing;
pub mod model;
pub mod records;
pub mod sender;
pub mod texts;
pub mod traffic;
pub mod uploads;
pub mod world;

pub use answers::{reply, Answer, Refusal};
pub use blocks::Patient;
pub use cutting::cut;
pub use delimiters::Delimiters;
pub use escapes::{escape, unescape};
pub use journal::Ledger;
pub use lines::{Kind, Line, State};
pub use listing::listing;
pub use model::Model;
pub use records::{component_end, field, is_message, read, read_into, Record};

/// The lines, 0 to 7.
pub const LINES: usize = 8;

/// The memories, in bytes: one journal, and a part of its own for each line in the other two.
pub const JOURNAL: usize = 32_768;
pub const UNFINISHED_PART: usize = 4_000;
pub const UNFINISHED: usize = LINES * UNFINISHED_PART;
pub const FRAME_PART: usize = 246;
pub const FRAMES: usize = LINES * FRAME_PART;

#[cfg(test)]
mod dialogues;
#[cfg(test)]
mod examples;
#[cfg(test)]
mod left;
#[cfg(test)]
mod readings;
#[cfg(test)]
mod sendings;
