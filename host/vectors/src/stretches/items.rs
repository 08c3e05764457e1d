//! An item of a trace: an event of a line, the start of a sending there, or a taking.

use crate::layout::LINES;

#[derive(Clone, Copy)]
pub enum Item {
    Byte {
        line: u8,
        byte: u8,
    },
    Seconds {
        line: u8,
        seconds: u8,
    },
    /// Of a sending on a line, with a text of so many bytes (`queueing::message`).
    Start {
        line: u8,
        length: usize,
        salt: usize,
    },
    /// From a line, with a buffer of so many bytes.
    Taking {
        line: u8,
        lends: usize,
    },
}

/// The queue of the takings; the lines' are 0 to 7.
pub const TAKINGS: usize = LINES;
pub const QUEUES: usize = LINES + 1;

impl Item {
    pub fn is_taking(self) -> bool {
        matches!(self, Item::Taking { .. })
    }

    /// The line of an event or a start, or the takings.
    pub fn queue(self) -> usize {
        match self {
            Item::Byte { line, .. } | Item::Seconds { line, .. } | Item::Start { line, .. } => {
                usize::from(line)
            }
            Item::Taking { .. } => TAKINGS,
        }
    }
}
