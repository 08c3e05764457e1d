//! The library's layout: how many numbers and bytes a host keeps, and where each stands. It is told
//! here once; `include/ngachodui.h` tells it for C.
#![allow(dead_code)] // each program uses some of it

/// The version of this layout, changed here alone: by it the library's functions that make a gateway
/// fresh have their names, so that a program of another version does not link.
macro_rules! version {
    () => {
        3
    };
}
pub(crate) use version;

/// The version of the layout: it belongs in front of a state that a host saves.
pub const VERSION: u32 = version!();

/// The lines are numbered from 0.
pub const LINES: usize = 8;

/// How many numbers a line has, and where each stands among them; those behind the last are spare.
pub const FIELDS: usize = 16;
pub const STATE: usize = 0;
pub const COLLECTED: usize = 1;
pub const JOINED: usize = 2;
pub const SECONDS: usize = 3;
pub const NEXT: usize = 4;
pub const LAST: usize = 5;
pub const REFUSING: usize = 6;
pub const SERIAL: usize = 7;
pub const TRIES: usize = 8;
pub const PLACE: usize = 9;
pub const SPEAKS: usize = 10;
pub const REPLY: usize = 11;
pub const SINCE: usize = 12;
pub const KEPT: usize = 13;
pub const SPARE: usize = 14;

/// The longest block of a strip reader, in bytes: so many numbers each line has for the last one that was
/// stored, behind those of all lines.
pub const BLOCK_LIMIT: usize = 239;
pub const BLOCKS: usize = LINES * FIELDS;

/// How many numbers all lines have.
pub const NUMBERS: usize = BLOCKS + LINES * BLOCK_LIMIT;

/// Where the bytes in use stand: behind each line's used count. How many counts that makes.
pub const IN_USE: usize = LINES;
pub const COUNTS: usize = LINES + 1;

/// How many delimiters a message has.
pub const DELIMITERS: usize = 4;

/// The longest message, in bytes: a buffer of this length is never too short for a taking.
pub const TEXT_LIMIT: usize = 4_000;

/// The longest frame, in bytes, from STX to LF; a line keeps it without its STX.
pub const FRAME_LIMIT: usize = 247;
pub const FRAME_PART: usize = FRAME_LIMIT - 1;

/// The most records that a message can have.
pub const RECORDS_LIMIT: usize = 999;

/// The most bytes that the frames of a message can have: 4,000 of text in 999 frames.
pub const CUT_LIMIT: usize = 10_993;

/// How many bytes of the journal each line is sure of, 4 counted for each message besides its text.
pub const SHARE: u32 = 2_048;

/// The three memories, in bytes.
pub const JOURNAL_SIZE: usize = 32_768;
pub const UNFINISHED_SIZE: usize = LINES * TEXT_LIMIT;
pub const FRAMES_SIZE: usize = LINES * FRAME_PART;
