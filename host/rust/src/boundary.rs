//! The library's functions as `include/ngachodui.h` declares them, each behind a safe function.
//!
//! What the header asks of a host in C holds by the types here: references are never null, are
//! valid for their lengths, and two `&mut` never overlap. All `unsafe` of the crate is in this file.

use crate::layout::{self, COUNTS, DELIMITERS, LINES, NUMBERS};

/// Each line's numbers, in the order of [`layout`], and behind them each line's block.
pub type Numbers = [u16; NUMBERS];

/// What each line is to speak, by number: the only one of its settings.
pub type Settings = [u16; LINES];

/// Each line's used count, then the bytes of the journal in use.
pub type Counts = [u32; COUNTS];

/// The four delimiters, in the order of a header: field, repeat, component, escape.
pub type Delimiters = [u8; DELIMITERS];

/// `ngachodui_answered`.
#[repr(C)]
#[derive(Clone, Copy, PartialEq, Eq, Debug)]
pub struct Answered {
    pub number: u8,
    pub reply: u8,
    pub serial: u16,
    pub place: u16,
    pub digits: u16,
    pub length: usize,
}

/// `ngachodui_made`.
#[repr(C)]
#[derive(Clone, Copy, PartialEq, Eq, Debug)]
pub struct Made {
    pub number: u8,
    pub spare: u8,
    pub place: u16,
    pub value: u32,
    pub length: usize,
}

/// `ngachodui_layout`.
#[repr(C)]
#[derive(Clone, Copy, PartialEq, Eq, Debug)]
pub struct Layout {
    pub version: u32,
    pub numbers: u32,
    pub counts: u32,
    pub journal: u32,
    pub unfinished: u32,
    pub frames: u32,
}

#[link(name = "ngachodui", kind = "static")]
extern "C" {
    fn ngachodui_sizes() -> Layout;
    #[link_name = concat!("ngachodui_fresh_", layout::version!())]
    fn ngachodui_fresh(numbers: *mut u16, counts: *mut u32);
    #[link_name = concat!("ngachodui_start_", layout::version!())]
    fn ngachodui_start(settings: *const u16, numbers: *mut u16, counts: *mut u32) -> u8;
    fn ngachodui_byte(
        line: u8,
        byte: u8,
        numbers: *mut u16,
        counts: *mut u32,
        journal: *mut u8,
        journal_length: usize,
        unfinished: *mut u8,
        unfinished_length: usize,
        frames: *mut u8,
        frames_length: usize,
    ) -> Answered;
    fn ngachodui_seconds(
        line: u8,
        seconds: u8,
        numbers: *mut u16,
        counts: *mut u32,
        journal: *mut u8,
        journal_length: usize,
        unfinished: *mut u8,
        unfinished_length: usize,
        frames: *mut u8,
        frames_length: usize,
    ) -> Answered;
    fn ngachodui_send(
        line: u8,
        text: *const u8,
        text_length: usize,
        numbers: *mut u16,
        journal: *const u8,
        journal_length: usize,
        unfinished: *mut u8,
        unfinished_length: usize,
        frames: *const u8,
        frames_length: usize,
    ) -> Answered;
    fn ngachodui_outgoing(
        line: u8,
        numbers: *const u16,
        unfinished: *const u8,
        unfinished_length: usize,
        out: *mut u8,
        out_length: usize,
    ) -> Made;
    fn ngachodui_take(
        line: u8,
        numbers: *const u16,
        counts: *mut u32,
        journal: *mut u8,
        journal_length: usize,
        buffer: *mut u8,
        buffer_length: usize,
    ) -> Answered;
    fn ngachodui_is_message(text: *const u8, text_length: usize) -> bool;
    fn ngachodui_cut(text: *const u8, text_length: usize, out: *mut u8, out_length: usize) -> Made;
    // Under their names alone these two took no delimiters: what was compiled for that does not link.
    #[link_name = "ngachodui_escape_2"]
    fn ngachodui_escape(
        delimiters: *const u8,
        text: *const u8,
        text_length: usize,
        out: *mut u8,
        out_length: usize,
    ) -> Made;
    #[link_name = "ngachodui_unescape_2"]
    fn ngachodui_unescape(
        delimiters: *const u8,
        component: *const u8,
        component_length: usize,
        out: *mut u8,
        out_length: usize,
    ) -> Made;
    fn ngachodui_read(
        text: *const u8,
        text_length: usize,
        types: *mut u8,
        types_length: usize,
        offsets: *mut u16,
        offsets_length: usize,
        lengths: *mut u16,
        lengths_length: usize,
        owners: *mut u16,
        owners_length: usize,
    ) -> Made;
}

/// The layout that the library was compiled for.
pub fn sizes() -> Layout {
    unsafe { ngachodui_sizes() }
}

/// The layout that this program is compiled for.
pub fn own_sizes() -> Layout {
    Layout {
        version: layout::VERSION,
        numbers: NUMBERS as u32,
        counts: COUNTS as u32,
        journal: layout::JOURNAL_SIZE as u32,
        unfinished: layout::UNFINISHED_SIZE as u32,
        frames: layout::FRAMES_SIZE as u32,
    }
}

pub fn fresh(numbers: &mut Numbers, counts: &mut Counts) {
    unsafe { ngachodui_fresh(numbers.as_mut_ptr(), counts.as_mut_ptr()) }
}

pub fn start(settings: &Settings, numbers: &mut Numbers, counts: &mut Counts) -> u8 {
    unsafe { ngachodui_start(settings.as_ptr(), numbers.as_mut_ptr(), counts.as_mut_ptr()) }
}

pub fn byte(
    line: u8,
    byte: u8,
    numbers: &mut Numbers,
    counts: &mut Counts,
    journal: &mut [u8],
    unfinished: &mut [u8],
    frames: &mut [u8],
) -> Answered {
    unsafe {
        ngachodui_byte(
            line,
            byte,
            numbers.as_mut_ptr(),
            counts.as_mut_ptr(),
            journal.as_mut_ptr(),
            journal.len(),
            unfinished.as_mut_ptr(),
            unfinished.len(),
            frames.as_mut_ptr(),
            frames.len(),
        )
    }
}

pub fn seconds(
    line: u8,
    seconds: u8,
    numbers: &mut Numbers,
    counts: &mut Counts,
    journal: &mut [u8],
    unfinished: &mut [u8],
    frames: &mut [u8],
) -> Answered {
    unsafe {
        ngachodui_seconds(
            line,
            seconds,
            numbers.as_mut_ptr(),
            counts.as_mut_ptr(),
            journal.as_mut_ptr(),
            journal.len(),
            unfinished.as_mut_ptr(),
            unfinished.len(),
            frames.as_mut_ptr(),
            frames.len(),
        )
    }
}

pub fn send(
    line: u8,
    text: &[u8],
    numbers: &mut Numbers,
    journal: &[u8],
    unfinished: &mut [u8],
    frames: &[u8],
) -> Answered {
    unsafe {
        ngachodui_send(
            line,
            text.as_ptr(),
            text.len(),
            numbers.as_mut_ptr(),
            journal.as_ptr(),
            journal.len(),
            unfinished.as_mut_ptr(),
            unfinished.len(),
            frames.as_ptr(),
            frames.len(),
        )
    }
}

pub fn outgoing(line: u8, numbers: &Numbers, unfinished: &[u8], out: &mut [u8]) -> Made {
    unsafe {
        ngachodui_outgoing(
            line,
            numbers.as_ptr(),
            unfinished.as_ptr(),
            unfinished.len(),
            out.as_mut_ptr(),
            out.len(),
        )
    }
}

pub fn take(
    line: u8,
    numbers: &Numbers,
    counts: &mut Counts,
    journal: &mut [u8],
    buffer: &mut [u8],
) -> Answered {
    unsafe {
        ngachodui_take(
            line,
            numbers.as_ptr(),
            counts.as_mut_ptr(),
            journal.as_mut_ptr(),
            journal.len(),
            buffer.as_mut_ptr(),
            buffer.len(),
        )
    }
}

pub fn is_message(text: &[u8]) -> bool {
    unsafe { ngachodui_is_message(text.as_ptr(), text.len()) }
}

pub fn cut(text: &[u8], out: &mut [u8]) -> Made {
    unsafe { ngachodui_cut(text.as_ptr(), text.len(), out.as_mut_ptr(), out.len()) }
}

pub fn escape(delimiters: &Delimiters, text: &[u8], out: &mut [u8]) -> Made {
    unsafe {
        ngachodui_escape(
            delimiters.as_ptr(),
            text.as_ptr(),
            text.len(),
            out.as_mut_ptr(),
            out.len(),
        )
    }
}

pub fn unescape(delimiters: &Delimiters, component: &[u8], out: &mut [u8]) -> Made {
    unsafe {
        ngachodui_unescape(
            delimiters.as_ptr(),
            component.as_ptr(),
            component.len(),
            out.as_mut_ptr(),
            out.len(),
        )
    }
}

pub fn read(
    text: &[u8],
    types: &mut [u8],
    offsets: &mut [u16],
    lengths: &mut [u16],
    owners: &mut [u16],
) -> Made {
    unsafe {
        ngachodui_read(
            text.as_ptr(),
            text.len(),
            types.as_mut_ptr(),
            types.len(),
            offsets.as_mut_ptr(),
            offsets.len(),
            lengths.as_mut_ptr(),
            lengths.len(),
            owners.as_mut_ptr(),
            owners.len(),
        )
    }
}
