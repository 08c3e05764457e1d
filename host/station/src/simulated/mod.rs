//! Devices that are played: analyzers, strip readers, and the cables between them and the station.
//!
//! They block, each in a thread of its own, and wait as long as they are told to. Where they do something by
//! chance it is by a seed, so that a run can be had again.

pub mod analyzer;
pub mod cable;
pub mod chance;
pub mod orders;
#[cfg(test)]
mod peer;
pub mod strips;
pub mod texts;

pub use analyzer::{Analyzer, Fate};
pub use cable::Cable;
pub use chance::{Chance, Noise};
pub use orders::OrderTaker;
pub use strips::StripReader;

const STX: u8 = 0x02;
const ETX: u8 = 0x03;
const EOT: u8 = 0x04;
const ENQ: u8 = 0x05;
const ACK: u8 = 0x06;
const LF: u8 = 0x0A;
const CR: u8 = 0x0D;
const NAK: u8 = 0x15;
const ETB: u8 = 0x17;
