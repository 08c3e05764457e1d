//! The station as it runs: simulated analyzers at its ports, readers over HTTP, kills at random moments.

mod archive;
mod eight_lines;
mod floods;
mod harness;
mod kills;
mod laboratories;
mod long_day;
mod orders;
mod ports;
