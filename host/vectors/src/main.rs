//! Runs a script of bytes, blocks, seconds, takings, starts, cuttings, readings and escapings through the library, and
//! shows what each step comes to.
//!
//!     vectors gateway < SCRIPT       steps one by one, with every record and memory they leave
//!     vectors sending < SCRIPT       lines that send, with all that goes to the analyzer
//!     vectors strips < SCRIPT        lines of strip readers, with all that goes back
//!     vectors cutting < SCRIPT       messages cut into frames, sent and taken again, and read
//!     vectors delimiters < SCRIPT    texts escaped and unescaped, and every byte where a delimiter stands
//!     vectors stretches < SCRIPT     whole traces, run and told again stretch by stretch
//!
//! Status 1: a trace was told by the rule and came to something else, or wrongly and was not found.
//! Status 2: the script asks for what is no step.

mod blocks;
#[path = "../../rust/src/boundary.rs"]
#[allow(dead_code)] // No script asks for the sizes.
mod boundary;
mod by_hand;
mod cutting;
mod delimiters;
mod frames;
mod gateway;
#[path = "../../rust/src/layout.rs"]
mod layout;
mod library;
mod script;
mod sending;
mod shown;
mod stretches;
mod strips;

use std::env::args;
use std::io::{stdin, Read};
use std::process::exit;

fn main() {
    let mut arguments = args().skip(1);
    let run: fn(&str) -> Result<bool, String> =
        match (arguments.next().as_deref(), arguments.next()) {
            (Some("gateway"), None) => gateway::run,
            (Some("sending"), None) => sending::run,
            (Some("strips"), None) => strips::run,
            (Some("cutting"), None) => cutting::run,
            (Some("delimiters"), None) => delimiters::run,
            (Some("stretches"), None) => stretches::run,
            _ => refuse(
                "usage: vectors gateway|sending|strips|cutting|delimiters|stretches < SCRIPT",
            ),
        };
    let mut script = String::new();
    if let Err(error) = stdin().read_to_string(&mut script) {
        refuse(&format!("script: {}", error));
    }
    match run(&script) {
        Ok(good) => exit(i32::from(!good)),
        Err(message) => refuse(&message),
    }
}

fn refuse(message: &str) -> ! {
    eprintln!("{}", message);
    exit(2)
}
