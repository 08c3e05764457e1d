//! Opens a transfer on line 0 and prints the answer.

use ngachodui::{Answer, Gateway};

const ENQ: u8 = 0x05;

fn main() {
    let mut gateway = Gateway::fresh();
    let line = 0;
    let answer = gateway.byte(line, ENQ);
    print!("answer {}, reply", answer.number());
    for byte in answer.outgoing() {
        print!(" {:02X}", byte);
    }
    println!();
    assert_eq!(answer, Answer::Opened);
}
