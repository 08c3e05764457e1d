//! Answers in words, and what to do at each.

use ngachodui::{Answer, Fault, Refusal};

/// What an answer says.
pub fn words(answer: &Answer) -> String {
    match answer {
        Answer::Faulty { fault, place } => format!("refused: record {} has {}", place, fault),
        Answer::NotSent(refusal) => format!("not sent: {}", refusal),
        answer => plain(answer).to_string(),
    }
}

fn plain(answer: &Answer) -> &'static str {
    match answer {
        Answer::Nothing => "nothing new",
        Answer::Opened => "transfer opened",
        Answer::Accepted => "frame accepted",
        Answer::Repeated => "frame repeated, not kept again",
        Answer::Stored => "message stored",
        Answer::Filed => "finding stored",
        Answer::Ended => "transfer ended",
        Answer::Dropped => "transfer ended inside a message, which is dropped",
        Answer::TimedOut => "transfer ended by 30 seconds without a frame",
        Answer::Taken { .. } => "message taken",
        Answer::Sending { .. } => "sending an order",
        Answer::SendingEnded { acknowledged: true } => "order sent and acknowledged",
        Answer::SendingEnded { .. } => "order not acknowledged",
        Answer::Heard(_) | Answer::Noted => "strip reader heard",
        Answer::Busy => "ENQ while a transfer is open",
        Answer::Unended => "frame too long",
        Answer::Torn => "frame torn",
        Answer::WrongCheck => "frame with wrong check digits",
        Answer::BadText => "frame with a byte that may not be there",
        Answer::BadNumber => "frame whose number is none",
        Answer::Refusing => "rest of a refused transfer",
        Answer::OutOfTurn => "frame out of turn",
        Answer::TooLong => "message over 4,000 bytes",
        Answer::NoCr => "record without CR at its end",
        Answer::NoMessage => "refused: a byte that may not be there",
        Answer::NoRoom => "refused: no room",
        Answer::Crowded => "finding refused: no room",
        Answer::NoLine => "no such line",
        Answer::WrongSize => "memory of another size",
        Answer::BeyondLimits => "a line's numbers are no record",
        Answer::Broken => "the journal and its counts do not agree",
        Answer::NothingWaiting => "nothing waits",
        Answer::BufferShort => "buffer too short",
        Answer::Faulty { .. } | Answer::NotSent(_) => "not a message",
        Answer::NotNeutral => "line not free for an order",
        Answer::GivenUp => "order not taken: the analyzer sends itself or is not ready",
        Answer::OddLength => "block of no known length",
        Answer::OddTest => "block with wrong test bytes",
        Answer::OddByte => "block with a byte out of place",
    }
}

/// What somebody who watches the line should do; nothing where all is well.
pub fn advice(answer: &Answer) -> &'static str {
    match answer {
        Answer::Repeated => "Many in a row: the analyzer does not hear our replies. Look at the cable.",
        Answer::Dropped => "It sends the message again. Often: a fault of the analyzer or the cable.",
        Answer::TimedOut => "Look whether the analyzer was switched off or unplugged.",
        Answer::Busy => "The analyzer has forgotten its transfer. The line is free within 30 seconds.",
        Answer::Unended | Answer::Torn | Answer::WrongCheck => {
            "Now and then it is noise. Often: look at cable, speed and parity."
        }
        Answer::BadText | Answer::BadNumber | Answer::NoCr => {
            "It comes again and again: look at the analyzer's settings."
        }
        Answer::OutOfTurn => "Once in a while it is noise.",
        Answer::TooLong => "Have the analyzer send smaller messages.",
        Answer::NoRoom => "Its messages must be taken: look at the laboratory's reader. The analyzer sends again.",
        Answer::Crowded => "Have its messages taken, then press the reader's send key.",
        Answer::Faulty { fault, .. } => faulty(*fault),
        Answer::SendingEnded { acknowledged: false } => {
            "It is started again, so often as the settings say. Look whether the analyzer is on."
        }
        Answer::GivenUp => "It is started again, so often as the settings say.",
        Answer::NotSent(Refusal::Faulty { fault, .. }) => faulty(*fault),
        Answer::OddLength | Answer::OddTest => {
            "Now and then it is noise. Each time: the length of patient numbers, or the kind of test bytes, is set otherwise."
        }
        Answer::OddByte => "Again and again: another reader, or a character that may not be in a patient number.",
        Answer::NoMessage => "No sound station comes to this: its memory was damaged. Start it again.",
        _ => "",
    }
}

fn faulty(fault: Fault) -> &'static str {
    match fault {
        Fault::BadDelimiters => "Set the analyzer's delimiters to marks that are no letters and no digits.",
        _ => "The analyzer's maker has to mend it; the desk gets the text from the laboratory's reader.",
    }
}

/// Whether an answer belongs on the board: the others only say that a transfer, a sending or a reader goes on, or that
/// a transfer is still refused for what was told before.
pub fn is_told(answer: &Answer) -> bool {
    !matches!(
        answer,
        Answer::Nothing
            | Answer::Opened
            | Answer::Accepted
            | Answer::Ended
            | Answer::Refusing
            | Answer::Sending { .. }
            | Answer::Heard(_)
            | Answer::Noted
    )
}
