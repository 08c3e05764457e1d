//! Whole traces: each is run from fresh, told again stretch by stretch, and compared, every answer and
//! the whole final state.
//!
//!     = TITLE      a new trace;   # TEXT   nothing
//!     E L          ENQ on line L;   B L HEX   bytes;   A L N   the byte 41 N times;   S L N   N seconds
//!     F L NETEXT   a frame: its number N (a digit, * the line's next one, - the last one again), E . for
//!                  ETX or + for ETB, its text with / for CR
//!     G L N        a frame of the line's next number, with ETB and N times A
//!     M L N        ENQ and a message of N bytes, cut into frames
//!     O L N        a start of a sending on line L, a work order of N bytes; where no message has so few, it is
//!                  refused
//!     T L N        a taking from line L with a buffer of N bytes
//!     Y L N        line L speaks N from the trace's start: 0, or 10 or 13 with a strip reader
//!     K L WORD     a block of line L's reader: SPM, REP, END, EN or DN with the sequence number N, and with x behind
//!                  it one that is spoilt
//!     : STEP       a piece, with a dot for its line;   X L N   N pieces on line L, chosen by dice
//!     D 0 N        the dice start from N
//!     W K          what is queued goes on the trace: as it stands for K 0, else the eight lines and the
//!                  takings woven by dice, a queue going on (K - 1) times of K
//!     R K          the trace is run and told again: by the rule for K 0; wrongly for K 1 (stretches by
//!                  their first events), 2 (takings last), 3 (without rests)

mod comparing;
mod items;
mod queueing;
mod running;
mod telling;
mod weaving;

use crate::layout::LINES;
use crate::script::{each, nothing, piece, Said, Step};
use items::Item;
use queueing::{Queued, Queues};
use telling::{Telling, Totals};
use weaving::Dice;

/// The most that a script may say of a number.
const MOST: usize = 999_999;

/// What stands for a trace so far.
struct Bench {
    settings: [u16; LINES],
    queues: Queues,
    trace: Vec<Item>,
    dice: Dice,
}

impl Bench {
    fn new() -> Bench {
        Bench {
            settings: [0; LINES],
            queues: Queues::new(),
            trace: Vec::new(),
            dice: Dice(1),
        }
    }

    fn step(&mut self, step: &Step, pieces: &[Queued]) -> Result<(), String> {
        match step.letter {
            'D' => self.dice = Dice(step.plain_number(MOST)? as u64),
            'Y' => {
                let speaks = step.number(13)? as u16;
                self.settings[step.line()?] = speaks;
                self.queues.speaks(step.line()?, speaks);
            }
            'X' => {
                let line = step.line()? as u8;
                for _ in 0..step.number(MOST)? {
                    let chosen = match pieces.len() {
                        0 => return Err("there are no pieces".to_string()),
                        n => &pieces[self.dice.throw() % n],
                    };
                    self.queues.add(line, chosen)?;
                }
            }
            'W' => {
                nothing(step.rest())?;
                let queued = self.queues.empty();
                self.trace.extend(match usize::from(step.digit) {
                    0 => queued,
                    most => weaving::woven(&queued, most, &mut self.dice),
                });
            }
            letter => {
                let queued = Queued::read(letter, step.rest())?;
                let line = match queued {
                    Queued::Taking(_) => step.digit,
                    _ => step.line()? as u8,
                };
                self.queues.add(line, &queued)?;
            }
        }
        Ok(())
    }
}

/// Runs a script. Whether every trace told by the rule came to the same, and every wrong one was found.
pub fn run(script: &str) -> Result<bool, String> {
    let mut totals = Totals::new();
    let mut pieces = Vec::new();
    let mut bench = Bench::new();
    each(script, |said| {
        match said {
            Said::Title(text) => {
                println!("{}", text);
                bench = Bench::new();
            }
            Said::Comment(_) => (),
            Said::Piece(text) => {
                let (letter, rest) = piece(text)?;
                pieces.push(Queued::read(letter, rest)?);
            }
            Said::Step(step) if step.letter == 'R' => {
                nothing(step.rest())?;
                if !bench.queues.is_empty() {
                    return Err("what is queued is not on the trace".to_string());
                }
                let telling = Telling::read(step.digit)?;
                telling::tell(&bench.trace, &bench.settings, telling, &mut totals);
            }
            Said::Step(step) => bench.step(&step, &pieces)?,
        }
        Ok(())
    })?;
    totals.show();
    Ok(totals.is_good())
}
