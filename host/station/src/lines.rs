//! What is told of a line on the board: its port, its last answers, what it refused.

use crate::book::{local, now, time_of, Moment};
use crate::words::{advice, is_told, words};
use ngachodui::Answer;
use serde::Serialize;
use serde_json::{json, Value};
use std::collections::VecDeque;
use std::time::{Duration, Instant};

/// So many answers and refused messages of a line are kept to look at.
const MOST_ANSWERS: usize = 8;
const MOST_REFUSED: usize = 20;
const MOST_REFUSED_ON_BOARD: usize = 5;

/// So many lines of the log a line may have in a second; the others are counted.
const MOST_LOGGED: u32 = 50;

/// An answer, and how often it came in a row.
#[derive(Clone, Debug, Serialize)]
pub struct Told {
    at: String,
    number: u8,
    words: String,
    advice: &'static str,
    times: u32,
}

/// A message that was refused.
#[derive(Clone, Debug)]
struct Refused {
    at: Moment,
    number: u8,
    words: String,
    advice: &'static str,
    /// The record that is wrong, counted from 1, and its first letter.
    record: Option<u16>,
    kind: Option<char>,
    text: Vec<u8>,
}

pub struct LineView {
    /// Why the port is not open; nothing where it is.
    closed: Option<(Moment, String)>,
    answers: VecDeque<Told>,
    refused: VecDeque<Refused>,
    /// How many messages were refused since the station was started.
    refused_count: u64,
    stirred: Instant,
    logged: u32,
}

impl LineView {
    pub fn new() -> LineView {
        LineView {
            closed: Some((now(), "not open yet".to_string())),
            answers: VecDeque::new(),
            refused: VecDeque::new(),
            refused_count: 0,
            stirred: Instant::now(),
            logged: 0,
        }
    }

    /// What is known of the port. True: it is news.
    pub fn see_port(&mut self, trouble: Option<String>) -> bool {
        let before = self.closed.as_ref().map(|(_, why)| why);
        let is_news = before != trouble.as_ref();
        if is_news {
            self.closed = trouble.map(|why| (now(), why));
        }
        is_news
    }

    pub fn is_connected(&self) -> bool {
        self.closed.is_none()
    }

    pub fn trouble(&self) -> Option<String> {
        let told = |(since, why): &(Moment, String)| format!("{}, since {}", why, time_of(*since));
        self.closed.as_ref().map(told)
    }

    /// Something comes in or goes out.
    pub fn stir(&mut self) {
        self.stirred = Instant::now();
    }

    /// Whether nothing has come in or gone out for so long, on a port that is open.
    pub fn is_silent(&self, at: Instant, silence: Duration) -> bool {
        self.is_connected() && at.saturating_duration_since(self.stirred) >= silence
    }

    pub fn note(&mut self, answer: &Answer) {
        if !is_told(answer) {
            return;
        }
        let told = Told {
            at: local(now()).to_rfc3339(),
            number: answer.number(),
            words: words(answer),
            advice: advice(answer),
            times: 1,
        };
        match self.answers.front_mut() {
            Some(last) if last.words == told.words => {
                last.times = last.times.saturating_add(1);
                last.at = told.at;
            }
            _ => self.answers.push_front(told),
        }
        self.answers.truncate(MOST_ANSWERS);
    }

    pub fn refuse(&mut self, answer: &Answer, text: &[u8]) {
        let record = match answer {
            Answer::Faulty { place, .. } => Some(*place),
            _ => None,
        };
        let kind = record.and_then(|place| {
            let mut records = text.split(|byte| *byte == b'\r');
            let letter = records.nth(usize::from(place) - 1)?.first()?;
            letter.is_ascii_graphic().then(|| char::from(*letter))
        });
        let what = match answer {
            Answer::Faulty { fault, .. } => fault.to_string(),
            Answer::NoRoom | Answer::Crowded => "no room".to_string(),
            answer => words(answer),
        };
        self.refused_count += 1;
        self.refused.push_front(Refused {
            at: now(),
            number: answer.number(),
            words: what,
            advice: advice(answer),
            record,
            kind,
            text: text.to_vec(),
        });
        self.refused.truncate(MOST_REFUSED);
    }

    pub fn answers(&self) -> Vec<Told> {
        self.answers.iter().cloned().collect()
    }

    pub fn refused_count(&self) -> u64 {
        self.refused_count
    }

    /// For the board, which everybody sees: no text.
    pub fn refused_on_board(&self) -> Vec<Value> {
        let told = |refused: &Refused| {
            json!({
                "at": local(refused.at).to_rfc3339(),
                "number": refused.number,
                "words": refused.words,
                "advice": refused.advice,
                "record": refused.record,
                "kind": refused.kind,
                "bytes": refused.text.len(),
            })
        };
        let shown = self.refused.iter().take(MOST_REFUSED_ON_BOARD);
        shown.map(told).collect()
    }

    /// For the laboratory: with the text, each byte as the character of that number.
    pub fn refused_with_text(&self, line: u8) -> impl Iterator<Item = Value> + '_ {
        self.refused.iter().map(move |refused| {
            let text: String = refused.text.iter().map(|byte| char::from(*byte)).collect();
            json!({
                "line": line,
                "at": local(refused.at).to_rfc3339(),
                "number": refused.number,
                "words": refused.words,
                "record": refused.record,
                "kind": refused.kind,
                "text": text,
            })
        })
    }

    /// Whether the line may have one more line of the log in this second.
    pub fn may_log(&mut self) -> bool {
        self.logged = self.logged.saturating_add(1);
        self.logged <= MOST_LOGGED
    }

    /// A second is over; says how many lines were left out of the log.
    pub fn end_second(&mut self, say: impl FnOnce(u32)) {
        if self.logged > MOST_LOGGED {
            say(self.logged - MOST_LOGGED);
        }
        self.logged = 0;
    }
}

impl Default for LineView {
    fn default() -> LineView {
        LineView::new()
    }
}

#[cfg(test)]
mod tests {
    use super::*;
    use ngachodui::Fault;

    #[test]
    fn a_line_that_floods_has_so_many_lines_of_the_log_in_a_second() {
        let mut view = LineView::new();
        let mut logged = || (0..60).filter(|_| view.may_log()).count() as u32;
        assert_eq!(logged(), MOST_LOGGED);
        assert_eq!(logged(), 0);
        let mut lost = 0;
        view.end_second(|count| lost = count);
        assert_eq!(lost, 120 - MOST_LOGGED);
        assert!(view.may_log());
        view.end_second(|count| panic!("{} were lost", count));
    }

    #[test]
    fn refused_messages_are_counted_and_the_last_are_kept() {
        let mut view = LineView::new();
        let faulty = |place| Answer::Faulty {
            fault: Fault::UnknownType,
            place,
        };
        // The second record has no letter, and the third is not there.
        for place in [1, 2, 3] {
            view.refuse(&faulty(place), b"H|\\^&\r\r");
        }
        let board = view.refused_on_board();
        let kinds: Vec<&Value> = board.iter().map(|one| &one["kind"]).collect();
        assert_eq!(kinds, [&Value::Null, &Value::Null, &json!("H")]);
        assert_eq!(board[2]["advice"], advice(&faulty(1)));
        for _ in 0..30 {
            view.refuse(&Answer::NoRoom, b"text");
        }
        assert_eq!(view.refused_count(), 33);
        assert_eq!(view.refused_on_board().len(), MOST_REFUSED_ON_BOARD);
        let all: Vec<Value> = view.refused_with_text(5).collect();
        assert_eq!(all.len(), MOST_REFUSED);
        assert_eq!(
            (&all[0]["line"], &all[0]["text"]),
            (&json!(5), &json!("text"))
        );
    }

    #[test]
    fn since_when_a_port_is_closed() {
        let mut view = LineView::new();
        assert!(view.see_port(Some("hung up".to_string())));
        assert!(!view.see_port(Some("hung up".to_string())));
        let yesterday = now() - 86_400_000;
        view.closed = Some((yesterday, "hung up".to_string()));
        let day = local(yesterday).format("%-d %b").to_string();
        assert!(view.trouble().expect("closed").contains(&day));
        assert!(view.see_port(None));
        assert_eq!(view.trouble(), None);
    }
}
