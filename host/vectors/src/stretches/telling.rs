//! A trace run, told again in another order, compared and shown.

use super::comparing;
use super::items::Item;
use super::running::{run, Outcome};
use crate::layout::LINES;

/// The order in which a trace is told again.
#[derive(Clone, Copy, PartialEq)]
pub enum Telling {
    ByTheRule,
    /// Wrong orders, for the comparison to find.
    ByFirstEvents,
    TakingsLast,
    WithoutRests,
}

impl Telling {
    pub fn read(digit: u8) -> Result<Telling, String> {
        match digit {
            0 => Ok(Telling::ByTheRule),
            1 => Ok(Telling::ByFirstEvents),
            2 => Ok(Telling::TakingsLast),
            3 => Ok(Telling::WithoutRests),
            _ => Err(format!("{} is no telling", digit)),
        }
    }

    fn name(self) -> &'static str {
        match self {
            Telling::ByTheRule => "by the rule",
            Telling::ByFirstEvents => "WRONGLY, stretches by their first events",
            Telling::TakingsLast => "WRONGLY, takings last",
            Telling::WithoutRests => "WRONGLY, without rests",
        }
    }

    /// The places of the trace's items in this order.
    fn order(self, trace: &[Item], outcomes: &[Outcome]) -> Vec<usize> {
        let (mut whole, rests) = stretches(trace, outcomes);
        if self != Telling::WithoutRests {
            whole.extend(rests);
        }
        if self == Telling::ByFirstEvents {
            whole.sort_by_key(|stretch| stretch[0]);
        }
        let mut order = whole.concat();
        if self == Telling::TakingsLast {
            order.sort_by_key(|&k| trace[k].is_taking());
        }
        order
    }
}

/// The rule, as `serialize` of the crate `serial` defines it: each line's events are cut behind each one
/// that decides a message. First come the pieces that end so, one after the other as their last events
/// came, with each taking in its place; then what is left of lines 0 to 7.
fn stretches(trace: &[Item], outcomes: &[Outcome]) -> (Vec<Vec<usize>>, Vec<Vec<usize>>) {
    let mut whole = Vec::new();
    let mut pending = vec![Vec::new(); LINES];
    for (k, (item, outcome)) in trace.iter().zip(outcomes).enumerate() {
        if item.is_taking() {
            whole.push(vec![k]);
            continue;
        }
        let stretch = &mut pending[item.queue()];
        stretch.push(k);
        if outcome.decides() {
            whole.push(std::mem::take(stretch));
        }
    }
    pending.retain(|rest| !rest.is_empty());
    (whole, pending)
}

/// How often each answer came, by its number, of which 72 is the highest.
const ANSWERS: usize = 73;
type Counts = [u64; ANSWERS];

fn show_counts(counts: &Counts) {
    let came = counts.iter().enumerate().filter(|(_, &times)| times > 0);
    let shown: Vec<String> = came
        .map(|(answer, times)| format!("{}: {}", answer, times))
        .collect();
    println!("  {}", shown.join(", "));
}

/// What all traces came to.
pub struct Totals {
    counts: Counts,
    items: usize,
    ruled: u64,
    same: u64,
    wrongly: u64,
    found: u64,
}

impl Totals {
    pub fn new() -> Totals {
        Totals {
            counts: [0; ANSWERS],
            items: 0,
            ruled: 0,
            same: 0,
            wrongly: 0,
            found: 0,
        }
    }

    pub fn show(&self) {
        println!(
            "total: traces told by the rule {}, the same {}; told wrongly {}, found {}; items told by the rule {}",
            self.ruled, self.same, self.wrongly, self.found, self.items
        );
        show_counts(&self.counts);
    }

    /// Whether every trace told by the rule came to the same, and every wrong one was found.
    pub fn is_good(&self) -> bool {
        self.same == self.ruled && self.found == self.wrongly
    }
}

/// Runs a trace, tells it again and compares.
pub fn tell(trace: &[Item], settings: &[u16; LINES], telling: Telling, totals: &mut Totals) {
    let as_it_is: Vec<usize> = (0..trace.len()).collect();
    let (outcomes, gateway) = run(trace, settings, &as_it_is);
    let order = telling.order(trace, &outcomes);
    let counts = show_sizes(trace, telling, &outcomes, &order);
    let used: Vec<String> = gateway.counts[..LINES].iter().map(u32::to_string).collect();
    println!("  in use {}, used {}", gateway.in_use(), used.join(" "));

    let (again, end) = run(trace, settings, &order);
    let same_answers = comparing::answers(&order, &outcomes, &again);
    let same_state = comparing::states(&gateway, &end);
    let same = same_answers && same_state;
    if telling == Telling::ByTheRule {
        for (total, count) in totals.counts.iter_mut().zip(counts) {
            *total += count;
        }
        totals.items += trace.len();
        totals.ruled += 1;
        totals.same += u64::from(same && order.len() == trace.len());
    } else {
        totals.wrongly += 1;
        totals.found += u64::from(!same);
    }
}

/// What the trace has, and how often each answer came.
fn show_sizes(trace: &[Item], telling: Telling, outcomes: &[Outcome], order: &[usize]) -> Counts {
    let mut counts = [0; ANSWERS];
    for outcome in outcomes {
        counts[usize::from(outcome.answer.number)] += 1;
    }
    print!(
        "  told {}: {} items, stretches {}, takings {}, moved {}",
        telling.name(),
        trace.len(),
        outcomes.iter().filter(|outcome| outcome.decides()).count(),
        trace.iter().filter(|item| item.is_taking()).count(),
        order
            .iter()
            .enumerate()
            .filter(|&(place, &k)| place != k)
            .count()
    );
    if order.len() != trace.len() {
        print!(", told only {}", order.len());
    }
    println!();
    show_counts(&counts);
    counts
}
