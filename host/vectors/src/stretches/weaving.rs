//! The queues woven by dice: every queue keeps its order, and the dice say which one moves.

use super::items::{Item, QUEUES};
use std::collections::VecDeque;

/// Dice that can be thrown again from the same start.
pub struct Dice(pub u64);

impl Dice {
    /// A number of 21 bits; the lowest ones, which repeat soon, are left out.
    pub fn throw(&mut self) -> usize {
        const END: u64 = 1 << 31;
        self.0 = (self.0 % END * 1_103_515_245 + 12_345) % END;
        (self.0 >> 10) as usize
    }
}

/// The items woven: the last queue moves again `most` - 1 times of `most`, else that of some item that
/// is left.
pub fn woven(items: &[Item], most: usize, dice: &mut Dice) -> Vec<Item> {
    let n = items.len();
    let mut queues: [VecDeque<usize>; QUEUES] = Default::default();
    for (i, item) in items.iter().enumerate() {
        queues[item.queue()].push_back(i);
    }
    let mut left = vec![true; n];
    let mut queue = 0;
    let mut trace = Vec::with_capacity(n);
    while trace.len() < n {
        let throw = dice.throw();
        let again = !queues[queue].is_empty() && (throw >> 5) % most != 0;
        if !again {
            let from = throw % n;
            let some = (from..n).chain(0..from).find(|&i| left[i]);
            queue = items[some.expect("an item is left")].queue();
        }
        let next = queues[queue].pop_front().expect("the queue has an item");
        left[next] = false;
        trace.push(items[next]);
    }
    trace
}
