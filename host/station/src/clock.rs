//! A clock that goes on while no station runs, so that the lines are told the time in between.

use nix::time::{clock_gettime, ClockId};
use serde::{Deserialize, Serialize};
use std::fs;
use std::time::Duration;

/// Which start of the machine this is.
#[derive(Clone, Debug)]
pub struct Clock {
    boot: String,
}

/// A moment of that clock: milliseconds since the machine was started, and which start that was.
#[derive(Clone, Debug, PartialEq, Serialize, Deserialize)]
pub struct Stamp {
    boot: String,
    milliseconds: u64,
}

impl Clock {
    pub fn read() -> Clock {
        let boot = fs::read_to_string("/proc/sys/kernel/random/boot_id").unwrap_or_default();
        Clock {
            boot: boot.trim().to_string(),
        }
    }

    pub fn now(&self) -> Stamp {
        self.ago(Duration::ZERO)
    }

    /// The moment so long ago.
    pub fn ago(&self, time: Duration) -> Stamp {
        let now: u64 = clock_gettime(ClockId::CLOCK_BOOTTIME).map_or(0, |time| {
            time.tv_sec() as u64 * 1_000 + time.tv_nsec() as u64 / 1_000_000
        });
        Stamp {
            boot: self.boot.clone(),
            milliseconds: now.saturating_sub(time.as_millis() as u64),
        }
    }

    /// The time since a moment. Over another start of the machine nobody knows.
    pub fn since(&self, stamp: &Stamp) -> Option<Duration> {
        let now = self.now();
        let passed = now.milliseconds.saturating_sub(stamp.milliseconds);
        (now.boot == stamp.boot).then(|| Duration::from_millis(passed))
    }
}

#[cfg(test)]
mod tests {
    use super::*;

    #[test]
    fn time_of_one_start_of_the_machine() {
        let clock = Clock::read();
        assert!(!clock.boot.is_empty());
        let ago = Duration::from_millis(2_500);
        let mut stamp = clock.ago(ago);
        let since = clock.since(&stamp).expect("the same start");
        assert!((ago..2 * ago).contains(&since), "{:?}", since);
        stamp.milliseconds += 1_000_000;
        assert_eq!(clock.since(&stamp), Some(Duration::ZERO));
        stamp.milliseconds = 0;
        assert!(clock.since(&stamp) > Some(ago));
        stamp.boot.push('x');
        assert_eq!(clock.since(&stamp), None);
    }
}
