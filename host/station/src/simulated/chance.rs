//! Chances by a seed, and the noise on a cable.

use std::time::Duration;

/// A sequence of chances. The same seed gives the same sequence.
#[derive(Clone, Debug)]
pub struct Chance {
    state: u64,
}

impl Chance {
    pub fn seeded(seed: u64) -> Chance {
        Chance { state: seed }
    }

    /// 0 to `count` - 1, the next of the sequence.
    pub fn below(&mut self, count: u32) -> u32 {
        // The generator splitmix64; its high half is scaled.
        self.state = self.state.wrapping_add(0x9E37_79B9_7F4A_7C15);
        let mut mixed = self.state;
        mixed = (mixed ^ (mixed >> 30)).wrapping_mul(0xBF58_476D_1CE4_E5B9);
        mixed = (mixed ^ (mixed >> 27)).wrapping_mul(0x94D0_49BB_1331_11EB);
        mixed ^= mixed >> 31;
        (((mixed >> 32) * u64::from(count)) >> 32) as u32
    }

    /// True once in so many times, and never where that is 0.
    pub fn one_in(&mut self, times: u32) -> bool {
        times > 0 && self.below(times) == 0
    }

    /// A time from `least` up to `most`.
    pub fn between(&mut self, least: Duration, most: Duration) -> Duration {
        let span = most.saturating_sub(least).as_millis() as u32;
        least + Duration::from_millis(self.below(span + 1).into())
    }
}

/// Spoils what goes over a cable: loses a byte, or turns one of its bits over.
#[derive(Clone, Debug)]
pub struct Noise {
    chance: Chance,
    bytes: u32,
    replies: u32,
}

impl Noise {
    /// Of the bytes that go out one in `bytes` is spoilt, of the replies one in `replies`, or none where that is 0.
    pub fn seeded(seed: u64, bytes: u32, replies: u32) -> Noise {
        let chance = Chance::seeded(seed);
        Noise {
            chance,
            bytes,
            replies,
        }
    }

    /// What is left of bytes that go out together. One of them is spoilt at most: two can cancel out in a frame's
    /// check, and then what is stored is not what was sent.
    pub fn carry(&mut self, bytes: &[u8]) -> Vec<u8> {
        let mut arrived = bytes.to_vec();
        let place = self.chance.below(self.bytes) as usize;
        if place < bytes.len() {
            match self.spoilt(bytes[place]) {
                Some(byte) => arrived[place] = byte,
                None => drop(arrived.remove(place)),
            }
        }
        arrived
    }

    /// What is left of a reply.
    pub fn reply(&mut self, byte: u8) -> Option<u8> {
        if self.chance.one_in(self.replies) {
            return self.spoilt(byte);
        }
        Some(byte)
    }

    fn spoilt(&mut self, byte: u8) -> Option<u8> {
        if self.chance.one_in(2) {
            return None;
        }
        Some(byte ^ (1 << self.chance.below(8)))
    }
}

#[cfg(test)]
mod tests {
    use super::*;

    #[test]
    fn a_seed_gives_one_sequence_and_all_chances_come() {
        let draw = |seed| {
            let mut chance = Chance::seeded(seed);
            (0..1_000).map(|_| chance.below(7)).collect::<Vec<u32>>()
        };
        assert_eq!(draw(1), draw(1));
        assert_ne!(draw(1), draw(2));
        for value in 0..7 {
            let times = draw(3).iter().filter(|drawn| **drawn == value).count();
            assert!(
                (90..=200).contains(&times),
                "{} came {} times",
                value,
                times
            );
        }
        let mut chance = Chance::seeded(4);
        let (least, most) = (Duration::from_millis(5), Duration::from_millis(9));
        assert!((0..100).all(|_| (least..=most).contains(&chance.between(least, most))));
    }

    #[test]
    fn noise_spoils_one_byte_at_most() {
        let mut noise = Noise::seeded(1, 500, 10);
        let sent = [0x41; 100];
        let mut counts = [0; 3];
        for _ in 0..1_000 {
            let arrived = noise.carry(&sent);
            let altered = arrived.iter().filter(|byte| **byte != 0x41).count();
            match (arrived.len(), altered) {
                (100, 0) => counts[0] += 1,
                (100, 1) => counts[1] += 1,
                (99, 0) => counts[2] += 1,
                other => panic!("{:?}", other),
            }
        }
        assert!(
            counts[0] > 700 && counts[1] > 50 && counts[2] > 50,
            "{:?}",
            counts
        );
        let replies = (0..1_000).filter(|_| noise.reply(6) == Some(6)).count();
        assert!((850..950).contains(&replies), "{}", replies);
    }
}
