//! A sound carry block: the past that a run begins with.

use crate::plan::LARGEST_POWER;
use crate::random::Random;

pub const UNITS_PER_KW: i64 = 5_400;
/// Of both bounds in units, under either sign.
pub const LARGEST_BOUND: i64 = LARGEST_POWER * UNITS_PER_KW;

#[derive(Clone)]
pub struct Block {
    /// In units.
    pub oga: i64,
    pub uga: i64,
    /// In kW, oldest first.
    pub setpoints: Vec<i64>,
}

/// How many setpoints a block has at an interval of 1, 3 or 4 seconds.
pub fn length(interval: i64) -> usize {
    match interval {
        1 => 301,
        3 => 100,
        _ => 75,
    }
}

/// How many setpoints of the past the near window of the first sample has.
fn near_ages(interval: i64) -> usize {
    match interval {
        1 => 31,
        3 => 10,
        _ => 7,
    }
}

/// The ages, in samples, at which the windows begin and end, and those beside
/// them: a setpoint there is seen by one window and not by the other, or no
/// longer.
fn ages_of_windows(interval: i64) -> [usize; 10] {
    match interval {
        1 => [1, 2, 30, 31, 32, 33, 299, 300, 301, 150],
        3 => [1, 2, 9, 10, 11, 12, 98, 99, 100, 50],
        _ => [1, 2, 6, 7, 8, 9, 73, 74, 75, 40],
    }
}

impl Block {
    /// A block for a run that is about as large as the given power, in kW. Its
    /// setpoints are those that led up to the run, or others.
    pub fn random(random: &mut Random, interval: i64, size: i64, led_up: Vec<i64>) -> Block {
        let mut setpoints = led_up;
        let newest = setpoints.last().copied().unwrap_or(0);
        match random.below(8) {
            0 => setpoints.fill(newest),
            1 | 2 => {
                setpoints.fill(newest);
                put_spikes(random, interval, size, &mut setpoints);
            }
            3 => put_spikes(random, interval, size, &mut setpoints),
            4 => setpoints
                .iter_mut()
                .for_each(|setpoint| *setpoint = random.between(-size, size)),
            _ => {}
        }
        let oga = bound_beyond(random, interval, size, &setpoints, 1);
        let uga = bound_beyond(random, interval, size, &setpoints, -1);
        Block {
            oga,
            uga,
            setpoints,
        }
    }

    /// The lines without their LF.
    pub fn lines(&self) -> Vec<Vec<u8>> {
        let mut lines = vec![format!("O\t{}\t{}", self.oga, self.uga).into_bytes()];
        let setpoints = self.setpoints.iter();
        lines.extend(setpoints.map(|setpoint| format!("B\t{setpoint}").into_bytes()));
        lines
    }
}

/// Single setpoints of another size, at the ages that the windows end at.
pub fn put_spikes(random: &mut Random, interval: i64, size: i64, setpoints: &mut [i64]) {
    for _ in 0..random.pick(&[1, 1, 2, 4]) {
        let age = random.pick(&ages_of_windows(interval));
        let place = setpoints.len() - age;
        setpoints[place] = random.pick(&[-LARGEST_POWER, -size, 0, size, LARGEST_POWER]);
    }
}

/// A bound at or beyond the newest setpoint, above (1) or below it (-1): where
/// it was in a run at rest, where the near window leaves it, on its way back
/// from an older setpoint, or anywhere in its range.
fn bound_beyond(
    random: &mut Random,
    interval: i64,
    size: i64,
    setpoints: &[i64],
    sign: i64,
) -> i64 {
    let newest = sign * setpoints.last().copied().unwrap_or(0);
    let near = setpoints.iter().rev().take(near_ages(interval));
    let farthest = near.map(|setpoint| sign * setpoint).max();
    let bound = match random.below(8) {
        0 | 1 => newest * UNITS_PER_KW,
        2 => farthest.unwrap_or(newest) * UNITS_PER_KW,
        3 => newest * UNITS_PER_KW + random.between(0, 2),
        4 | 5 => newest * UNITS_PER_KW + random.between(0, 2 * size * UNITS_PER_KW),
        6 => random.between(newest * UNITS_PER_KW, LARGEST_BOUND),
        _ => LARGEST_BOUND - random.between(0, 1),
    };
    sign * bound.clamp(newest * UNITS_PER_KW, LARGEST_BOUND)
}

#[cfg(test)]
mod tests {
    use super::*;

    #[test]
    fn a_block_is_sound() {
        for seed in 0..3_000 {
            let mut random = Random::new(seed);
            let interval = random.pick(&[1, 3, 4]);
            let size = random.pick(&[2, 1_000, LARGEST_POWER]);
            let led_up = (0..length(interval)).map(|_| random.between(-size, size));
            let led_up = led_up.collect();
            let block = Block::random(&mut random, interval, size, led_up);
            assert_eq!(block.setpoints.len(), length(interval));
            let powers = -LARGEST_POWER..=LARGEST_POWER;
            assert!(block.setpoints.iter().all(|power| powers.contains(power)));
            let newest = block.setpoints[length(interval) - 1] * UNITS_PER_KW;
            assert!((-LARGEST_BOUND..=newest).contains(&block.uga));
            assert!((newest..=LARGEST_BOUND).contains(&block.oga));
        }
    }
}
