//! Courses of setpoint and actual.

use crate::plan::LARGEST_POWER;
use crate::random::Random;

/// As many pairs of setpoint and actual as asked for, of about the given size.
pub fn random(random: &mut Random, size: i64, count: usize) -> Vec<(i64, i64)> {
    let setpoints = setpoints(random, size, count);
    let actuals = actuals(random, size, &setpoints);
    setpoints.into_iter().zip(actuals).collect()
}

/// Powers about the last limits of both directions, positive first: what lies
/// above one falls to no contract. Each is held for a while, in some courses
/// from the first sample to the last, so that the channel lies there, too, and
/// sums come to half a kWh.
pub fn about_limits(random: &mut Random, limits: [i64; 2], count: usize) -> Vec<(i64, i64)> {
    let [positive, negative] = limits;
    let whole = random.once_in(4);
    let mut course: Vec<(i64, i64)> = Vec::with_capacity(count);
    while course.len() < count {
        let (sign, limit) = random.pick(&[(1, positive), (-1, negative)]);
        let setpoint = about(random, limit);
        let actual = match random.below(4) {
            0 => setpoint,
            1 => within_range(setpoint * random.between(90, 110) / 100),
            _ => about(random, limit),
        };
        let length = if whole {
            count
        } else {
            random.between(1, 200) as usize
        };
        let end = count.min(course.len() + length);
        course.resize(end, (sign * setpoint, sign * actual));
    }
    course
}

/// A power about a limit: at it, a little or far above it, or below.
fn about(random: &mut Random, limit: i64) -> i64 {
    let above = match random.below(6) {
        0 => random.between(-1, 1),
        1 => random.between(1, 8),
        2 => -random.between(0, limit),
        _ => random.between(1, limit.max(1_000)),
    };
    (limit + above).clamp(0, LARGEST_POWER)
}

fn within_range(power: i64) -> i64 {
    power.clamp(-LARGEST_POWER, LARGEST_POWER)
}

/// Pieces of different shapes one after the other. Their lengths are about
/// those of the windows, so that changes enter and leave them while the channel
/// still moves.
fn setpoints(random: &mut Random, size: i64, count: usize) -> Vec<i64> {
    let whole = random.once_in(4);
    let one_sided = random.once_in(3);
    let mut course: Vec<i64> = Vec::with_capacity(count);
    while course.len() < count {
        let from = course.last().copied().unwrap_or(0);
        let low = if one_sided { 0 } else { -size };
        let level = random.between(low, size);
        let length = if whole {
            count as i64
        } else {
            random.pick(&[1, 7, 31, 75, 301, 400])
        };
        let length = random.between(length / 2 + 1, length + 1);
        let shape = random.below(9);
        let noise = size / random.pick(&[2, 20, 200]) + 1;
        let period = random.between(2, 200);
        for step in 0..length.min((count - course.len()) as i64) {
            course.push(within_range(match shape {
                // Flat.
                0 | 1 => level,
                // A ramp to the level.
                2 | 3 => from + (level - from) * (step + 1) / length,
                // Steps up and down.
                4 => {
                    if step / period % 2 == 0 {
                        level
                    } else {
                        from
                    }
                }
                // Noise around the level.
                5 => level + random.between(-noise, noise),
                // Through zero and back.
                6 => {
                    if step / period % 2 == 0 {
                        level
                    } else {
                        -level
                    }
                }
                // Single spikes.
                7 => {
                    if step % period == 0 {
                        size
                    } else {
                        level
                    }
                }
                // A walk.
                _ => course.last().copied().unwrap_or(level) + random.between(-noise, noise),
            }));
        }
    }
    // The ends of the range, in about one course of twenty.
    if random.once_in(20) {
        for setpoint in &mut course {
            if random.once_in(3) {
                *setpoint = random.pick(&[-LARGEST_POWER, LARGEST_POWER]);
            }
        }
    }
    course
}

fn actuals(random: &mut Random, size: i64, setpoints: &[i64]) -> Vec<i64> {
    let mut actuals: Vec<i64> = Vec::with_capacity(setpoints.len());
    while actuals.len() < setpoints.len() {
        let style = random.below(12);
        let length = random
            .between(1, 600)
            .min((setpoints.len() - actuals.len()) as i64);
        let lag = random.between(1, 60) as usize;
        let percent = random.between(85, 115);
        let noise = size / random.pick(&[5, 50, 500]) + 1;
        for _ in 0..length {
            let place = actuals.len();
            let setpoint = setpoints[place];
            actuals.push(within_range(match style {
                // Exactly as asked.
                0 => setpoint,
                // Late.
                1 | 2 => setpoints[place.saturating_sub(lag)],
                // Late, and too much or too little.
                3 => setpoints[place.saturating_sub(lag)] * percent / 100,
                4 | 5 => setpoint * percent / 100,
                // About the ends of the tolerance.
                6 => setpoint * 21 / 20 + random.between(-1, 1),
                7 => setpoint * 19 / 20 + random.between(-1, 1),
                // Around the setpoint.
                8 => setpoint + random.between(-noise, noise),
                // The other way.
                9 => -setpoint,
                // Nothing.
                10 => 0,
                // Anything.
                _ => random.pick(&[-LARGEST_POWER, -size, -1, 0, 1, size, LARGEST_POWER]),
            }));
        }
    }
    actuals
}
