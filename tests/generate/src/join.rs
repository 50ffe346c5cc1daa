//! A run that is cut in two at a quarter hour: the test of joins settles the
//! parts one after the other, the second with the carry block that the first
//! printed, and compares with the run over both.

use crate::block;
use crate::plan::{self, Plan, LARGEST_POWER};
use crate::random::Random;

/// The inputs of a seed by their names.
pub fn part(seed: u64, name: &str) -> Option<Vec<Vec<u8>>> {
    let [first, second, both] = parts(seed);
    match name {
        "first" => Some(first.lines()),
        "second" => Some(second.lines()),
        "both" => Some(both.lines()),
        _ => None,
    }
}

/// The first part, the second one without a block, and both in one. The first
/// may begin with a block itself, and so may both in one. All have the same
/// contracts, lot and interval.
fn parts(seed: u64) -> [Plan; 3] {
    let mut random = Random::new(seed);
    let quarter_hours = match random.below(150) {
        0 => 100,
        1 => random.between(11, 99),
        2..=5 => random.between(5, 10),
        6..=60 => random.between(3, 4),
        _ => 2,
    };
    let mut header = plan::header(&mut random);
    header.quarter_hours = quarter_hours;
    let mut both = Plan::with_header(&mut random, header);
    let cut = random.between(1, quarter_hours - 1);
    let samples = (cut * 900 / both.header.interval) as usize;
    if random.once_in(3) {
        show_cut(&mut random, &mut both, samples);
    }

    let mut first = both.clone();
    first.header.quarter_hours = cut;
    first.samples.truncate(samples);
    let mut second = both.clone();
    second.header.quarter_hours -= cut;
    second.header.date = plan::date(&mut random);
    // The same lot in other words.
    if second.header.lot == b"-" && random.once_in(2) {
        second.header.lot = b"5000".to_vec();
    }
    second.block = None;
    second.samples.drain(..samples);
    [first, second, both]
}

/// Lets few setpoints before the cut stand out, at the ages at which the windows
/// end and at others, and shows after it what they did to the bounds.
fn show_cut(random: &mut Random, plan: &mut Plan, cut: usize) {
    let interval = plan.header.interval;
    let level = plan.samples[cut - 1].0;
    let mut past = vec![level; block::length(interval)];
    for _ in 0..2 {
        let any = random.below(past.len());
        past[any] = random.between(-LARGEST_POWER, LARGEST_POWER);
        block::put_spikes(random, interval, LARGEST_POWER / 2, &mut past);
    }
    let first = cut - past.len();
    for (sample, setpoint) in plan.samples[first..cut].iter_mut().zip(&past) {
        sample.0 = *setpoint;
    }
    let newest = plan.samples[cut - 1].0;
    plan.show_past(random, cut, newest);
}

#[cfg(test)]
mod tests {
    use super::*;

    #[test]
    fn the_parts_are_the_whole() {
        for seed in 0..500 {
            let [first, second, both] = parts(seed);
            let quarter_hours = first.header.quarter_hours + second.header.quarter_hours;
            assert_eq!(quarter_hours, both.header.quarter_hours);
            assert!((2..=100).contains(&quarter_hours));
            assert!(first.header.quarter_hours > 0 && second.header.quarter_hours > 0);
            assert_eq!([first.samples, second.samples].concat(), both.samples);
            assert!(second.block.is_none());
            assert_eq!(first.block.is_some(), both.block.is_some());
        }
    }
}
