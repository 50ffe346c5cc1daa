//! The acceptance channel and the tolerance range around it.

use std::ops::RangeInclusive;

use crate::amounts::{Power, UNITS_PER_KW};

/// The time from one sample to the next.
#[derive(Clone, Copy, Debug, PartialEq, Eq)]
pub enum Interval {
    One,
    Three,
    Four,
}

impl Interval {
    pub fn from_seconds(seconds: i32) -> Option<Interval> {
        match seconds {
            1 => Some(Interval::One),
            3 => Some(Interval::Three),
            4 => Some(Interval::Four),
            _ => None,
        }
    }

    pub fn seconds(self) -> i64 {
        match self {
            Interval::One => 1,
            Interval::Three => 3,
            Interval::Four => 4,
        }
    }

    pub fn samples_per_quarter_hour(self) -> usize {
        match self {
            Interval::One => 900,
            Interval::Three => 300,
            Interval::Four => 225,
        }
    }

    /// How many samples back the window reaches in which the setpoint need
    /// not be followed yet: 30 seconds to react and the current second.
    fn near_window(self) -> RangeInclusive<usize> {
        match self {
            Interval::One => 0..=31,
            Interval::Three => 0..=10,
            Interval::Four => 0..=7,
        }
    }

    /// How many samples back the window reaches over which the demanded
    /// change of power is measured. It stays clear of the last 30 seconds.
    fn spread_window(self) -> RangeInclusive<usize> {
        match self {
            Interval::One => 31..=301,
            Interval::Three => 11..=100,
            Interval::Four => 8..=75,
        }
    }

    /// How many setpoints before a sample its windows look at, so many a carry
    /// block has.
    pub fn past_setpoints(self) -> usize {
        *self.spread_window().end()
    }
}

/// What the channel has to know of the time before its first sample: a run
/// leaves it behind, and the one that follows may begin with it.
#[derive(Clone, Debug, PartialEq, Eq)]
pub struct Carry {
    /// The bounds at the last sample.
    pub oga: Power,
    pub uga: Power,
    /// In kW, oldest first, as many as the windows look back at.
    pub setpoints: Vec<i32>,
}

/// The bounds that hold at one sample, with the paper's names.
#[derive(Clone, Copy, Debug, PartialEq, Eq)]
pub struct Bounds {
    /// Upper bound of the acceptance channel.
    pub oga: Power,
    /// Lower bound of the acceptance channel.
    pub uga: Power,
    /// Upper bound of channel and tolerance together.
    pub ogt: Power,
    /// Lower bound of channel and tolerance together.
    pub ugt: Power,
}

/// Follows the setpoints of one run.
#[derive(Clone, Debug)]
pub struct Channel {
    interval: Interval,
    /// Minimum lot in kW, the least change the gradient reckons with.
    lot: i32,
    /// All setpoints so far in kW, after a lead-in as long as the spread
    /// window reaches back. A run has at most 90,000, so all are kept and
    /// each window is one stretch of the list.
    setpoints: Vec<i32>,
    oga: Power,
    uga: Power,
}

impl Channel {
    pub fn new(interval: Interval, lot: i32) -> Channel {
        Channel {
            interval,
            lot,
            setpoints: Vec::new(),
            oga: Power::ZERO,
            uga: Power::ZERO,
        }
    }

    /// Begins with the past that another run left behind. No setpoint has been
    /// taken yet.
    pub fn resume(&mut self, carry: Carry) {
        debug_assert!(self.setpoints.is_empty());
        debug_assert_eq!(carry.setpoints.len(), self.interval.past_setpoints());
        self.setpoints = carry.setpoints;
        self.oga = carry.oga;
        self.uga = carry.uga;
    }

    /// What it leaves behind. A setpoint has been taken.
    pub fn carry(&self) -> Carry {
        let oldest = self.setpoints.len() - self.interval.past_setpoints();
        Carry {
            oga: self.oga,
            uga: self.uga,
            setpoints: self.setpoints[oldest..].to_vec(),
        }
    }

    /// Takes the next setpoint, in kW, and gives the bounds at that sample.
    pub fn follow(&mut self, setpoint: i32) -> Bounds {
        if self.setpoints.is_empty() {
            self.start_at(setpoint);
        }
        self.setpoints.push(setpoint);

        let (smallest, largest) = extremes(self.window(self.interval.near_window()));
        let gradient = self.gradient();
        self.oga = Power::from_kw(largest).max(self.oga - gradient);
        self.uga = Power::from_kw(smallest).min(self.uga + gradient);
        with_tolerance(setpoint, self.oga, self.uga)
    }

    /// Where no past was carried, what lies before the first sample is taken
    /// to be equal to it.
    fn start_at(&mut self, setpoint: i32) {
        self.resume(Carry {
            oga: Power::from_kw(setpoint),
            uga: Power::from_kw(setpoint),
            setpoints: vec![setpoint; self.interval.past_setpoints()],
        });
    }

    /// By how much a bound may move from one sample to the next: the demanded
    /// change, or the lot if that is larger, within 270 seconds.
    fn gradient(&self) -> Power {
        let (smallest, largest) = extremes(self.window(self.interval.spread_window()));
        let change = i64::from(self.lot.max(largest - smallest));
        Power(UNITS_PER_KW / 270 * self.interval.seconds() * change)
    }

    /// The setpoints between two numbers of samples back, the newest being 0.
    fn window(&self, back: RangeInclusive<usize>) -> &[i32] {
        let newest = self.setpoints.len() - 1;
        &self.setpoints[newest - back.end()..=newest - back.start()]
    }
}

/// The smallest and the largest setpoint of a window.
fn extremes(window: &[i32]) -> (i32, i32) {
    let smallest = window.iter().copied().min();
    let largest = window.iter().copied().max();
    smallest.zip(largest).expect("a window is never empty")
}

/// Puts the tolerance of a twentieth of the setpoint around the channel,
/// where the channel does not cover it already. The sign that is asked for is
/// that of the channel bound and not that of the setpoint.
fn with_tolerance(setpoint: i32, oga: Power, uga: Power) -> Bounds {
    let twentieths = |count: i64| Power(i64::from(setpoint) * (UNITS_PER_KW / 20) * count);
    let ogt = if oga >= Power::ZERO {
        twentieths(21)
    } else {
        twentieths(19)
    }
    .max(oga);
    let ugt = if uga >= Power::ZERO {
        twentieths(19)
    } else {
        twentieths(21)
    }
    .min(uga);
    Bounds { oga, uga, ogt, ugt }
}

/// The UGA, with the second it holds at, of a setpoint that is 0 to second 99
/// and `step` kW from then on, at the asked seconds. Interval 1, lot 5,000.
pub fn uga_after_step(step: i32, seconds: &[usize]) -> Vec<(usize, Power)> {
    let mut channel = Channel::new(Interval::One, 5_000);
    let last = seconds.iter().copied().max().unwrap_or(0);
    (0..=last)
        .map(|second| {
            (
                second,
                channel.follow(if second < 100 { 0 } else { step }).uga,
            )
        })
        .filter(|(second, _)| seconds.contains(second))
        .collect()
}

#[cfg(test)]
mod tests {
    use super::*;

    #[test]
    fn the_large_step_takes_300_seconds() {
        let kw = |kw| Power::from_kw(kw);
        assert_eq!(
            uga_after_step(27_000, &[130, 131, 399, 400]),
            [
                (130, kw(0)),
                (131, kw(100)),
                (399, kw(26_900)),
                (400, kw(27_000))
            ]
        );
    }

    #[test]
    fn the_small_step_follows_the_lot() {
        assert_eq!(
            uga_after_step(2_700, &[275, 276]),
            [(275, Power(14_500_000)), (276, Power(14_580_000))]
        );
    }

    #[test]
    fn the_channel_starts_closed() {
        for interval in [Interval::One, Interval::Three, Interval::Four] {
            for setpoint in [-2_000_000, -1, 0, 1, 2_000_000] {
                let bounds = Channel::new(interval, 1).follow(setpoint);
                assert_eq!(bounds.oga, Power::from_kw(setpoint));
                assert_eq!(bounds.uga, Power::from_kw(setpoint));
            }
        }
    }

    /// After a step up from 0, the first sample at which UGA has left 0,
    /// counted from the step.
    fn samples_until_uga_moves(interval: Interval) -> usize {
        let mut channel = Channel::new(interval, 5_000);
        for _ in 0..400 {
            channel.follow(0);
        }
        (0..)
            .find(|_| channel.follow(10_000).uga > Power::ZERO)
            .unwrap()
    }

    #[test]
    fn the_near_window_has_its_length_in_every_interval() {
        assert_eq!(samples_until_uga_moves(Interval::One), 31);
        assert_eq!(samples_until_uga_moves(Interval::Three), 10);
        assert_eq!(samples_until_uga_moves(Interval::Four), 7);
    }

    /// A spike of one sample: at which samples after it the spread sees it.
    fn samples_that_see_a_spike(interval: Interval) -> Vec<usize> {
        let mut channel = Channel::new(interval, 1);
        for _ in 0..400 {
            channel.follow(0);
        }
        channel.follow(1_000);
        (1..400)
            .filter(|_| {
                channel.follow(0);
                channel.gradient() == Power(20 * interval.seconds() * 1_000)
            })
            .collect()
    }

    #[test]
    fn the_spread_window_has_its_ends_in_every_interval() {
        let seen = |interval| samples_that_see_a_spike(interval);
        assert_eq!(seen(Interval::One), (31..=301).collect::<Vec<_>>());
        assert_eq!(seen(Interval::Three), (11..=100).collect::<Vec<_>>());
        assert_eq!(seen(Interval::Four), (8..=75).collect::<Vec<_>>());
    }

    const INTERVALS: [Interval; 3] = [Interval::One, Interval::Three, Interval::Four];

    #[test]
    fn the_past_has_as_many_setpoints_as_the_windows_reach_back() {
        assert_eq!(INTERVALS.map(Interval::past_setpoints), [301, 100, 75]);
    }

    /// Setpoints that change often and far, the same for the same place.
    fn restless(place: usize) -> i32 {
        let steps = [0, 40_000, -3_000, 7, 2_000_000, -2_000_000, 12_000, -1];
        steps[place / 13 * 5 % 8]
            + (place * place % 17) as i32 * if place / 90 % 2 == 0 { 1 } else { -1 }
    }

    #[test]
    fn a_carried_channel_goes_on_as_the_one_it_comes_from() {
        for interval in INTERVALS {
            for cut in [1, 2, 30, 75, 76, 100, 101, 301, 302, 900] {
                let mut whole = Channel::new(interval, 3_000);
                for place in 0..cut {
                    whole.follow(restless(place).clamp(-2_000_000, 2_000_000));
                }
                let mut second = Channel::new(interval, 3_000);
                second.resume(whole.carry());
                for place in cut..cut + 1_000 {
                    let setpoint = restless(place).clamp(-2_000_000, 2_000_000);
                    assert_eq!(second.follow(setpoint), whole.follow(setpoint));
                }
                assert_eq!(second.carry(), whole.carry());
            }
        }
    }

    /// A past of zeros with one setpoint of 1,000 kW at an age, from 1 on.
    fn past_with_spike(interval: Interval, age: usize, oga: i64, uga: i64) -> Carry {
        let mut setpoints = vec![0; interval.past_setpoints()];
        let place = setpoints.len() - age;
        setpoints[place] = 1_000;
        Carry {
            oga: Power(oga),
            uga: Power(uga),
            setpoints,
        }
    }

    #[test]
    fn the_windows_look_back_into_the_carried_setpoints() {
        for interval in INTERVALS {
            let ages = 1..=interval.past_setpoints();
            let first = |age, oga| {
                let mut channel = Channel::new(interval, 1);
                channel.resume(past_with_spike(interval, age, oga, 0));
                let bounds = channel.follow(0);
                (bounds.oga, channel.gradient())
            };
            let near = |age: &usize| first(*age, 0).0 == Power::from_kw(1_000);
            let spread = |age: &usize| first(*age, 0).1 == Power(20 * interval.seconds() * 1_000);
            let last_near = *interval.near_window().end();
            assert!(ages.clone().filter(near).eq(1..=last_near));
            assert!(ages.clone().filter(spread).eq(interval.spread_window()));
            // The gradient is taken from the carried bound.
            let oldest = interval.past_setpoints();
            let gradient = 20 * interval.seconds() * 1_000;
            assert_eq!(first(oldest, 9_000_000).0, Power(9_000_000 - gradient));
        }
    }

    #[test]
    fn the_tolerance_asks_for_the_sign_of_the_channel() {
        let kw = |kw| Power::from_kw(kw);
        let up = with_tolerance(1_000, kw(1_000), kw(1_000));
        assert_eq!((up.ogt, up.ugt), (kw(1_050), kw(950)));
        let down = with_tolerance(-1_000, kw(-1_000), kw(-1_000));
        assert_eq!((down.ogt, down.ugt), (kw(-950), kw(-1_050)));
        // The setpoint has crossed zero, the upper bound has not come after it.
        let crossed = with_tolerance(-1_000, kw(200), kw(-1_000));
        assert_eq!((crossed.ogt, crossed.ugt), (kw(200), kw(-1_050)));
        // Here the lower bound is the one left behind, and covers the tolerance.
        let covered = with_tolerance(1_000, kw(1_000), kw(-200));
        assert_eq!((covered.ogt, covered.ugt), (kw(1_050), kw(-200)));
    }
}
