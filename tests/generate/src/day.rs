//! One whole day as a pool might run it: 96 quarter hours, with the interval,
//! the contracts a direction and the shape that are asked for.

use crate::random::Random;

const SECONDS: usize = 86_400;
/// How long the pool takes to answer a change, in seconds.
const LAG: usize = 20;
const MONTHS: [usize; 12] = [31, 28, 31, 30, 31, 30, 31, 31, 30, 31, 30, 31];

/// How the setpoint goes through a day: it moves towards a target, holds it,
/// and then moves towards another one. Powers are in kW.
pub struct Shape {
    pub name: &'static str,
    /// How far from zero a target may lie, one of these each time.
    reaches: &'static [i64],
    /// The least and the most by which the setpoint moves in four seconds.
    rates: (i64, i64),
    /// The least and the most seconds from one target to the next.
    holds: (i64, i64),
    /// By how much a measured power is off.
    noise: i64,
}

/// The first is that of a day of which no shape is said.
pub const SHAPES: [Shape; 3] = [
    // Calls come in waves around zero, seldom the whole pool.
    Shape {
        name: "walk",
        reaches: &[5_000, 20_000, 20_000, 50_000, 90_000],
        rates: (50, 1_500),
        holds: (20, 900),
        noise: 150,
    },
    // Nothing or little is asked for, for hours.
    Shape {
        name: "calm",
        reaches: &[0, 0, 500, 2_000],
        rates: (1, 20),
        holds: (900, 7_200),
        noise: 20,
    },
    // Most of the pool at once, one way and then the other.
    Shape {
        name: "steps",
        reaches: &[50_000, 90_000],
        rates: (200_000, 200_000),
        holds: (60, 600),
        noise: 150,
    },
];

/// The day of a shape: 2017-02-20, or another one of 2017 by its number from 1
/// on, each with samples and contracts of its own.
pub fn write(interval: usize, contracts: i64, shape: &Shape, number: Option<usize>) -> Vec<u8> {
    let mut random =
        Random::new(number.map_or(20_170_220, |number| 20_170_000_000 + number as u64));
    let date = number.map_or("2017-02-20".to_string(), date_of);
    let mut text = format!("D\t{date}\t{interval}\t-\t96\n");
    for (direction, letter) in [("P", 'A'), ("N", 'B')] {
        let mut price = if direction == "P" { 4_150 } else { -1_980 };
        for number in 1..=contracts {
            // Some 80 MW a direction, in as many parts as there are contracts.
            let award = 8 * random.between(5_000, 15_000) / contracts;
            text += &format!("C\t{direction}\tSRL-{letter}{number}\t{award}\t{price}\n");
            price += random.between(50, 2_500);
        }
    }

    let mut setpoints: Vec<i64> = Vec::with_capacity(SECONDS);
    let mut actual = 0;
    let (mut target, mut rate, mut until) = (0, 100, 0);
    let mut setpoint: i64 = 0;
    let mut percent = 100;
    for second in 0..SECONDS {
        if second == until {
            let reach = random.pick(shape.reaches);
            target = random.between(-reach, reach);
            rate = random.between(shape.rates.0, shape.rates.1);
            until += random.between(shape.holds.0, shape.holds.1) as usize;
            // Mostly well delivered, at times too much, seldom far too little.
            percent = random.pick(&[100, 100, 99, 98, 97, 102, 103, 104, 80]);
        }
        // The control sends a new value every four seconds.
        if second % 4 == 0 {
            setpoint += (target - setpoint).clamp(-rate, rate);
        }
        setpoints.push(setpoint);
        let followed = setpoints[second.saturating_sub(LAG)];
        actual += (followed - actual) / 12;
        let measured = actual * percent / 100 + random.between(-shape.noise, shape.noise);
        if second % interval == 0 {
            text += &format!("S\t{setpoint}\t{measured}\n");
        }
    }
    text += "E\n";
    text.into_bytes()
}

/// The date of a day of 2017, by its number from 1 on.
fn date_of(number: usize) -> String {
    let (mut month, mut day) = (1, number);
    for length in MONTHS {
        if day <= length {
            break;
        }
        day -= length;
        month += 1;
    }
    format!("2017-{month:02}-{day:02}")
}

#[cfg(test)]
mod tests {
    use super::*;

    #[test]
    fn the_days_of_a_year_have_their_dates() {
        let dates = [1, 31, 32, 59, 60, 365].map(date_of);
        let wanted = ["01-01", "01-31", "02-01", "02-28", "03-01", "12-31"];
        assert_eq!(dates, wanted.map(|day| format!("2017-{day}")));
    }

    fn setpoints(shape: &Shape, number: Option<usize>) -> Vec<i64> {
        let text = String::from_utf8(write(1, 1, shape, number)).unwrap();
        let samples = text.lines().filter(|line| line.starts_with('S'));
        samples
            .map(|line| line.split('\t').nth(1).unwrap().parse().unwrap())
            .collect()
    }

    /// The farthest from zero, and the largest change from one sample to the next.
    fn extent(setpoints: &[i64]) -> (i64, i64) {
        let farthest = setpoints.iter().map(|setpoint| setpoint.abs()).max();
        let changes = setpoints.windows(2).map(|two| (two[1] - two[0]).abs());
        (farthest.unwrap(), changes.max().unwrap())
    }

    #[test]
    fn the_shapes_are_what_they_are_called() {
        let [walk, calm, steps] = SHAPES.map(|shape| extent(&setpoints(&shape, None)));
        assert!(
            walk.0 > 50_000 && (500..=1_500).contains(&walk.1),
            "{walk:?}"
        );
        assert!(calm.0 <= 2_000 && calm.1 <= 20, "{calm:?}");
        assert!(steps.0 > 80_000 && steps.1 > 100_000, "{steps:?}");
    }

    #[test]
    fn no_two_days_of_a_year_are_the_same() {
        let [first, second] = [1, 2].map(|number| setpoints(&SHAPES[0], Some(number)));
        assert_ne!(first, second);
    }
}
