//! Recordings as an archive holds them, for the program that mends them: lines
//! are missing, come twice or belong nowhere. Half of them can be mended; the
//! others have holes of about the length that is still filled, lines out of
//! order, and what else can be wrong with a text.

use crate::curves;
use crate::damage;
use crate::day;
use crate::plan::{self, Header, LARGEST_POWER};
use crate::random::Random;
use crate::written;

/// A hole of so many seconds is still filled.
const LONGEST_HOLE: i64 = 60;
const SECONDS_PER_QUARTER_HOUR: i64 = 900;
/// The largest number that a field may have.
const LARGEST_NUMBER: i64 = 999_999_999;

/// A line of the archive.
#[derive(Clone, Copy)]
struct Entry {
    second: i64,
    setpoint: i64,
    actual: i64,
}

struct Recording {
    header: Header,
    entries: Vec<Entry>,
}

/// The recording of a seed.
pub fn recording(seed: u64) -> Vec<u8> {
    let mut random = Random::new(seed);
    let mut recording = Recording::sound(&mut random);
    if random.once_in(2) {
        return written(&recording.lines());
    }

    // Mostly one fault, so that it is the one that is found.
    let faults = random.pick(&[1, 1, 1, 2, 3]);
    let kinds: Vec<usize> = (0..faults).map(|_| random.below(10)).collect();
    for _ in kinds.iter().filter(|kind| **kind < 7) {
        recording.spoil(&mut random);
    }
    let mut lines = recording.lines();
    for _ in kinds.iter().filter(|kind| (7..9).contains(*kind)) {
        if !lines.is_empty() {
            damage::spoil_lines(&mut random, &mut lines);
        }
    }
    let mut text = written(&lines);
    for _ in kinds.iter().filter(|kind| **kind == 9) {
        damage::spoil_bytes(&mut random, &mut text);
    }
    text
}

/// The day of `generate day 1 8` as an archive recorded it, without its
/// contracts: some forty holes, one of them over a quarter hour's edge and one
/// at the end, lines that come twice, and lines of the days before and after.
pub fn archive() -> Vec<u8> {
    let mut random = Random::new(20_170_220);
    let day = day::write(1, 8, &day::SHAPES[0], None);
    let mut lines = day.split(|&byte| byte == b'\n');
    let mut text = lines.next().unwrap_or_default().to_vec();
    let samples: Vec<&[u8]> = lines.filter_map(|line| line.strip_prefix(b"S")).collect();

    let mut missing = Missing::none(1, samples.len());
    for length in [1; 12].into_iter().chain([2, 3, 4, 5, 8, 60]) {
        missing.add(&mut random, Place::Anywhere, length);
    }
    for _ in 0..20 {
        let length = random.between(1, LONGEST_HOLE) as usize;
        missing.add(&mut random, Place::Anywhere, length);
    }
    missing.add(&mut random, Place::OverAnEdge, 47);
    missing.add(&mut random, Place::AtTheEnd, 9);

    let mut record = |second: i64, powers: &[u8]| {
        text.extend(format!("\nG\t{second}").bytes());
        text.extend(powers);
    };
    for second in -3..0 {
        record(second, samples[0]);
    }
    for second in 0..samples.len() {
        let times = match (missing.at(second), random.below(2_000)) {
            (true, _) => 0,
            (_, 0) => 2,
            (_, 1) => 3,
            _ => 1,
        };
        for again in 0..times {
            // What comes again need not say the same.
            record(second as i64, samples[second.saturating_sub(again)]);
        }
    }
    let end = samples.len() as i64;
    for second in end..end + 3 {
        record(second, samples[samples.len() - 1]);
    }
    text.extend(b"\nE\n");
    text
}

/// Where a hole lies.
#[derive(Clone, Copy)]
enum Place {
    /// From the first sample on, which can't be filled.
    AtTheStart,
    AfterTheFirst,
    OverAnEdge,
    AtTheEnd,
    Anywhere,
}

/// Which samples of a stretch are missing.
struct Missing {
    interval: i64,
    samples: Vec<bool>,
}

impl Missing {
    fn none(interval: i64, count: usize) -> Missing {
        Missing {
            interval,
            samples: vec![false; count],
        }
    }

    fn at(&self, sample: usize) -> bool {
        self.samples[sample]
    }

    /// Makes a hole of so many samples, unless it would reach another one.
    fn add(&mut self, random: &mut Random, place: Place, length: usize) {
        let first = start_of_hole(random, place, self.interval, self.samples.len(), length);
        let end = first + length;
        let beside = first.saturating_sub(1)..(end + 1).min(self.samples.len());
        if end <= self.samples.len() && !self.samples[beside].contains(&true) {
            self.samples[first..end].fill(true);
        }
    }
}

/// The first sample of a hole.
fn start_of_hole(
    random: &mut Random,
    place: Place,
    interval: i64,
    count: usize,
    length: usize,
) -> usize {
    let length = length.min(count);
    let per_quarter_hour = (SECONDS_PER_QUARTER_HOUR / interval) as usize;
    match place {
        Place::AtTheStart => 0,
        Place::AfterTheFirst => 1,
        Place::OverAnEdge if count > per_quarter_hour => {
            let edge = per_quarter_hour * (1 + random.below(count / per_quarter_hour - 1));
            edge.saturating_sub(random.below(length + 1))
        }
        Place::AtTheEnd => count - length,
        Place::OverAnEdge | Place::Anywhere => 1 + random.below(count - length),
    }
}

impl Recording {
    fn sound(random: &mut Random) -> Recording {
        let mut header = plan::header(random);
        header.quarter_hours = match random.below(300) {
            0 => 100,
            1 => random.between(11, 99),
            2..=9 => random.between(4, 10),
            10..=49 => 3,
            50..=139 => 2,
            _ => 1,
        };
        let interval = header.interval;
        let count = (header.quarter_hours * SECONDS_PER_QUARTER_HOUR / interval) as usize;
        let size = random.pick(&[2, 100, 20_000, LARGEST_POWER]);
        let mut samples = curves::random(random, size, count);
        // Mostly each sample tells its place.
        if !random.once_in(3) {
            for (place, sample) in samples.iter_mut().enumerate() {
                sample.1 = place as i64 - 1_000;
            }
        }
        let missing = sound_holes(random, interval, count);
        let entries = (0..count)
            .filter(|place| !missing.at(*place))
            .map(|place| Entry {
                second: place as i64 * interval,
                setpoint: samples[place].0,
                actual: samples[place].1,
            })
            .collect();
        let mut recording = Recording { header, entries };
        recording.repeat_some(random);
        recording.put_dropped(random);
        // The sort leaves what comes again after what it repeats.
        recording.entries.sort_by_key(|entry| entry.second);
        recording
    }

    /// How many seconds the header asks for.
    fn seconds(&self) -> i64 {
        self.header.quarter_hours * SECONDS_PER_QUARTER_HOUR
    }

    /// Lines that come again, with the same powers or others.
    fn repeat_some(&mut self, random: &mut Random) {
        for _ in 0..random.pick(&[0, 0, 1, 2, 5]) {
            let mut again = self.entries[random.below(self.entries.len())];
            for _ in 0..random.pick(&[1, 1, 1, 2, 3]) {
                if random.once_in(2) {
                    again.setpoint = random.between(-1_000, 1_000);
                }
                self.entries.push(again);
            }
        }
    }

    /// Lines outside the stretch or between two samples.
    fn put_dropped(&mut self, random: &mut Random) {
        let interval = self.header.interval;
        let end = self.seconds();
        for _ in 0..random.pick(&[0, 0, 1, 3, 8]) {
            let second = match random.below(8) {
                0 => -random.pick(&[1, 1, interval, 900, LARGEST_NUMBER]),
                1 => end + random.pick(&[0, 0, 1, interval, 900, LARGEST_NUMBER - end]),
                _ if interval > 1 => {
                    interval * random.between(0, end / interval - 1)
                        + random.between(1, interval - 1)
                }
                _ => random.pick(&[-2, -1, end, end + 1]),
            };
            self.entries.push(Entry {
                second,
                setpoint: random.between(-LARGEST_POWER, LARGEST_POWER),
                actual: random.between(-9, 9),
            });
        }
    }

    /// Puts one fault into the lines of the archive, or what looks like one.
    fn spoil(&mut self, random: &mut Random) {
        if self.entries.is_empty() {
            return;
        }
        let place = random.below(self.entries.len());
        match random.below(14) {
            0..=3 => self.hole_about_the_longest(random),
            // Out of order by one.
            4 | 5 => {
                let next = (place + 1).min(self.entries.len() - 1);
                self.entries.swap(place, next);
            }
            // Once more, later.
            6 => {
                let later = place + random.below(self.entries.len() - place);
                let entry = self.entries[place];
                self.entries.insert(later + 1, entry);
            }
            7 => self.too_early(random, place),
            8 => {
                let by = random.pick(&[1, -1, self.header.interval, -self.header.interval]);
                self.entries[place].second += by;
            }
            9 => self.entries[place].second = any_second(random, self.seconds()),
            10 => {
                let entry = &mut self.entries[place];
                (entry.setpoint, entry.actual) = damage::spoilt_sample(random);
                // On a line that is refused or dropped anyway, too.
                if random.once_in(2) {
                    entry.second = any_second(random, self.header.quarter_hours * 900);
                }
            }
            11 => damage::spoil_header(random, &mut self.header),
            // More or fewer quarter hours than were recorded.
            12 => {
                let count = self.header.quarter_hours;
                self.header.quarter_hours = random.pick(&[count + 1, count - 1, 0, 101]);
            }
            _ => {
                let kept = random.pick(&[0, 0, 1, 2, place]);
                self.entries.truncate(kept);
            }
        }
    }

    /// A hole of about the longest that is filled, at a place that matters; what
    /// is dropped in it may stay.
    fn hole_about_the_longest(&mut self, random: &mut Random) {
        let interval = self.header.interval.max(1);
        let count = (self.seconds() / interval).max(0) as usize;
        let longest = LONGEST_HOLE / interval;
        let places = [
            Place::AtTheStart,
            Place::AfterTheFirst,
            Place::OverAnEdge,
            Place::AtTheEnd,
            Place::Anywhere,
        ];
        let place = random.pick(&places);
        let length = match (place, random.below(8)) {
            (Place::AtTheStart, 0..=3) => 1,
            (_, 0) => random.between(1, 200),
            _ => random.between(longest - 2, longest + 3),
        };
        let length = length.max(1) as usize;
        if length + 1 >= count {
            return;
        }
        let first = start_of_hole(random, place, interval, count, length) as i64;
        let hole = first * interval..(first + length as i64) * interval;
        let keeps_dropped = random.once_in(2);
        self.entries.retain(|entry| {
            let dropped = entry.second % interval != 0;
            !hole.contains(&entry.second) || (dropped && keeps_dropped)
        });
    }

    /// A line from past the end, or from far ahead, comes before others: they are
    /// out of order then, and what else is wrong with the next one comes first.
    fn too_early(&mut self, random: &mut Random, place: usize) {
        let end = self.seconds();
        let ahead = self.entries[place].second + random.pick(&[1, 2, 30, 70]);
        let entry = Entry {
            second: random.pick(&[end, end + 1, LARGEST_NUMBER, ahead, ahead]),
            setpoint: 0,
            actual: 0,
        };
        let place = random.pick(&[0, 1, place]).min(self.entries.len());
        if random.once_in(2) {
            let gone = random.pick(&[1, 14, 15, 16, 20, 21, 60, 61, 100]);
            let gone = (place + gone).min(self.entries.len());
            self.entries.drain(place..gone);
        }
        self.entries.insert(place, entry);
    }

    /// The lines without their LF.
    fn lines(&self) -> Vec<Vec<u8>> {
        let mut lines = vec![plan::header_line(&self.header)];
        lines.extend(self.entries.iter().map(|entry| {
            let Entry {
                second,
                setpoint,
                actual,
            } = entry;
            format!("G\t{second}\t{setpoint}\t{actual}").into_bytes()
        }));
        lines.push(b"E".to_vec());
        lines
    }
}

/// Holes that can be filled, with others beside them.
fn sound_holes(random: &mut Random, interval: i64, count: usize) -> Missing {
    let longest = LONGEST_HOLE / interval;
    let mut missing = Missing::none(interval, count);
    for _ in 0..random.pick(&[0, 1, 1, 2, 3, 8]) {
        let place = random.pick(&[
            Place::AfterTheFirst,
            Place::OverAnEdge,
            Place::AtTheEnd,
            Place::Anywhere,
            Place::Anywhere,
        ]);
        let any = random.between(1, longest);
        let length = random.pick(&[1, 2, longest - 1, longest, longest, any]);
        missing.add(random, place, length as usize);
    }
    missing
}

fn any_second(random: &mut Random, end: i64) -> i64 {
    match random.below(6) {
        0 => random.pick(&[-LARGEST_NUMBER, -900, -4, -1, 0]),
        1 => end + random.pick(&[-4, -3, -1, 0, 1, 900]),
        2 => LARGEST_NUMBER,
        _ => random.between(0, end.max(1)),
    }
}

#[cfg(test)]
mod tests {
    use super::*;
    use std::collections::BTreeMap;

    #[test]
    fn the_same_seed_writes_the_same_recording() {
        assert!((0..50).all(|seed| recording(seed) == recording(seed)));
        assert_ne!(recording(1), recording(2));
    }

    /// A sound recording has its first sample, no hole that is too long, and
    /// seconds that do not fall.
    #[test]
    fn sound_recordings_are_sound() {
        let (mut filled, mut at_longest) = (0, 0);
        for seed in 0..2_000 {
            let recording = Recording::sound(&mut Random::new(seed));
            let interval = recording.header.interval;
            let seconds = || recording.entries.iter().map(|entry| entry.second);
            assert!(seconds()
                .zip(seconds().skip(1))
                .all(|(one, next)| one <= next));
            let within = 0..recording.seconds();
            let good = seconds().filter(|second| within.contains(second) && second % interval == 0);
            let mut before = -interval;
            let mut longest = 0;
            for second in good.chain([within.end]) {
                longest = longest.max(second - before - interval);
                before = second;
            }
            assert_eq!(seconds().find(|second| *second >= 0), Some(0));
            assert!(longest <= LONGEST_HOLE);
            filled += i32::from(longest > 0);
            at_longest += i32::from(longest == LONGEST_HOLE);
        }
        assert!(filled > 1_000, "{filled}");
        assert!(at_longest > 500, "{at_longest}");
    }

    /// Holes of each length from two below to two above the longest, for each
    /// interval.
    #[test]
    fn holes_have_every_length_about_the_longest() {
        let mut found = BTreeMap::new();
        for seed in 0..10_000 {
            let mut random = Random::new(seed);
            let mut recording = Recording::sound(&mut random);
            recording.hole_about_the_longest(&mut random);
            let interval = recording.header.interval;
            let within = 0..recording.seconds();
            let seconds = recording.entries.iter().map(|entry| entry.second);
            let good = seconds.filter(|second| within.contains(second) && second % interval == 0);
            let mut before = -interval;
            for second in good.chain([within.end]) {
                let missing = second - before - interval;
                let at_end = second == within.end;
                *found.entry((interval, missing, at_end)).or_insert(0) += 1;
                before = second;
            }
        }
        for interval in [1, 3, 4] {
            for samples in -2..=2 {
                for at_end in [false, true] {
                    let missing = LONGEST_HOLE + samples * interval;
                    assert!(
                        found.contains_key(&(interval, missing, at_end)),
                        "{interval} {missing} {at_end}"
                    );
                }
            }
        }
    }

    #[test]
    fn the_archive_is_a_day_with_holes() {
        let text = String::from_utf8(archive()).unwrap();
        let lines: Vec<&str> = text.lines().collect();
        assert_eq!(lines[0], "D\t2017-02-20\t1\t-\t96");
        assert_eq!(lines[lines.len() - 1], "E");
        assert!(lines[1..lines.len() - 1]
            .iter()
            .all(|line| line.starts_with("G\t")));
        assert!((84_000..86_400).contains(&lines.len()), "{}", lines.len());
    }
}
