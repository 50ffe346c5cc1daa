//! Mends a recording with holes: the archive drops samples and repeats some.
//! Reads a header, the lines of the archive in its order and the end line, and
//! prints a sample for every interval of the stretch that the header says, with
//! a mark for each that was filled in and each line that was passed over.

use std::fmt::Write;

use crate::run::{demand, Header, Refusal, Sample};
use crate::sheet::{print_refusal, written};
use crate::text::{complete_lines, read_recording_line, Recorded, RecordingLine};

const SECONDS_PER_QUARTER_HOUR: i32 = 900;
/// A hole of so many seconds can still be filled.
const LONGEST_HOLE: i32 = 60;

/// What is printed for a recording. What was printed before a refusal stands.
pub fn mended(recording: &[u8]) -> String {
    let mut printed = String::new();
    let mut stretch = None;
    let mut lines = 0;
    for line in complete_lines(recording) {
        lines += 1;
        match take_line(line, &mut stretch, &mut printed) {
            Ok(Next::Line) => {}
            // After the end line nothing is read.
            Ok(Next::Nothing) => return printed,
            Err(refusal) => return refused(printed, lines, refusal),
        }
    }
    refused(printed, lines + 1, Refusal::NoEndLine)
}

fn refused(mut printed: String, line: u64, refusal: Refusal) -> String {
    written(print_refusal(&mut printed, line, refusal.number()));
    printed
}

/// What is to be read after a line that was taken.
enum Next {
    Line,
    Nothing,
}

/// Takes one line and prints what it brings about. There is a stretch once a
/// header was accepted.
fn take_line(
    line: &[u8],
    stretch: &mut Option<Stretch>,
    printed: &mut String,
) -> Result<Next, Refusal> {
    let line = read_recording_line(line).ok_or(Refusal::IllFormedLine)?;
    match (stretch, line) {
        (stretch @ None, RecordingLine::Header(header)) => {
            *stretch = Some(Stretch::new(header)?);
            Ok(Next::Line)
        }
        (Some(stretch), RecordingLine::Recorded(recorded)) => {
            stretch.take(recorded, printed)?;
            Ok(Next::Line)
        }
        (Some(stretch), RecordingLine::End) => {
            stretch.end(printed)?;
            Ok(Next::Nothing)
        }
        _ => Err(Refusal::WrongMoment),
    }
}

/// Why a sample or a line is marked.
#[derive(Clone, Copy, Debug, PartialEq, Eq)]
enum Mark {
    /// No good line came for the sample, and it has the values of the last one.
    Missing,
    /// A line with the second of an earlier one, which stands.
    Repeated,
    /// A line with a second outside the stretch, or between two samples.
    Dropped,
}

impl Mark {
    fn letter(self) -> char {
        match self {
            Mark::Missing => 'M',
            Mark::Repeated => 'T',
            Mark::Dropped => 'O',
        }
    }
}

/// The stretch that is recorded.
struct Stretch {
    /// The seconds from one sample to the next.
    interval: i32,
    /// The good line of each sample, if there is one yet.
    good: Vec<Option<Sample>>,
    /// The second of the line before, whatever became of it.
    second_before: Option<i32>,
}

impl Stretch {
    fn new(header: Header) -> Result<Stretch, Refusal> {
        header.check()?;
        let samples = header.quarter_hours * SECONDS_PER_QUARTER_HOUR / header.interval;
        Ok(Stretch {
            interval: header.interval,
            good: vec![None; samples as usize],
            second_before: None,
        })
    }

    fn take(&mut self, recorded: Recorded, printed: &mut String) -> Result<(), Refusal> {
        let Recorded { second, sample } = recorded;
        sample.check()?;
        let place = self.place_of(second);
        if let Ok(place) = place {
            self.can_be_filled_up_to(place)?;
        }
        let in_order = self.second_before.is_none_or(|before| before <= second);
        demand(in_order, Refusal::SecondsOutOfOrder)?;

        self.second_before = Some(second);
        match place {
            Ok(place) => {
                self.fill_up_to(place, printed);
                self.good[place] = Some(sample);
                print_sample(printed, sample);
            }
            Err(mark) => print_mark(printed, second, mark),
        }
        Ok(())
    }

    /// Which sample a line is good for, or why it is for none.
    fn place_of(&self, second: i32) -> Result<usize, Mark> {
        if second % self.interval != 0 {
            return Err(Mark::Dropped);
        }
        let place = usize::try_from(second / self.interval).map_err(|_| Mark::Dropped)?;
        match self.good.get(place) {
            None => Err(Mark::Dropped),
            Some(Some(_)) => Err(Mark::Repeated),
            Some(None) => Ok(place),
        }
    }

    /// How many samples in a row are missing directly before a place, that of
    /// the end being one after the last.
    fn missing_before(&self, place: usize) -> usize {
        let before = self.good[..place].iter().rev();
        before.take_while(|good| good.is_none()).count()
    }

    /// Looks whether what is missing before a place can be filled in.
    fn can_be_filled_up_to(&self, place: usize) -> Result<(), Refusal> {
        let has_first = place == 0 || self.good[0].is_some();
        demand(has_first, Refusal::NoFirstSample)?;
        let missing = self.missing_before(place) as i32;
        demand(missing * self.interval <= LONGEST_HOLE, Refusal::LongHole)
    }

    /// Prints the samples that are missing before a place.
    fn fill_up_to(&self, place: usize, printed: &mut String) {
        let first = place - self.missing_before(place);
        let Some(last_good) = self.good[..first].last().copied().flatten() else {
            return;
        };
        for missing in first..place {
            print_mark(printed, missing as i32 * self.interval, Mark::Missing);
            print_sample(printed, last_good);
        }
    }

    fn end(&self, printed: &mut String) -> Result<(), Refusal> {
        let end = self.good.len();
        self.can_be_filled_up_to(end)?;
        self.fill_up_to(end, printed);
        Ok(())
    }
}

fn print_mark(printed: &mut String, second: i32, mark: Mark) {
    written(writeln!(printed, "X\t{second}\t{}", mark.letter()));
}

fn print_sample(printed: &mut String, sample: Sample) {
    let Sample { setpoint, actual } = sample;
    written(writeln!(printed, "S\t{setpoint}\t{actual}"));
}

#[cfg(test)]
mod tests {
    use super::*;

    /// What is printed for lines behind a header for one quarter hour; both are
    /// written with `|` for the tab.
    fn printed(interval: i32, lines: &str) -> String {
        let recording = format!("D|2017-02-20|{interval}|-|1\n{lines}");
        mended(recording.replace('|', "\t").as_bytes()).replace('\t', "|")
    }

    /// Good lines for the samples of some places, with the place as setpoint.
    fn good(interval: i32, places: impl Iterator<Item = i32>) -> String {
        places
            .map(|place| format!("G|{}|{place}|7\n", place * interval))
            .collect()
    }

    fn samples(places: impl Iterator<Item = i32>) -> String {
        places.map(|place| format!("S|{place}|7\n")).collect()
    }

    /// So many marked samples after that of a place.
    fn filled(interval: i32, place: i32, count: i32) -> String {
        let after = place + 1..place + 1 + count;
        after
            .map(|missing| format!("X|{}|M\nS|{place}|7\n", missing * interval))
            .collect()
    }

    const INTERVALS: [(i32, i32); 3] = [(1, 900), (3, 300), (4, 225)];

    #[test]
    fn a_whole_recording_is_its_samples() {
        for (interval, count) in INTERVALS {
            let lines = good(interval, 0..count) + "E\n";
            assert_eq!(printed(interval, &lines), samples(0..count));
        }
    }

    /// Exactly 60 seconds are filled, and one sample more is too many, after the
    /// first sample, in the middle and at the end.
    #[test]
    fn holes_of_60_seconds_are_filled() {
        for (interval, count) in INTERVALS {
            let most = 60 / interval;
            for last in [0, 1, 100, count - 2 - most] {
                for length in [1, 2, most - 1, most, most + 1, most + 2] {
                    let next = last + 1 + length;
                    if next >= count {
                        continue;
                    }
                    let lines = good(interval, 0..=last) + &good(interval, next..count) + "E\n";
                    let before = samples(0..=last);
                    let wanted = if length <= most {
                        before + &filled(interval, last, length) + &samples(next..count)
                    } else {
                        before + &format!("R|{}|20\n", last + 3)
                    };
                    assert_eq!(printed(interval, &lines), wanted, "{interval} {length}");
                }
            }
        }
    }

    #[test]
    fn a_hole_at_the_end_is_told_at_the_end_line() {
        for (interval, count) in INTERVALS {
            let most = 60 / interval;
            let up_to = |missing: i32| good(interval, 0..count - missing) + "E\n";
            let kept = |missing: i32| samples(0..count - missing);
            let last = count - most - 1;
            assert_eq!(
                printed(interval, &up_to(most)),
                kept(most) + &filled(interval, last, most)
            );
            let refusal = format!("R|{}|20\n", count - most - 1 + 2);
            assert_eq!(
                printed(interval, &up_to(most + 1)),
                kept(most + 1) + &refusal
            );
            let cut = good(interval, 0..count - most - 1);
            let refusal = format!("R|{}|15\n", count - most - 1 + 2);
            assert_eq!(printed(interval, &cut), kept(most + 1) + &refusal);
        }
    }

    #[test]
    fn the_first_sample_has_to_be_there() {
        assert_eq!(printed(4, "E\n"), "R|2|19\n");
        assert_eq!(printed(4, "G|4|1|1\n"), "R|2|19\n");
        // However long the hole would be.
        assert_eq!(printed(4, "G|896|1|1\n"), "R|2|19\n");
        // Lines that are dropped are neither a first sample nor a later one.
        let dropped = "X|-4|O\nX|1|O\nX|3|O\nX|900|O\n";
        let lines = "G|-4|0|0\nG|1|0|0\nG|3|0|0\nG|900|0|0\n";
        assert_eq!(
            printed(4, &format!("{lines}E\n")),
            format!("{dropped}R|6|19\n")
        );
        assert_eq!(printed(4, "G|-1|0|0\nG|4|0|0\n"), "X|-1|O\nR|3|19\n");
        assert_eq!(
            printed(4, "G|-1|0|0\nG|0|5|5\nG|4|6|6\n"),
            "X|-1|O\nS|5|5\nS|6|6\nR|5|15\n"
        );
    }

    #[test]
    fn lines_are_dropped_or_repeated() {
        let lines = "G|0|1|1\nG|0|2|2\nG|0|3|3\nG|1|4|4\nG|4|5|5\nG|4|5|5\nG|6|0|0\nG|12|6|6\n";
        let wanted = "S|1|1\nX|0|T\nX|0|T\nX|1|O\nS|5|5\nX|4|T\nX|6|O\nX|8|M\nS|5|5\nS|6|6\n";
        assert_eq!(printed(4, lines), format!("{wanted}R|10|15\n"));
        // The ends of the stretch.
        let ends = "G|-900|0|0\nG|-1|0|0\nG|0|1|1\n";
        assert_eq!(printed(1, ends), "X|-900|O\nX|-1|O\nS|1|1\nR|5|15\n");
        let all = good(1, 0..900);
        let past = "G|899|0|0\nG|900|0|0\nG|900|0|0\nG|999999999|0|0\nE\n";
        assert_eq!(
            printed(1, &(all + past)),
            samples(0..900) + "X|899|T\nX|900|O\nX|900|O\nX|999999999|O\n"
        );
    }

    #[test]
    fn seconds_do_not_fall() {
        let after = |lines: &str| printed(4, &format!("G|0|1|1\n{lines}"));
        assert_eq!(after("G|4|2|2\nG|0|3|3\n"), "S|1|1\nS|2|2\nR|4|21\n");
        // A second that was filled already.
        assert_eq!(
            after("G|8|2|2\nG|4|3|3\n"),
            "S|1|1\nX|4|M\nS|1|1\nS|2|2\nR|4|21\n"
        );
        // Whatever the kinds of the two lines are.
        assert_eq!(after("G|3|0|0\nG|2|0|0\n"), "S|1|1\nX|3|O\nR|4|21\n");
        assert_eq!(after("G|3|0|0\nG|0|0|0\n"), "S|1|1\nX|3|O\nR|4|21\n");
        assert_eq!(after("G|900|0|0\nG|4|0|0\n"), "S|1|1\nX|900|O\nR|4|21\n");
        assert_eq!(after("G|0|0|0\nG|-4|0|0\n"), "S|1|1\nX|0|T\nR|4|21\n");
        // What the line is refused for comes first.
        assert_eq!(after("G|900|0|0\nG|60|0|0\n"), "S|1|1\nX|900|O\nR|4|21\n");
        assert_eq!(after("G|900|0|0\nG|68|0|0\n"), "S|1|1\nX|900|O\nR|4|20\n");
        assert_eq!(printed(4, "G|3|0|0\nG|0|0|0\n"), "X|3|O\nR|3|21\n");
        assert_eq!(printed(4, "G|900|0|0\nG|4|0|0\n"), "X|900|O\nR|3|19\n");
    }

    #[test]
    fn powers_are_in_range_on_every_line() {
        let after = |line: &str| printed(4, &format!("G|0|1|1\n{line}\n"));
        for out in ["2000001|0", "0|-2000001", "-999999999|0"] {
            for second in [-4, 0, 1, 4, 68, 900] {
                let refusal = after(&format!("G|{second}|{out}"));
                assert_eq!(refusal, "S|1|1\nR|3|13\n", "{second} {out}");
            }
        }
        assert_eq!(
            after("G|4|-2000000|2000000"),
            "S|1|1\nS|-2000000|2000000\nR|4|15\n"
        );
        assert_eq!(printed(4, "G|4|2000001|0\n"), "R|2|13\n");
    }

    #[test]
    fn the_header_comes_first_and_once() {
        let mended = |text: &str| mended(text.replace('|', "\t").as_bytes()).replace('\t', "|");
        assert_eq!(mended(""), "R|1|15\n");
        assert_eq!(mended("E"), "R|1|15\n");
        assert_eq!(mended("E\n"), "R|1|1\n");
        assert_eq!(mended("G|0|9999999|0\n"), "R|1|1\n");
        assert_eq!(mended("G|0|0\n"), "R|1|14\n");
        assert_eq!(mended("S|0|0\n"), "R|1|14\n");
        for (header, number) in [
            ("D|2017-02-29|2|0|0", 2),
            ("D|2017-02-29|3|0|0", 3),
            ("D|2017-02-29|3|-|0", 4),
            ("D|2017-02-28|3|-|0", 5),
            ("D|2017-02-28|3|-|101", 5),
        ] {
            assert_eq!(mended(&format!("{header}\n")), format!("R|1|{number}\n"));
        }
        assert_eq!(printed(4, "D|1999-00-00|0|0|0\n"), "R|2|1\n");
        assert_eq!(printed(4, "G|0|1|1\nD|\n"), "S|1|1\nR|3|14\n");
        assert_eq!(
            printed(4, "G|0|1|1\nD|2017-02-20|4|-|1\n"),
            "S|1|1\nR|3|1\n"
        );
    }

    #[test]
    fn after_the_end_nothing_is_read() {
        let lines = good(4, 0..225) + "E\n";
        for more in ["E\n", "X", "G|0|0|0\n", "D|\n\n", "\0"] {
            assert_eq!(printed(4, &(lines.clone() + more)), samples(0..225));
        }
    }
}
