//! Lines and fields of the text that is read. Here a line is only told from an
//! ill-formed one; whether its values are in range is for the run to say.

use crate::date::Date;
use crate::run::{Header, Offer, PastBounds, Sample};
use crate::settle::Direction;

/// The most bytes a line may have before its LF.
const LONGEST_LINE: usize = 80;
const MOST_DIGITS: usize = 9;
/// Of the bounds of a carry block, which are in units.
const MOST_DIGITS_OF_BOUND: usize = 11;
/// The lot in kW that `-` stands for.
const USUAL_LOT: i32 = 5_000;

/// A well-formed line.
#[derive(Clone, Copy, Debug, PartialEq, Eq)]
pub enum Line<'a> {
    Header(Header),
    PastBounds(PastBounds),
    PastSetpoint(i32),
    Contract(Offer<'a>),
    Sample(Sample),
    End,
}

/// A share of the surplus that the operator gives a contract in a quarter hour;
/// nothing in it has been checked.
#[derive(Clone, Copy, Debug, PartialEq, Eq)]
pub struct OperatorShare<'a> {
    pub quarter_hour: i32,
    pub direction: Direction,
    pub identifier: &'a [u8],
    /// In kWh.
    pub share: i32,
}

/// A well-formed line of an input that the operator's shares follow.
#[derive(Clone, Copy, Debug, PartialEq, Eq)]
pub enum CheckedLine<'a> {
    OfInput(Line<'a>),
    Share(OperatorShare<'a>),
}

/// A line of the archive: a sample, and the second that it is of, counted from
/// the start of the stretch; nothing in it has been checked.
#[derive(Clone, Copy, Debug, PartialEq, Eq)]
pub struct Recorded {
    pub second: i32,
    pub sample: Sample,
}

/// A well-formed line of a recording that is to be mended.
#[derive(Clone, Copy, Debug, PartialEq, Eq)]
pub enum RecordingLine {
    Header(Header),
    Recorded(Recorded),
    End,
}

/// The complete lines of a text, without their LF. What follows the last LF is
/// never looked at, whatever it is: the text ended there.
pub fn complete_lines(text: &[u8]) -> impl Iterator<Item = &[u8]> {
    let mut rest = text;
    std::iter::from_fn(move || {
        let end = rest.iter().position(|&byte| byte == b'\n')?;
        let line = &rest[..end];
        rest = &rest[end + 1..];
        Some(line)
    })
}

/// The first field of a line and those after it, if the line is not too long.
fn fields_of(line: &[u8]) -> Option<(&[u8], impl Iterator<Item = &[u8]>)> {
    if line.len() > LONGEST_LINE {
        return None;
    }
    let mut fields = line.split(|&byte| byte == b'\t');
    Some((fields.next()?, fields))
}

/// Reads a line, or gives nothing if it is ill-formed.
pub fn read_line(line: &[u8]) -> Option<Line<'_>> {
    let (first, fields) = fields_of(line)?;
    match first {
        b"D" => read_header(fields).map(Line::Header),
        b"O" => read_bounds(fields).map(Line::PastBounds),
        b"B" => {
            let [setpoint] = exactly(fields)?;
            read_number(setpoint).map(Line::PastSetpoint)
        }
        b"C" => read_contract(fields).map(Line::Contract),
        b"S" => {
            let [setpoint, actual] = exactly(fields)?;
            read_sample(setpoint, actual).map(Line::Sample)
        }
        b"E" => exactly(fields).map(|[]| Line::End),
        _ => None,
    }
}

/// Reads a line of a recording, which has fewer kinds of them, or gives nothing
/// if it is ill-formed.
pub fn read_recording_line(line: &[u8]) -> Option<RecordingLine> {
    let (first, fields) = fields_of(line)?;
    match first {
        b"D" => read_header(fields).map(RecordingLine::Header),
        b"G" => {
            let [second, setpoint, actual] = exactly(fields)?;
            Some(RecordingLine::Recorded(Recorded {
                second: read_number(second)?,
                sample: read_sample(setpoint, actual)?,
            }))
        }
        b"E" => exactly(fields).map(|[]| RecordingLine::End),
        _ => None,
    }
}

/// Reads a line of an input that the operator's shares follow, or gives nothing
/// if it is ill-formed.
pub fn read_checked_line(line: &[u8]) -> Option<CheckedLine<'_>> {
    let (first, fields) = fields_of(line)?;
    if first != b"U" {
        return read_line(line).map(CheckedLine::OfInput);
    }
    let [quarter_hour, direction, identifier, share] = exactly(fields)?;
    Some(CheckedLine::Share(OperatorShare {
        quarter_hour: read_number(quarter_hour)?,
        direction: read_direction(direction)?,
        identifier,
        share: read_number(share)?,
    }))
}

fn read_sample(setpoint: &[u8], actual: &[u8]) -> Option<Sample> {
    Some(Sample {
        setpoint: read_number(setpoint)?,
        actual: read_number(actual)?,
    })
}

fn read_header<'a>(fields: impl Iterator<Item = &'a [u8]>) -> Option<Header> {
    let [date, interval, lot, quarter_hours] = exactly(fields)?;
    Some(Header {
        date: read_date(date)?,
        interval: read_number(interval)?,
        lot: read_lot(lot)?,
        quarter_hours: read_number(quarter_hours)?,
    })
}

fn read_bounds<'a>(fields: impl Iterator<Item = &'a [u8]>) -> Option<PastBounds> {
    let [oga, uga] = exactly(fields)?;
    Some(PastBounds {
        oga: read_long_number(oga, MOST_DIGITS_OF_BOUND)?,
        uga: read_long_number(uga, MOST_DIGITS_OF_BOUND)?,
    })
}

fn read_contract<'a>(fields: impl Iterator<Item = &'a [u8]>) -> Option<Offer<'a>> {
    let [direction, identifier, award, price] = exactly(fields)?;
    Some(Offer {
        direction: read_direction(direction)?,
        identifier,
        award: read_number(award)?,
        price: read_number(price)?,
    })
}

/// The remaining fields of a line, if there are as many as there should be.
pub fn exactly<'a, const COUNT: usize>(
    mut fields: impl Iterator<Item = &'a [u8]>,
) -> Option<[&'a [u8]; COUNT]> {
    let mut read: [&[u8]; COUNT] = [b""; COUNT];
    for field in &mut read {
        *field = fields.next()?;
    }
    match fields.next() {
        None => Some(read),
        Some(_) => None,
    }
}

pub fn read_direction(field: &[u8]) -> Option<Direction> {
    match field {
        b"P" => Some(Direction::Positive),
        b"N" => Some(Direction::Negative),
        _ => None,
    }
}

/// The lot is the only field in which `-` may stand for a value.
fn read_lot(field: &[u8]) -> Option<i32> {
    match field {
        b"-" => Some(USUAL_LOT),
        _ => read_number(field),
    }
}

/// A number is `0`, or 1 to 9 digits without a leading zero and perhaps a
/// minus before them. Nine digits fit an `i32`.
fn read_number(field: &[u8]) -> Option<i32> {
    read_long_number(field, MOST_DIGITS)?.try_into().ok()
}

/// A number of the same form with as many digits as its field may have.
fn read_long_number(field: &[u8], most_digits: usize) -> Option<i64> {
    let (sign, digits) = match field {
        b"0" => return Some(0),
        [b'-', digits @ ..] => (-1, digits),
        digits => (1, digits),
    };
    if digits.len() > most_digits || *digits.first()? == b'0' {
        return None;
    }
    Some(sign * read_digits(digits)?)
}

/// A date has four, two and two digits with hyphens between; the day need not
/// exist.
fn read_date(field: &[u8]) -> Option<Date> {
    let [y1, y2, y3, y4, b'-', m1, m2, b'-', d1, d2] = *field else {
        return None;
    };
    Some(Date {
        year: read_digits(&[y1, y2, y3, y4])?.try_into().ok()?,
        month: read_digits(&[m1, m2])?.try_into().ok()?,
        day: read_digits(&[d1, d2])?.try_into().ok()?,
    })
}

/// The value of at most eleven digits, if they all are digits.
fn read_digits(digits: &[u8]) -> Option<i64> {
    digits.iter().try_fold(0, |value, digit| {
        digit
            .is_ascii_digit()
            .then(|| value * 10 + i64::from(digit - b'0'))
    })
}

#[cfg(test)]
mod tests {
    use super::*;

    #[test]
    fn only_complete_lines_count() {
        let lines = |text: &'static str| complete_lines(text.as_bytes()).collect::<Vec<_>>();
        assert_eq!(lines(""), [b""; 0]);
        assert_eq!(lines("E"), [b""; 0]);
        assert_eq!(lines("\n"), [b""]);
        assert_eq!(lines("E\nE"), [b"E"]);
        assert_eq!(lines("E\n\nE\n"), [&b"E"[..], b"", b"E"]);
    }

    #[test]
    fn numbers() {
        let number = |field: &str| read_number(field.as_bytes());
        assert_eq!(number("0"), Some(0));
        assert_eq!(number("-1"), Some(-1));
        assert_eq!(number("999999999"), Some(999_999_999));
        assert_eq!(number("-999999999"), Some(-999_999_999));
        for field in [
            "",
            "-",
            "-0",
            "00",
            "01",
            "-01",
            "+1",
            "--1",
            "1-",
            "1 ",
            " 1",
            "1.0",
            "1e3",
            "x",
            "1000000000",
            "-1000000000",
            "0000000000",
            "12\r",
            "1\0",
            "\u{664}",
        ] {
            assert_eq!(number(field), None, "{field:?}");
        }
    }

    #[test]
    fn dates() {
        let date = |field: &str| read_date(field.as_bytes());
        assert_eq!(
            date("2017-02-20"),
            Some(Date {
                year: 2017,
                month: 2,
                day: 20
            })
        );
        assert_eq!(
            date("0000-99-00"),
            Some(Date {
                year: 0,
                month: 99,
                day: 0
            })
        );
        for field in [
            "",
            "-",
            "2017-2-20",
            "2017-02-2",
            "2017/02/20",
            "02017-02-20",
            "2017-02-20 ",
            "2017-0a-20",
        ] {
            assert_eq!(date(field), None, "{field:?}");
        }
    }

    fn is_well_formed(line: &str) -> bool {
        read_line(line.as_bytes()).is_some()
    }

    #[test]
    fn well_formed_lines() {
        let header = read_line(b"D\t2017-02-20\t4\t-\t1");
        let Some(Line::Header(header)) = header else {
            panic!("{header:?}");
        };
        assert_eq!(
            (header.interval, header.lot, header.quarter_hours),
            (4, 5_000, 1)
        );
        assert_eq!(
            read_line(b"C\tN\tB-1\t6000\t-5000"),
            Some(Line::Contract(Offer {
                direction: Direction::Negative,
                identifier: b"B-1",
                award: 6_000,
                price: -5_000,
            }))
        );
        let sample = Sample {
            setpoint: -3,
            actual: 0,
        };
        assert_eq!(read_line(b"S\t-3\t0"), Some(Line::Sample(sample)));
        assert_eq!(read_line(b"E"), Some(Line::End));
        let bounds = |oga, uga| Some(Line::PastBounds(PastBounds { oga, uga }));
        assert_eq!(
            read_line(b"O\t54000000\t-10800000000"),
            bounds(54_000_000, -10_800_000_000)
        );
        assert_eq!(read_line(b"O\t-99999999999\t0"), bounds(-99_999_999_999, 0));
        assert_eq!(read_line(b"B\t-3"), Some(Line::PastSetpoint(-3)));
        assert!(is_well_formed("B\t999999999"));
        // Out of range, but of the right form.
        assert!(is_well_formed("D\t1999-13-00\t-1\t0\t999999999"));
        assert!(is_well_formed("C\tP\t\t0\t0"));
        assert!(is_well_formed("C\tP\t \r\0\t0\t0"));
        assert!(read_line(b"C\tP\t\xff\xfe\t0\t0").is_some());
    }

    #[test]
    fn ill_formed_lines() {
        for line in [
            "",
            " ",
            "E ",
            "E\t",
            "e",
            "E\r",
            "X",
            "\tE",
            "D",
            "S",
            "C",
            "S\t1",
            "S\t1\t2\t3",
            "S\t1\t2\t",
            "S\t1\t",
            "S\t\t1",
            "S\t-\t1",
            "S 1 2",
            "S\t1\t2\r",
            "S\t\t1\t2",
            "SS\t1\t2",
            "D\t2017-02-20\t4\t-",
            "D\t2017-02-20\t4\t-\t1\t1",
            "D\t2017-02-20\t-\t-\t1",
            "D\t2017-02-20\t4\t\t1",
            "D\t2017-02-20\t4\t-\t-",
            "C\tP\tA\t1",
            "C\tX\tA\t1\t1",
            "C\t\tA\t1\t1",
            "C\tPN\tA\t1\t1",
            "C\tp\tA\t1\t1",
            "C\tP\tA\t-\t1",
            "C\tP\tA\t1\t-",
            "C\tP\tA\t1\t1\t",
            "O",
            "O\t1",
            "O\t1\t1\t1",
            "O\t1\t",
            "O\t\t1",
            "O\t-\t1",
            "O\t1\t-0",
            "O\t1\t01",
            "O\t100000000000\t1",
            "O\t1\t-100000000000",
            "O\t18446744073709551617\t1",
            "O\t1\t1\r",
            "o\t1\t1",
            "B",
            "B\t",
            "B\t-",
            "B\t1\t1",
            "B\t1\t",
            "B\t1000000000",
            "B\t-1000000000",
            "B\t007",
            "b\t1",
        ] {
            assert!(!is_well_formed(line), "{line:?}");
        }
    }

    #[test]
    fn lines_of_a_recording() {
        let read = |line: &str| read_recording_line(line.as_bytes());
        let recorded = |second, setpoint, actual| {
            Some(RecordingLine::Recorded(Recorded {
                second,
                sample: Sample { setpoint, actual },
            }))
        };
        assert_eq!(read("G\t0\t-3\t4"), recorded(0, -3, 4));
        assert_eq!(
            read("G\t-999999999\t999999999\t0"),
            recorded(-999_999_999, 999_999_999, 0)
        );
        assert_eq!(read("E"), Some(RecordingLine::End));
        assert!(matches!(
            read("D\t1999-13-00\t-1\t-\t0"),
            Some(RecordingLine::Header(Header { lot: 5_000, .. }))
        ));
        for line in [
            "",
            "G",
            "G\t0\t0",
            "G\t0\t0\t0\t0",
            "G\t0\t0\t0\t",
            "G\t\t0\t0",
            "G\t-\t0\t0",
            "G\t-0\t0\t0",
            "G\t007\t0\t0",
            "G\t1000000000\t0\t0",
            "G\t0\t0\t1000000000",
            "G\t0\t0\t0\r",
            "g\t0\t0\t0",
            "E\t",
            // Good lines of an input are none of a recording.
            "S\t0\t0",
            "C\tP\tA\t1\t1",
            "O\t0\t0",
            "B\t0",
        ] {
            assert_eq!(read(line), None, "{line:?}");
        }
        let long = "G\t0\t0\t".to_string() + &"1".repeat(74);
        assert_eq!(read(&long), None);
        // And the other way round.
        assert!(!is_well_formed("G\t0\t0\t0"));
    }

    #[test]
    fn lines_with_shares() {
        let read = |line: &'static str| read_checked_line(line.as_bytes());
        let share = |quarter_hour, direction, identifier, share| {
            Some(CheckedLine::Share(OperatorShare {
                quarter_hour,
                direction,
                identifier,
                share,
            }))
        };
        assert_eq!(
            read("U\t0\tP\tA1\t44"),
            share(0, Direction::Positive, b"A1", 44)
        );
        assert_eq!(
            read("U\t-999999999\tN\t\t-1"),
            share(-999_999_999, Direction::Negative, b"", -1)
        );
        assert_eq!(read("E"), Some(CheckedLine::OfInput(Line::End)));
        for line in [
            "U",
            "U\t0\tP\tA1",
            "U\t0\tP\tA1\t1\t",
            "U\t0\tQ\tA1\t1",
            "U\t\tP\tA1\t1",
            "U\t0\tP\tA1\t",
            "U\t0\tP\tA1\t1000000000",
            "U\t00\tP\tA1\t1",
            "u\t0\tP\tA1\t1",
            "G\t0\t0\t0",
            "",
        ] {
            assert_eq!(read(line), None, "{line:?}");
        }
        // What is settled has no such line.
        assert!(!is_well_formed("U\t0\tP\tA1\t44"));
    }

    #[test]
    fn a_line_has_at_most_80_bytes() {
        let of_length = |length: usize| format!("C\tP\t{}\t1\t1", "A".repeat(length - 8));
        assert_eq!(of_length(80).len(), 80);
        assert!(is_well_formed(&of_length(80)));
        assert!(!is_well_formed(&of_length(81)));
    }
}
