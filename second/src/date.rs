//! The day a run settles.

use std::fmt;

/// Year, month and day as they were written; the day need not exist.
#[derive(Clone, Copy, Debug, PartialEq, Eq)]
pub struct Date {
    pub year: u16,
    pub month: u8,
    pub day: u8,
}

impl Date {
    /// Whether it is a real Gregorian day from 2000-01-01 to 2099-12-31.
    pub fn can_be_settled(self) -> bool {
        (2000..=2099).contains(&self.year)
            && (1..=12).contains(&self.month)
            && (1..=self.days_in_month()).contains(&self.day)
    }

    fn days_in_month(self) -> u8 {
        match self.month {
            4 | 6 | 9 | 11 => 30,
            2 if self.is_leap_year() => 29,
            2 => 28,
            _ => 31,
        }
    }

    fn is_leap_year(self) -> bool {
        self.year.is_multiple_of(4)
            && (!self.year.is_multiple_of(100) || self.year.is_multiple_of(400))
    }
}

impl fmt::Display for Date {
    fn fmt(&self, f: &mut fmt::Formatter<'_>) -> fmt::Result {
        let Date { year, month, day } = self;
        // Always ten bytes: of a number with more digits the last ones.
        write!(
            f,
            "{:04}-{:02}-{:02}",
            year % 10_000,
            month % 100,
            day % 100
        )
    }
}

#[cfg(test)]
mod tests {
    use super::*;

    fn real(year: u16, month: u8, day: u8) -> bool {
        Date { year, month, day }.can_be_settled()
    }

    #[test]
    fn real_days() {
        assert!(real(2000, 1, 1));
        assert!(real(2099, 12, 31));
        assert!(real(2000, 2, 29));
        assert!(real(2096, 2, 29));
        assert!(real(2017, 4, 30));
    }

    #[test]
    fn other_days() {
        assert!(!real(1999, 12, 31));
        assert!(!real(2100, 1, 1));
        assert!(!real(2017, 2, 29));
        assert!(!real(2016, 2, 30));
        assert!(!real(2017, 4, 31));
        assert!(!real(2017, 13, 1));
        assert!(!real(2017, 0, 1));
        assert!(!real(2017, 1, 0));
        assert!(!real(2017, 1, 32));
        assert!(!real(0, 0, 0));
    }

    #[test]
    fn printed_as_written() {
        let date = Date {
            year: 2005,
            month: 3,
            day: 9,
        };
        assert_eq!(date.to_string(), "2005-03-09");
        let date = Date {
            year: 65_535,
            month: 255,
            day: 100,
        };
        assert_eq!(date.to_string(), "5535-55-00");
    }
}
