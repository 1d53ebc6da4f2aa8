//! Validity dates: dates and day numbers, and the last valid day of a pass.

use crate::{Error, calls};
use std::fmt;

/// A date from 1 January 2000 to 6 June 2179, in the Gregorian calendar: one that has a [`Day`] number.
///
/// Dates are ordered by time. As text a date is in the form of ISO 8601.
///
/// ```
/// use digribbon::{Date, Day};
///
/// let date = Date::new(2024, 2, 29)?;
/// assert_eq!((date.year(), date.month(), date.day_of_month()), (2024, 2, 29));
/// assert_eq!(date.to_string(), "2024-02-29");
/// assert_eq!(date.day(), Day::from(8825));
/// assert!(date < Date::new(2024, 3, 1)?);
/// # Ok::<(), digribbon::Error>(())
/// ```
#[derive(Clone, Copy, Debug, PartialEq, Eq, PartialOrd, Ord, Hash)]
pub struct Date {
    // In this order, the derived order is that of time.
    year: u16,
    month: u8,
    day_of_month: u8,
    /// The number of this date.
    day: Day,
}

impl Date {
    /// The date of a year, a month from 1 to 12, and a day of that month from 1 on.
    ///
    /// # Errors
    ///
    /// [`NoSuchDate`](crate::Refusal::NoSuchDate) where there is no such date, or the year is before 2000. Else
    /// [`DayTooLarge`](crate::Refusal::DayTooLarge) where it is after 6 June 2179.
    ///
    /// ```
    /// use digribbon::{Date, Refusal};
    ///
    /// assert_eq!(Date::new(2179, 6, 6)?.day().number(), 65_535);
    /// assert_eq!(Date::new(2179, 6, 7).unwrap_err(), Refusal::DayTooLarge);
    /// assert_eq!(Date::new(2100, 2, 29).unwrap_err(), Refusal::NoSuchDate);
    /// assert_eq!(Date::new(1999, 12, 31).unwrap_err(), Refusal::NoSuchDate);
    /// # Ok::<(), digribbon::Error>(())
    /// ```
    pub fn new(year: i64, month: i64, day_of_month: i64) -> Result<Date, Error> {
        Ok(Day(calls::day_number(year, month, day_of_month)?).date())
    }

    /// The year, 2000 to 2179.
    #[must_use]
    pub const fn year(self) -> u16 {
        self.year
    }

    /// The month, 1 to 12.
    #[must_use]
    pub const fn month(self) -> u8 {
        self.month
    }

    /// The day of the month, 1 to 31.
    #[must_use]
    pub const fn day_of_month(self) -> u8 {
        self.day_of_month
    }

    /// Its day number.
    #[must_use]
    pub const fn day(self) -> Day {
        self.day
    }
}

impl From<Day> for Date {
    fn from(day: Day) -> Date {
        day.date()
    }
}

impl fmt::Display for Date {
    fn fmt(&self, f: &mut fmt::Formatter<'_>) -> fmt::Result {
        write!(f, "{:04}-{:02}-{:02}", self.year, self.month, self.day_of_month)
    }
}

/// A day by its number, as passes store it in two bytes: 0 is 1 January 2000, 65,535 is 6 June 2179.
///
/// Every `u16` is a day. As text a day is its number; [`date`](Day::date) gives the date to be shown.
///
/// ```
/// use digribbon::{Date, Day, ValueList};
///
/// let first = Date::new(2024, 1, 31)?.day();
/// let last = first.last_day(1)?;
/// assert_eq!((last.number(), last.date().to_string()), (8825, "2024-02-29".to_string()));
///
/// let pass = ValueList::from_values([first.number(), last.number()])?;
/// assert_eq!(digribbon::pack(">I2 I2", &pass)?, [0x22, 0x5C, 0x22, 0x79]);
/// # Ok::<(), Box<dyn std::error::Error>>(())
/// ```
#[derive(Clone, Copy, Debug, PartialEq, Eq, PartialOrd, Ord, Hash)]
pub struct Day(u16);

impl Day {
    /// Its number.
    #[must_use]
    pub const fn number(self) -> u16 {
        self.0
    }

    /// Its date.
    ///
    /// ```
    /// use digribbon::Day;
    ///
    /// assert_eq!(Day::from(0).date().to_string(), "2000-01-01");
    /// assert_eq!(Day::from(0).date().day(), Day::from(0));
    /// ```
    #[must_use]
    pub fn date(self) -> Date {
        let [year, month, day_of_month] = calls::date_of_day(self.0);
        // Each fits: the year is at most 2179, the month 12 and the day 31.
        Date { year: year as u16, month: month as u8, day_of_month: day_of_month as u8, day: self }
    }

    /// The last valid day of a pass of 1 to 12 months whose first day this is: the day before the same day of the month
    /// that many months on. If that month has no such day, its last day.
    ///
    /// # Errors
    ///
    /// [`MonthsOutside`](crate::Refusal::MonthsOutside) for months outside 1 to 12. Else
    /// [`DayTooLarge`](crate::Refusal::DayTooLarge) where the last day is after 6 June 2179.
    ///
    /// ```
    /// use digribbon::{Date, Day, Refusal};
    ///
    /// let last_day = |year, month, day, months| Date::new(year, month, day)?.day().last_day(months).map(Day::date);
    /// assert_eq!(last_day(2024, 1, 29, 1), Date::new(2024, 2, 28));
    /// assert_eq!(last_day(2024, 1, 30, 1), Date::new(2024, 2, 29));
    /// assert_eq!(last_day(2024, 1, 31, 1), Date::new(2024, 2, 29));
    /// assert_eq!(last_day(2024, 2, 29, 12), Date::new(2025, 2, 28));
    /// assert_eq!(last_day(2024, 1, 31, 13).unwrap_err(), Refusal::MonthsOutside);
    /// assert_eq!(last_day(2179, 6, 1, 1).unwrap_err(), Refusal::DayTooLarge);
    /// ```
    pub fn last_day(self, months: i64) -> Result<Day, Error> {
        Ok(Day(calls::last_day(self.0.into(), months)?))
    }
}

impl From<u16> for Day {
    fn from(number: u16) -> Day {
        Day(number)
    }
}

impl From<Day> for u16 {
    fn from(day: Day) -> u16 {
        day.0
    }
}

impl From<Date> for Day {
    fn from(date: Date) -> Day {
        date.day
    }
}

/// The day of a number that may be none of a day. The error is [`NoSuchDate`](crate::Refusal::NoSuchDate) below 0, where
/// days lie before 2000, and [`DayTooLarge`](crate::Refusal::DayTooLarge) above 65,535.
///
/// ```
/// use digribbon::{Day, Refusal};
///
/// assert_eq!(Day::try_from(8796_i64), Ok(Day::from(8796)));
/// assert_eq!(Day::try_from(-1_i64).unwrap_err(), Refusal::NoSuchDate);
/// assert_eq!(Day::try_from(65_536_i64).unwrap_err(), Refusal::DayTooLarge);
/// ```
impl TryFrom<i64> for Day {
    type Error = Error;

    fn try_from(number: i64) -> Result<Day, Error> {
        calls::date(number)?;
        Ok(Day(number as u16)) // an accepted number is at most 65,535
    }
}

/// Its number, as [`number`](Day::number) gives it.
impl fmt::Display for Day {
    fn fmt(&self, f: &mut fmt::Formatter<'_>) -> fmt::Result {
        self.0.fmt(f)
    }
}
