//! Days and dates: the examples, every day, every last day, and what is refused. What is expected comes from a calendar
//! that is counted up day by day.

use digribbon::{Date, Day, Error, Refusal};

fn date(year: i64, month: i64, day: i64) -> Date {
    Date::new(year, month, day).unwrap_or_else(|error| panic!("{year}-{month}-{day}: {error}"))
}

fn month_length(year: i64, month: i64) -> i64 {
    let is_leap = year % 4 == 0 && (year % 100 != 0 || year % 400 == 0);
    match month {
        2 => 28 + i64::from(is_leap),
        4 | 6 | 9 | 11 => 30,
        _ => 31,
    }
}

/// The days of a month, as a year, a month and a day each.
fn days_of((year, month): (i64, i64)) -> impl Iterator<Item = (i64, i64, i64)> {
    (1..=month_length(year, month)).map(move |day| (year, month, day))
}

fn months() -> impl Iterator<Item = (i64, i64)> {
    (2000..).flat_map(|year| (1..=12).map(move |month| (year, month)))
}

/// Every day that has a number, in order.
fn calendar() -> impl Iterator<Item = (Day, (i64, i64, i64))> {
    (0..=u16::MAX).map(Day::from).zip(months().flat_map(days_of))
}

#[test]
fn dates_have_numbers() {
    assert_eq!(date(2000, 1, 1).day(), Day::from(0));
    assert_eq!(date(2024, 1, 31).day(), Day::from(8796));
    assert_eq!(date(2024, 2, 29).day(), Day::from(8825));
    assert_eq!(date(2100, 3, 1).day().number() - date(2100, 2, 28).day().number(), 1);
    assert_eq!(date(2179, 6, 6).day(), Day::from(65_535));
    assert_eq!(calendar().last(), Some((Day::from(65_535), (2179, 6, 6))));
}

#[test]
fn passes_end() {
    for (first, months, last) in [
        (date(2024, 1, 31), 1, date(2024, 2, 29)),
        (date(2024, 1, 30), 1, date(2024, 2, 29)),
        (date(2024, 1, 29), 1, date(2024, 2, 28)),
        (date(2024, 2, 29), 12, date(2025, 2, 28)),
        (date(2024, 1, 1), 12, date(2024, 12, 31)),
        (date(2023, 12, 31), 2, date(2024, 2, 29)),
        (date(2100, 1, 29), 1, date(2100, 2, 28)),
        (date(2179, 5, 7), 1, date(2179, 6, 6)),
    ] {
        assert_eq!(first.day().last_day(months), Ok(last.day()), "{first} {months}");
    }
    assert_eq!(date(2179, 5, 8).day().last_day(1).unwrap_err(), Refusal::DayTooLarge);
}

#[test]
fn every_day_goes_there_and_back() {
    let mut before = None;
    for (day, (year, month, day_of_month)) in calendar() {
        let date = date(year, month, day_of_month);
        assert_eq!((i64::from(date.year()), i64::from(date.month())), (year, month));
        assert_eq!(i64::from(date.day_of_month()), day_of_month);
        assert_eq!((date.day(), day.date(), day.date().day()), (day, date, day));
        assert_eq!((Day::from(date), Date::from(day)), (day, date));
        assert_eq!((Day::from(day.number()), Day::try_from(i64::from(u16::from(day)))), (day, Ok(day)));
        assert_eq!(date.to_string(), format!("{year}-{month:02}-{day_of_month:02}"));
        assert!(before.is_none_or(|(date_before, day_before)| date_before < date && day_before < day));
        before = Some((date, day));
    }
}

#[test]
fn every_last_day_is_as_counted() {
    let starts = months().take(180 * 12 + 13).scan(0, |start, (year, month)| {
        *start += month_length(year, month);
        Some(*start - month_length(year, month))
    });
    let starts: Vec<i64> = starts.collect();
    for (first, (year, month, day)) in calendar() {
        let this_month = ((year - 2000) * 12 + month - 1) as usize;
        for months in 1..=12 {
            let (start, next) = (starts[this_month + months], starts[this_month + months + 1]);
            let has_day = day <= next - start;
            let last = if has_day { start + day - 1 - 1 } else { next - 1 };
            let expected = u16::try_from(last).map(Day::from).map_err(|_| Error::from(Refusal::DayTooLarge));
            assert_eq!(first.last_day(months as i64), expected, "{} {months}", first.date());
        }
    }
}

const EDGES: [i64; 20] = [
    i64::MIN,
    i64::MIN + 1,
    -2024,
    -1,
    0,
    1,
    2,
    12,
    13,
    29,
    31,
    32,
    1999,
    2000,
    2024,
    2300,
    65_536 + 2024,
    (1 << 32) + 2,
    i64::MAX - 3, // a leap year
    i64::MAX,
];

fn refusal_of_date(year: i64, month: i64, day: i64) -> Option<Refusal> {
    let is_date = year >= 2000 && (1..=12).contains(&month) && (1..=month_length(year, month)).contains(&day);
    if is_date { (year > 2179).then_some(Refusal::DayTooLarge) } else { Some(Refusal::NoSuchDate) }
}

/// 24 comes before 25, whichever of the three is wrong. (No edge is in 2179.)
#[test]
fn dates_that_are_none_are_refused() {
    for year in EDGES {
        for month in EDGES {
            for day in EDGES {
                let expected = refusal_of_date(year, month, day);
                let refusal = Date::new(year, month, day).err().map(Error::refusal);
                assert_eq!(refusal, expected, "{year} {month} {day}");
            }
        }
    }
    assert_eq!(Date::new(2300, 2, 30).unwrap_err(), Refusal::NoSuchDate);
    assert_eq!(Date::new(2300, 1, 1).unwrap_err(), Refusal::DayTooLarge);
    assert_eq!(Date::new(2100, 2, 29).unwrap_err(), Refusal::NoSuchDate);
    assert_eq!(Date::new(2179, 6, 7).unwrap_err(), Refusal::DayTooLarge);
}

#[test]
fn numbers_that_are_no_days_are_refused() {
    for number in EDGES {
        let refusal = if number < 0 { Refusal::NoSuchDate } else { Refusal::DayTooLarge };
        let expected = u16::try_from(number).map(Day::from).map_err(|_| Error::from(refusal));
        assert_eq!(Day::try_from(number), expected, "{number}");
    }
    assert_eq!(Day::try_from(65_535_i64), Ok(Day::from(u16::MAX)));
    assert_eq!(Day::try_from(65_536_i64).unwrap_err(), Refusal::DayTooLarge);
}

/// 26 comes before 25.
#[test]
fn months_outside_are_refused() {
    for months in EDGES.into_iter().filter(|months| !(1..=12).contains(months)) {
        for first in [0, 8796, u16::MAX] {
            assert_eq!(Day::from(first).last_day(months).unwrap_err(), Refusal::MonthsOutside, "{first} {months}");
        }
    }
    assert_eq!(Day::from(u16::MAX).last_day(1).unwrap_err(), Refusal::DayTooLarge);
}

#[test]
fn errors_and_days_as_text() {
    let error = Day::from(0).last_day(0).expect_err("no months");
    assert_eq!(error.to_string(), "refusal 26: The months are outside 1 to 12.");
    assert_eq!((error.value_position(), error.record_position()), (None, None));
    assert_eq!(Day::from(8796).to_string(), "8796");
    assert_eq!(format!("{:05}", Day::from(7)), "00007");
}
