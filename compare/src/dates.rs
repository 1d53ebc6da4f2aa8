//! Validity dates: a plain reading of what the calls are to do, written apart from them, and ours against that reading.
//!
//! The reading counts as a person does, with a calendar that is written down day by day; it has no formula for a number of days.
//! The peers of the benchmark are held to it too.

mod case;
pub mod peers;

use crate::r#gen::Random;
use crate::ours::{self, Dates};
use crate::report::{Check, Held, Tally, hold};
use case::Asked;
use std::collections::HashMap;
use std::ops::RangeInclusive;

// ---- the plain reading

#[derive(Clone, Copy, Debug, PartialEq, Eq, Hash)]
struct Date {
    year: i64,
    month: i64,
    day: i64,
}

/// "Gregorian": each year that 4 divides is a leap year, but of those that 100 divides only each that 400 divides.
fn is_leap(year: i64) -> bool {
    year % 4 == 0 && (year % 100 != 0 || year % 400 == 0)
}

fn month_length(year: i64, month: i64) -> i64 {
    match month {
        4 | 6 | 9 | 11 => 30,
        2 if is_leap(year) => 29,
        2 => 28,
        _ => 31,
    }
}

/// The first day of the next month.
fn next_month(Date { year, month, .. }: Date) -> Date {
    if month == 12 { Date { year: year + 1, month: 1, day: 1 } } else { Date { year, month: month + 1, day: 1 } }
}

impl Date {
    fn exists(self) -> bool {
        (1..=12).contains(&self.month) && (1..=month_length(self.year, self.month)).contains(&self.day)
    }

    fn tomorrow(self) -> Date {
        let tomorrow = Date { day: self.day + 1, ..self };
        if tomorrow.exists() { tomorrow } else { next_month(self) }
    }
}

/// What a call is to answer.
#[derive(Clone, Copy, Debug, PartialEq, Eq)]
enum Answer {
    Number(u64),
    Date([u64; 3]),
    Refused(u64),
    /// By a call that changed its answer all the same.
    RefusedAndChanged,
}

/// The numbers that two bytes hold.
const DAYS: RangeInclusive<i64> = 0..=65_535;

/// "25 a day given, or the day answered, above 65535"
fn in_two_bytes(number: i64) -> Answer {
    if number > *DAYS.end() { Answer::Refused(25) } else { Answer::Number(number as u64) }
}

/// The years that are written down. Two bytes end in 2179, and the leap years repeat after 400.
const WRITTEN: RangeInclusive<i64> = 2000..=2405;

/// A calendar, day by day.
struct Calendar {
    dates: Vec<Date>,
    numbers: HashMap<Date, i64>,
}

impl Calendar {
    /// "0 being 1 January 2000", and each next day one more.
    fn written() -> Calendar {
        let first = Date { year: *WRITTEN.start(), month: 1, day: 1 };
        let dates = std::iter::successors(Some(first), |date| Some(date.tomorrow()));
        let dates: Vec<Date> = dates.take_while(|date| WRITTEN.contains(&date.year)).collect();
        let numbers = dates.iter().copied().zip(0..).collect();
        Calendar { dates, numbers }
    }

    /// "24 no such date, or a year before 2000"; then 25, which each day of a year behind the calendar is.
    fn day_number(&self, date: Date) -> Answer {
        match self.numbers.get(&date) {
            _ if !date.exists() || date.year < 2000 => Answer::Refused(24),
            Some(number) => in_two_bytes(*number),
            None => Answer::Refused(25),
        }
    }

    /// The date on a day; a day below 0 lies in a year before 2000.
    fn on(&self, day: i64) -> Result<Date, Answer> {
        match day {
            ..0 => Err(Answer::Refused(24)),
            _ if DAYS.contains(&day) => Ok(self.dates[day as usize]),
            _ => Err(Answer::Refused(25)),
        }
    }

    fn date(&self, day: i64) -> Answer {
        match self.on(day) {
            Ok(Date { year, month, day }) => Answer::Date([year, month, day].map(|part| part as u64)),
            Err(refused) => refused,
        }
    }

    /// "The last day is the day before the same day of the month that many months on. If that month has no such day, its last
    /// day is the end .. 26 months outside 1..12; in the order 26, 24, 25."
    fn last_day(&self, first: i64, months: i64) -> Answer {
        if !(1..=12).contains(&months) {
            return Answer::Refused(26);
        }
        let first = match self.on(first) {
            Ok(first) => first,
            Err(refused) => return refused,
        };
        // the day before the next month, where the month lacks the day
        let same = months_on(first, months);
        let after = if same.exists() { same } else { next_month(same) };
        in_two_bytes(self.numbers[&after] - 1)
    }

    fn answer(&self, asked: &Asked) -> Answer {
        match *asked {
            Asked::DayNumber([year, month, day]) => self.day_number(Date { year, month, day }),
            Asked::Date(day) => self.date(day),
            Asked::LastDay([first, months]) => self.last_day(first, months),
        }
    }
}

/// The same day that many months on, where that month has it, counted month by month.
fn months_on(first: Date, months: i64) -> Date {
    let month = (0..months).fold(first, |month, _| next_month(month));
    Date { day: first.day, ..month }
}

/// What the request says itself, with its example, and what is settled about it. The reading has to answer so too.
const SAID: [(Asked, Answer); 13] = [
    (Asked::DayNumber([2000, 1, 1]), Answer::Number(0)),
    (Asked::Date(65_535), Answer::Date([2179, 6, 6])),
    (Asked::DayNumber([2024, 1, 31]), Answer::Number(8796)),
    (Asked::DayNumber([2024, 2, 29]), Answer::Number(8825)),
    (Asked::LastDay([8796, 1]), Answer::Number(8825)),
    (Asked::LastDay([8795, 1]), Answer::Number(8825)),
    (Asked::LastDay([8794, 1]), Answer::Number(8824)),
    (Asked::LastDay([8825, 12]), Answer::Number(9190)),
    (Asked::DayNumber([2100, 2, 29]), Answer::Refused(24)),
    (Asked::DayNumber([2300, 2, 30]), Answer::Refused(24)),
    (Asked::DayNumber([2300, 1, 1]), Answer::Refused(25)),
    (Asked::DayNumber([i64::MAX, 13, 1]), Answer::Refused(24)),
    (Asked::LastDay([65_536, 13]), Answer::Refused(26)),
];

/// A reading that answers otherwise counts as a difference.
fn read_as_said(calendar: &Calendar, tally: &mut Tally) {
    for (asked, said) in SAID {
        let read = calendar.answer(&asked);
        if read != said {
            let why = format!("by the request {said:?}, by the plain reading {read:?}");
            tally.count(&asked, Check::Differs(why), &mut |_| Check::Refused);
        }
    }
}

// ---- ours, and the peers

fn called(dates: &Dates, asked: &Asked) -> Answer {
    let answer = match *asked {
        Asked::DayNumber(date) => dates.day_number(date).map(Answer::Number),
        Asked::Date(day) => dates.date(day).map(Answer::Date),
        Asked::LastDay([first, months]) => dates.last_day(first, months).map(Answer::Number),
    };
    match answer {
        Ok(answer) => answer,
        Err(ours::ANSWER_CHANGED) => Answer::RefusedAndChanged,
        Err(number) => Answer::Refused(number),
    }
}

/// "Both conversions undo each other for all 65,536 days."
fn undone(asked: &Asked, answer: Answer) -> Held {
    let (back, expected) = match (*asked, answer) {
        (Asked::DayNumber(date), Answer::Number(number)) => {
            (called(&ours::DATES, &Asked::Date(number as i64)), Answer::Date(date.map(|part| part as u64)))
        }
        (Asked::Date(day), Answer::Date(date)) => {
            (called(&ours::DATES, &Asked::DayNumber(date.map(|part| part as i64))), Answer::Number(day as u64))
        }
        _ => return Ok(()),
    };
    hold(back == expected, || format!("ours {answer:?}, and back from there {back:?}"))
}

/// Ours answers as the reading does; so does each peer, where it is made for that.
fn every_side(asked: &Asked, expected: Answer) -> Held {
    let got = called(&ours::DATES, asked);
    hold(got == expected, || format!("by the plain reading {expected:?}, ours {got:?}"))?;
    undone(asked, got)?;
    let refused = matches!(expected, Answer::Refused(_));
    for peer in peers::ALL.iter().filter(|peer| peer.checks || !refused) {
        let got = called(&peer.dates, asked);
        hold(got == expected, || format!("by the plain reading and ours {expected:?}, {} {got:?}", peer.name))?;
    }
    Ok(())
}

// ---- how often something came up

/// Each kind of answer, by what was asked.
const KINDS: [&str; 12] = [
    "day numbers of dates, and the dates of these",
    "24: no such date, or a year before 2000",
    "25: a date whose day number is too large",
    "dates of days, and the day numbers of these",
    "24: a day below 0",
    "25: a day above 65,535",
    "last days, the day before the same day",
    "last days, the end of a month without the day",
    "26: months outside 1 to 12",
    "24: a first day below 0",
    "25: a first day above 65,535",
    "25: a last day above 65,535",
];

/// Its place among them.
fn kind(calendar: &Calendar, asked: &Asked, answer: Answer) -> usize {
    match (*asked, answer) {
        (Asked::DayNumber(_), Answer::Refused(24)) => 1,
        (Asked::DayNumber(_), Answer::Refused(_)) => 2,
        (Asked::DayNumber(_), _) => 0,
        (Asked::Date(_), Answer::Refused(24)) => 4,
        (Asked::Date(_), Answer::Refused(_)) => 5,
        (Asked::Date(_), _) => 3,
        (Asked::LastDay(_), Answer::Refused(26)) => 8,
        (Asked::LastDay(_), Answer::Refused(24)) => 9,
        (Asked::LastDay([first, _]), Answer::Refused(_)) if DAYS.contains(&first) => 11,
        (Asked::LastDay(_), Answer::Refused(_)) => 10,
        (Asked::LastDay([first, months]), _) => {
            if calendar.on(first).is_ok_and(|first| months_on(first, months).exists()) { 6 } else { 7 }
        }
    }
}

// ---- the command

/// Every day and every date around them, extreme numbers in every place, then `cases` random ones, by the plain reading. Prints
/// how often each kind of answer came up.
pub fn run(seed: u64, cases: u64) -> Tally {
    let mut tally = Tally::alone("dates");
    tally.beside = "a plain reading";
    let calendar = Calendar::written();
    read_as_said(&calendar, &mut tally);
    let mut counts = [0_u64; KINDS.len()];
    let mut check = |asked: &Asked| {
        let expected = calendar.answer(asked);
        counts[kind(&calendar, asked, expected)] += 1;
        match every_side(asked, expected) {
            Ok(()) if matches!(expected, Answer::Refused(_)) => Check::Refused,
            Ok(()) => Check::Accepted { short: false },
            Err(why) => Check::Differs(why),
        }
    };
    case::all(&mut Random::new(seed), cases).all(|asked| tally.examine(&asked, &mut check));
    tally.end();
    println!("dates: how often each came up");
    for (count, name) in counts.iter().zip(KINDS) {
        println!("  {count:>9}  {name}");
    }
    tally
}
