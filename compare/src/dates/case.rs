//! What is asked about dates: every day and all around them, extreme numbers in every place, numbers by chance, and how a case
//! that differs is made smaller.

use super::DAYS;
use crate::r#gen::{self, Random};
use crate::report::Case;
use std::ops::RangeInclusive;

/// One call.
#[derive(Clone, Copy)]
pub enum Asked {
    /// Year, month, day.
    DayNumber([i64; 3]),
    Date(i64),
    /// The first day, and months.
    LastDay([i64; 2]),
}

/// Every day and all around them, extreme numbers, then `cases` random ones.
pub fn all(random: &mut Random, cases: u64) -> impl Iterator<Item = Asked> {
    every().chain(extreme()).chain((0..cases).map(|_| drawn(random)))
}

// ---- every day

const YEARS: RangeInclusive<i64> = 1995..=2405;
const MONTHS: RangeInclusive<i64> = -1..=14;
const DAYS_OF_A_MONTH: RangeInclusive<i64> = -1..=33;

/// All days, the last days of all of them, and all dates of some 400 years.
fn every() -> impl Iterator<Item = Asked> {
    let days = DAYS.map(Asked::Date);
    let last_days = DAYS.flat_map(|first| MONTHS.map(move |months| Asked::LastDay([first, months])));
    let dates = YEARS.flat_map(|year| {
        MONTHS.flat_map(move |month| DAYS_OF_A_MONTH.map(move |day| Asked::DayNumber([year, month, day])))
    });
    days.chain(last_days).chain(dates)
}

// ---- extreme numbers

/// Around the ends of what a part of a date can be, of February in 2100, and of two bytes.
const NEAR: [i64; 38] = [
    -65_536, -65_535, -2024, -2000, -32, -12, -4, -1, 0, 1, 2, 3, 4, 11, 12, 13, 28, 29, 30, 31, 32, 1999, 2000, 2001,
    2096, 2100, 2101, 2179, 2180, 2300, 2400, 36_583, 36_584, 36_585, 65_505, 65_534, 65_535, 65_536,
];

/// Around the ends of each width, and numbers whose lower bits are a good year, month or day.
const FAR: [i64; 26] = [
    i64::MIN,
    i64::MIN + 1,
    i64::MIN + 2024,
    -(1 << 32),
    -(1 << 32) + 1,
    i32::MIN as i64 - 1,
    i32::MIN as i64,
    (1 << 8) + 1,
    (1 << 16) + 1,
    (1 << 16) + 2024,
    i32::MAX as i64,
    i32::MAX as i64 + 1,
    u32::MAX as i64 - 1,
    u32::MAX as i64,
    1 << 32,
    (1 << 32) + 1,
    (1 << 32) + 2024,
    (1 << 48) + 2,
    (1 << 56) + 12,
    i64::MAX - 207, // 400 divides it
    i64::MAX - 107, // 100 does, 200 doesn't
    i64::MAX - 7,   // 200 does, 400 doesn't
    i64::MAX - 3,   // 4 does, 100 doesn't
    i64::MAX - 2,
    i64::MAX - 1,
    i64::MAX,
];

/// All of them in every place.
fn extreme() -> impl Iterator<Item = Asked> {
    let numbers = [&NEAR[..], &FAR].concat();
    let mut all: Vec<Asked> = numbers.iter().copied().map(Asked::Date).collect();
    for &first in &numbers {
        for &second in &numbers {
            all.push(Asked::LastDay([first, second]));
            all.extend(numbers.iter().map(|&third| Asked::DayNumber([first, second, third])));
        }
    }
    all.into_iter()
}

// ---- by chance

fn drawn(random: &mut Random) -> Asked {
    match random.below(8) {
        0 => Asked::Date(number(random, DAYS)),
        1..4 => Asked::LastDay([number(random, DAYS), number(random, MONTHS)]),
        _ => Asked::DayNumber([number(random, YEARS), number(random, MONTHS), number(random, DAYS_OF_A_MONTH)]),
    }
}

/// Most are among the usual ones; others have more bits beside such a one, or are extreme, or any.
fn number(random: &mut Random, usual: RangeInclusive<i64>) -> i64 {
    let inside = random.among(0, (usual.end() - usual.start()) as usize) as i64 + usual.start();
    match random.below(16) {
        0 => inside ^ (1 << random.below(64)),
        1 => random.pick(&NEAR) + random.among(0, 4) as i64 - 2,
        2 => random.pick(&FAR).wrapping_add(random.among(0, 4) as i64 - 2),
        3 => r#gen::integer(random),
        4 => (random.next() >> random.below(64)) as i64,
        _ => inside,
    }
}

// ---- smaller ones

/// The simplest numbers of each place.
const FIRST_DATE: [i64; 3] = [2000, 1, 1];
const FIRST_PASS: [i64; 2] = [0, 1];

impl Case for Asked {
    fn weight(&self) -> usize {
        match self {
            Asked::DayNumber(date) => distance(date, &FIRST_DATE),
            Asked::Date(day) => distance(&[*day], &[0]),
            Asked::LastDay(pass) => distance(pass, &FIRST_PASS),
        }
    }

    fn smaller(&self) -> Vec<Asked> {
        match self {
            Asked::DayNumber(date) => nearer(*date, FIRST_DATE).into_iter().map(Asked::DayNumber).collect(),
            Asked::Date(day) => nearer([*day], [0]).into_iter().map(|[day]| Asked::Date(day)).collect(),
            Asked::LastDay(pass) => nearer(*pass, FIRST_PASS).into_iter().map(Asked::LastDay).collect(),
        }
    }

    fn show(&self) -> String {
        match self {
            Asked::DayNumber([year, month, day]) => format!("the day number of year {year}, month {month}, day {day}"),
            Asked::Date(day) => format!("the date of day {day}"),
            Asked::LastDay([first, months]) => format!("the last day from day {first} over months {months}"),
        }
    }
}

fn distance(numbers: &[i64], simplest: &[i64]) -> usize {
    let each = numbers.iter().zip(simplest).map(|(number, simplest)| number.abs_diff(*simplest) as usize);
    each.fold(0, usize::saturating_add)
}

/// One of the numbers taken to its simplest, half of the way there, or by one.
fn nearer<const N: usize>(numbers: [i64; N], simplest: [i64; N]) -> Vec<[i64; N]> {
    let mut all = Vec::new();
    for place in 0..N {
        let (number, simplest) = (i128::from(numbers[place]), i128::from(simplest[place]));
        let way = number - simplest;
        let steps = [simplest, simplest + way / 2, number - way.signum()].into_iter().filter(|step| *step != number);
        all.extend(steps.map(|step| {
            let mut changed = numbers;
            changed[place] = step as i64;
            changed
        }));
    }
    all
}
