//! What the calls about dates are held against in the benchmark, each under the signatures of ours, so that all are called alike.
//!
//! The arithmetic is Howard Hinnant's days_from_civil, civil_from_days and last_day_of_month
//! (howardhinnant.github.io/date_algorithms.html), whose day 0 is 1 January 1970: bare, and behind the request's checks. The third
//! is the C library.

use crate::ours::Dates;

pub struct Peer {
    pub name: &'static str,
    /// It refuses what ours refuses; the others are to be asked only what ours accepts.
    pub checks: bool,
    pub dates: Dates,
}

pub const BARE: Peer = Peer {
    name: "the bare arithmetic",
    checks: false,
    dates: Dates { day_number: bare_day_number, date: bare_date, last_day: bare_last_day },
};

pub const CHECKED: Peer = Peer {
    name: "the arithmetic with checks",
    checks: true,
    dates: Dates { day_number: checked_day_number, date: checked_date, last_day: checked_last_day },
};

pub const LIBRARY: Peer = Peer {
    name: "the C library",
    checks: false,
    dates: Dates { day_number: library_day_number, date: library_date, last_day: library_last_day },
};

pub const ALL: [Peer; 3] = [BARE, CHECKED, LIBRARY];

/// 1 January 2000, counted from 1 January 1970.
const FIRST: i64 = 10_957;

// ---- the arithmetic

fn days_from_civil(y: i64, m: u32, d: u32) -> i64 {
    let y = if m <= 2 { y - 1 } else { y };
    let era = (if y >= 0 { y } else { y - 399 }) / 400;
    let yoe = (y - era * 400) as u32;
    let doy = (153 * (if m > 2 { m - 3 } else { m + 9 }) + 2) / 5 + d - 1;
    let doe = yoe * 365 + yoe / 4 - yoe / 100 + doy;
    era * 146_097 + i64::from(doe) - 719_468
}

fn civil_from_days(z: i64) -> (i64, u32, u32) {
    let z = z + 719_468;
    let era = (if z >= 0 { z } else { z - 146_096 }) / 146_097;
    let doe = (z - era * 146_097) as u32;
    let yoe = (doe - doe / 1460 + doe / 36_524 - doe / 146_096) / 365;
    let y = i64::from(yoe) + era * 400;
    let doy = doe - (365 * yoe + yoe / 4 - yoe / 100);
    let mp = (5 * doy + 2) / 153;
    let d = doy - (153 * mp + 2) / 5 + 1;
    let m = if mp < 10 { mp + 3 } else { mp - 9 };
    (if m <= 2 { y + 1 } else { y }, m, d)
}

fn last_day_of_month(y: i64, m: u32) -> u32 {
    const LENGTHS: [u8; 12] = [31, 28, 31, 30, 31, 30, 31, 31, 30, 31, 30, 31];
    let is_leap = y % 4 == 0 && (y % 100 != 0 || y % 400 == 0);
    if m != 2 || !is_leap { u32::from(LENGTHS[m as usize - 1]) } else { 29 }
}

/// The end of the month that many months on, or the day before the same day of it.
fn last_day(first: i64, months: i64) -> i64 {
    let (y, m, d) = civil_from_days(first);
    let m = m + months as u32;
    let (y, m) = if m > 12 { (y + 1, m - 12) } else { (y, m) };
    days_from_civil(y, m, 1) + i64::from((d - 1).min(last_day_of_month(y, m))) - 1
}

fn date(day: i64) -> [u64; 3] {
    let (y, m, d) = civil_from_days(day + FIRST);
    [y as u64, u64::from(m), u64::from(d)]
}

// ---- bare

#[inline(never)]
unsafe extern "C" fn bare_day_number(year: i64, month: i64, day: i64, answer: *mut u64) -> u64 {
    // SAFETY: here and below the caller lends an answer with as many places as the call fills.
    unsafe { *answer = (days_from_civil(year, month as u32, day as u32) - FIRST) as u64 };
    0
}

#[inline(never)]
unsafe extern "C" fn bare_date(day: i64, answer: *mut u64) -> u64 {
    unsafe { *answer.cast() = date(day) };
    0
}

#[inline(never)]
unsafe extern "C" fn bare_last_day(first: i64, months: i64, answer: *mut u64) -> u64 {
    unsafe { *answer = (last_day(first + FIRST, months) - FIRST) as u64 };
    0
}

// ---- with the checks of the request

#[inline(never)]
unsafe extern "C" fn checked_day_number(year: i64, month: i64, day: i64, answer: *mut u64) -> u64 {
    if year < 2000 || !(1..=12).contains(&month) || day < 1 || day > i64::from(last_day_of_month(year, month as u32)) {
        return 24;
    }
    if year > 2179 {
        return 25;
    }
    unsafe { put(days_from_civil(year, month as u32, day as u32) - FIRST, answer) }
}

#[inline(never)]
unsafe extern "C" fn checked_date(day: i64, answer: *mut u64) -> u64 {
    match day {
        ..0 => 24,
        65_536.. => 25,
        _ => {
            unsafe { *answer.cast() = date(day) };
            0
        }
    }
}

#[inline(never)]
unsafe extern "C" fn checked_last_day(first: i64, months: i64, answer: *mut u64) -> u64 {
    match first {
        _ if !(1..=12).contains(&months) => 26,
        ..0 => 24,
        65_536.. => 25,
        _ => unsafe { put(last_day(first + FIRST, months) - FIRST, answer) },
    }
}

/// Puts a number that two bytes hold.
unsafe fn put(number: i64, answer: *mut u64) -> u64 {
    if number > 65_535 {
        return 25;
    }
    unsafe { *answer = number as u64 };
    0
}

// ---- the C library

/// `struct tm` of Linux's C libraries.
#[repr(C)]
#[derive(Default)]
struct Tm {
    sec: i32,
    min: i32,
    hour: i32,
    mday: i32,
    mon: i32,
    year: i32,
    wday: i32,
    yday: i32,
    isdst: i32,
    gmtoff: i64,
    zone: usize,
}

unsafe extern "C" {
    fn timegm(time: *mut Tm) -> i64;
    fn gmtime_r(seconds: *const i64, time: *mut Tm) -> *mut Tm;
}

const SECONDS: i64 = 86_400;

/// The date at the start of a day.
fn at(day: i64) -> Tm {
    let mut time = Tm::default();
    // SAFETY: both places are lent until the call returns.
    unsafe { gmtime_r(&((day + FIRST) * SECONDS), &mut time) };
    time
}

/// The day of a date, which is made one that exists where it is none.
fn day_of(time: &mut Tm) -> i64 {
    // SAFETY: the place is lent until the call returns.
    unsafe { timegm(time) / SECONDS - FIRST }
}

#[inline(never)]
unsafe extern "C" fn library_day_number(year: i64, month: i64, day: i64, answer: *mut u64) -> u64 {
    let mut time = Tm { mday: day as i32, mon: month as i32 - 1, year: year as i32 - 1900, ..Tm::default() };
    unsafe { *answer = day_of(&mut time) as u64 };
    0
}

#[inline(never)]
unsafe extern "C" fn library_date(day: i64, answer: *mut u64) -> u64 {
    let time = at(day);
    unsafe { *answer.cast() = [time.year + 1900, time.mon + 1, time.mday].map(|part| part as u64) };
    0
}

/// By gmtime_r, the month moved on, and timegm. Where the month has no such day, timegm goes on into the next month, and the day
/// of the month that it leaves says how far.
#[inline(never)]
unsafe extern "C" fn library_last_day(first: i64, months: i64, answer: *mut u64) -> u64 {
    let mut time = at(first);
    let day = time.mday;
    time.mon += months as i32;
    let same = day_of(&mut time);
    let last = if time.mday == day { same - 1 } else { same - i64::from(time.mday) };
    unsafe { *answer = last as u64 };
    0
}
