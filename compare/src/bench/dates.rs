//! What the calls about dates cost, beside the arithmetic that is well known, bare and with checks, and beside the C library.
//!
//! All have our signatures and are called by a pointer that the compiler can't see through. Each cost is the mean over a fixed
//! spread of inputs.

use crate::dates::peers::{BARE, CHECKED, LIBRARY};
use crate::ours::{self, Dates};
use std::hint::black_box;

/// What ours may cost at most, in instructions, as a part of what the bare arithmetic costs.
pub const GOAL: f64 = 1.5;

/// Ours, then the peers.
pub const SIDES: [(&str, Dates); 4] = [
    ("ours", ours::DATES),
    ("bare arithmetic", BARE.dates),
    ("with checks", CHECKED.dates),
    ("C library", LIBRARY.dates),
];

/// A call that answers at once: what the counting itself costs.
pub const EMPTY: Dates = Dates { day_number: at_once_3, date: at_once_1, last_day: at_once_2 };

extern "C" fn at_once_1(_: i64, _: *mut u64) -> u64 {
    0
}

extern "C" fn at_once_2(_: i64, _: i64, _: *mut u64) -> u64 {
    0
}

extern "C" fn at_once_3(_: i64, _: i64, _: i64, _: *mut u64) -> u64 {
    0
}

#[derive(Clone, Copy)]
pub enum Call {
    DayNumber,
    Date,
    LastDay,
}

impl Call {
    pub const ALL: [Call; 3] = [Call::DayNumber, Call::Date, Call::LastDay];

    pub fn name(self) -> &'static str {
        match self {
            Call::DayNumber => "day number of a date",
            Call::Date => "date of a day number",
            Call::LastDay => "last day of a pass",
        }
    }
}

/// So many inputs, and so many days from one to the next. The last is in 2176, so that each pass ends on a day of two bytes.
pub const INPUTS: usize = 1024;
pub const APART: usize = 63;

/// A day, its date, and the months of a pass from there: 1 to 12 in turn.
#[derive(Clone, Copy)]
struct Input {
    day: i64,
    date: [i64; 3],
    months: i64,
}

fn inputs() -> Vec<Input> {
    let of = |at: usize| {
        let day = (at * APART) as i64;
        let date = CHECKED.dates.date(day).expect("a day of two bytes").map(|part| part as i64);
        Input { day, date, months: at as i64 % 12 + 1 }
    };
    (0..INPUTS).map(of).collect()
}

#[inline(always)]
fn called(dates: &Dates, call: Call, input: &Input, answer: &mut [u64; 3]) -> u64 {
    let (&Input { day, date: [year, month, day_of_month], months }, answer) = (input, answer.as_mut_ptr());
    // SAFETY: an answer has three places, and no call fills more.
    unsafe {
        match call {
            Call::DayNumber => (dates.day_number)(year, month, day_of_month, answer),
            Call::Date => (dates.date)(day, answer),
            Call::LastDay => (dates.last_day)(day, months, answer),
        }
    }
}

/// A side's calls, with what they are lent, going over the inputs again and again.
pub struct Work {
    dates: Dates,
    inputs: Vec<Input>,
    at: usize,
    input: Input,
    answer: [u64; 3],
    returned: u64,
}

impl Work {
    pub fn new(dates: Dates) -> Work {
        let inputs = inputs();
        let input = inputs[0];
        Work { dates: black_box(dates), inputs, at: 0, input, answer: [0; 3], returned: 0 }
    }

    /// One call, of this input.
    #[inline(always)]
    pub fn call(&mut self, call: Call) {
        self.returned = called(&self.dates, call, &self.input, &mut self.answer);
    }

    pub fn next(&mut self) {
        self.at = (self.at + 1) % self.inputs.len();
        self.input = self.inputs[self.at];
    }

    /// A call for each input.
    pub fn each(&mut self, call: Call) {
        for input in &self.inputs {
            self.returned = called(&self.dates, call, input, &mut self.answer);
            black_box(&self.answer);
        }
    }
}

/// Each side accepts each input and answers the same: a cost of something else would say nothing.
pub fn agree() -> bool {
    inputs().iter().all(|input| {
        let answers = SIDES.map(|(_, dates)| {
            (dates.day_number(input.date), dates.date(input.day), dates.last_day(input.day, input.months))
        });
        let (number, date, last_day) = answers[0];
        answers.iter().all(|answer| *answer == answers[0])
            && number == Ok(input.day as u64)
            && date == Ok(input.date.map(|part| part as u64))
            && last_day.is_ok()
    })
}
