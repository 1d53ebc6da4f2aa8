//! Time per call of ours and of the original, of trays beside single calls, of calls about dates beside their peers, and of ranges
//! of lengths beside measuring: processor time, by the clock that Lua's os.clock reads too.
//!
//! A sample is as many calls as take a millisecond, at least one. Samples of each side take turns; the least of each counts.
//! Speed depends on where in memory buffers lie, so they are made anew at other places some times. Of the original,
//! freeing its results is part of a call.

use super::dates::{Call, INPUTS, SIDES, Work};
use super::range::Ranges;
use super::trays::Trays;
use super::workloads::Workload;
use std::hint::black_box;

unsafe extern "C" {
    /// Microseconds of processor time.
    fn clock() -> i64;
}

/// How many samples the least is taken of, here and in Lua.
pub const SAMPLES: usize = PLACES * SAMPLES_AT_A_PLACE;

const PLACES: usize = 10;
const SAMPLES_AT_A_PLACE: usize = 10;

/// How long a sample takes at least, in microseconds.
pub const LEAST: i64 = 1000;

fn sample(calls: u64, call: &mut dyn FnMut()) -> i64 {
    // SAFETY: the C library's clock takes nothing and keeps nothing.
    let start = unsafe { clock() };
    (0..calls).for_each(|_| black_box(&mut *call)());
    unsafe { clock() - start }
}

/// So many calls that a sample is long enough.
fn enough(call: &mut dyn FnMut()) -> u64 {
    let mut calls = 1;
    while sample(calls, call) < LEAST {
        calls *= 2;
    }
    calls
}

/// Nanoseconds of the original and of ours.
pub fn times(workload: &Workload) -> [f64; 2] {
    let mut least = [f64::INFINITY; 2];
    let mut blocks = Vec::new();
    for place in 0..PLACES {
        blocks.push(vec![0_u8; 200 + 104 * place]);
        let mut ours = workload.ours();
        workload.with_original(|call, state| {
            let mut original = || {
                assert!(call(state).is_ok());
                state.clear();
            };
            sample_in_turns([&mut original, &mut ours], &mut least);
        });
    }
    least
}

/// Nanoseconds of a tray, of our single calls and of the original's.
pub fn times_of_tray(trays: &Trays) -> [f64; 3] {
    let mut least = [f64::INFINITY; 3];
    let mut blocks = Vec::new();
    let single = trays.single();
    for place in 0..PLACES {
        blocks.push(vec![0_u8; 200 + 104 * place]);
        let (mut tray, mut each) = (trays.ours(), trays.ours_each());
        single.with_original(|call, state| {
            let mut original = || trays.original_each(call, state);
            sample_in_turns([&mut tray, &mut each, &mut original], &mut least);
        });
    }
    least
}

/// Nanoseconds of a call about dates, by each side: the mean over the inputs.
pub fn times_of_dates(call: Call) -> [f64; 4] {
    let mut least = [f64::INFINITY; 4];
    for _ in 0..PLACES {
        let [mut ours, mut bare, mut checked, mut library] = SIDES.map(|(_, side)| {
            let mut work = Work::new(side);
            move || work.each(call)
        });
        sample_in_turns([&mut ours, &mut bare, &mut checked, &mut library], &mut least);
    }
    least.map(|nanoseconds| nanoseconds / INPUTS as f64)
}

/// Nanoseconds of a range of lengths, and of the two measurings beside it.
pub fn times_of_range(ranges: &Ranges) -> [f64; 2] {
    let mut least = [f64::INFINITY; 2];
    for _ in 0..PLACES {
        sample_in_turns([&mut ranges.ours(), &mut ranges.measurings()], &mut least);
    }
    least
}

fn sample_in_turns<const N: usize>(mut sides: [&mut dyn FnMut(); N], least: &mut [f64; N]) {
    let calls: Vec<u64> = sides.iter_mut().map(|side| enough(side)).collect();
    for _ in 0..SAMPLES_AT_A_PLACE {
        for ((side, calls), least) in sides.iter_mut().zip(&calls).zip(&mut *least) {
            *least = least.min(sample(*calls, side) as f64 * 1000.0 / *calls as f64);
        }
    }
}
