//! Trays: a plain reading of what the call is to do, written apart from it, and ours against that reading.
//!
//! The reading needs the record of each list alone. Our own single call gives it, for every input; so do the original and
//! Lua, inside their domains.

mod beside;
mod case;
mod single;

use crate::beside::Beside;
use crate::domain;
use crate::r#gen::Random;
use crate::original::Original;
use crate::ours;
use crate::report::{Tally, lend, same_after, untouched};
use std::process::ExitCode;

pub use beside::{Stop, read_by_original};
pub use case::{Trayed, all_cases, as_run, case_count, some_tray};
pub use single::against_single_calls;

// ---- the plain reading

/// What one list gives alone: its record, or that this is longer than the lent buffer, or its refusal.
pub enum Alone<R> {
    Record(Vec<u8>),
    TooLong,
    Refused(R),
}

/// What a run gives.
#[derive(Clone, Debug, PartialEq, Eq)]
pub enum Tray<R> {
    Written(Vec<u8>),
    /// By 23, with place 0.
    DamagedRun,
    /// A record's refusal, with its place.
    Refused(R, u64),
    /// By 22, with place 0.
    TooLong,
}

/// "a run of value lists, each preceded by its length in two bytes, big-endian"; none where it is "a run whose lengths don't
/// end at its last byte".
pub fn lists(mut run: &[u8]) -> Option<Vec<&[u8]>> {
    let mut lists = Vec::new();
    while let Some((length, rest)) = run.split_first_chunk::<2>() {
        let (list, rest) = rest.split_at_checked(usize::from(u16::from_be_bytes(*length)))?;
        lists.push(list);
        run = rest;
    }
    run.is_empty().then_some(lists)
}

/// "write the records back to back, each laid out as if alone from the start state. .. If a record is refused, the tray gives
/// the first such record's refusal and its place in the run, from 1 .. 22 is tested for the whole tray after all records, with
/// place 0. Checks: 23 .., before any record, with place 0; a record's 21 comes in its turn."
pub fn tray<R>(run: &[u8], room: usize, mut alone: impl FnMut(&[u8]) -> Alone<R>) -> Tray<R> {
    let Some(lists) = lists(run) else { return Tray::DamagedRun };
    let mut tray = Vec::new();
    let mut too_long = false;
    for (place, list) in (1..).zip(lists) {
        match alone(list) {
            Alone::Record(record) => tray.extend(record),
            Alone::TooLong => too_long = true,
            Alone::Refused(refusal) => return Tray::Refused(refusal, place),
        }
    }
    if too_long || tray.len() > room { Tray::TooLong } else { Tray::Written(tray) }
}

// ---- ours

/// Our call on a buffer of so many bytes. An error where a byte changed that has to stay, or a place is wrong for its number.
fn called(format: &[u8], run: &[u8], room: usize) -> Result<Tray<u64>, String> {
    let (lent_format, lent_run) = (format.to_vec(), run.to_vec());
    let mut buffer = lend(room);
    let (answer, place) = ours::pack_tray(&lent_format, &lent_run, &mut buffer);
    same_after(&lent_format, format)?;
    same_after(&lent_run, run)?;
    let written = answer.map_or(0, |length| usize::try_from(length).unwrap_or(usize::MAX));
    if written > room || !untouched(&buffer, written) {
        return Err(format!("room {room}: {answer:?}, place {place}, or it changed a byte that is not the tray's"));
    }
    buffer.truncate(written);
    match (answer, place) {
        (Ok(_), 0) => Ok(Tray::Written(buffer)),
        (Err(22), 0) => Ok(Tray::TooLong),
        (Err(23), 0) => Ok(Tray::DamagedRun),
        (Err(number @ 1..=21), 1..) => Ok(Tray::Refused(number, place)),
        _ => Err(format!("room {room}: {answer:?}, and place {place} with it")),
    }
}

// ---- the command

/// Every short run, then `cases` random ones, against our single calls and beside the original.
pub fn run(seed: u64, cases: u64, length: u32, cap: u64) -> ExitCode {
    let alone = against_single_calls(seed, cases, length);
    let mut original = Original::default();
    let mut tally = Tally::beside::<domain::Clause, domain::Finding>("tray", "the original");
    let mut check = |case: &Trayed| case.by_original(&mut original, cap);
    all_cases(&mut Random::new(seed), cases, length).all(|case| tally.examine(&case, &mut check));
    print!("{}", alone.text());
    match (alone.differences, tally.finish()) {
        (0, status) => status,
        _ => ExitCode::FAILURE,
    }
}
