//! Trays against single calls of ours, for every input, and what is to hold of trays together.

use super::case::{CAP, ends};
use super::{Alone, Tray, Trayed, all_cases, as_run, called, lists, tray};
use crate::r#gen::{self, Random};
use crate::ours;
use crate::report::{Check, Held, Tally, hold, lend, untouched};
use crate::value::decode;

/// How often something came up.
#[derive(Default)]
struct Counts {
    written: u64,
    /// By the place of the record that was refused; the last is for 6 and all after it.
    places: [u64; 6],
    malformed: u64,
    damaged: u64,
    too_long: u64,
    past_63_bits: u64,
    past_64_bits: u64,
    short: u64,
    one_list: u64,
    joined: u64,
}

/// Every short run, then `cases` random ones. Prints how often each kind of them came up.
pub fn against_single_calls(seed: u64, cases: u64, length: u32) -> Tally {
    let mut tally = Tally::alone("tray");
    tally.beside = "our single calls";
    let mut counts = Counts::default();
    let mut check = |case: &Trayed| match every_buffer(case, &mut counts) {
        Ok(true) => Check::Accepted { short: false },
        Ok(false) => Check::Refused,
        Err(why) => Check::Differs(why),
    };
    all_cases(&mut Random::new(seed), cases, length).all(|case| tally.examine(&case, &mut check));
    tally.end();
    print(&counts);
    tally
}

fn print(counts: &Counts) {
    println!("tray: how often each came up");
    let [first, second, third, fourth, fifth, later] = counts.places;
    for (count, name) in [
        (counts.written, "written, in just enough room and in more"),
        (counts.short, "22, place 0: the same in a byte too few, and in less"),
        (counts.too_long, "22, place 0: in every buffer, after all records"),
        (counts.past_63_bits, "of these, measured lengths that are 2^63 or more in sum"),
        (counts.past_64_bits, "of these, 2^64 or more"),
        (counts.damaged, "23, place 0"),
        (first, "a record's refusal, place 1"),
        (second, "a record's refusal, place 2"),
        (third, "a record's refusal, place 3"),
        (fourth, "a record's refusal, place 4"),
        (fifth, "a record's refusal, place 5"),
        (later, "a record's refusal, place 6 or later"),
        (counts.malformed, "of these, 21"),
        (counts.one_list, "one list: the single call"),
        (counts.joined, "two runs joined"),
    ] {
        println!("  {count:>9}  {name}");
    }
}

/// More room than the tray needs, where no c is above the cap.
pub fn room(case: &Trayed) -> usize {
    let room = |list: &&[u8]| r#gen::room(&case.format, &decode(list).unwrap_or_default(), CAP);
    lists(&case.run).map_or(0, |lists| lists.iter().map(room).sum()) + case.spare
}

/// The record of a list alone, on a buffer as long as the tray's.
fn single(format: &[u8], list: &[u8], room: usize) -> Alone<u64> {
    let mut buffer = lend(room);
    match ours::pack(format, list, &mut buffer) {
        Ok(length) => {
            buffer.truncate(length as usize);
            Alone::Record(buffer)
        }
        Err(22) => Alone::TooLong,
        Err(number) => Alone::Refused(number),
    }
}

/// Whether the run is accepted in enough room.
fn every_buffer(case: &Trayed, counts: &mut Counts) -> Result<bool, String> {
    let Trayed { format, run, spare, lacking } = case;
    let enough = room(case);
    let by_lists = |room: usize| tray(run, room, |list| single(format, list, room));
    let in_enough = by_lists(enough);
    count(case, &in_enough, counts);
    let mut rooms = vec![0, 1, 2, 3, *spare, enough];
    if let Tray::Written(tray) = &in_enough {
        let length = tray.len();
        rooms.extend([length, length + spare, length.saturating_sub(1), length.saturating_sub(*lacking)]);
        rooms.extend(if length <= 6 { 0..8 } else { 0..0 });
    }
    rooms.sort_unstable();
    rooms.dedup();
    for room in rooms {
        let (expected, got) = (by_lists(room), called(format, run, room)?);
        hold(got == expected, || format!("room {room}: by single calls {expected:?}, the tray {got:?}"))?;
        counts.short += u64::from(got == Tray::TooLong && in_enough != Tray::TooLong);
    }
    no_list(case)?;
    one_list(case, enough, counts)?;
    let length = if let Tray::Written(tray) = &in_enough { tray.len() } else { enough };
    joined(case, length, counts)?;
    joined(case, length.saturating_sub(1), counts)?;
    Ok(matches!(in_enough, Tray::Written(_)))
}

fn count(case: &Trayed, read: &Tray<u64>, counts: &mut Counts) {
    match read {
        Tray::Written(_) => counts.written += 1,
        Tray::DamagedRun => counts.damaged += 1,
        Tray::Refused(number, place) => {
            counts.places[(*place as usize - 1).min(5)] += 1;
            counts.malformed += u64::from(*number == 21);
        }
        Tray::TooLong => {
            counts.too_long += 1;
            let size = ours::packsize(&case.format).map_or(0, u128::from);
            let sum = size * lists(&case.run).map_or(0, |lists| lists.len() as u128);
            counts.past_63_bits += u64::from(sum >= 1 << 63);
            counts.past_64_bits += u64::from(sum >= 1 << 64);
        }
    }
}

// ---- what is to hold of trays together

/// "An empty run gives no bytes for every format."
fn no_list(case: &Trayed) -> Held {
    for room in [0, case.spare] {
        let got = called(&case.format, &[], room)?;
        hold(got == Tray::Written(vec![]), || format!("the empty run in room {room} gives {got:?}"))?;
    }
    Ok(())
}

/// Each list by itself is a tray that does with its buffer what the single call does; 22 has place 0, another refusal 1.
fn one_list(case: &Trayed, room: usize, counts: &mut Counts) -> Held {
    for list in lists(&case.run).unwrap_or_default() {
        counts.one_list += 1;
        let mut buffers = [lend(room), lend(room)];
        let single = ours::pack(&case.format, list, &mut buffers[0]);
        let (tray, place) = ours::pack_tray(&case.format, &as_run([list]), &mut buffers[1]);
        let refused = !matches!(single, Ok(_) | Err(22));
        let same = tray == single && place == u64::from(refused) && buffers[0] == buffers[1];
        hold(same && (single.is_ok() || untouched(&buffers[0], 0)), || {
            format!("one list in room {room}: {tray:?} at {place}, alone {single:?}")
        })?;
    }
    Ok(())
}

/// The run cut at the end of any list at its front: the tray of both parts from the tray of each.
fn joined(case: &Trayed, room: usize, counts: &mut Counts) -> Held {
    let Trayed { format, run, .. } = case;
    let whole = called(format, run, room)?;
    for (before, end) in (0..).zip(ends(run)) {
        counts.joined += 1;
        let parts = [called(format, &run[..end], room)?, called(format, &run[end..], room)?];
        let expected = join(&parts, before, room);
        hold(whole == expected, || format!("room {room}: the tray {whole:?}, cut after {before} lists {parts:?}"))?;
    }
    Ok(())
}

/// Both parts' bytes; or the first one's refusal, or the second one's with its place moved on by so many lists.
fn join([first, second]: &[Tray<u64>; 2], before: u64, room: usize) -> Tray<u64> {
    match (first, second) {
        (_, Tray::DamagedRun) => Tray::DamagedRun,
        (Tray::Refused(number, place), _) => Tray::Refused(*number, *place),
        (_, Tray::Refused(number, place)) => Tray::Refused(*number, before + place),
        (Tray::Written(first), Tray::Written(second)) if first.len() + second.len() <= room => {
            Tray::Written([&first[..], second].concat())
        }
        _ => Tray::TooLong,
    }
}
