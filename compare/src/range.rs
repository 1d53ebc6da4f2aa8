//! The least and greatest length of a record whose texts are not known yet: a plain reading of what the call is to do, written
//! apart from it, and ours against that reading. Ours against our measuring and writing is in `calls`.

mod calls;
mod case;

use crate::r#gen::Random;
use crate::items::{Item, Numeral, Settings, items};
use crate::ours;
use crate::report::{Check, Tally, hold, same_after};
use std::process::ExitCode;

pub use calls::{against_calls, with_chars};
pub use case::{Ranged, as_pairs, drawn};

/// The least and the greatest length, or the refusal's number.
pub type Range = Result<[u64; 2], u64>;

// ---- the plain reading

/// "the least and greatest text length (two bytes each, big-endian ..)"; none where there is "a part of a pair".
pub fn pairs_of(bytes: &[u8]) -> Option<Vec<[u64; 2]>> {
    let (pairs, part) = bytes.as_chunks::<4>();
    let number = |high: u8, low: u8| u64::from(high) * 256 + u64::from(low);
    let pair = |[a, b, c, d]: &[u8; 4]| [number(*a, *b), number(*c, *d)];
    part.is_empty().then(|| pairs.iter().map(pair).collect())
}

/// "Given a format and, for each z or s in order, the least and greatest text length .., give the least and greatest record
/// length .. pairs left over are ignored, a part of a pair gives 21 .. The format checks are those of measuring without 10.
/// .. 9 is tested on the greatest record length."
pub fn read(format: &[u8], pairs: &[u8]) -> Range {
    let mut pairs = pairs_of(pairs).ok_or(21_u64)?.into_iter();
    let mut settings = Settings::START;
    let mut lengths = [0_u128; 2];
    for item in items(format) {
        if let Some(number) = item.refusal() {
            return Err(number);
        }
        let alignment = item.aligned_by().min(settings.limit);
        if ![1, 2, 4, 8, 16].contains(&alignment) {
            return Err(6);
        }
        let texts = if item.is_open() { texts(&item, pairs.next())? } else { [0, 0] };
        for (length, text) in lengths.iter_mut().zip(texts) {
            *length = multiple(*length, alignment.into()) + own_bytes(&item) + u128::from(text);
        }
        if lengths[1] >= 1 << 63 {
            return Err(9);
        }
        settings = settings.after(&item);
    }
    Ok(lengths.map(|length| length as u64))
}

/// "Checks, at the item right after 11 (no pair left): 27 a least above its greatest, then 15 a greatest that s cannot hold":
/// one that is "not below 2^(8n)".
fn texts(item: &Item, pair: Option<[u64; 2]>) -> Range {
    let [least, greatest] = pair.ok_or(11_u64)?;
    if least > greatest {
        return Err(27);
    }
    match item.prefix() {
        Some(size @ ..8) if greatest >= 1 << (8 * size) => Err(15),
        _ => Ok([least, greatest]),
    }
}

/// Zeros are added one by one until the length is a multiple.
fn multiple(mut length: u128, alignment: u128) -> u128 {
    while !length.is_multiple_of(alignment) {
        length += 1;
    }
    length
}

/// What an item puts besides padding and the text of z or s: z its zero, s its length.
fn own_bytes(item: &Item) -> u128 {
    match (item.option, item.numeral) {
        (b'x' | b'z', _) => 1,
        (b'c', Numeral::Number(n)) => n.into(),
        _ => item.size().or(item.prefix()).unwrap_or(0).into(),
    }
}

// ---- what the request says

const MOST: u64 = i64::MAX as u64;

/// What the request says itself, and what is settled about it. The reading has to answer so too.
pub const SAID: &[(&str, &[u8], Range)] = &[
    // without z or s both lengths are the measure
    ("", &[], Ok([0, 0])),
    ("<!8bn", &[], Ok([16, 16])),
    // z counts its text and its zero, s its padding, its length and its text
    ("z", &[0, 1, 0, 3], Ok([2, 4])),
    ("s", &[0, 1, 0, 3], Ok([9, 11])),
    ("b s4", &[0, 0, 0, 5], Ok([5, 10])),
    ("!4 b s4", &[0, 0, 0, 5], Ok([8, 13])),
    ("!2 b s4", &[0, 0, 0, 5], Ok([6, 11])),
    ("!4 z i", &[0, 2, 0, 3], Ok([8, 8])),
    ("!4 z i", &[0, 0, 0, 3], Ok([8, 8])),
    ("!4 z i", &[0, 3, 0, 4], Ok([8, 12])),
    ("z s1 z", &[0, 1, 0, 3, 0, 0, 0, 255, 1, 0, 255, 255], Ok([260, 65_796])),
    // a part of a pair, first of all
    ("", &[0], Err(21)),
    ("b", &[0, 0, 0], Err(21)),
    ("q", &[0, 0], Err(21)),
    ("z", &[0, 1, 0, 3, 0], Err(21)),
    ("z", &[0, 3, 0, 1, 0], Err(21)),
    // pairs left over
    ("b", &[0, 2, 0, 1], Ok([1, 1])),
    ("z", &[0, 1, 0, 3, 0, 2, 0, 1], Ok([2, 4])),
    // the format's checks, item by item
    ("!4s3", &[], Err(6)),
    ("!2s3", &[0, 0, 0, 0], Ok([3, 3])),
    ("s17", &[], Err(3)),
    ("s18446744073709551616", &[], Err(2)),
    ("Xz", &[], Err(7)),
    ("zq", &[], Err(11)),
    ("qz", &[], Err(1)),
    ("zq", &[0, 0, 0, 0], Err(1)),
    ("zz", &[0, 0, 0, 0], Err(11)),
    // 27, then 15
    ("z", &[0, 2, 0, 1], Err(27)),
    ("s1", &[0, 0, 0, 255], Ok([1, 256])),
    ("s1", &[0, 0, 1, 0], Err(15)),
    ("s1", &[1, 1, 1, 0], Err(27)),
    ("s2", &[255, 255, 255, 255], Ok([65_537, 65_537])),
    // 9 at its item, on the greatest length
    ("c9223372036854775807bq", &[], Err(9)),
    ("c9223372036854775807z", &[], Err(11)),
    ("c9223372036854775807z", &[0, 0, 0, 0], Err(9)),
    ("c9223372036854775806zq", &[0, 0, 0, 1], Err(9)),
    ("c9223372036854775806s1", &[0, 0, 1, 0], Err(15)),
    ("c9223372036854775805z", &[0, 0, 0, 1], Ok([MOST - 1, MOST])),
    ("c9223372036854775792!8zXd", &[0, 0, 0, 7], Ok([MOST - 7, MOST - 7])),
    ("c9223372036854775792!8zXd", &[0, 0, 0, 8], Err(9)),
];

/// A reading that answers otherwise counts as a difference.
fn read_as_said(tally: &mut Tally) {
    for (format, pairs, said) in SAID {
        let read = read(format.as_bytes(), pairs);
        if read != *said {
            let why = format!("by the request {said:?}, by the plain reading {read:?}");
            tally.count(&Ranged::new(*format, pairs.to_vec()), Check::Differs(why), &mut |_| Check::Refused);
        }
    }
}

// ---- ours

/// Our call. An error where a byte changed that was only lent for reading, or a refusal changed the answer.
fn called(case: &Ranged) -> Result<Range, String> {
    let (format, pairs) = (case.format.clone(), case.pairs.clone());
    let range = ours::packsize_range(&format, &pairs);
    same_after(&format, &case.format)?;
    same_after(&pairs, &case.pairs)?;
    hold(range != Err(ours::ANSWER_CHANGED), || "a refusal changed the answer".to_string())?;
    Ok(range)
}

fn by_reading(case: &Ranged, expected: Range) -> Result<Check, String> {
    let range = called(case)?;
    hold(range == expected, || format!("by the plain reading {expected:?}, ours {range:?}"))?;
    Ok(if range.is_ok() { Check::Accepted { short: false } } else { Check::Refused })
}

// ---- how often something came up

/// A kind of case, and whether one of so many texts is of that kind.
type Kind = (&'static str, fn(&Ranged, usize, Range) -> bool);

const KINDS: [Kind; 14] = [
    ("a format without z or s: the same length twice", |_, texts, range| texts == 0 && range.is_ok()),
    ("one length for all texts", |_, texts, range| texts > 0 && range.is_ok_and(|[least, most]| least == most)),
    ("a least and a greatest length", |_, _, range| range.is_ok_and(|[least, most]| least < most)),
    ("of these three, with pairs left over", |case, texts, range| range.is_ok() && case.left_over(texts).len() > 0),
    ("of these, one whose least is above its greatest", |case, texts, range| {
        range.is_ok() && case.left_over(texts).any(|[least, greatest]| least > greatest)
    }),
    ("a greatest length of 2^63-1, or up to 15 less", |_, _, range| range.is_ok_and(|[_, most]| most >= MOST - 15)),
    ("1 to 5, 7, 8", |_, _, range| matches!(range, Err(1..=5 | 7 | 8))),
    ("6", |_, _, range| range == Err(6)),
    ("9 without z or s", |_, texts, range| texts == 0 && range == Err(9)),
    ("9 with z or s", |_, texts, range| texts > 0 && range == Err(9)),
    ("11", |_, _, range| range == Err(11)),
    ("15", |_, _, range| range == Err(15)),
    ("21", |_, _, range| range == Err(21)),
    ("27", |_, _, range| range == Err(27)),
];

fn print(counts: &[u64; KINDS.len()]) {
    println!("range: how often each came up");
    for (count, (name, _)) in counts.iter().zip(KINDS) {
        println!("  {count:>9}  {name}");
    }
}

// ---- the command

/// Every short format and every short run of pairs, then `cases` random ones, by the plain reading. Prints how often each kind of
/// them came up.
pub fn against_reading(seed: u64, cases: u64, length: u32) -> Tally {
    let mut tally = Tally::alone("range");
    tally.beside = "a plain reading";
    read_as_said(&mut tally);
    let mut counts = [0; KINDS.len()];
    let mut check = |case: &Ranged| {
        let (texts, expected) = (case.texts(), read(&case.format, &case.pairs));
        for (count, (_, is_kind)) in counts.iter_mut().zip(KINDS) {
            *count += u64::from(is_kind(case, texts, expected));
        }
        by_reading(case, expected).unwrap_or_else(Check::Differs)
    };
    case::all(&mut Random::new(seed), cases, length).all(|case| tally.examine(&case, &mut check));
    tally.end();
    print(&counts);
    tally
}

/// Both runs.
pub fn run(seed: u64, cases: u64, length: u32) -> ExitCode {
    let tallies = [against_reading(seed, cases, length), against_calls(seed, cases, length)];
    tallies.iter().for_each(|tally| print!("{}", tally.text()));
    if tallies.iter().all(|tally| tally.differences == 0) { ExitCode::SUCCESS } else { ExitCode::FAILURE }
}
