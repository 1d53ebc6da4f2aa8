//! The range of lengths against our measuring and our writing: both ends are reached, and every record lies between.

use super::case::{Ranged, as_pairs, drawn};
use super::{Range, called, pairs_of};
use crate::r#gen::{self, Random};
use crate::items::items;
use crate::ours;
use crate::report::{Check, Held, Tally, hold, lend, untouched};
use crate::value::{Value, encode};

/// How often something came up.
#[derive(Default)]
struct Counts {
    every: u64,
    measured: u64,
    reached: u64,
    between: u64,
    too_long: u64,
    refused: u64,
}

/// Every short format and pairs with all texts, then `cases` random ones with some. Prints how often each came up.
pub fn against_calls(seed: u64, cases: u64, length: u32) -> Tally {
    let mut tally = Tally::alone("range");
    tally.beside = "our measuring and writing";
    let mut counts = Counts::default();
    let mut check = |case: &Ranged| every_text(case, &mut counts).unwrap_or_else(Check::Differs);
    short(length).all(|case| tally.examine(&case, &mut check));
    let mut check = |case: &Ranged| some_texts(case, &mut counts).unwrap_or_else(Check::Differs);
    let mut random = Random::new(seed);
    (0..cases).all(|_| tally.examine(&drawn(&mut random), &mut check));
    tally.end();
    println!("range: how often each came up");
    for (count, name) in [
        (counts.every, "records of all texts within short pairs: the narrowest and the widest"),
        (counts.measured, "measured with c in place of z and s: the least, the greatest, or the refusal"),
        (counts.reached, "written with the least texts and with the greatest: the least and the greatest length"),
        (
            counts.between,
            "written with texts between: in a buffer of the greatest length, and not shorter than the least",
        ),
        (counts.too_long, "22 with the greatest texts: too long for any buffer here"),
        (counts.refused, "refused by 1 to 9 or 15: writing refuses the greatest texts by the same number"),
    ] {
        println!("  {count:>9}  {name}");
    }
    tally
}

// ---- the texts

/// A pair for each z and s, with some text between; none where 11, 21 or 27 are due, of which measuring and writing know nothing.
fn pairs(case: &Ranged) -> Option<Vec<[u64; 2]>> {
    let (mut pairs, texts) = (pairs_of(&case.pairs)?, case.texts());
    pairs.truncate(texts);
    let admitted = pairs.len() == texts && pairs.iter().all(|[least, greatest]| least <= greatest);
    admitted.then_some(pairs)
}

/// The least or the greatest length of each text.
fn ends(pairs: &[[u64; 2]], end: usize) -> Vec<u64> {
    pairs.iter().map(|pair| pair[end]).collect()
}

/// A list with a value for each option: 0 for a number, an empty text for c, texts of these lengths for z and s, then empty ones.
fn list(format: &[u8], texts: &[u64]) -> Vec<u8> {
    let mut texts = texts.iter();
    let mut value = |option: u8| match option {
        b'z' | b's' => Value::Text(vec![b't'; texts.next().map_or(0, |text| *text as usize)]),
        b'c' => Value::Text(vec![]),
        _ => Value::Integer(0),
    };
    let items = items(format);
    let values: Vec<Value> = items.iter().filter(|item| item.has_value()).map(|item| value(item.option)).collect();
    encode(&values)
}

/// The length of the record with these texts, or its refusal.
fn written(format: &[u8], texts: &[u64], room: usize) -> Result<Result<u64, u64>, String> {
    let mut record = lend(room);
    let answer = ours::pack(format, &list(format, texts), &mut record);
    let length = answer.map_or(0, |length| usize::try_from(length).unwrap_or(usize::MAX));
    hold(length <= room && untouched(&record, length), || {
        format!(
            "writing with texts of {texts:?} in room {room} gives {answer:?}, or it changed a byte behind the record"
        )
    })?;
    Ok(answer)
}

/// The format with c in place of each z, and in place of each s an integer as long as its length, and a c.
pub fn with_chars(format: &[u8], texts: &[u64]) -> Vec<u8> {
    let mut texts = texts.iter();
    let mut measured = Vec::new();
    for item in items(format) {
        let bytes = &format[item.start..item.end];
        if !item.is_open() {
            measured.extend_from_slice(bytes);
            continue;
        }
        let text = texts.next().copied().unwrap_or(0);
        let instead = match (item.option, &bytes[1..]) {
            (b'z', _) => format!("c{}", text + 1),
            (_, b"") => format!("I8c{text}"),
            (_, size) => format!("I{}c{text}", size.escape_ascii()),
        };
        measured.extend_from_slice(instead.as_bytes());
        // a digit behind it is no part of its numeral
        if format.get(item.end).is_some_and(u8::is_ascii_digit) {
            measured.push(b' ');
        }
    }
    measured
}

// ---- all texts of short pairs

const ITEMS: [&str; 14] = ["z", "s1", "s4", "s", "b", "h", "i", "x", "c3", "!2", "!4", "!", "Xi", "Xd"];

const PAIRS: [[u16; 2]; 3] = [[0, 0], [1, 4], [0, 8]];

/// Every format of up to so many of these items, with all runs of these pairs.
fn short(length: u32) -> impl Iterator<Item = Ranged> {
    let places = |count: usize| (0..count as u8).collect::<Vec<u8>>();
    r#gen::every_over(places(ITEMS.len()), length).flat_map(move |items| {
        let format: String = items.iter().map(|place| ITEMS[usize::from(*place)]).collect();
        let texts = Ranged::new(&format[..], vec![]).texts();
        let runs = r#gen::every_over(places(PAIRS.len()), texts as u32).filter(move |run| run.len() == texts);
        let runs = runs.map(|run| as_pairs(run.iter().map(|place| PAIRS[usize::from(*place)])));
        runs.map(|pairs| Ranged::new(&format[..], pairs)).collect::<Vec<_>>()
    })
}

/// Every way to choose a text within each pair.
fn choices(pairs: &[[u64; 2]]) -> Vec<Vec<u64>> {
    pairs.iter().fold(vec![vec![]], |chosen, [least, greatest]| {
        let with =
            |before: &Vec<u64>| (*least..=*greatest).map(|text| [&before[..], &[text]].concat()).collect::<Vec<_>>();
        chosen.iter().flat_map(with).collect()
    })
}

/// "Both must be reached by some texts within the given lengths, and every such text's record must lie between."
fn every_text(case: &Ranged, counts: &mut Counts) -> Result<Check, String> {
    let Some(pairs) = pairs(case) else { return Ok(Check::Excluded(vec![])) };
    let range = called(case)?;
    let (mut least, mut greatest) = (u64::MAX, 0);
    for texts in choices(&pairs) {
        counts.every += 1;
        let length = match written(&case.format, &texts, 120)? {
            Ok(length) => length,
            Err(number) => {
                return Err(format!("ours {range:?}, writing with texts of {texts:?} is refused by {number}"));
            }
        };
        (least, greatest) = (least.min(length), greatest.max(length));
    }
    hold(range == Ok([least, greatest]), || {
        format!("ours {range:?}, the narrowest record has {least} bytes and the widest {greatest}")
    })?;
    Ok(Check::Accepted { short: false })
}

// ---- some texts of any pairs

/// Records above this are not written.
const LONGEST: u64 = 1 << 22;

fn some_texts(case: &Ranged, counts: &mut Counts) -> Result<Check, String> {
    let Some(pairs) = pairs(case) else { return Ok(Check::Excluded(vec![])) };
    let range = called(case)?;
    // a text that s can't hold can be measured
    if range != Err(15) {
        measured(case, &pairs, range, counts)?;
    }
    match range {
        Ok([_, greatest]) if greatest > LONGEST => {
            counts.too_long += 1;
            same_refusal(case, &pairs, 22)?;
        }
        Ok(lengths) => reached(case, &pairs, lengths, counts)?,
        Err(number) => {
            counts.refused += 1;
            same_refusal(case, &pairs, number)?;
        }
    }
    Ok(if range.is_ok() { Check::Accepted { short: false } } else { Check::Refused })
}

/// Both lengths are measures, and a refusal by the format's own checks, or by 9, is that of measuring the greatest.
fn measured(case: &Ranged, pairs: &[[u64; 2]], range: Range, counts: &mut Counts) -> Held {
    counts.measured += 1;
    let [least, greatest] = [0, 1].map(|end| ours::packsize(&with_chars(&case.format, &ends(pairs, end))));
    let same = match range {
        Ok(lengths) => [least, greatest] == lengths.map(Ok),
        Err(number) => greatest == Err(number),
    };
    hold(same, || format!("ours {range:?}, measured with c {least:?} and {greatest:?}"))
}

/// Writing the greatest texts gives this refusal.
fn same_refusal(case: &Ranged, pairs: &[[u64; 2]], number: u64) -> Held {
    let answer = written(&case.format, &ends(pairs, 1), 64)?;
    hold(answer == Err(number), || format!("not {number} but {answer:?} is what writing the greatest texts gives"))
}

/// Records with the least texts, with the greatest, and with others, each in a buffer of the greatest length.
fn reached(case: &Ranged, pairs: &[[u64; 2]], lengths: [u64; 2], counts: &mut Counts) -> Held {
    let room = lengths[1] as usize;
    counts.reached += 1;
    for end in [0, 1] {
        let answer = written(&case.format, &ends(pairs, end), room)?;
        hold(answer == Ok(lengths[end]), || format!("ours {lengths:?}, with end {end} of each pair {answer:?}"))?;
    }
    let mut random = Random::new(case.draw);
    for _ in 0..if lengths[0] < lengths[1] { 3 } else { 1 } {
        counts.between += 1;
        let texts: Vec<u64> = pairs.iter().map(|pair| between(&mut random, *pair)).collect();
        let answer = written(&case.format, &texts, room)?;
        let inside = answer.is_ok_and(|length| (lengths[0]..=lengths[1]).contains(&length));
        hold(inside, || format!("ours {lengths:?}, with texts of {texts:?} {answer:?}"))?;
    }
    Ok(())
}

fn between(random: &mut Random, [least, greatest]: [u64; 2]) -> u64 {
    match random.below(6) {
        0 => least,
        1 => greatest,
        _ => least + random.below(greatest - least + 1),
    }
}
