//! Length prefixes: s of every size, at every limit and offset. A plain reading of what the calls are to do, written apart from
//! them, and ours against that reading; and the same cases for the runs beside the original and Lua, and some for the record.

use crate::ours::{self, Continued, State};
use crate::read::Reading;
use crate::report::{Case, Check, Held, Tally, hold, lend, untouched};
use crate::value::{Bytes, Value, encode};
use crate::write::Written;

// ---- the cases

/// A setting of the limit, and the limit that it sets; without one it is 1.
const LIMITS: [(&str, u64); 7] = [("", 1), ("!1", 1), ("!2", 2), ("!4", 4), ("!", 8), ("!8", 8), ("!16", 16)];

/// An s behind so many bytes, with a text of its own.
#[derive(Clone, Copy)]
struct Prefixed {
    big: bool,
    limit: (&'static str, u64),
    offset: usize,
    numeral: Option<u64>,
    text: usize,
}

/// Both orders; all limits; offsets 0 to 17; no numeral, and 0 to 17; texts of 0 to 2 bytes.
fn all() -> Vec<Prefixed> {
    let mut all = Vec::new();
    for (big, limit) in [false, true].into_iter().flat_map(|big| LIMITS.map(|limit| (big, limit))) {
        for (offset, numeral) in (0..=17).flat_map(|offset| numerals().map(move |numeral| (offset, numeral))) {
            all.extend((0..=2).map(|text| Prefixed { big, limit, offset, numeral, text }));
        }
    }
    all
}

fn numerals() -> impl Iterator<Item = Option<u64>> {
    std::iter::once(None).chain((0..=17).map(Some))
}

impl Prefixed {
    fn settings(&self) -> String {
        format!("{}{}", if self.big { '>' } else { '<' }, self.limit.0)
    }

    fn option(&self) -> String {
        self.numeral.map_or("s".to_string(), |size| format!("s{size}"))
    }

    fn format(&self) -> Vec<u8> {
        format!("{}c{}{}", self.settings(), self.offset, self.option()).into_bytes()
    }

    /// What stands before the s, and its own text.
    fn texts(&self) -> [Vec<u8>; 2] {
        [vec![b'c'; self.offset], vec![b's'; self.text]]
    }

    fn values(&self) -> [Value; 2] {
        self.texts().map(Value::Text)
    }
}

impl Case for Prefixed {
    fn weight(&self) -> usize {
        self.format().len() + self.offset + self.text
    }

    fn smaller(&self) -> Vec<Prefixed> {
        vec![]
    }

    fn show(&self) -> String {
        format!("{} with a text of {} bytes", Bytes(&self.format()), self.text)
    }
}

// ---- the plain reading

/// How many zeros stand before the length, and the length with the text behind it.
struct Laid {
    zeros: usize,
    field: Vec<u8>,
}

/// "Writing and reading s must now align to min(size, limit), and 6 is met by s too, after 3": zeros are added until the place is
/// a multiple.
fn laid(case: &Prefixed) -> Result<Laid, u64> {
    let size = case.numeral.unwrap_or(8) as usize;
    if !(1..=16).contains(&size) {
        return Err(3);
    }
    let alignment = size.min(case.limit.1 as usize);
    if ![1, 2, 4, 8, 16].contains(&alignment) {
        return Err(6);
    }
    let mut zeros = 0;
    while (case.offset + zeros) % alignment != 0 {
        zeros += 1;
    }
    let mut length = vec![0; size];
    length[if case.big { size - 1 } else { 0 }] = case.text as u8;
    Ok(Laid { zeros, field: [length, case.texts()[1].clone()].concat() })
}

/// What the s puts, and this byte as its padding; nothing where it is refused.
fn put(laid: &Result<Laid, u64>, padding: u8) -> Vec<u8> {
    laid.as_ref().map_or(vec![], |laid| [vec![padding; laid.zeros], laid.field.clone()].concat())
}

/// The record that is read: any bytes as padding, and some where there is no record.
fn data(case: &Prefixed, laid: &Result<Laid, u64>) -> Vec<u8> {
    let behind = if laid.is_ok() { put(laid, 0xEE) } else { vec![0; 20] };
    [case.texts()[0].clone(), behind].concat()
}

// ---- ours

/// An answer, or the refusal; and a buffer with the bytes at its front, and behind them as it was lent.
fn same<A: PartialEq + std::fmt::Debug>(
    got: Result<A, u64>,
    buffer: &[u8],
    expected: Result<A, u64>,
    bytes: &[u8],
) -> Held {
    let bytes = if expected.is_ok() { bytes } else { &[] };
    hold(got == expected && buffer.starts_with(bytes) && untouched(buffer, bytes.len()), || {
        format!("ours {got:?} and {}, by the plain reading {expected:?} and {}", Bytes(buffer), Bytes(bytes))
    })
}

/// The longest list of these cases has 3 + 17 + 3 + 2 bytes, the longest record 17 + 15 + 16 + 2.
const ROOM: usize = 60;

fn written(case: &Prefixed, laid: &Result<Laid, u64>) -> Held {
    let mut buffer = lend(ROOM);
    let got = ours::pack(&case.format(), &encode(&case.values()), &mut buffer);
    let record = [case.texts()[0].clone(), put(laid, 0)].concat();
    same(got, &buffer, accepted(laid, record.len() as u64), &record)
}

/// "cutting must hold with the new padding": the s by itself, from the state that what stands before it leaves.
fn continued(case: &Prefixed, laid: &Result<Laid, u64>) -> Held {
    let from = State { big: case.big, limit: case.limit.1, length: case.offset as u64 };
    let mut buffer = lend(ROOM);
    let got = ours::pack_continued(from, case.option().as_bytes(), &encode(&case.values()[1..]), &mut buffer);
    let bytes = put(laid, 0);
    let written = bytes.len() as u64;
    let next = State { length: from.length + written, ..from };
    same(got, &buffer, accepted(laid, Continued { next, written, used: 1, items: 1 }), &bytes)
}

/// "in measuring 10 comes before it"; the list bound has no 10.
fn measured(case: &Prefixed, laid: &Result<Laid, u64>) -> Held {
    let size = if matches!(laid, Err(3)) { Err(3) } else { Err(10) };
    same(ours::packsize(&case.format()), &[], size, &[])?;
    same(ours::list_bound(&case.format(), 5), &[], accepted(laid, 3 + case.offset as u64 + 3 + 5), &[])
}

/// The record, whole and cut behind each byte from the s on; all of it, and the s alone from its own start.
fn read(case: &Prefixed, laid: &Result<Laid, u64>) -> Held {
    let data = data(case, laid);
    let alone = [case.settings(), case.option()].concat().into_bytes();
    for (format, start, values) in
        [(case.format(), 1, &case.values()[..]), (alone, case.offset + 1, &case.values()[1..])]
    {
        let list = encode(values);
        for end in case.offset..=data.len() {
            let mut buffer = lend(ROOM);
            let got = ours::unpack(&format, &data[..end], start as i64, &mut buffer);
            let whole = if end < data.len() { Err(17) } else { Ok((list.len() as u64, end as u64 + 1)) };
            let expected = laid.as_ref().map_or_else(|number| Err(*number), |_| whole);
            same(got, &buffer, expected, &list)?;
        }
    }
    Ok(())
}

fn accepted<A>(laid: &Result<Laid, u64>, answer: A) -> Result<A, u64> {
    laid.as_ref().map(|_| answer).map_err(|number| *number)
}

fn every_call(case: &Prefixed) -> Check {
    let laid = laid(case);
    let calls = [written, continued, measured, read];
    match calls.iter().try_for_each(|call| call(case, &laid)) {
        Ok(()) if laid.is_err() => Check::Refused,
        Ok(()) => Check::Accepted { short: false },
        Err(why) => Check::Differs(why),
    }
}

// ---- the command, and the cases for the other runs

pub fn run() -> Tally {
    let mut tally = Tally::alone("prefixes");
    tally.beside = "a plain reading";
    all().iter().all(|case| tally.examine(case, &mut every_call));
    tally.end();
    tally
}

pub fn writings() -> Vec<Written> {
    all().iter().map(|case| Written::new(case.format(), case.values().to_vec())).collect()
}

/// Each record whole, and cut behind each byte from the s on.
pub fn readings() -> Vec<Reading> {
    let cut = |case: &Prefixed| {
        let (format, data) = (case.format(), data(case, &laid(case)));
        let ends = case.offset..=data.len();
        let to = |end| Reading { format: format.clone(), data: data[..end].to_vec(), start: 1, spare: 1, lacking: 1 };
        ends.map(to).collect::<Vec<_>>()
    };
    all().iter().flat_map(cut).collect()
}

/// A writing, and a reading of data, with what they give; no record where both are refused.
pub struct Answered {
    pub format: Vec<u8>,
    pub values: [Value; 2],
    pub record: Option<Vec<u8>>,
    pub data: Vec<u8>,
}

/// Some of the cases, at limits above 1.
pub fn answered() -> Vec<Answered> {
    let is_some = |case: &&Prefixed| {
        let odd = case.offset % 2 == 1;
        case.limit.1 > 1 && [0, 1, 3, 8].contains(&case.offset) && case.big == odd && case.text == 1
    };
    let answer = |case: &Prefixed| {
        let laid = laid(case);
        let record = laid.is_ok().then(|| [case.texts()[0].clone(), put(&laid, 0)].concat());
        Answered { format: case.format(), values: case.values(), record, data: data(case, &laid) }
    };
    all().iter().filter(is_some).map(answer).collect()
}
