//! The domain of the differential runs: a function for each of its clauses, and the known findings.
//!
//! A clause about an item counts only where the original comes to that item: where it accepts the format up to there,
//! with the same values or data. That run also gives the item's offset. So nothing of ours decides what is compared.
//! The first item that some clause, or a known finding, is about decides; an input can be excluded by several clauses.

use crate::items::{Item, Numeral, Settings, items};
use crate::original::{Original, Outcome};
use crate::report::{self, Named};
use crate::value::{LONGEST_TEXT, Value, decode};

#[derive(Clone, Copy, Debug, PartialEq, Eq)]
pub enum Clause {
    LittleEndianHost,
    FormatBytesBelow128,
    Departure1,
    Departure2,
    Departure3,
    Departure4,
    Departure5,
    Refused20,
    Refused21,
    Refused23,
    WritingAtLimitOne,
    StartAdmitted,
    NoItemRefused6,
    AtMostEightBytes,
    ReadingAtLimitOne,
    AlignmentInsideData,
}

impl Named for Clause {
    /// "nothing that 22 refuses" is not among them: such calls are made and held to 22 (`result_too_long`).
    const ALL: &[(Clause, &str)] = &[
        (Clause::LittleEndianHost, "little-endian host"),
        (Clause::FormatBytesBelow128, "format bytes below 128"),
        (Clause::Departure1, "difference 1: n and T align in writing"),
        (Clause::Departure2, "difference 2: measuring, and X everywhere, give 6"),
        (Clause::Departure3, "difference 3: c numerals above 2^63-1"),
        (Clause::Departure4, "difference 4: X with a numeral of 2^64 or more"),
        (Clause::Departure5, "difference 5: X past the end, a long s length"),
        (Clause::Refused20, "nothing that 20 refuses"),
        (Clause::Refused21, "nothing that 21 refuses"),
        (Clause::Refused23, "nothing that 23 refuses: a damaged run has no lists"),
        (Clause::WritingAtLimitOne, "writing: s only at limit 1"),
        (Clause::StartAdmitted, "reading: a start that 16 admits"),
        (Clause::NoItemRefused6, "reading: no item that 6 refuses"),
        (Clause::AtMostEightBytes, "reading: i I l L s at most 8 bytes"),
        (Clause::ReadingAtLimitOne, "reading: n, T, s only at limit 1"),
        (Clause::AlignmentInsideData, "reading: X staying inside the data"),
    ];

    fn place(self) -> usize {
        self as usize
    }
}

/// What the original does otherwise inside the domain.
#[derive(Clone, Copy, Debug, PartialEq, Eq)]
pub enum Finding {
    AlignmentSizeUnchecked,
    CharsPastTwoTo64,
    LengthPastTwoTo64,
    CharsFilledFirst,
}

impl Named for Finding {
    const ALL: &[(Finding, &str)] = &[
        (Finding::AlignmentSizeUnchecked, "unpack takes Xi0 and Xi17; here 3"),
        (Finding::CharsPastTwoTo64, "unpack panics at c where offset and numeral pass 2^64; here 17"),
        (Finding::LengthPastTwoTo64, "unpack panics at s where offset and length pass 2^64; here 17"),
        (Finding::CharsFilledFirst, "pack fills a huge c in memory before later checks; not run above the cap on c"),
    ];

    fn place(self) -> usize {
        self as usize
    }
}

impl Finding {
    /// Ours answers a known finding's input as docs/FORMAT.md says: by this number, or where it is open by any.
    pub fn admits(self, refusal: Option<u64>) -> bool {
        match self {
            Finding::AlignmentSizeUnchecked => refusal == Some(3),
            Finding::CharsPastTwoTo64 | Finding::LengthPastTwoTo64 => refusal == Some(17),
            Finding::CharsFilledFirst => refusal.is_some(),
        }
    }
}

pub type Verdict = report::Verdict<Clause, Finding>;

#[derive(Clone, Copy, PartialEq, Eq)]
enum Call {
    Measuring,
    Writing,
    Reading,
}

/// An item with what stands before it.
struct Place<'a> {
    item: &'a Item,
    settings: Settings,
    /// The items before it that have a value.
    values: usize,
}

// ---- the clauses on every call

/// "little-endian host"
fn host_is_big_endian() -> bool {
    cfg!(target_endian = "big")
}

/// "format bytes below 128"
fn byte_above_127(format: &[u8]) -> bool {
    !format.is_ascii()
}

// ---- the intended differences, 1 to 5 of docs/DIFFERENCES.md

/// "1. n and T align in writing; in `string_pack` they don't."
fn departure_1(call: Call, place: &Place, offset: u64) -> bool {
    call == Call::Writing
        && matches!(place.item.option, b'n' | b'T')
        && place.settings.padding(8, offset).is_some_and(|padding| padding > 0)
}

/// "2. Measuring, and X everywhere, give 6; the Rust doesn't."
fn departure_2(call: Call, place: &Place) -> bool {
    let measured = if call == Call::Measuring { place.item.size() } else { None };
    alignment_refused(place, measured.or(place.item.natural()))
}

/// "6 min(size, limit) above 1 and no power of two"
fn alignment_refused(place: &Place, natural: Option<u64>) -> bool {
    natural.is_some_and(|natural| place.settings.padding(natural, 0).is_none())
}

/// "3. `checked_add_size` subtracts below zero for c numerals above 2^63-1; here 9." Reading doesn't call it.
fn departure_3(call: Call, place: &Place) -> bool {
    call != Call::Reading
        && place.item.option == b'c'
        && matches!(place.item.numeral, Numeral::Number(n) if n > i64::MAX as u64)
}

/// "4. X with a numeral of 2^64 or more uses 4 there; here 2."
fn departure_4(place: &Place) -> bool {
    matches!(place.item.aligned, Some(b'i' | b'I' | b'l' | b'L')) && place.item.numeral == Numeral::TooLarge
}

/// "5. In reading, X past the end gives 17 and a long s length with high bytes not zero gives 18, even where
/// `string_unpack` does otherwise."
fn departure_5(place: &Place, offset: u64, data: &[u8]) -> bool {
    alignment_past_end(place, offset, data) || long_length_not_zero(place, offset, data)
}

fn long_length_not_zero(place: &Place, offset: u64, data: &[u8]) -> bool {
    let Some(size @ 9..) = place.item.prefix() else { return false };
    let (offset, size) = (offset as usize, size as usize);
    let Some(length) = data.get(offset..offset + size) else { return false };
    let high = if place.settings.big { &length[..size - 8] } else { &length[8..] };
    high.iter().any(|byte| *byte != 0)
}

// ---- "nothing that 20, 21 or 22 refuses"

/// "20 text above 65,535": the original gives such a text at this item.
fn text_too_long(original: &mut Original, place: &Place, format: &[u8], data: &[u8], start: i64) -> bool {
    if data.len() <= LONGEST_TEXT || !matches!(place.item.option, b'c' | b'z' | b's') {
        return false;
    }
    match original.unpack(&format[..place.item.end], data, start) {
        Outcome::Accepted((values, _)) => {
            matches!(values.last(), Some(Value::Text(text)) if text.len() > LONGEST_TEXT)
        }
        _ => false,
    }
}

/// "21 malformed list"; a slice never has more than 2^63-1 bytes, and a state is given to continued writing only.
fn list_malformed(list: &[u8]) -> bool {
    decode(list).is_none()
}

/// "22 result longer than the lent buffer"
pub fn result_too_long(length: usize, room: usize) -> bool {
    length > room
}

// ---- "`string_pack` is compared on s only at limit 1"

/// Of these options only at limit 1.
fn above_limit_one(place: &Place, options: &[u8]) -> bool {
    options.contains(&place.item.option) && place.settings.limit != 1
}

// ---- "For reading also"

/// "a start that 16 admits": 1..len+1, or -len..-1.
fn start_outside(data: &[u8], start: i64) -> bool {
    let length = data.len() as i64;
    !((1..=length + 1).contains(&start) || (-length..=-1).contains(&start))
}

/// "no item that 6 refuses"
fn item_refused_6(place: &Place) -> bool {
    alignment_refused(place, place.item.size().or(place.item.natural()))
}

/// "i I l L s at most 8 bytes". Above 16 both refuse.
fn above_eight_bytes(place: &Place) -> bool {
    matches!(place.item.size().or(place.item.prefix()), Some(9..=16))
}

/// "X staying inside the data"
fn alignment_past_end(place: &Place, offset: u64, data: &[u8]) -> bool {
    let padding = place.item.natural().and_then(|natural| place.settings.padding(natural, offset));
    padding.is_some_and(|padding| offset + padding > data.len() as u64)
}

// ---- the known findings, each only where the original does as it says

/// X before i I l L with a numeral that 3 refuses: unpack doesn't look.
fn alignment_size_unchecked(place: &Place) -> bool {
    matches!(place.item.aligned, Some(b'i' | b'I' | b'l' | b'L'))
        && matches!(place.item.numeral, Numeral::Number(n) if !(1..=16).contains(&n))
}

/// unpack adds offset and numeral without a check.
fn chars_past_two_to_64(place: &Place, offset: u64) -> bool {
    place.item.option == b'c' && matches!(place.item.numeral, Numeral::Number(n) if offset.checked_add(n).is_none())
}

/// unpack adds offset and length without a check.
fn length_past_two_to_64(place: &Place, offset: u64, data: &[u8]) -> bool {
    let Some(8) = place.item.prefix() else { return false };
    let Some(length) = data.get(offset as usize..).and_then(|rest| rest.first_chunk()) else { return false };
    let length = if place.settings.big { u64::from_be_bytes(*length) } else { u64::from_le_bytes(*length) };
    (offset + 8).checked_add(length).is_none()
}

/// pack fills c up to its numeral as soon as it has a text and the length is at most 2^63-1.
fn chars_above_cap(place: &Place, offset: u64, values: &[Value], cap: u64) -> bool {
    place.item.option == b'c'
        && matches!(place.item.numeral, Numeral::Number(n) if n > cap && n <= i64::MAX as u64 - offset)
        && matches!(values.get(place.values), Some(Value::Text(_)))
}

fn known_in_reading(place: &Place, offset: u64, data: &[u8]) -> Option<Finding> {
    let findings = [
        (Finding::AlignmentSizeUnchecked, alignment_size_unchecked(place)),
        (Finding::CharsPastTwoTo64, chars_past_two_to_64(place, offset)),
        (Finding::LengthPastTwoTo64, length_past_two_to_64(place, offset, data)),
    ];
    findings.into_iter().find(|(_, found)| *found).map(|(finding, _)| finding)
}

// ---- the walks

/// Goes over the items. `look` says without the original whether an item can matter; `offset` runs the original on what
/// stands before one; `verdict` judges an item that the original comes to.
fn walk(
    original: &mut Original,
    format: &[u8],
    look: impl Fn(&Place) -> bool,
    offset: impl Fn(&mut Original, &[u8]) -> Option<u64>,
    verdict: impl Fn(&mut Original, &Place, u64) -> Verdict,
) -> Verdict {
    if host_is_big_endian() {
        return Verdict::Excluded(vec![Clause::LittleEndianHost]);
    }
    if byte_above_127(format) {
        return Verdict::Excluded(vec![Clause::FormatBytesBelow128]);
    }
    let mut settings = Settings::START;
    let mut values = 0;
    for item in &items(format) {
        let place = Place { item, settings, values };
        if look(&place) {
            let Some(offset) = offset(original, &format[..item.start]) else { return Verdict::Inside };
            let verdict = verdict(original, &place, offset);
            if !matches!(verdict, Verdict::Inside) {
                return verdict;
            }
        }
        settings = settings.after(item);
        values += usize::from(item.has_value());
    }
    Verdict::Inside
}

fn excluded(clauses: &[(Clause, bool)]) -> Verdict {
    let held: Vec<Clause> = clauses.iter().filter(|(_, excludes)| *excludes).map(|(clause, _)| *clause).collect();
    if held.is_empty() { Verdict::Inside } else { Verdict::Excluded(held) }
}

fn accepted<T>(outcome: Outcome<T>) -> Option<T> {
    match outcome {
        Outcome::Accepted(answer) => Some(answer),
        _ => None,
    }
}

pub fn measuring(original: &mut Original, format: &[u8]) -> Verdict {
    let clauses = |place: &Place| {
        [
            (Clause::Departure2, departure_2(Call::Measuring, place)),
            (Clause::Departure3, departure_3(Call::Measuring, place)),
            (Clause::Departure4, departure_4(place)),
        ]
    };
    walk(
        original,
        format,
        |place| clauses(place).iter().any(|(_, excludes)| *excludes),
        |original, before| accepted(original.packsize(before)).map(|size| size as u64),
        |_, place, _| excluded(&clauses(place)),
    )
}

/// The values are the list's. The original is not run where it would fill a c above the cap.
pub fn writing(original: &mut Original, format: &[u8], list: &[u8], values: &[Value], cap: u64) -> Verdict {
    if list_malformed(list) {
        return Verdict::Excluded(vec![Clause::Refused21]);
    }
    walk(
        original,
        format,
        |place| match place.item.option {
            b'n' | b'T' | b's' => place.settings.limit > 1,
            b'c' => matches!(place.item.numeral, Numeral::Number(n) if n > cap),
            b'X' => departure_2(Call::Writing, place) || departure_4(place),
            _ => false,
        },
        |original, before| accepted(original.pack(before, values)).map(|record| record.len() as u64),
        |_, place, offset| {
            let verdict = excluded(&[
                (Clause::Departure1, departure_1(Call::Writing, place, offset)),
                (Clause::Departure2, departure_2(Call::Writing, place)),
                (Clause::Departure3, departure_3(Call::Writing, place)),
                (Clause::Departure4, departure_4(place)),
                (Clause::WritingAtLimitOne, above_limit_one(place, b"s")),
            ]);
            match verdict {
                Verdict::Inside if chars_above_cap(place, offset, values, cap) => {
                    Verdict::Known(Finding::CharsFilledFirst)
                }
                verdict => verdict,
            }
        },
    )
}

pub fn reading(original: &mut Original, format: &[u8], data: &[u8], start: i64) -> Verdict {
    if start_outside(data, start) {
        return Verdict::Excluded(vec![Clause::StartAdmitted]);
    }
    walk(
        original,
        format,
        |place| match place.item.option {
            b's' => true,
            b'i' | b'I' | b'l' | b'L' => item_refused_6(place) || above_eight_bytes(place),
            b'n' | b'T' => place.settings.limit > 1,
            b'c' | b'z' => data.len() > LONGEST_TEXT || chars_past_two_to_64(place, data.len() as u64),
            b'X' => place.settings.limit > 1 || place.item.numeral != Numeral::Absent,
            _ => false,
        },
        |original, before| accepted(original.unpack(before, data, start)).map(|(_, position)| position as u64 - 1),
        |original, place, offset| {
            let verdict = excluded(&[
                (Clause::Departure2, departure_2(Call::Reading, place)),
                (Clause::Departure4, departure_4(place)),
                (Clause::Departure5, departure_5(place, offset, data)),
                (Clause::Refused20, text_too_long(original, place, format, data, start)),
                (Clause::NoItemRefused6, item_refused_6(place)),
                (Clause::AtMostEightBytes, above_eight_bytes(place)),
                (Clause::ReadingAtLimitOne, above_limit_one(place, b"nTs")),
                (Clause::AlignmentInsideData, alignment_past_end(place, offset, data)),
            ]);
            let Verdict::Inside = verdict else { return verdict };
            let Some(finding) = known_in_reading(place, offset, data) else { return Verdict::Inside };
            let taken = finding == Finding::AlignmentSizeUnchecked;
            match original.unpack(&format[..place.item.end], data, start) {
                Outcome::Accepted(_) if taken => Verdict::Known(finding),
                Outcome::Panicked if !taken => Verdict::Known(finding),
                _ => Verdict::Inside,
            }
        },
    )
}
