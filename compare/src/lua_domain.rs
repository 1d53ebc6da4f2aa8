//! Where real Lua means the same as docs/FORMAT.md: a function for each way in which they differ, and what was found beyond.
//!
//! As in domain.rs, a clause about an item counts only where Lua comes to that item: where it accepts the format's front
//! before it, with the same values or data, which Lua itself is asked. The first item that a clause, or a finding, is
//! about decides; before it both mean the same. Nothing of ours decides what is compared.

use crate::items::{Item, Numeral, Settings, items};
use crate::lua::{Arguments, Front, Question};
use crate::original::as_argument;
use crate::report::{self, Named};
use crate::value::{LONGEST_TEXT, Value, decode};

#[derive(Clone, Copy, Debug, PartialEq, Eq)]
pub enum Clause {
    LongOptions,
    Blanks,
    SmallRanges,
    BelowZero,
    FloatsForIntegers,
    LimitNoPower,
    AlignedOptions,
    DigitsAfterFloat,
    StartOutside,
    OtherKinds,
    LongNumerals,
    LongTexts,
    Malformed,
    DamagedRun,
}

impl Named for Clause {
    const ALL: &[(Clause, &str)] = &[
        (Clause::LongOptions, "l L: 8 bytes in Lua, and no digits"),
        (Clause::Blanks, "blanks: tab, line feed and carriage return are none in Lua"),
        (Clause::SmallRanges, "b B h H ranges: Lua checks them"),
        (Clause::BelowZero, "I L J below 0: Lua takes such an integer as 2^64 more"),
        (Clause::FloatsForIntegers, "j J T of floats: Lua wants an integer"),
        (Clause::LimitNoPower, "! no power of two: Lua takes it"),
        (Clause::AlignedOptions, "X before s x, which Lua takes, and bytes that are no option, which it doesn't"),
        (Clause::DigitsAfterFloat, "digits after Xf: no part of it in Lua"),
        (Clause::StartOutside, "starts that 16 refuses: 0 and those before the first byte are 1 in Lua"),
        (Clause::OtherKinds, "numbers for texts and texts for numbers: Lua converts them"),
        (Clause::LongNumerals, "very long numerals: above 2147483639 Lua takes the last digits for options"),
        (Clause::LongTexts, "texts above 65,535: 20 refuses them"),
        (Clause::Malformed, "nothing that 21 refuses: a malformed list has no values to give to Lua"),
        (Clause::DamagedRun, "nothing that 23 refuses: a damaged run has no lists"),
    ];

    fn place(self) -> usize {
        self as usize
    }
}

/// What Lua does otherwise and the list above doesn't name.
#[derive(Clone, Copy, Debug, PartialEq, Eq)]
pub enum Finding {
    ZeroEndsFormat,
    SizeAbove31Bits,
    CharsFilledFirst,
}

impl Named for Finding {
    const ALL: &[(Finding, &str)] = &[
        (Finding::ZeroEndsFormat, "a zero byte ends the format in Lua; here 1"),
        (Finding::SizeAbove31Bits, "packsize refuses above 2^31-1; here 9 above 2^63-1 only"),
        (Finding::CharsFilledFirst, "pack fills a huge c in memory before later checks; not run above the cap on c"),
    ];

    fn place(self) -> usize {
        self as usize
    }
}

impl Finding {
    /// Ours answers a known finding's input as docs/FORMAT.md says: by this number, or where it is open by any. A size
    /// above 2^31-1 is left to the comparison with the original.
    pub fn admits(self, refusal: Option<u64>) -> bool {
        match self {
            Finding::ZeroEndsFormat => refusal == Some(1),
            Finding::SizeAbove31Bits => true,
            Finding::CharsFilledFirst => refusal.is_some(),
        }
    }
}

pub type Verdict = report::Verdict<Clause, Finding>;

/// Lua reads digits of a numeral as long as the number before them is at most (2^31 - 1 - 9) / 10.
const LONGEST_NUMERAL: u64 = 2_147_483_639;

/// The largest size that packsize gives in Lua.
const LARGEST_SIZE: u64 = (1 << 31) - 1;

/// An item with what stands before it, and its value in writing.
struct Place<'a> {
    item: Item,
    settings: Settings,
    value: Option<&'a Value>,
}

impl Place<'_> {
    /// "`as_integer`"
    fn integer(&self) -> Option<i64> {
        as_argument(self.value?).as_integer()
    }
}

// ---- the clauses that hold as soon as Lua comes to an item

/// "l L"
fn long_option(place: &Place) -> bool {
    matches!(place.item.aligned.unwrap_or(place.item.option), b'l' | b'L')
}

/// "blanks"
fn other_blank(place: &Place) -> bool {
    matches!(place.item.option, b'\t' | b'\n' | b'\r')
}

/// "b B h H ranges", in writing.
fn outside_small_range(place: &Place) -> bool {
    let range = match place.item.option {
        b'b' => -128..=127,
        b'B' => 0..=255,
        b'h' => -32_768..=32_767,
        b'H' => 0..=65_535,
        _ => return false,
    };
    place.integer().is_some_and(|integer| !range.contains(&integer))
}

/// "I L J below 0", in writing. Under 8 bytes both refuse I.
fn below_zero(place: &Place) -> bool {
    let unchecked = match place.item.option {
        b'I' => place.item.size().is_some_and(|size| size >= 8),
        option => matches!(option, b'L' | b'J'),
    };
    unchecked && place.integer().is_some_and(|integer| integer < 0)
}

/// "j J T of floats", in writing. A float that equals an integer is that integer for both.
fn float_for_integer(place: &Place) -> bool {
    matches!(place.item.option, b'j' | b'J' | b'T')
        && matches!(place.value, Some(Value::Float(_)))
        && place.integer().is_none()
}

/// "`!` no power of two"
fn limit_no_power(place: &Place) -> bool {
    place.item.option == b'!' && matches!(place.item.numeral, Numeral::Number(n @ 1..=16) if !n.is_power_of_two())
}

/// "X before s x and bytes that are no option". Above 127 both refuse.
fn aligned_otherwise(place: &Place) -> bool {
    const OPTIONS: &[u8] = b"bBhHiIlLjJTfdnczsxX<>=! \t\n\r";
    place.item.aligned.is_some_and(|next| matches!(next, b's' | b'x') || next < 128 && !OPTIONS.contains(&next))
}

/// "digits after Xf"
fn digits_after_float(place: &Place) -> bool {
    place.item.aligned == Some(b'f') && place.item.numeral != Numeral::Absent
}

/// "very long numerals": those of c, since the others are refused by both. At 2^64 measuring is refused by both; in
/// writing Lua would fill what it read of the numeral.
fn long_numeral(place: &Place, call: Arguments) -> bool {
    place.item.option == b'c'
        && match (call, place.item.numeral) {
            (Arguments::Measuring, Numeral::Number(n)) => n > LONGEST_NUMERAL,
            (Arguments::Writing(_), Numeral::Number(n)) => n > LONGEST_NUMERAL && taken_for_text(place),
            (Arguments::Writing(_), Numeral::TooLarge) => taken_for_text(place),
            _ => false,
        }
}

fn taken_for_text(place: &Place) -> bool {
    place.value.is_some_and(|value| *value != Value::Other)
}

// ---- the clauses on what Lua does with an item

/// "numbers for texts and texts for numbers": Lua accepts one in this item.
fn other_kind(place: &Place) -> bool {
    let text = matches!(place.item.option, b'c' | b'z' | b's');
    match place.value {
        Some(Value::Integer(_) | Value::Float(_)) => text,
        Some(Value::Text(_)) => place.item.has_value() && !text,
        _ => false,
    }
}

/// "texts above 65,535", in reading.
fn long_text(front: Front) -> bool {
    front.text.is_some_and(|length| length > LONGEST_TEXT)
}

// ---- the clauses on a whole call

/// "starts that 16 refuses". Both refuse a start behind the end.
fn start_before_first(data: &[u8], start: i64) -> bool {
    start == 0 || start < -(data.len() as i64)
}

/// "21 malformed list"
fn list_malformed(list: &[u8]) -> bool {
    decode(list).is_none()
}

// ---- the findings

fn zero_byte(place: &Place) -> bool {
    place.item.option == 0
}

/// The item takes Lua's sum above 2^31-1.
fn size_above_31_bits(place: &Place, offset: u64) -> bool {
    let item = &place.item;
    let natural = item.size().or(item.natural()).unwrap_or(1);
    let size = match (item.option, item.numeral) {
        (b'c', Numeral::Number(n)) => n,
        (b'x', _) => 1,
        _ => item.size().unwrap_or(0),
    };
    place.settings.padding(natural, offset).is_some_and(|padding| offset + padding + size > LARGEST_SIZE)
}

/// Lua fills c up to its numeral as soon as it has a text, and takes a number for one.
fn chars_above_cap(place: &Place, cap: u64) -> bool {
    place.item.option == b'c'
        && matches!(place.item.numeral, Numeral::Number(n) if n > cap && n <= LONGEST_NUMERAL)
        && taken_for_text(place)
}

// ---- what Lua is asked, and the verdict

/// An item that a clause or a finding can be about.
struct Candidate<'a> {
    place: Place<'a>,
    /// What excludes the input as soon as Lua comes to the item.
    certain: Vec<Clause>,
    finding: Option<Finding>,
    /// The verdict depends on what Lua does with the item, so the front with it is run too.
    through: bool,
    /// The size can pass 2^31-1 here.
    large: bool,
}

impl Candidate<'_> {
    /// The verdict is known as soon as Lua comes to the item. The whole is then not run, so that no later c is filled.
    fn decides(&self) -> bool {
        !self.certain.is_empty() || self.finding.is_some()
    }
}

pub struct Asked<'a> {
    pub question: Question<'a>,
    candidates: Vec<Candidate<'a>>,
    outside: Option<Clause>,
}

pub fn measuring(format: &[u8]) -> Asked<'_> {
    asked(format, Arguments::Measuring, u64::MAX)
}

/// The values are the list's. Lua is not run where it would fill a c above the cap.
pub fn writing<'a>(format: &'a [u8], list: &[u8], values: &'a [Value], cap: u64) -> Asked<'a> {
    let mut asked = asked(format, Arguments::Writing(values), cap);
    if list_malformed(list) {
        asked.outside = Some(Clause::Malformed);
    }
    asked.question.module = asked.outside.is_none()
        && items(format)
            .iter()
            .all(|item| !matches!(item.numeral, Numeral::Number(n) if item.option == b'c' && n > cap));
    asked
}

pub fn reading<'a>(format: &'a [u8], data: &'a [u8], start: i64) -> Asked<'a> {
    let mut asked = asked(format, Arguments::Reading(data, start), u64::MAX);
    if start_before_first(data, start) {
        asked.outside = Some(Clause::StartOutside);
    }
    asked
}

fn asked<'a>(format: &'a [u8], arguments: Arguments<'a>, cap: u64) -> Asked<'a> {
    let candidates = candidates(format, arguments, cap);
    let mut cuts = Vec::new();
    for Candidate { place, through, .. } in &candidates {
        cuts.push(place.item.start);
        cuts.extend(through.then_some(place.item.end));
    }
    let runs = !candidates.last().is_some_and(Candidate::decides);
    Asked { question: Question { format, arguments, cuts, runs, module: true }, candidates, outside: None }
}

/// The items in question, up to one that decides as soon as Lua comes to it.
fn candidates<'a>(format: &[u8], arguments: Arguments<'a>, cap: u64) -> Vec<Candidate<'a>> {
    let mut candidates = Vec::new();
    let (mut settings, mut taken, mut most) = (Settings::START, 0, 0_u64);
    for item in items(format) {
        let value = match arguments {
            Arguments::Writing(values) if item.has_value() => values.get(taken),
            _ => None,
        };
        most = most.saturating_add(most_bytes(&item));
        let place = Place { item, settings, value };
        settings = settings.after(&item);
        taken += usize::from(item.has_value());
        candidates.extend(candidate(place, arguments, cap, most));
        if candidates.last().is_some_and(Candidate::decides) {
            break;
        }
    }
    candidates
}

/// At least as many bytes as the item takes with its padding.
fn most_bytes(item: &Item) -> u64 {
    match (item.option, item.numeral) {
        (b'c', Numeral::Number(n)) => n,
        _ => 32,
    }
}

fn candidate<'a>(place: Place<'a>, arguments: Arguments, cap: u64, most: u64) -> Option<Candidate<'a>> {
    let certain = certain(&place, arguments);
    let finding = if zero_byte(&place) {
        Some(Finding::ZeroEndsFormat)
    } else if certain.is_empty() && chars_above_cap(&place, cap) {
        Some(Finding::CharsFilledFirst)
    } else {
        None
    };
    let measuring = matches!(arguments, Arguments::Measuring);
    let text = matches!(place.item.option, b'c' | b'z' | b's');
    let through = match arguments {
        Arguments::Measuring => false,
        Arguments::Writing(_) => other_kind(&place),
        Arguments::Reading(data, _) => text && data.len() > LONGEST_TEXT,
    };
    let large = measuring && most > LARGEST_SIZE;
    let mut candidate = Candidate { place, certain, finding, through, large };
    candidate.through &= !candidate.decides();
    (candidate.decides() || candidate.through || large).then_some(candidate)
}

fn certain(place: &Place, call: Arguments) -> Vec<Clause> {
    let clauses = [
        (Clause::LongOptions, long_option(place)),
        (Clause::Blanks, other_blank(place)),
        (Clause::SmallRanges, outside_small_range(place)),
        (Clause::BelowZero, below_zero(place)),
        (Clause::FloatsForIntegers, float_for_integer(place)),
        (Clause::LimitNoPower, limit_no_power(place)),
        (Clause::AlignedOptions, aligned_otherwise(place)),
        (Clause::DigitsAfterFloat, digits_after_float(place)),
        (Clause::LongNumerals, long_numeral(place, call)),
    ];
    clauses.into_iter().filter(|(_, holds)| *holds).map(|(clause, _)| clause).collect()
}

impl Asked<'_> {
    /// By what Lua answered to the fronts.
    pub fn verdict(&self, fronts: &[Option<Front>]) -> Verdict {
        if let Some(clause) = self.outside {
            return Verdict::Excluded(vec![clause]);
        }
        let mut fronts = fronts.iter().copied();
        for candidate in &self.candidates {
            let Some(before) = fronts.next().flatten() else { return Verdict::Inside };
            let through = if candidate.through { fronts.next().flatten() } else { None };
            let verdict = self.judge(candidate, before, through);
            let refused = candidate.through && through.is_none();
            if refused || !matches!(verdict, Verdict::Inside) {
                return verdict;
            }
        }
        Verdict::Inside
    }

    fn judge(&self, candidate: &Candidate, before: Front, through: Option<Front>) -> Verdict {
        let place = &candidate.place;
        let asked = [
            (Clause::OtherKinds, through.is_some() && other_kind(place)),
            (Clause::LongTexts, through.is_some_and(long_text)),
        ];
        let held = asked.into_iter().filter(|(_, holds)| *holds).map(|(clause, _)| clause);
        let clauses: Vec<Clause> = candidate.certain.iter().copied().chain(held).collect();
        if !clauses.is_empty() {
            return Verdict::Excluded(clauses);
        }
        let large = candidate.large && size_above_31_bits(place, before.length);
        match candidate.finding.or(large.then_some(Finding::SizeAbove31Bits)) {
            Some(finding) => Verdict::Known(finding),
            None => Verdict::Inside,
        }
    }
}
