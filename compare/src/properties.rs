//! Random tests of ours alone, by what docs/FORMAT.md says of its calls together.

use crate::r#gen::{self, Random, Use};
use crate::items::{Item, Numeral, Settings, is_blank, items};
use crate::original::as_argument;
use crate::ours::{self, Continued, START, State};
use crate::report::{Case, Check, Held, Tally, hold, lend, same_after, untouched};
use crate::value::{Bytes, LONGEST_TEXT, Value, Values, decode, encode, skip};
use crate::write::Written;

/// A call of writing, and the seed of what else is drawn for it: padding, cuts, data, states.
#[derive(Clone)]
struct Property {
    written: Written,
    draw: u64,
}

impl Case for Property {
    fn weight(&self) -> usize {
        self.written.weight()
    }

    fn smaller(&self) -> Vec<Property> {
        self.written.smaller().into_iter().map(|written| Property { written, draw: self.draw }).collect()
    }

    fn show(&self) -> String {
        format!("{}, draw {}", self.written.show(), self.draw)
    }
}

/// How often each property was looked at.
#[derive(Default)]
struct Counts {
    sizes: u64,
    cuts: u64,
    read_back: u64,
    bounds: u64,
    readings: u64,
    long_fields: u64,
    states: u64,
    malformed: u64,
    short: u64,
}

/// Prints how often each property was looked at.
pub fn run(seed: u64, cases: u64) -> Tally {
    let mut random = Random::new(seed);
    let mut tally = Tally::alone("properties");
    let mut counts = Counts::default();
    let mut check = |case: &Property| check(case, &mut counts);
    (0..cases).all(|_| {
        let purpose = random.pick(&[Use::Writing, Use::Writing, Use::Measuring, Use::Reading]);
        let case = Property { written: Written::random(&mut random, purpose), draw: random.next() };
        tally.examine(&case, &mut check)
    });
    println!("properties: how often each was looked at");
    for (count, name) in [
        (counts.sizes, "the measure is the items' sum, or their refusal; it is each record's length, or 10"),
        (counts.cuts, "parts in turn are the whole, or its refusal"),
        (counts.read_back, "padded as the items say, read back as the kept values with any padding, and written again"),
        (counts.bounds, "the list bound is the items' sum, or their refusal"),
        (counts.readings, "readings of any data: within the bound, the same from both ends, 16, X at the end 17"),
        (counts.long_fields, "i I l L s above 8 bytes: read where the fill is right, else 18"),
        (counts.states, "continued from any state: by the length modulo 16, and 9"),
        (counts.malformed, "21 first of all"),
        (counts.short, "22 with a byte too few, and nothing changed"),
    ] {
        println!("  {count:>9}  {name}");
    }
    tally
}

/// Formats here have no c above this that is accepted.
const CAP: u64 = 100_000;

fn check(case: &Property, counts: &mut Counts) -> Check {
    let mut random = Random::new(case.draw);
    match every_property(&case.written, &mut random, counts) {
        Ok(true) => Check::Accepted { short: false },
        Ok(false) => Check::Refused,
        Err(why) => Check::Differs(why),
    }
}

/// Whether the case's format and list are accepted.
fn every_property(case: &Written, random: &mut Random, counts: &mut Counts) -> Result<bool, String> {
    let whole = write(START, &case.format, &case.list, room(case))?;
    plain_writing(case, &whole)?;
    cut(case, &whole, random, counts)?;
    measure(case, counts)?;
    bound(case, random, counts)?;
    any_reading(case, random, counts)?;
    long_field(random, counts)?;
    any_state(case, random, counts)?;
    malformed(case, random, counts)?;
    let Ok((record, answer)) = &whole else { return Ok(false) };
    counted(case, answer)?;
    size(case, record)?;
    short_buffer(case, record, random, counts)?;
    read_back(case, record, random, counts)?;
    Ok(true)
}

fn room(case: &Written) -> usize {
    r#gen::room(&case.format, &case.values, CAP)
}

// ---- calls that look at every lent byte

/// Continued writing: the record and the answer, or the refusal. What was only lent is as before.
fn write(state: State, format: &[u8], list: &[u8], room: usize) -> Result<Result<(Vec<u8>, Continued), u64>, String> {
    let (lent_format, lent_list) = (format.to_vec(), list.to_vec());
    let mut buffer = lend(room);
    let answer = ours::pack_continued(state, &lent_format, &lent_list, &mut buffer);
    same_after(&lent_format, format)?;
    same_after(&lent_list, list)?;
    match answer {
        Ok(answer) => {
            let length = usize::try_from(answer.written).unwrap_or(usize::MAX);
            hold(length <= room && untouched(&buffer, length), || {
                format!("{answer:?} in room {room}, or a byte behind it changed")
            })?;
            buffer.truncate(length);
            Ok(Ok((buffer, answer)))
        }
        Err(number) => {
            hold((1..=22).contains(&number) && untouched(&buffer, 0), || {
                format!("refusal {number}, or a byte changed")
            })?;
            Ok(Err(number))
        }
    }
}

/// Reading: the values and the position, or the refusal.
fn read(format: &[u8], data: &[u8], start: i64, room: usize) -> Result<Result<(Vec<Value>, u64), u64>, String> {
    let (lent_format, lent_data) = (format.to_vec(), data.to_vec());
    let mut buffer = lend(room);
    let answer = ours::unpack(&lent_format, &lent_data, start, &mut buffer);
    same_after(&lent_format, format)?;
    same_after(&lent_data, data)?;
    match answer {
        Ok((length, position)) => {
            let length = usize::try_from(length).unwrap_or(usize::MAX);
            hold(length <= room && untouched(&buffer, length), || {
                format!("a list of {length} in room {room}, or a byte behind it changed")
            })?;
            let values =
                decode(&buffer[..length]).ok_or_else(|| format!("a malformed list {}", Bytes(&buffer[..length])))?;
            Ok(Ok((values, position)))
        }
        Err(number) => {
            hold((1..=22).contains(&number) && untouched(&buffer, 0), || {
                format!("refusal {number}, or a byte changed")
            })?;
            Ok(Err(number))
        }
    }
}

// ---- writing

/// "Plain writing of F with the whole list gives that one call's bytes, or its refusal."
fn plain_writing(case: &Written, whole: &Result<(Vec<u8>, Continued), u64>) -> Held {
    let room = room(case);
    let mut buffer = lend(room);
    let plain = ours::pack(&case.format, &case.list, &mut buffer);
    let same = match (&plain, whole) {
        (Ok(length), Ok((record, _))) => {
            *length == record.len() as u64 && buffer.starts_with(record) && untouched(&buffer, record.len())
        }
        (Err(plain), Err(whole)) => plain == whole && untouched(&buffer, 0),
        _ => false,
    };
    hold(same, || format!("plain writing {plain:?} and {}, continued {whole:?}", Bytes(&buffer)))
}

/// "carries the number of items run, blanks not counted"; the values used and the next state are the format's too.
fn counted(case: &Written, answer: &Continued) -> Held {
    let items = items(&case.format);
    let run = items.iter().filter(|item| !is_blank(item.option)).count() as u64;
    let used = items.iter().filter(|item| item.has_value()).count() as u64;
    let settings = items.iter().fold(Settings::START, Settings::after);
    let next = State { big: settings.big, limit: settings.limit, length: answer.written };
    let expected = Continued { next, written: answer.written, used, items: run };
    hold(*answer == expected, || format!("the answer is {answer:?}, by the items it is {expected:?}"))
}

/// The measure of a format is the length of each of its records; with z or s it is 10.
fn size(case: &Written, record: &[u8]) -> Held {
    let open = items(&case.format).iter().any(Item::is_open);
    let expected = if open { Err(10) } else { Ok(record.len() as u64) };
    let measured = ours::packsize(&case.format);
    hold(measured == expected, || format!("measured {measured:?}, written {expected:?}"))
}

/// "22 result longer than the lent buffer"
fn short_buffer(case: &Written, record: &[u8], random: &mut Random, counts: &mut Counts) -> Held {
    let exact = write(START, &case.format, &case.list, record.len())?;
    hold(exact.as_ref().is_ok_and(|(bytes, _)| bytes == record), || format!("in just enough room {exact:?}"))?;
    if record.is_empty() {
        return Ok(());
    }
    counts.short += 1;
    let room = if random.one_in(2) { record.len() - 1 } else { random.among(0, record.len() - 1) };
    let short = write(START, &case.format, &case.list, room)?;
    hold(short.as_ref().err() == Some(&22), || format!("in room {room} of {} {short:?}", record.len()))
}

/// The format cut into parts at items' ends, an empty one allowed: each gets the state just returned and the fields
/// after those used.
fn cut(case: &Written, whole: &Result<(Vec<u8>, Continued), u64>, random: &mut Random, counts: &mut Counts) -> Held {
    if decode(&case.list).is_none() {
        return Ok(());
    }
    counts.cuts += 1;
    let mut state = START;
    let mut list = &case.list[..];
    let mut joined = Vec::new();
    let mut sums = Continued { next: START, written: 0, used: 0, items: 0 };
    for part in parts(&case.format, random) {
        let (bytes, answer) = match write(state, part, list, room(case))? {
            Ok(done) => done,
            // a part's buffer that is too short is outside the claim
            Err(22) if whole.is_err() => return Ok(()),
            Err(number) => {
                return hold(whole.as_ref().err() == Some(&number), || {
                    format!("the part {} is refused by {number}, the whole {whole:?}", Bytes(part))
                });
            }
        };
        (state, list) = (answer.next, list_after(list, answer.used)?);
        joined.extend_from_slice(&bytes);
        sums = Continued {
            next: answer.next,
            written: sums.written + answer.written,
            used: sums.used + answer.used,
            items: sums.items + answer.items,
        };
    }
    let same = whole.as_ref().is_ok_and(|(record, answer)| *record == joined && *answer == sums);
    hold(same, || format!("the parts give {} and {sums:?}, the whole {whole:?}", Bytes(&joined)))
}

/// The list after the fields that were used, by the call, which is held to the fields' own lengths.
fn list_after(list: &[u8], used: u64) -> Result<&[u8], String> {
    let rest = skip(list, used as usize);
    for (fields, expected) in [(used, list.len() - rest.len()), (u64::MAX, list.len())] {
        let offset = ours::list_after(list, fields);
        hold(offset == Ok(expected as u64), || {
            format!("the list after {fields} fields is said to start at {offset:?}")
        })?;
    }
    Ok(rest)
}

fn parts<'a>(format: &'a [u8], random: &mut Random) -> Vec<&'a [u8]> {
    let often = random.among(1, 4) as u64;
    let mut parts = Vec::new();
    let mut start = 0;
    for item in items(format) {
        while random.one_in(often + 1) && parts.len() < 200 {
            parts.push(&format[start..item.start]);
            start = item.start;
        }
    }
    parts.push(&format[start..]);
    if random.one_in(4) {
        parts.push(&[]);
    }
    parts
}

// ---- reading back

/// The record in data of its own at a multiple of 16, any bytes as its padding: the kept values come back, and they
/// are written again as the same record. It is claimed where no c is above 65,535 and J took integers only.
fn read_back(case: &Written, record: &[u8], random: &mut Random, counts: &mut Counts) -> Held {
    let taking: Vec<Item> = items(&case.format).into_iter().filter(|item| item.has_value()).collect();
    let whole_j = |(item, value): (&Item, &Value)| item.option != b'J' || as_argument(value).as_integer().is_some();
    let short_c = |item: &Item| item.option != b'c' || item.numeral != Numeral::TooLarge && chars(item) <= LONGEST_TEXT;
    if !taking.iter().all(short_c) || !taking.iter().zip(&case.values).all(whole_j) {
        return Ok(());
    }
    counts.read_back += 1;
    let kept: Vec<Value> = taking.iter().zip(&case.values).map(|(item, value)| kept(item, value)).collect();
    let before = 16 * random.among(0, 3);
    let mut data = r#gen::data(random, before);
    data.extend(padding_replaced(case, record, random)?);
    let end = data.len();
    let after = random.among(0, 20);
    data.extend(r#gen::data(random, after));

    let bound =
        ours::list_bound(&case.format, data.len() as u64).map_err(|number| format!("bound refused by {number}"))?;
    let length: usize = kept.iter().map(Value::field_length).sum();
    hold(length as u64 <= bound, || format!("the list has {length} bytes, the bound is {bound}"))?;
    let got = read(&case.format, &data, before as i64 + 1, length)?;
    let expected = Ok((kept, end as u64 + 1));
    hold(got == expected, || format!("read back {got:?} from {}, kept {expected:?}", Bytes(&data)))?;
    if length > 0 {
        let short = read(&case.format, &data, before as i64 + 1, length - 1)?;
        hold(short == Err(22), || format!("in room {} of {length} {short:?}", length - 1))?;
    }
    let Ok((kept, _)) = expected else { unreachable!("it was made so") };
    let again = write(START, &case.format, &encode(&kept), record.len())?;
    hold(again.as_ref().is_ok_and(|(bytes, _)| bytes == record), || format!("written again {again:?}"))
}

fn chars(item: &Item) -> usize {
    match item.numeral {
        Numeral::Number(n) => n as usize,
        _ => 0,
    }
}

/// "Padding is the zeros of x, X and alignment, not c's fill." It stands in front of what an item puts out.
fn padding_replaced(case: &Written, record: &[u8], random: &mut Random) -> Result<Vec<u8>, String> {
    let mut data = Vec::new();
    let mut state = START;
    let mut settings = Settings::START;
    let mut list = &case.list[..];
    let mut values = case.values.iter();
    for item in items(&case.format) {
        let (mut bytes, answer) = write(state, &case.format[item.start..item.end], list, record.len())?
            .map_err(|number| format!("the item at {} by itself is refused by {number}", item.start))?;
        let value = if item.has_value() { values.next() } else { None };
        let content = content_length(&item, value);
        hold(content <= bytes.len(), || {
            format!("the item at {} gives {} bytes, not {content}", item.start, bytes.len())
        })?;
        let zeros = bytes.len() - content;
        let expected = padding(&item, settings, data.len() as u64).map(|zeros| zeros + u64::from(item.option == b'x'));
        hold(expected == Ok(zeros as u64) && bytes[..zeros].iter().all(|byte| *byte == 0), || {
            format!("the item at {} gives {}, of which {expected:?} is padding", item.start, Bytes(&bytes))
        })?;
        bytes[..zeros].iter_mut().for_each(|byte| *byte = random.next() as u8);
        data.extend(bytes);
        (state, list) = (answer.next, skip(list, answer.used as usize));
        settings = settings.after(&item);
    }
    Ok(data)
}

fn content_length(item: &Item, value: Option<&Value>) -> usize {
    let text = match value {
        Some(Value::Text(text)) => text.len(),
        _ => 0,
    };
    match item.option {
        b'c' => chars(item),
        b'z' => text + 1,
        b's' => item.prefix().unwrap_or(0) as usize + text,
        _ => item.size().unwrap_or(0) as usize,
    }
}

/// What is kept of a value, by option.
fn kept(item: &Item, value: &Value) -> Value {
    let number = as_argument(value);
    let integer = number.as_integer();
    let float = match value {
        Value::Float(bits) => *bits,
        _ => number.as_number().unwrap_or_default().to_bits(),
    };
    match (item.option, integer) {
        // "b h the integer modulo 2^8 or 2^16 brought into the signed range (b 200 is -56), B H the remainder"
        (b'b', Some(integer)) => Value::Integer(i64::from(integer as i8)),
        (b'h', Some(integer)) => Value::Integer(i64::from(integer as i16)),
        (b'B', Some(integer)) => Value::Integer(integer.rem_euclid(1 << 8)),
        (b'H', Some(integer)) => Value::Integer(integer.rem_euclid(1 << 16)),
        // "i l I L that integer, and so j J where `as_integer` gives one"; T's eight bytes are the integer's
        (b'i' | b'l' | b'I' | b'L' | b'j' | b'J' | b'T', Some(integer)) => Value::Integer(integer),
        // "j given any other float its bits, T its eight bytes, each as a signed 64-bit integer"
        (b'j', None) => Value::Integer(float as i64),
        (b'T', None) => Value::Integer(wrapped(f64::from_bits(float)) as i64),
        // "f the rounded f32 as f64; d n the f64"
        (b'f', _) => Value::Float(through_single(float)),
        (b'd' | b'n', _) => Value::Float(float),
        // "c the filled text; z s the text"
        (b'c', _) => match value {
            Value::Text(text) => Value::Text([&text[..], &vec![0; chars(item) - text.len()]].concat()),
            _ => Value::Other,
        },
        _ => value.clone(),
    }
}

/// "truncated remainder by 2^64; if negative, 2^64 is added, rounded once; then cut towards zero, 2^64 becoming 2^64-1;
/// NaN and infinities give 0"
fn wrapped(number: f64) -> u64 {
    const END: f64 = 18_446_744_073_709_551_616.0;
    let rest = number % END;
    (if rest < 0.0 { rest + END } else { rest }) as u64
}

/// "rounded to f32, nearest, ties to even; a NaN keeps sign and top 23 fraction bits and becomes quiet", and back.
fn through_single(bits: u64) -> u64 {
    const QUIET: u64 = 1 << 51;
    let number = f64::from_bits(bits);
    if number.is_nan() { (bits | QUIET) & !((1 << 29) - 1) } else { f64::from(number as f32).to_bits() }
}

// ---- measuring and the list bound, by the items

/// "start at an offset that is a multiple of min(size, limit) .. zeros fill up", also "writing and reading s", by the size of
/// its length; and X "aligns only". Else "6 min(size, limit) above 1 and no power of two".
fn padding(item: &Item, settings: Settings, length: u64) -> Result<u64, u64> {
    settings.padding(item.aligned_by(), length).ok_or(6)
}

/// Sums over the items; 9 above 2^63-1. `add` gives what an item adds to the sum before it.
fn sum(format: &[u8], add: impl Fn(&Item, Settings, u64) -> Result<u64, u64>) -> Result<u64, u64> {
    let mut settings = Settings::START;
    let mut sum = 0;
    for item in items(format) {
        if let Some(number) = item.refusal() {
            return Err(number);
        }
        let more = add(&item, settings, sum)?;
        sum = more.checked_add(sum).filter(|sum| *sum <= i64::MAX as u64).ok_or(9_u64)?;
        settings = settings.after(&item);
    }
    Ok(sum)
}

/// What an item adds to the length in measuring.
fn measured(item: &Item, settings: Settings, length: u64) -> Result<u64, u64> {
    match item.option {
        b'z' | b's' => Err(10),
        b'x' => Ok(1),
        b'c' => Ok(chars(item) as u64),
        _ => Ok(padding(item, settings, length)? + item.size().unwrap_or(0)),
    }
}

fn measure(case: &Written, counts: &mut Counts) -> Held {
    counts.sizes += 1;
    let expected = sum(&case.format, measured);
    let measured = ours::packsize(&case.format);
    hold(measured == expected, || format!("measured {measured:?}, by the items {expected:?}"))
}

/// "11 for each number, 3 + min(n, 65,535) for c, 3 + min(data length, 65,535) for z and s, summed", with "the checks of
/// measuring except 10, and 9 on its sum".
fn bound(case: &Written, random: &mut Random, counts: &mut Counts) -> Held {
    counts.bounds += 1;
    let data_length = match random.below(5) {
        0 => random.below(100),
        1 => i64::MAX as u64 - random.below(3),
        _ => 65_533 + random.below(6),
    };
    let cost = |item: &Item, settings: Settings, _: u64| {
        padding(item, settings, 0)?;
        match item.option {
            b'c' => Ok(3 + (chars(item) as u64).min(65_535)),
            b'z' | b's' => Ok(3 + data_length.min(65_535)),
            _ if item.has_value() => Ok(11),
            _ => Ok(0),
        }
    };
    let expected = sum(&case.format, cost);
    let bound = ours::list_bound(&case.format, data_length);
    hold(bound == expected, || format!("the bound for {data_length} bytes is {bound:?}, by the items {expected:?}"))
}

// ---- readings of any data

fn any_reading(case: &Written, random: &mut Random, counts: &mut Counts) -> Held {
    counts.readings += 1;
    let length = random.among(0, 70);
    let data = r#gen::data(random, length);
    let end = length as i64;
    let bound = ours::list_bound(&case.format, length as u64);
    let values = items(&case.format).iter().filter(|item| item.has_value()).count();
    let room = bound.map_or(values * (11 + length), |bound| bound as usize);

    let outside = random.pick(&[0, end + 2, -end - 1, i64::MAX, i64::MIN]);
    let refused = read(&case.format, &data, outside, room)?;
    hold(refused == Err(16), || format!("from {outside} of {end} bytes {refused:?}"))?;

    let offset = random.among(0, length) as i64;
    let forward = read(&case.format, &data, offset + 1, room)?;
    hold(forward != Err(16) && forward != Err(22) && forward != Err(9), || {
        format!("from {} of {} in room {room} {forward:?}", offset + 1, Bytes(&data))
    })?;
    if offset < end {
        let backward = read(&case.format, &data, offset - end, room)?;
        hold(backward == forward, || format!("from {} {forward:?}, from {} {backward:?}", offset + 1, offset - end))?;
    }
    if let Ok((values, position)) = &forward {
        let inside = (offset as u64 + 1..=length as u64 + 1).contains(position);
        hold(inside && bound.is_ok(), || format!("{} to {position} of {length}, bound {bound:?}", Values(values)))?;
        let aligned = (position - 1).next_multiple_of(8);
        let expected = if aligned > length as u64 { Err(17) } else { Ok((values.clone(), aligned + 1)) };
        let then = read(&[&case.format, &b"!8Xd"[..]].concat(), &data, offset + 1, room)?;
        hold(then == expected, || format!("with !8Xd behind {then:?}, expected {expected:?}"))?;
    }
    Ok(())
}

/// "An i or l above 8 bytes must be filled with the sign of its low 8 bytes, an I, L or s length with zeros."
fn long_field(random: &mut Random, counts: &mut Counts) -> Held {
    counts.long_fields += 1;
    let option = random.pick(b"iIlLs");
    let size = random.among(9, 16);
    let low = if option == b's' { random.below(4) } else { r#gen::integer(random) as u64 };
    let signed = matches!(option, b'i' | b'l') && low >> 63 == 1;
    let mut field = low.to_le_bytes().to_vec();
    field.resize(size, if signed { 0xFF } else { 0 });
    let wrong = random.one_in(2);
    if wrong {
        field[random.among(8, size - 1)] ^= random.among(1, 255) as u8;
    }
    let big = random.one_in(2);
    if big {
        field.reverse();
    }
    let text = vec![b't'; if option == b's' { low as usize } else { 0 }];
    let end = (size + text.len()) as u64 + 1;
    field.extend_from_slice(&text);
    let value = if option == b's' { Value::Text(text) } else { Value::Integer(low as i64) };
    let format = format!("{}{}{size}", if big { '>' } else { '<' }, option as char);
    let expected = if wrong { Err(18) } else { Ok((vec![value], end)) };
    let got = read(format.as_bytes(), &field, 1, 16)?;
    hold(got == expected, || format!("{format} of {} {got:?}, expected {expected:?}", Bytes(&field)))
}

// ---- states and lists that a caller can get wrong

/// Alignment looks at the length modulo 16 only, and 9 at the length.
fn any_state(case: &Written, random: &mut Random, counts: &mut Counts) -> Held {
    counts.states += 1;
    let most = i64::MAX as u64;
    let length = match random.below(3) {
        0 => random.below(40),
        1 => random.next() >> 1,
        _ => most - random.below(200),
    };
    let state = State { big: random.one_in(2), limit: random.pick(&[1, 2, 4, 8, 16]), length };
    let near = State { length: length % 16, ..state };
    let room = room(case);
    let far = write(state, &case.format, &case.list, room)?;
    let near = write(near, &case.format, &case.list, room)?;
    let huge = items(&case.format).iter().any(|item| item.option == b'c' && chars(item) as u64 > CAP);
    let holds = match &near {
        Ok((_, answer)) if most - length < answer.written => far == Err(9),
        Ok((bytes, answer)) => {
            let next = State { length: length + answer.written, ..answer.next };
            far == Ok((bytes.clone(), Continued { next, ..*answer }))
        }
        Err(number) => far == Err(*number) || far == Err(9) && (huge || most - length < 1 << 40),
    };
    hold(holds, || format!("from {state:?} {far:?}, by the length modulo 16 {near:?}"))
}

/// "21 malformed list, .. limit no power of two of 1..16, or state length above 2^63-1; first of all"
fn malformed(case: &Written, random: &mut Random, counts: &mut Counts) -> Held {
    counts.malformed += 1;
    let mut list = case.list.clone();
    match random.below(4) {
        0 => list.push(random.pick(&[0, 1, 2, 3, 4, 255])),
        1 => list.extend_from_slice(&[random.pick(&[0, 1, 2, 3, 4]), 0, random.pick(&[1, 7, 9, 200])]),
        2 if !list.is_empty() => list.truncate(random.among(0, list.len() - 1)),
        _ if !list.is_empty() => {
            let at = random.among(0, list.len() - 1);
            list[at] = random.pick(&[0, 1, 2, 3, 4, 9, 255]);
        }
        _ => {}
    }
    if decode(&list).is_none() {
        let answer = write(START, &case.format, &list, 8)?;
        hold(answer == Err(21), || format!("with the list {} {answer:?}", Bytes(&list)))?;
        let plain = ours::pack(&case.format, &list, &mut [0; 8]);
        hold(plain == Err(21), || format!("with the list {} plain writing {plain:?}", Bytes(&list)))?;
    }
    let limit = random.pick(&[0, 3, 5, 6, 7, 9, 12, 15, 17, 32, 64, 1 << 32, u64::MAX]);
    let length = random.pick(&[1 << 63, (1 << 63) + 1, u64::MAX]);
    for state in [State { limit, ..START }, State { length, ..START }] {
        let answer = write(state, &case.format, &case.list, 8)?;
        hold(answer == Err(21), || format!("from {state:?} {answer:?}"))?;
    }
    let answer = ours::list_bound(&case.format, length);
    hold(answer == Err(21), || format!("bound for {length} bytes {answer:?}"))
}
