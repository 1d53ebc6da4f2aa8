//! Random formats, values and data, from a small generator that gives the same for the same seed.

use crate::items::{Item, Numeral, items};
use crate::value::{LONGEST_TEXT, Value};

/// SplitMix64.
pub struct Random(u64);

impl Random {
    pub fn new(seed: u64) -> Random {
        Random(seed)
    }

    pub fn next(&mut self) -> u64 {
        self.0 = self.0.wrapping_add(0x9E37_79B9_7F4A_7C15);
        let mut z = self.0;
        z = (z ^ (z >> 30)).wrapping_mul(0xBF58_476D_1CE4_E5B9);
        z = (z ^ (z >> 27)).wrapping_mul(0x94D0_49BB_1331_11EB);
        z ^ (z >> 31)
    }

    /// 0 to n - 1.
    pub fn below(&mut self, n: u64) -> u64 {
        ((u128::from(self.next()) * u128::from(n)) >> 64) as u64
    }

    /// low to high.
    pub fn among(&mut self, low: usize, high: usize) -> usize {
        low + self.below((high - low + 1) as u64) as usize
    }

    pub fn one_in(&mut self, n: u64) -> bool {
        self.below(n) == 0
    }

    pub fn pick<T: Copy>(&mut self, from: &[T]) -> T {
        from[self.among(0, from.len() - 1)]
    }
}

// ---- formats

/// What a format is for: it moves the odds, and rules nothing out.
#[derive(Clone, Copy, PartialEq, Eq)]
pub enum Use {
    Measuring,
    Writing,
    Reading,
}

const NUMBERS: &[u8] = b"bBhHiIlLjJTfdn";
const SIZED: &[u8] = b"iIlL";
const LIMITS: [&str; 7] = ["", "1", "2", "4", "8", "16", "8"];
/// Bytes that are no option: letters, digits, control characters, signs.
pub const NO_OPTION: &[u8] = b"qaZ5_\x00\x0B\x0C\x7F-";

/// A format of random items. Most are well formed; some have a wrong item or a few random bytes in them.
pub fn format(random: &mut Random, purpose: Use) -> Vec<u8> {
    let count = match random.below(100) {
        0..2 => 0,
        2..80 => random.among(1, 6),
        80..98 => random.among(5, 24),
        _ => random.among(20, 120),
    };
    let wrong = if random.one_in(5) { random.among(0, count) } else { usize::MAX };
    let mut format = Vec::new();
    let mut limit = 1;
    for i in 0..=count {
        if i == wrong {
            wrong_item(random, &mut format);
        }
        if i < count {
            limit = good_item(random, purpose, limit, &mut format);
        }
    }
    if random.one_in(15) {
        for _ in 0..random.among(1, 3) {
            let at = random.among(0, format.len());
            format.insert(at, random.pick(b"bBhHiIlLjJTfdnczsxX<>=! \t\n\r0123456789q\x00\x7F"));
        }
    }
    format
}

/// One item that is usually accepted; the limit after it.
fn good_item(random: &mut Random, purpose: Use, limit: u64, format: &mut Vec<u8>) -> u64 {
    match random.below(100) {
        0..8 => format.push(random.pick(b"<>=<>")),
        8..15 => {
            let numeral = random.pick(&LIMITS);
            format.push(b'!');
            zeros(random, !numeral.is_empty(), format);
            format.extend_from_slice(numeral.as_bytes());
            return numeral.parse().unwrap_or(8);
        }
        15..21 => format.push(random.pick(b" \t\n\r ")),
        21..49 => number(random, purpose, limit, format),
        49..67 => sized_number(random, purpose, limit, format),
        67..76 => chars(random, format),
        76..88 => text(random, purpose, limit, format),
        88..93 => format.push(b'x'),
        _ => alignment(random, limit, format),
    }
    limit
}

fn number(random: &mut Random, purpose: Use, limit: u64, format: &mut Vec<u8>) {
    let option = random.pick(NUMBERS);
    let outside = purpose == Use::Reading && limit > 1 && matches!(option, b'n' | b'T');
    format.push(if outside && !random.one_in(20) { b'd' } else { option });
}

fn sized_number(random: &mut Random, purpose: Use, limit: u64, format: &mut Vec<u8>) {
    format.push(random.pick(SIZED));
    if random.one_in(8) {
        return;
    }
    zeros(random, true, format);
    let most = if purpose == Use::Reading && !random.one_in(25) { 8 } else { 16 };
    let size = size(random, limit, most);
    format.extend_from_slice(size.to_string().as_bytes());
}

/// A size that the limit admits, mostly.
fn size(random: &mut Random, limit: u64, most: usize) -> u64 {
    let size = random.among(1, most) as u64;
    let admitted = size.min(limit).is_power_of_two();
    if admitted || random.one_in(12) { size } else { random.pick(&[1, 2, 4, 8]) }
}

fn chars(random: &mut Random, format: &mut Vec<u8>) {
    let size = match random.below(40) {
        0..36 => random.among(0, 20),
        36..39 => random.among(250, 260),
        _ => random.among(0, 3000),
    };
    format.push(b'c');
    zeros(random, true, format);
    format.extend_from_slice(size.to_string().as_bytes());
}

fn text(random: &mut Random, purpose: Use, limit: u64, format: &mut Vec<u8>) {
    let measured = purpose == Use::Measuring && !random.one_in(30);
    let outside = purpose == Use::Reading && limit > 1 && !random.one_in(20);
    if measured {
        return number(random, purpose, limit, format);
    }
    if outside || random.one_in(2) {
        return format.push(b'z');
    }
    format.push(b's');
    if random.one_in(4) {
        return;
    }
    let most = if purpose == Use::Reading && !random.one_in(25) { 8 } else { 16 };
    let size = if random.one_in(3) { 1 } else { random.among(1, most) };
    zeros(random, true, format);
    format.extend_from_slice(size.to_string().as_bytes());
}

fn alignment(random: &mut Random, limit: u64, format: &mut Vec<u8>) {
    format.push(b'X');
    match random.below(10) {
        0..5 => format.push(random.pick(b"bBhHiIlLjJTfdn")),
        5..8 => {
            format.push(random.pick(SIZED));
            zeros(random, true, format);
            let size = size(random, limit, 16);
            format.extend_from_slice(size.to_string().as_bytes());
        }
        8 => {
            format.push(b'f');
            (0..random.among(0, 30)).for_each(|_| format.push(random.pick(b"0123456789")));
        }
        _ => format.push(random.pick(NO_OPTION)),
    }
}

/// Leading zeros, rarely, and then often many.
fn zeros(random: &mut Random, numeral: bool, format: &mut Vec<u8>) {
    if numeral && random.one_in(12) {
        let count = match random.below(300) {
            0 => random.among(60, 5000),
            1..100 => random.among(1, 60),
            _ => random.among(1, 3),
        };
        format.extend(std::iter::repeat_n(b'0', count));
    }
}

/// An item that is refused somewhere, or is at a limit.
fn wrong_item(random: &mut Random, format: &mut Vec<u8>) {
    match random.below(10) {
        0 => format.push(random.pick(NO_OPTION)),
        1 => format.push(b'c'),
        2 => {
            format.push(b'X');
            if !random.one_in(4) {
                format.push(random.pick(b" \t\n\rX<>=!cszx"));
            }
        }
        3 => {
            format.push(b'!');
            zeros(random, true, format);
            format.extend_from_slice(random.pick(&["0", "3", "5", "12", "15", "17", "32", "64"]).as_bytes());
        }
        4 if random.one_in(20) => format.push(random.pick(&[0x80, 0xC3, 0xFF])),
        4..7 => {
            if random.one_in(3) {
                format.push(b'X');
            }
            format.push(random.pick(b"iIlLs!"));
            zeros(random, true, format);
            format.extend_from_slice(limit_numeral(random).as_bytes());
        }
        _ => {
            format.push(b'c');
            zeros(random, true, format);
            format.extend_from_slice(limit_numeral(random).as_bytes());
        }
    }
}

/// A numeral around 0, 1, 16, 2^8, 2^16, 2^32, 2^63, 2^64, or longer.
pub fn limit_numeral(random: &mut Random) -> String {
    let power = random.pick(&[0, 0, 4, 4, 8, 16, 31, 32, 63, 63, 63, 64, 64, 64]);
    match random.below(12) {
        0 => "9".repeat(random.among(17, 30)),
        1 => random.next().to_string(),
        2 => (u128::from(random.next()) * 10 + u128::from(random.below(10))).to_string(),
        _ => ((1_u128 << power) + u128::from(random.below(5))).saturating_sub(2).to_string(),
    }
}

// ---- values

/// Values for the items of a format: mostly what they take, often at a limit, sometimes wrong, too few or too many.
pub fn values(random: &mut Random, format: &[u8]) -> Vec<Value> {
    let items = items(format);
    let mut values: Vec<Value> =
        items.iter().filter(|item| item.has_value()).map(|item| value_for(random, item)).collect();
    if random.one_in(25) {
        values.truncate(random.among(0, values.len()));
    }
    if random.one_in(10) {
        (0..random.among(1, 3)).for_each(|_| values.push(any_value(random)));
    }
    values
}

// ---- inputs that mean the same in Lua

/// How seldom what Lua takes otherwise is left as it is.
const SELDOM: u64 = 40;

/// A format of which most items mean the same in Lua.
pub fn like_lua(random: &mut Random, format: &[u8]) -> Vec<u8> {
    let mut like = Vec::with_capacity(format.len());
    for item in &items(format) {
        let text = &format[item.start..item.end];
        if random.one_in(SELDOM) {
            like.extend_from_slice(text);
        } else {
            item_like_lua(random, item, text, &mut like);
        }
    }
    like
}

fn item_like_lua(random: &mut Random, item: &Item, text: &[u8], like: &mut Vec<u8>) {
    match (item.option, item.aligned) {
        (b'l' | b'L', _) => {
            like.push(if item.option == b'l' { b'i' } else { b'I' });
            like.extend_from_slice(&text[1..]);
        }
        (b'\t' | b'\n' | b'\r', _) => like.push(b' '),
        (b'c', _) if !matches!(item.numeral, Numeral::Number(..1_000_000)) => {
            like.extend_from_slice(format!("c{}", random.pick(&[9, 2_000_000, 2_147_483_600])).as_bytes());
        }
        (b'X', Some(next)) if NUMBERS.contains(&next) && next != b'l' && next != b'L' => {
            like.extend_from_slice(if next == b'f' { b"Xf" } else { text });
        }
        (b'X', _) if item.natural().is_some() => like.extend_from_slice(random.pick(&[&b"Xi4"[..], b"XI8", b"Xd"])),
        _ => like.extend_from_slice(text),
    }
}

/// Makes most of the values for a format such that Lua takes them as docs/FORMAT.md says.
pub fn values_like_lua(random: &mut Random, format: &[u8], values: &mut [Value]) {
    let items = items(format);
    for (item, value) in items.iter().filter(|item| item.has_value()).zip(values) {
        if !random.one_in(SELDOM) {
            value_like_lua(random, item, value);
        }
    }
}

fn value_like_lua(random: &mut Random, item: &Item, value: &mut Value) {
    match (item.option, &*value) {
        (b'j' | b'T', Value::Float(_)) => *value = Value::Integer(integer(random)),
        (b'J', Value::Float(_)) => *value = Value::Integer(integer(random) & i64::MAX),
        (b'b', Value::Integer(integer)) => *value = Value::Integer(i64::from(*integer as i8)),
        (b'B', Value::Integer(integer)) => *value = Value::Integer(integer & 0xFF),
        (b'h', Value::Integer(integer)) => *value = Value::Integer(i64::from(*integer as i16)),
        (b'H', Value::Integer(integer)) => *value = Value::Integer(integer & 0xFFFF),
        (b'I' | b'J', Value::Integer(integer @ ..0)) => *value = Value::Integer(integer & i64::MAX),
        _ => {}
    }
}

fn value_for(random: &mut Random, item: &Item) -> Value {
    if random.one_in(60) {
        return any_value(random);
    }
    match item.option {
        b'c' => chars_for(random, item.numeral),
        b'z' => {
            let without_zeros = !random.one_in(40);
            Value::Text(some_text(random, 300, without_zeros))
        }
        b's' => Value::Text(text_for_length(random, item)),
        b'f' | b'd' | b'n' => match random.below(4) {
            0 => Value::Integer(integer(random)),
            _ => Value::Float(float(random)),
        },
        b'j' | b'J' | b'T' if random.one_in(2) => Value::Float(float(random)),
        b'J' if !random.one_in(10) => Value::Integer(integer(random) & i64::MAX),
        _ => {
            let integer = integer_for(random, item);
            let exact = (integer as f64) as i128 == i128::from(integer);
            if exact && random.one_in(8) { Value::float(integer as f64) } else { Value::Integer(integer) }
        }
    }
}

fn any_value(random: &mut Random) -> Value {
    match random.below(5) {
        0 => Value::Other,
        1 => Value::Integer(integer(random)),
        2 => Value::Text(some_text(random, 12, false)),
        _ => Value::Float(float(random)),
    }
}

/// An integer that mostly fits an item's size, around its limits.
fn integer_for(random: &mut Random, item: &Item) -> i64 {
    let size = item.size().unwrap_or(4).min(8);
    let bits = 8 * size as u32;
    let outside = random.one_in(25);
    let signed = matches!(item.option, b'i' | b'l');
    let limit: i128 = 1 << (bits - u32::from(signed));
    let around = match random.below(4) {
        0 => limit - 1 - i128::from(random.below(3)),
        1 => i128::from(random.below(4)),
        _ => i128::from(random.next()) % limit,
    };
    let around = if signed && random.one_in(2) { -1 - around } else { around };
    let around = if outside { around.signum() * limit + i128::from(random.below(3)) - 1 } else { around };
    match item.option {
        _ if random.one_in(40) => integer(random),
        b'I' | b'L' => around.clamp(if outside { -2 } else { 0 }, i128::from(i64::MAX)) as i64,
        _ => around as i64,
    }
}

/// Any integer, mostly around powers of two.
pub fn integer(random: &mut Random) -> i64 {
    match random.below(5) {
        0 => random.next() as i64,
        1 => random.below(600) as i64 - 300,
        // beside the middle of two f32, where rounding to f64 first can matter
        2 => {
            let middle = ((1 << 23) + (random.next() >> 41)) << 1 | 1;
            let near = (middle << random.below(39)).wrapping_add(random.below(3)).wrapping_sub(1) as i64;
            if random.one_in(2) { near.wrapping_neg() } else { near }
        }
        _ => {
            let near = (1_i128 << random.below(65)) + i128::from(random.below(5)) - 2;
            (if random.one_in(2) { -near } else { near }) as i64
        }
    }
}

/// The bits of any float, around what rounding, integers and remainders by 2^64 look at.
pub fn float(random: &mut Random) -> u64 {
    let sign = random.next() & (1 << 63);
    match random.below(16) {
        0 => random.next(),
        1 => sign | random.pick(&[0, 1, 0x7FF0_0000_0000_0000, 0x7FEF_FFFF_FFFF_FFFF, 0x0010_0000_0000_0000]),
        2 => sign | 0x7FF0_0000_0000_0000 | 1 << random.below(52) | random.next() >> random.among(12, 63),
        3 | 4 => sign ^ ((random.below(600) as f64) / 2.0).to_bits(),
        5 | 6 => (integer(random) as f64).to_bits(),
        // a power of two and its neighbours
        7 | 8 => (sign | (1023 + random.below(140) - 66) << 52).wrapping_add(random.below(5)).wrapping_sub(2),
        9 => (sign | random.below(2047) << 52).wrapping_add(random.below(5)).wrapping_sub(2),
        // around an f32, and around the middle of two
        10..14 => {
            let exponent = if random.one_in(3) { random.pick(&[0, 1, 253, 254]) } else { random.below(255) };
            let single = (exponent as u32) << 23 | (random.next() as u32 >> 9);
            let near = f64::from(f32::from_bits(single)).to_bits();
            let middle = if random.one_in(2) { 1 << 28 } else { 0 };
            sign ^ near.wrapping_add(middle).wrapping_add(random.below(3)).wrapping_sub(1)
        }
        // multiples of 2^64 with something left
        _ => {
            let whole = (random.below(9) as f64 - 4.0) * 18_446_744_073_709_551_616.0;
            let rest = (random.next() >> random.below(64)) as f64 / random.pick(&[1.0, 2.0, 1024.0]);
            (if sign == 0 { whole + rest } else { whole - rest }).to_bits()
        }
    }
}

fn chars_for(random: &mut Random, numeral: Numeral) -> Value {
    let most = match numeral {
        Numeral::Number(n) => n.min(3000) as usize,
        _ => 8,
    };
    let length = match random.below(30) {
        0 => most + 1,
        1..8 => most,
        8..14 => most.saturating_sub(1),
        _ => random.among(0, most),
    };
    Value::Text(bytes(random, length))
}

fn text_for_length(random: &mut Random, item: &Item) -> Vec<u8> {
    match (item.prefix(), random.below(40)) {
        (Some(1), 0..4) => {
            let length = random.among(253, 257);
            bytes(random, length)
        }
        (Some(2..), 0) if random.one_in(40) => {
            let length = random.among(LONGEST_TEXT - 2, LONGEST_TEXT);
            bytes(random, length)
        }
        _ => some_text(random, 300, false),
    }
}

fn some_text(random: &mut Random, most: usize, without_zeros: bool) -> Vec<u8> {
    let length = if random.one_in(30) { random.among(0, most) } else { random.among(0, most.min(12)) };
    let mut text = bytes(random, length);
    if without_zeros {
        text.iter_mut().filter(|byte| **byte == 0).for_each(|byte| *byte = 1);
    }
    text
}

/// Bytes of which many are 0, 255 or small.
pub fn bytes(random: &mut Random, length: usize) -> Vec<u8> {
    let plain = random.one_in(2);
    let mut bytes = Vec::with_capacity(length);
    for _ in 0..length {
        let drawn = random.next();
        bytes.push(match drawn >> 32 & 7 {
            _ if plain => drawn as u8,
            0 | 1 => 0,
            2 => 0xFF,
            3 | 4 => drawn as u8 & 7,
            _ => drawn as u8,
        });
    }
    bytes
}

/// Zero bytes, or 255s, or bytes as above.
pub fn data(random: &mut Random, length: usize) -> Vec<u8> {
    match random.below(12) {
        0 => vec![0; length],
        1 => vec![0xFF; length],
        _ => bytes(random, length),
    }
}

/// All of up to `length` bytes over an alphabet.
pub fn every_over(alphabet: Vec<u8>, length: u32) -> impl Iterator<Item = Vec<u8>> {
    let letters = alphabet.len() as u64;
    let numbers = (0..=length).flat_map(move |length| (0..letters.pow(length)).map(move |number| (length, number)));
    numbers.map(move |(length, number)| {
        let letter = |place: u32| alphabet[(number / letters.pow(place) % letters) as usize];
        (0..length).map(letter).collect()
    })
}

/// How many these are, by the alphabet's length.
pub fn count_over(letters: usize, length: u32) -> u64 {
    (0..=length).map(|length| (letters as u64).pow(length)).sum()
}

/// More room than any record of this format and these values needs, where no c is above the cap.
pub fn room(format: &[u8], values: &[Value], cap: u64) -> usize {
    let texts: usize = values.iter().map(Value::field_length).sum();
    let items = items(format);
    let sizes: u64 = items
        .iter()
        .map(|item| match (item.option, item.numeral) {
            (b'c', Numeral::Number(n)) if n <= cap => n,
            _ => 32,
        })
        .sum();
    texts + sizes as usize
}
