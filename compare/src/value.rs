//! Values, and the value list.

use std::fmt;

/// "A value is an integer, a float, a text or something else." A float is its 64 bits.
#[derive(Clone, Debug, PartialEq, Eq)]
pub enum Value {
    Other,
    Integer(i64),
    Float(u64),
    Text(Vec<u8>),
}

/// The longest text that a list can hold.
pub const LONGEST_TEXT: usize = 65_535;

impl Value {
    pub fn float(number: f64) -> Value {
        Value::Float(number.to_bits())
    }

    /// How many bytes the value's field has in a list.
    pub fn field_length(&self) -> usize {
        3 + match self {
            Value::Other => 0,
            Value::Integer(_) | Value::Float(_) => 8,
            Value::Text(text) => text.len(),
        }
    }

    pub fn is_nan(&self) -> bool {
        matches!(self, Value::Float(bits) if f64::from_bits(*bits).is_nan())
    }
}

/// The list of some values: for each a tag, two bytes of length, the content. A text above 65,535 bytes has no field.
pub fn encode(values: &[Value]) -> Vec<u8> {
    let mut list = Vec::with_capacity(values.iter().map(Value::field_length).sum());
    for value in values {
        match value {
            Value::Other => field(&mut list, 0, &[]),
            Value::Integer(integer) => field(&mut list, 1, &integer.to_be_bytes()),
            Value::Float(bits) => field(&mut list, 2, &bits.to_be_bytes()),
            Value::Text(text) => field(&mut list, 3, text),
        }
    }
    list
}

fn field(list: &mut Vec<u8>, tag: u8, content: &[u8]) {
    let length = u16::try_from(content.len()).expect("a text of a list has at most 65,535 bytes");
    list.push(tag);
    list.extend_from_slice(&length.to_be_bytes());
    list.extend_from_slice(content);
}

/// The values of a list, or none where it is malformed.
pub fn decode(mut list: &[u8]) -> Option<Vec<Value>> {
    let mut values = Vec::new();
    while let Some((&[tag, high, low], rest)) = list.split_first_chunk::<3>() {
        let (content, rest) = rest.split_at_checked(usize::from(high) * 256 + usize::from(low))?;
        values.push(match tag {
            0 if content.is_empty() => Value::Other,
            1 => Value::Integer(i64::from_be_bytes(content.try_into().ok()?)),
            2 => Value::Float(u64::from_be_bytes(content.try_into().ok()?)),
            3 => Value::Text(content.to_vec()),
            _ => return None,
        });
        list = rest;
    }
    list.is_empty().then_some(values)
}

/// The start of the field after the first `count` ones of a well-formed list.
pub fn skip(list: &[u8], count: usize) -> &[u8] {
    let mut rest = list;
    for _ in 0..count {
        rest = &rest[3 + usize::from(rest[1]) * 256 + usize::from(rest[2])..];
    }
    rest
}

impl fmt::Display for Value {
    fn fmt(&self, f: &mut fmt::Formatter<'_>) -> fmt::Result {
        match self {
            Value::Other => write!(f, "other"),
            Value::Integer(integer) => write!(f, "{integer}"),
            Value::Float(bits) => write!(f, "float {bits:016X} ({:?})", f64::from_bits(*bits)),
            Value::Text(text) => write!(f, "text {}", Bytes(text)),
        }
    }
}

/// Values in a row, for printing.
pub struct Values<'a>(pub &'a [Value]);

impl fmt::Display for Values<'_> {
    fn fmt(&self, f: &mut fmt::Formatter<'_>) -> fmt::Result {
        write!(f, "[")?;
        for (i, value) in self.0.iter().enumerate() {
            write!(f, "{}{value}", if i == 0 { "" } else { ", " })?;
        }
        write!(f, "]")
    }
}

/// Bytes for printing: as a text, or their number and the first ones where they are many.
pub struct Bytes<'a>(pub &'a [u8]);

impl fmt::Display for Bytes<'_> {
    fn fmt(&self, f: &mut fmt::Formatter<'_>) -> fmt::Result {
        let shown = &self.0[..self.0.len().min(200)];
        write!(f, "\"{}\"", shown.escape_ascii())?;
        if shown.len() < self.0.len() {
            write!(f, ".. ({} bytes)", self.0.len())?;
        }
        Ok(())
    }
}
