//! Values, and the value list.

use crate::{Error, State, calls};
use std::borrow::Borrow;
use std::num::TryFromIntError;
use std::ops::Deref;
use std::{error, fmt, iter, ptr};

/// The longest text that a value list holds.
const LONGEST_TEXT: usize = 65_535;

/// The bytes of a field's tag and length.
const HEAD: usize = 3;

/// A value to be written, or one that was read.
///
/// Numbers and texts become values by `From`, integers of types that go beyond an `i64` by `TryFrom`:
///
/// ```
/// use digribbon::Value;
///
/// assert_eq!(Value::from(7_u32), Value::Integer(7));
/// assert_eq!(Value::from(0.5_f32), Value::Float(0.5));
/// assert_eq!(Value::from(&String::from("ANNA")), Value::Text(b"ANNA"));
/// assert_eq!(Value::try_from(7_u64), Ok(Value::Integer(7)));
/// assert!(Value::try_from(u64::MAX).is_err());
/// ```
#[derive(Clone, Copy, Debug, PartialEq)]
pub enum Value<'a> {
    /// An integer.
    Integer(i64),
    /// A float, with all its bits where it is a NaN.
    Float(f64),
    /// A text: any bytes, at most 65,535 of them in a list.
    Text(&'a [u8]),
    /// Anything else. No option takes it.
    Other,
}

macro_rules! from_integers {
    ($($integer:ty)*) => {
        $(impl From<$integer> for Value<'_> {
            fn from(integer: $integer) -> Self {
                Value::Integer(integer.into())
            }
        })*
    };
}

from_integers!(i8 i16 i32 i64 u8 u16 u32);

macro_rules! try_from_integers {
    ($($integer:ty)*) => {
        $(impl TryFrom<$integer> for Value<'_> {
            type Error = TryFromIntError;

            fn try_from(integer: $integer) -> Result<Self, TryFromIntError> {
                integer.try_into().map(Value::Integer)
            }
        })*
    };
}

try_from_integers!(u64 i128 u128 isize usize);

impl From<f64> for Value<'_> {
    fn from(float: f64) -> Self {
        Value::Float(float)
    }
}

impl From<f32> for Value<'_> {
    fn from(float: f32) -> Self {
        Value::Float(float.into())
    }
}

impl<'a> From<&'a [u8]> for Value<'a> {
    fn from(text: &'a [u8]) -> Self {
        Value::Text(text)
    }
}

impl<'a, const N: usize> From<&'a [u8; N]> for Value<'a> {
    fn from(text: &'a [u8; N]) -> Self {
        Value::Text(text)
    }
}

impl<'a> From<&'a Vec<u8>> for Value<'a> {
    fn from(text: &'a Vec<u8>) -> Self {
        Value::Text(text)
    }
}

impl<'a> From<&'a str> for Value<'a> {
    fn from(text: &'a str) -> Self {
        Value::Text(text.as_bytes())
    }
}

impl<'a> From<&'a String> for Value<'a> {
    fn from(text: &'a String) -> Self {
        Value::Text(text.as_bytes())
    }
}

/// A value list that is lent: what a `str` is to a `String`, this is to a [`ValueList`].
#[derive(PartialEq, Eq, Hash)]
#[repr(transparent)]
pub struct Values([u8]);

impl Values {
    /// Bytes as a value list.
    ///
    /// # Errors
    ///
    /// [`Malformed`](crate::Refusal::Malformed) where they are none.
    ///
    /// ```
    /// use digribbon::{Refusal, Value, Values};
    ///
    /// let values = Values::from_bytes(&[3, 0, 2, b'A', b'B'])?;
    /// assert_eq!(values.iter().next(), Some(Value::Text(b"AB")));
    /// assert_eq!(Values::from_bytes(&[4]).unwrap_err(), Refusal::Malformed);
    /// # Ok::<(), digribbon::Error>(())
    /// ```
    pub fn from_bytes(bytes: &[u8]) -> Result<&Values, Error> {
        // Writing looks at the whole list first, also where the format takes nothing of it.
        calls::pack_continued(State::default(), &[], bytes, &mut [])?;
        Ok(Values::trusted(bytes))
    }

    /// Bytes that are known to be a value list.
    pub(crate) fn trusted(bytes: &[u8]) -> &Values {
        // SAFETY: the two have the same layout.
        unsafe { &*(ptr::from_ref(bytes) as *const Values) }
    }

    /// The list's bytes: for each value a tag, the content's length in two bytes, the content.
    #[must_use]
    pub fn as_bytes(&self) -> &[u8] {
        &self.0
    }

    /// Whether there is no value.
    #[must_use]
    pub fn is_empty(&self) -> bool {
        self.0.is_empty()
    }

    /// How many values there are. They are counted, one after the other.
    ///
    /// ```
    /// use digribbon::ValueList;
    ///
    /// assert_eq!(ValueList::from_values(["A", "BC"])?.len(), 2);
    /// # Ok::<(), digribbon::TextTooLong>(())
    /// ```
    #[must_use]
    pub fn len(&self) -> usize {
        self.iter().count()
    }

    /// The values, one after the other.
    #[must_use]
    pub fn iter(&self) -> Iter<'_> {
        Iter { rest: &self.0 }
    }

    /// The list after some values; empty where there are fewer.
    ///
    /// ```
    /// use digribbon::{Value, ValueList};
    ///
    /// let values = ValueList::from_values([1, 2, 3])?;
    /// assert_eq!(values.after(2).iter().next(), Some(Value::Integer(3)));
    /// assert!(values.after(4).is_empty());
    /// # Ok::<(), digribbon::TextTooLong>(())
    /// ```
    #[must_use]
    pub fn after(&self, values: usize) -> &Values {
        Values::trusted(&self.0[calls::list_after(&self.0, values)..])
    }
}

impl AsRef<Values> for Values {
    fn as_ref(&self) -> &Values {
        self
    }
}

impl AsRef<[u8]> for Values {
    fn as_ref(&self) -> &[u8] {
        self.as_bytes()
    }
}

impl ToOwned for Values {
    type Owned = ValueList;

    fn to_owned(&self) -> ValueList {
        ValueList(self.0.to_owned())
    }
}

impl fmt::Debug for Values {
    fn fmt(&self, f: &mut fmt::Formatter<'_>) -> fmt::Result {
        f.debug_list().entries(self).finish()
    }
}

impl<'a> IntoIterator for &'a Values {
    type Item = Value<'a>;
    type IntoIter = Iter<'a>;

    fn into_iter(self) -> Iter<'a> {
        self.iter()
    }
}

/// The values of a list, one after the other.
#[derive(Clone)]
pub struct Iter<'a> {
    rest: &'a [u8],
}

/// Shows the values that are still to come.
impl fmt::Debug for Iter<'_> {
    fn fmt(&self, f: &mut fmt::Formatter<'_>) -> fmt::Result {
        f.debug_tuple("Iter").field(&Values::trusted(self.rest)).finish()
    }
}

impl<'a> Iterator for Iter<'a> {
    type Item = Value<'a>;

    fn next(&mut self) -> Option<Value<'a>> {
        let (value, rest) = field(self.rest)?;
        self.rest = rest;
        Some(value)
    }

    fn size_hint(&self) -> (usize, Option<usize>) {
        (self.rest.len().div_ceil(HEAD + LONGEST_TEXT), Some(self.rest.len() / HEAD))
    }
}

impl iter::FusedIterator for Iter<'_> {}

/// The value of the first field, and the bytes after it.
fn field(list: &[u8]) -> Option<(Value<'_>, &[u8])> {
    let (&[tag, high, low], rest) = list.split_first_chunk()?;
    let (content, rest) = rest.split_at_checked(u16::from_be_bytes([high, low]).into())?;
    let value = match tag {
        0 if content.is_empty() => Value::Other,
        1 => Value::Integer(i64::from_be_bytes(content.try_into().ok()?)),
        2 => Value::Float(f64::from_be_bytes(content.try_into().ok()?)),
        3 => Value::Text(content),
        _ => return None,
    };
    Some((value, rest))
}

/// A value list: built value by value, or given by [`unpack`](crate::unpack).
///
/// ```
/// use digribbon::{Value, ValueList};
///
/// let mut values = ValueList::new();
/// values.push(7)?;
/// values.push(0.5)?;
/// values.push("ANNA")?;
/// values.push(Value::Other)?;
/// let read: Vec<Value> = values.iter().collect();
/// assert_eq!(read, [Value::Integer(7), Value::Float(0.5), Value::Text(b"ANNA"), Value::Other]);
/// # Ok::<(), digribbon::TextTooLong>(())
/// ```
#[derive(Clone, Default, PartialEq, Eq, Hash)]
pub struct ValueList(Vec<u8>);

impl ValueList {
    /// The empty list.
    #[must_use]
    pub fn new() -> ValueList {
        ValueList::default()
    }

    /// The list of some values.
    ///
    /// # Errors
    ///
    /// [`TextTooLong`] for the first text above 65,535 bytes.
    ///
    /// ```
    /// use digribbon::{Value, ValueList};
    ///
    /// let zones = ValueList::from_values([1, 2, 3])?;
    /// let holder = ValueList::from_values([Value::Integer(7), Value::from("ANNA")])?;
    /// assert_eq!((zones.len(), holder.len()), (3, 2));
    /// # Ok::<(), digribbon::TextTooLong>(())
    /// ```
    pub fn from_values<'a, V: Into<Value<'a>>>(values: impl IntoIterator<Item = V>) -> Result<ValueList, TextTooLong> {
        let mut list = ValueList::new();
        for value in values {
            list.push(value)?;
        }
        Ok(list)
    }

    /// Bytes that are known to be a value list.
    pub(crate) fn trusted(bytes: Vec<u8>) -> ValueList {
        ValueList(bytes)
    }

    /// Appends a value.
    ///
    /// # Errors
    ///
    /// [`TextTooLong`] for a text above 65,535 bytes: a list cannot hold it. The list stays as it was.
    ///
    /// ```
    /// use digribbon::ValueList;
    ///
    /// let mut values = ValueList::new();
    /// assert_eq!(values.push(&[0; 65_535]), Ok(()));
    /// let error = values.push(&[0; 65_536]).unwrap_err();
    /// assert_eq!((error.position, error.length), (2, 65_536));
    /// ```
    pub fn push<'a>(&mut self, value: impl Into<Value<'a>>) -> Result<(), TextTooLong> {
        match value.into() {
            Value::Other => self.field(0, &[]),
            Value::Integer(integer) => self.field(1, &integer.to_be_bytes()),
            Value::Float(float) => self.field(2, &float.to_be_bytes()),
            Value::Text(text) if text.len() <= LONGEST_TEXT => self.field(3, text),
            Value::Text(text) => return Err(TextTooLong { position: self.len() + 1, length: text.len() }),
        }
        Ok(())
    }

    fn field(&mut self, tag: u8, content: &[u8]) {
        let [.., high, low] = content.len().to_be_bytes();
        self.0.extend([tag, high, low]);
        self.0.extend(content);
    }

    /// Removes all values and keeps the memory.
    pub fn clear(&mut self) {
        self.0.clear();
    }
}

impl Deref for ValueList {
    type Target = Values;

    fn deref(&self) -> &Values {
        Values::trusted(&self.0)
    }
}

impl Borrow<Values> for ValueList {
    fn borrow(&self) -> &Values {
        self
    }
}

impl AsRef<Values> for ValueList {
    fn as_ref(&self) -> &Values {
        self
    }
}

impl AsRef<[u8]> for ValueList {
    fn as_ref(&self) -> &[u8] {
        self.as_bytes()
    }
}

impl From<&Values> for ValueList {
    fn from(values: &Values) -> ValueList {
        values.to_owned()
    }
}

impl fmt::Debug for ValueList {
    fn fmt(&self, f: &mut fmt::Formatter<'_>) -> fmt::Result {
        fmt::Debug::fmt(&**self, f)
    }
}

impl<'a> IntoIterator for &'a ValueList {
    type Item = Value<'a>;
    type IntoIter = Iter<'a>;

    fn into_iter(self) -> Iter<'a> {
        self.iter()
    }
}

/// A text is too long for a value list, which is no refusal of the library and has no number.
#[derive(Clone, Copy, Debug, PartialEq, Eq, Hash)]
#[non_exhaustive]
pub struct TextTooLong {
    /// Which value of the list it would be, from 1.
    pub position: usize,
    /// The text's length.
    pub length: usize,
}

impl fmt::Display for TextTooLong {
    fn fmt(&self, f: &mut fmt::Formatter<'_>) -> fmt::Result {
        let TextTooLong { position, length } = self;
        write!(f, "value {position}: a text of {length} bytes is too long for a value list, whose texts end at 65,535")
    }
}

impl error::Error for TextTooLong {}
