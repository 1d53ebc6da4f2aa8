//! Lua's `string.pack`, `string.packsize` and `string.unpack`, by a library that is proved to do what it says.
//!
//! A format such as `<!4 b i` lays values out as bytes. `docs/FORMAT.md` in Digribbon's repository has every option.
//!
//! ```
//! use digribbon::ValueList;
//!
//! let values = ValueList::from_values([1, 2])?;
//! let record = digribbon::pack("<!4 b i", &values)?;
//! assert_eq!(record, [1, 0, 0, 0, 2, 0, 0, 0]);
//!
//! let (read, position) = digribbon::unpack("<!4 b i", &record, 1)?;
//! assert_eq!(read, values);
//! assert_eq!(position, 9);
//! # Ok::<(), Box<dyn std::error::Error>>(())
//! ```
//!
//! # Validity dates
//!
//! Passes store a [`Day`] in two bytes, as the number of days since 1 January 2000. A [`Date`] gives its day and a day its
//! date, and [`Day::last_day`] is the last valid day of a pass of 1 to 12 months.
//!
//! ```
//! use digribbon::Date;
//!
//! let first = Date::new(2024, 1, 31)?.day();
//! let last = first.last_day(1)?;
//! assert_eq!((first.number(), last.number()), (8796, 8825));
//! assert_eq!(last.date().to_string(), "2024-02-29");
//! # Ok::<(), digribbon::Error>(())
//! ```
//!
//! # Refusals
//!
//! A call that is refused changes nothing and says why by an [`Error`]: a [`Refusal`] with its number, a sentence and
//! who causes it, as in `docs/REFUSALS.md`, and, in writing, which value it is about, or which pair of text lengths. A
//! tray has a [`TrayError`], which also says which record it is about.
//!
//! # Memory
//!
//! [`pack`], [`pack_tray`], [`unpack`] and [`Writer::write`] give results that take as much memory as they need, and use
//! more while they run. Where the memory for a result can't be had, they are refused with [`Refusal::ResultTooLong`] and
//! the process goes on. (A [`ValueList`] that is built grows as a `Vec` does, which ends the process there.) A short
//! format can ask for a long record: `c2000000000` asks for two billion bytes. Where formats are not trusted, use
//! [`pack_into`], [`pack_tray_into`] or [`Writer::write_into`] with a buffer as long as the longest record or tray that
//! you accept. They allocate nothing, but for a copy of a tray's lists. [`packsize`] says the length of a record
//! beforehand, but not where the format has `z` or `s`, whose length depends on the values: `c2000000000z` is
//! [`Refusal::NoFixedSize`]. For those [`packsize_range`] gives the least and the greatest length, from those of the
//! texts.
//!
//! # Threads and the float environment
//!
//! Calls share nothing, so they may run in any number of threads. They assume the float environment that Rust assumes:
//! rounding to nearest, no traps, and subnormal numbers that are not taken for zeros. Code that changes it for itself,
//! as C or assembly can, restores it before it calls. Otherwise T of a float that equals no integer can write other
//! bytes, or end the process where traps are on; all else is the same in every environment.

#[cfg(not(target_pointer_width = "64"))]
compile_error!("Digribbon is for hosts with pointers of 64 bits.");

mod calls;
mod dates;
mod error;
mod position;
mod range;
mod reading;
mod room;
mod tray;
mod values;
mod writer;
mod writing;

pub use dates::{Date, Day};
pub use error::{Cause, Error, Refusal};
pub use tray::TrayError;
pub use values::{Iter, TextTooLong, Value, ValueList, Values};
pub use writer::{Order, Part, State, Writer};

use std::borrow::Borrow;
use std::ops::RangeInclusive;
use tray::Tray;
use writing::Writing;

/// How long a record of the format is, at most 2^63-1.
///
/// # Errors
///
/// The format's own: [`UnknownOption`](Refusal::UnknownOption) to [`NoFixedSize`](Refusal::NoFixedSize), which is for a
/// format that has `z` or `s`.
///
/// ```
/// use digribbon::Refusal;
///
/// assert_eq!(digribbon::packsize("<!8bn"), Ok(16));
/// assert_eq!(digribbon::packsize("s1").unwrap_err(), Refusal::NoFixedSize);
/// ```
pub fn packsize(format: impl AsRef<[u8]>) -> Result<u64, Error> {
    Ok(calls::packsize(format.as_ref())?)
}

/// The least and the greatest length of a record of the format, before its texts are known: for each `z` and `s`, in
/// order, there is a range of text lengths. Ranges that the format does not take are ignored.
///
/// Every record whose texts have lengths within their ranges has a length within the answer, and both ends of the
/// answer are the length of such a record. Where the format has no `z` or `s`, both are what [`packsize`] gives.
///
/// The ranges come from any iterator, owned or lent. No more of them are taken than the format has bytes, so an endless
/// one will do.
///
/// # Errors
///
/// The format's own: [`UnknownOption`](Refusal::UnknownOption) to [`LengthTooLarge`](Refusal::LengthTooLarge), which is
/// about the greatest length. Those of a range, which they name: [`NoValueLeft`](Refusal::NoValueLeft) where none is
/// left, [`LeastAboveGreatest`](Refusal::LeastAboveGreatest) where its start is above its end, and
/// [`TextDoesNotFit`](Refusal::TextDoesNotFit) where its end is more than the length in front of an `s` can say. And
/// [`ResultTooLong`](Refusal::ResultTooLong) where no memory for a copy of the ranges can be had.
///
/// ```
/// use digribbon::{Refusal, Value, ValueList};
/// use std::ops::RangeInclusive;
///
/// // A pass's number, its zone, the holder's name, a day. The name has 2 to 20 bytes.
/// let pass = "<!4 I2 B z I4";
/// let lengths = digribbon::packsize_range(pass, [2..=20])?;
/// assert_eq!(lengths, 12..=28);
///
/// // The file is created, and later the name arrives.
/// let mut file = vec![0; *lengths.end() as usize];
/// let values = ValueList::from_values([Value::from(258), 7.into(), "ANNA LEE".into(), 8796.into()])?;
/// assert_eq!(digribbon::pack_into(pass, &values, &mut file), Ok(16));
///
/// let reversed = RangeInclusive::new(20, 2);
/// let error = digribbon::packsize_range(pass, [reversed]).unwrap_err();
/// assert_eq!((error.refusal(), error.pair_position()), (Refusal::LeastAboveGreatest, Some(1)));
/// # Ok::<(), Box<dyn std::error::Error>>(())
/// ```
pub fn packsize_range(
    format: impl AsRef<[u8]>,
    lengths: impl IntoIterator<Item: Borrow<RangeInclusive<u16>>>,
) -> Result<RangeInclusive<u64>, Error> {
    range::packsize_range(format.as_ref(), lengths)
}

/// The values as a record. Values that the format does not take are ignored.
///
/// # Errors
///
/// The format's own: [`UnknownOption`](Refusal::UnknownOption) to [`LengthTooLarge`](Refusal::LengthTooLarge). Those of
/// a value, which they name: [`NoValueLeft`](Refusal::NoValueLeft) to [`TextDoesNotFit`](Refusal::TextDoesNotFit). And
/// [`ResultTooLong`](Refusal::ResultTooLong) where no memory for the record can be had.
///
/// ```
/// use digribbon::{Refusal, ValueList};
///
/// let values = ValueList::from_values(["AB"])?;
/// assert_eq!(digribbon::pack("<s1", &values)?, [2, b'A', b'B']);
/// let error = digribbon::pack("<i3", &values).unwrap_err();
/// assert_eq!((error.refusal(), error.value_position()), (Refusal::WrongKind, Some(1)));
/// # Ok::<(), Box<dyn std::error::Error>>(())
/// ```
pub fn pack(format: impl AsRef<[u8]>, values: &Values) -> Result<Vec<u8>, Error> {
    let mut record = Vec::new();
    Writing::new(State::default(), format.as_ref(), values).append_to(&mut record)?;
    Ok(record)
}

/// [`pack`] into a buffer, with nothing allocated: the record's length. What lies behind the record is left as it was.
///
/// # Errors
///
/// Those of [`pack`]; [`ResultTooLong`](Refusal::ResultTooLong) where the buffer is shorter than the record. They
/// change no byte of the buffer.
///
/// ```
/// use digribbon::{Refusal, ValueList};
///
/// let values = ValueList::from_values([258])?;
/// let mut chip = [0xEE; 3];
/// assert_eq!(digribbon::pack_into(">I2", &values, &mut chip), Ok(2));
/// assert_eq!(chip, [1, 2, 0xEE]);
/// assert_eq!(digribbon::pack_into(">I4", &values, &mut chip).unwrap_err(), Refusal::ResultTooLong);
/// assert_eq!(chip, [1, 2, 0xEE]);
/// # Ok::<(), digribbon::TextTooLong>(())
/// ```
pub fn pack_into(format: impl AsRef<[u8]>, values: &Values, record: &mut [u8]) -> Result<usize, Error> {
    let answer = Writing::new(State::default(), format.as_ref(), values).into_slice(record)?;
    Ok(answer.written)
}

/// The records of many value lists, back to back: each is what [`pack`] gives for its list alone. Where there is no
/// list, the tray has no bytes, whatever the format is.
///
/// # Errors
///
/// Those of [`pack`], with the first record that is refused: each record is checked, in turn, before the memory for the
/// tray. Before all of them comes [`TrayError::ListTooLong`], for the first list that is longer than 65,535 bytes; of
/// such a list only the first values count, as many as the format has bytes, since it takes no more.
/// [`ResultTooLong`](Refusal::ResultTooLong) comes where no memory for the tray or for a copy of its lists can be had.
/// It names no record.
///
/// ```
/// use digribbon::{Refusal, ValueList};
///
/// let issues = [[1, 10, 0], [2, 20, 1]].map(ValueList::from_values);
/// let issues = issues.into_iter().collect::<Result<Vec<_>, _>>()?;
/// let tray = digribbon::pack_tray(">I2I2B", &issues)?;
/// assert_eq!(tray, [0, 1, 0, 10, 0, 0, 2, 0, 20, 1]);
///
/// let error = digribbon::pack_tray("i1 i1 z", &issues).unwrap_err();
/// assert_eq!((error.refusal(), error.record_position()), (Some(Refusal::WrongKind), Some(1)));
/// # Ok::<(), Box<dyn std::error::Error>>(())
/// ```
pub fn pack_tray(
    format: impl AsRef<[u8]>,
    lists: impl IntoIterator<Item: AsRef<Values>>,
) -> Result<Vec<u8>, TrayError> {
    Ok(Tray::new(format.as_ref(), lists)?.into_vec()?)
}

/// [`pack_tray`] into a buffer: the tray's length. What lies behind the tray is left as it was.
///
/// # Errors
///
/// Those of [`pack_tray`]; [`ResultTooLong`](Refusal::ResultTooLong) where the buffer is shorter than the tray. They
/// change no byte of the buffer.
///
/// ```
/// use digribbon::{Refusal, ValueList};
///
/// let lists = [ValueList::from_values([258])?, ValueList::from_values([259])?];
/// let mut chip = [0xEE; 5];
/// assert_eq!(digribbon::pack_tray_into(">I2", &lists, &mut chip), Ok(4));
/// assert_eq!(chip, [1, 2, 1, 3, 0xEE]);
/// assert_eq!(digribbon::pack_tray_into("<I3", &lists, &mut chip).unwrap_err(), Refusal::ResultTooLong);
/// assert_eq!(chip, [1, 2, 1, 3, 0xEE]);
/// # Ok::<(), digribbon::TextTooLong>(())
/// ```
pub fn pack_tray_into(
    format: impl AsRef<[u8]>,
    lists: impl IntoIterator<Item: AsRef<Values>>,
    tray: &mut [u8],
) -> Result<usize, TrayError> {
    Ok(Tray::new(format.as_ref(), lists)?.into_slice(tray)?)
}

/// The values that the format reads from the data, and the position after the last byte read.
///
/// Positions count from 1. The start is one of 1 to the data's length plus 1, or a negative number that counts from
/// the end.
///
/// # Errors
///
/// The format's own: [`UnknownOption`](Refusal::UnknownOption) to [`MissingNumeral`](Refusal::MissingNumeral). Those of
/// the data: [`StartOutside`](Refusal::StartOutside) to [`TextAbove65535`](Refusal::TextAbove65535). And
/// [`ResultTooLong`](Refusal::ResultTooLong) where no memory for the values can be had.
///
/// ```
/// use digribbon::{Refusal, Value};
///
/// let data = [2, b'A', b'B', 0xFE, 0xFF, 0xFF];
/// let (name, position) = digribbon::unpack("s1", &data, 1)?;
/// assert_eq!(name.iter().next(), Some(Value::Text(b"AB")));
/// let (number, position) = digribbon::unpack("<i3", &data, position)?;
/// assert_eq!(number.iter().next(), Some(Value::Integer(-2)));
/// assert_eq!(position, 7);
/// assert_eq!(digribbon::unpack("<i3", &data, -2).unwrap_err(), Refusal::DataEnd);
/// # Ok::<(), digribbon::Error>(())
/// ```
pub fn unpack(format: impl AsRef<[u8]>, data: &[u8], start: i64) -> Result<(ValueList, i64), Error> {
    Ok(reading::unpack(format.as_ref(), data, start)?)
}

/// [`unpack`] into a buffer, with nothing allocated. The buffer's front becomes the value list; [`list_bound`] says how
/// long it need be at most.
///
/// # Errors
///
/// Those of [`unpack`]; [`ResultTooLong`](Refusal::ResultTooLong) where the buffer is shorter than the list. They
/// change no byte of the buffer.
///
/// ```
/// use digribbon::{Refusal, Value};
///
/// let mut room = [0; 11];
/// let (values, position) = digribbon::unpack_into("B", &[200], 1, &mut room)?;
/// assert_eq!(values.iter().next(), Some(Value::Integer(200)));
/// assert_eq!(position, 2);
/// assert_eq!(digribbon::unpack_into("BB", &[200, 200], 1, &mut room).unwrap_err(), Refusal::ResultTooLong);
/// # Ok::<(), digribbon::Error>(())
/// ```
pub fn unpack_into<'a>(
    format: impl AsRef<[u8]>,
    data: &[u8],
    start: i64,
    list: &'a mut [u8],
) -> Result<(&'a Values, i64), Error> {
    let (length, position) = calls::unpack(format.as_ref(), data, start, calls::room(list))?;
    Ok((Values::trusted(&list[..length]), position))
}

/// A length that suffices for the value list of any accepted reading of so much data.
///
/// # Errors
///
/// The format's own: [`UnknownOption`](Refusal::UnknownOption) to [`LengthTooLarge`](Refusal::LengthTooLarge), which is
/// about the bound here. And [`Malformed`](Refusal::Malformed) for a data length above 2^63-1.
///
/// ```
/// assert_eq!(digribbon::list_bound("<i3 z c4", 100), Ok(11 + 103 + 7));
/// ```
pub fn list_bound(format: impl AsRef<[u8]>, data_length: u64) -> Result<u64, Error> {
    Ok(calls::list_bound(format.as_ref(), data_length)?)
}

/// The examples of README.md.
#[cfg(doctest)]
#[doc = include_str!("../README.md")]
struct Readme;
