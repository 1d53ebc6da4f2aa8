//! Continued writing.

use crate::calls::Continued;
use crate::writing::Writing;
use crate::{Error, Values};

/// Byte order.
#[derive(Clone, Copy, Debug, Default, PartialEq, Eq, Hash)]
pub enum Order {
    /// The low byte first.
    #[default]
    Little,
    /// The high byte first.
    Big,
}

/// What continued writing goes on from. The default is the start state: little, limit 1, length 0.
#[derive(Clone, Copy, Debug, PartialEq, Eq, Hash)]
#[non_exhaustive]
pub struct State {
    /// The byte order that `<`, `>` or `=` set.
    pub order: Order,
    /// The alignment limit that `!` set: 1, 2, 4, 8 or 16.
    pub limit: u64,
    /// How long the record is so far, at most 2^63-1. Alignment counts from it.
    pub length: u64,
}

impl State {
    /// A state. Writing from it is [`Malformed`](crate::Refusal::Malformed) where the limit or the length is none of
    /// those that its fields name.
    ///
    /// ```
    /// use digribbon::{Order, State, ValueList, Writer};
    ///
    /// let mut record = Vec::new();
    /// let mut writer = Writer::from(State::new(Order::Big, 4, 3));
    /// writer.write("i2", &ValueList::from_values([258])?, &mut record)?;
    /// assert_eq!(record, [0, 1, 2]);
    /// # Ok::<(), Box<dyn std::error::Error>>(())
    /// ```
    #[must_use]
    pub const fn new(order: Order, limit: u64, length: u64) -> State {
        State { order, limit, length }
    }
}

impl Default for State {
    fn default() -> State {
        State::new(Order::Little, 1, 0)
    }
}

/// What writing a part did.
#[derive(Clone, Copy, Debug, PartialEq, Eq)]
#[non_exhaustive]
pub struct Part<'a> {
    /// How many bytes were written.
    pub written: usize,
    /// How many values were used.
    pub used: usize,
    /// How many items of the format were run, blanks not counted.
    pub items: usize,
    /// The values that are left, for the next part.
    pub rest: &'a Values,
}

/// Writes a record part by part.
///
/// A format that is cut between items gives the same bytes as [`pack`](crate::pack) of the whole.
///
/// ```
/// use digribbon::{ValueList, Writer};
///
/// let values = ValueList::from_values([1, 2])?;
/// let mut record = Vec::new();
/// let mut writer = Writer::new();
/// let part = writer.write("<!4 b", &values, &mut record)?;
/// assert_eq!((part.written, part.used, part.items), (1, 1, 3));
/// writer.write("i", part.rest, &mut record)?;
/// assert_eq!(record, digribbon::pack("<!4 b i", &values)?);
/// # Ok::<(), Box<dyn std::error::Error>>(())
/// ```
///
/// What a part costs depends on its own items and not on how many values are left, so a record takes linear time in
/// however many parts it is written. Values may also be given part by part, in a list for each.
#[derive(Clone, Debug, Default)]
pub struct Writer {
    state: State,
}

impl Writer {
    /// A writer at the start state.
    #[must_use]
    pub fn new() -> Writer {
        Writer::default()
    }

    /// The state that the next part goes on from.
    ///
    /// ```
    /// use digribbon::{Order, State, ValueList, Writer};
    ///
    /// let mut writer = Writer::new();
    /// writer.write(">!4 b", &ValueList::from_values([1])?, &mut Vec::new())?;
    /// assert_eq!(writer.state(), State::new(Order::Big, 4, 1));
    /// # Ok::<(), Box<dyn std::error::Error>>(())
    /// ```
    #[must_use]
    pub fn state(&self) -> State {
        self.state
    }

    /// Writes a part and appends its bytes to `record`.
    ///
    /// Alignment counts from the state's length and not from `record`'s, which may hold the parts before or nothing.
    ///
    /// # Errors
    ///
    /// Those of [`pack`](crate::pack), and [`Malformed`](crate::Refusal::Malformed) for a state that is none. They
    /// leave the writer and `record` as they were. A value's position counts from the first of `values`.
    ///
    /// ```
    /// use digribbon::{Refusal, State, ValueList, Writer};
    ///
    /// let values = ValueList::from_values([200])?;
    /// let mut writer = Writer::new();
    /// let mut record = vec![7];
    /// let refused = writer.write("> i1", &values, &mut record);
    /// assert_eq!(refused.unwrap_err(), Refusal::OutOfRange);
    /// assert_eq!((writer.state(), &record[..]), (State::default(), &[7][..]));
    /// # Ok::<(), digribbon::TextTooLong>(())
    /// ```
    pub fn write<'a>(
        &mut self,
        format: impl AsRef<[u8]>,
        values: &'a Values,
        record: &mut Vec<u8>,
    ) -> Result<Part<'a>, Error> {
        let answer = Writing::new(self.state, format.as_ref(), values).append_to(record)?;
        Ok(self.go_on(&answer, values))
    }

    /// [`write`](Writer::write) into a buffer, to its front, with nothing allocated. What lies behind the part's bytes
    /// is left as it was.
    ///
    /// # Errors
    ///
    /// Those of [`write`](Writer::write), and [`ResultTooLong`](crate::Refusal::ResultTooLong) where the buffer is
    /// shorter than the part. They leave the writer and the buffer as they were.
    ///
    /// ```
    /// use digribbon::{Refusal, ValueList, Writer};
    ///
    /// let values = ValueList::from_values([1, 2])?;
    /// let mut chip = [0xEE; 8];
    /// let mut writer = Writer::new();
    /// let first = writer.write_into("<!4 b", &values, &mut chip)?;
    /// let second = writer.write_into("i", first.rest, &mut chip[first.written..])?;
    /// assert_eq!(chip, [1, 0, 0, 0, 2, 0, 0, 0]);
    /// let refused = writer.write_into("x", second.rest, &mut chip[8..]);
    /// assert_eq!(refused.unwrap_err(), Refusal::ResultTooLong);
    /// # Ok::<(), Box<dyn std::error::Error>>(())
    /// ```
    pub fn write_into<'a>(
        &mut self,
        format: impl AsRef<[u8]>,
        values: &'a Values,
        record: &mut [u8],
    ) -> Result<Part<'a>, Error> {
        let answer = Writing::new(self.state, format.as_ref(), values).into_slice(record)?;
        Ok(self.go_on(&answer, values))
    }

    fn go_on<'a>(&mut self, answer: &Continued, values: &'a Values) -> Part<'a> {
        self.state = answer.next;
        Part { written: answer.written, used: answer.used, items: answer.items, rest: values.after(answer.used) }
    }
}

/// A writer that goes on from a state.
impl From<State> for Writer {
    fn from(state: State) -> Writer {
        Writer { state }
    }
}
