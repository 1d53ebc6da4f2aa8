//! Writing: what is lent to a call, and which value a refusal is about.

use crate::calls::{self, Continued, Room};
use crate::{Error, Refusal, State, Values, position, room};

/// Values to be written by a format, from a state. Plain writing starts from the start state.
#[derive(Clone, Copy)]
pub(crate) struct Writing<'a> {
    state: State,
    format: &'a [u8],
    /// The values that the format can take.
    list: &'a [u8],
}

impl<'a> Writing<'a> {
    pub(crate) fn new(state: State, format: &'a [u8], values: &'a Values) -> Writing<'a> {
        Writing { state, format, list: takeable(format, values.as_bytes()) }
    }

    /// Writes to the front of a buffer.
    pub(crate) fn into_slice(self, record: &mut [u8]) -> Result<Continued, Error> {
        self.call(self.list, calls::room(record)).map_err(|refusal| self.error(refusal))
    }

    /// Writes behind what `record` has.
    pub(crate) fn append_to(self, record: &mut Vec<u8>) -> Result<Continued, Error> {
        let guess = || self.list.len().saturating_add(self.format.len().saturating_mul(16));
        let call = |room: &mut Room| self.call(self.list, room).map(|answer| (answer.written, answer));
        room::append(record, self.format.len(), guess, call).map_err(|refusal| self.error(refusal))
    }

    fn call(self, list: &[u8], room: &mut Room) -> Result<Continued, Refusal> {
        calls::pack_continued(self.state, self.format, list, room)
    }

    /// A refusal of this writing, with the value that it is about.
    pub(crate) fn error(self, refusal: Refusal) -> Error {
        match refusal {
            Refusal::NoValueLeft
            | Refusal::WrongKind
            | Refusal::OutOfRange
            | Refusal::ZeroInText
            | Refusal::TextDoesNotFit => Error::at_value(refusal, self.refused_value(refusal)),
            _ => refusal.into(),
        }
    }

    fn refused_value(self, refusal: Refusal) -> usize {
        let ask = |first: usize| self.call(&self.list[..calls::list_after(self.list, first)], &mut []);
        position::refused(refusal, Values::trusted(self.list).len(), ask)
    }
}

/// The first fields of a list, as many as the format can take: an option is at least a byte, and takes at most one
/// field.
///
/// A call walks over the whole list that it is lent. With the list cut here, what a part of a record costs depends on
/// the part's format and not on how many values are left for later parts. A list of a few bytes for each byte of the
/// format is lent whole, which costs no more.
fn takeable<'a>(format: &[u8], list: &'a [u8]) -> &'a [u8] {
    if list.len() <= format.len().saturating_mul(16) {
        return list;
    }
    &list[..calls::list_after(list, format.len())]
}

#[cfg(test)]
mod tests {
    use crate::calls::walked;
    use crate::{ValueList, Writer};

    const VALUES: usize = 80_000;

    /// How many fields the calls walk over where each of the parts has the same format.
    fn walked_over(format: &str, parts: usize) -> usize {
        let values = ValueList::from_values(0..VALUES as i64).expect("integers");
        let (mut writer, mut record, mut rest) = (Writer::new(), Vec::with_capacity(VALUES), &*values);
        walked::take();
        for _ in 0..parts {
            rest = writer.write(format, rest, &mut record).expect("a part").rest;
        }
        walked::take()
    }

    #[test]
    fn parts_walk_over_no_more_than_they_take() {
        for parts in [1, 10, 1000, VALUES] {
            let walked = walked_over(&"b".repeat(VALUES / parts), parts);
            assert!(walked <= 3 * VALUES, "{parts} parts walk over {walked} fields");
        }
    }

    #[test]
    fn parts_that_take_nothing_walk_over_as_much_as_they_are_long() {
        let walked = walked_over("x <!4", 1000);
        assert!(walked <= 3 * 5 * 1000, "{walked}");
    }
}
