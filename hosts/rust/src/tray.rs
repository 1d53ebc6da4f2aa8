//! Trays: the run of value lists that a call is lent, and which record and value a refusal is about.

use crate::calls::{self, Room};
use crate::writing::Writing;
use crate::{Error, Refusal, State, Values, room};
use std::cell::Cell;
use std::{error, fmt, iter};

/// The longest list that a run holds.
const LONGEST_LIST: usize = 65_535;

/// Lists to be written by a format, each as a record of its own.
pub(crate) struct Tray<'a> {
    format: &'a [u8],
    /// The lists, each behind its length.
    run: Vec<u8>,
    records: usize,
}

impl<'a> Tray<'a> {
    pub(crate) fn new(format: &'a [u8], lists: impl IntoIterator<Item: AsRef<Values>>) -> Result<Tray<'a>, TrayError> {
        let mut tray = Tray { format, run: Vec::new(), records: 0 };
        for list in lists {
            tray.push(list.as_ref().as_bytes())?;
        }
        Ok(tray)
    }

    /// Adds a list to the run. Of one that is too long, the values that no format of this length takes are left out.
    fn push(&mut self, mut list: &[u8]) -> Result<(), TrayError> {
        self.records += 1;
        if list.len() > LONGEST_LIST {
            list = &list[..calls::list_after(list, self.format.len())];
        }
        let Ok(length) = u16::try_from(list.len()) else {
            return Err(TrayError::ListTooLong { position: self.records, length: list.len() });
        };
        self.run.try_reserve(2 + list.len()).map_err(|_| Error::from(Refusal::ResultTooLong))?;
        self.run.extend(length.to_be_bytes());
        self.run.extend(list);
        Ok(())
    }

    /// Writes to the front of a buffer: the tray's length.
    pub(crate) fn into_slice(self, tray: &mut [u8]) -> Result<usize, Error> {
        calls::pack_tray(self.format, &self.run, calls::room(tray))
            .map_err(|(refusal, place)| self.error(refusal, place))
    }

    /// The tray in memory of its own.
    pub(crate) fn into_vec(self) -> Result<Vec<u8>, Error> {
        let (mut tray, last_place) = (Vec::new(), Cell::new(0));
        let call = |room: &mut Room| match calls::pack_tray(self.format, &self.run, room) {
            Ok(length) => Ok((length, ())),
            Err((refusal, place)) => {
                last_place.set(place);
                Err(refusal)
            }
        };
        let options = self.format.len().saturating_mul(self.records);
        let guess = || self.run.len().saturating_add(options.saturating_mul(16));
        room::append(&mut tray, options, guess, call).map_err(|refusal| self.error(refusal, last_place.get()))?;
        Ok(tray)
    }

    /// A refusal of this tray, with the record at this place, from 1, and the value that it is about. Place 0 is none.
    fn error(&self, refusal: Refusal, place: usize) -> Error {
        match place.checked_sub(1).and_then(|before| lists(&self.run).nth(before)) {
            Some(list) => Writing::new(State::default(), self.format, list).error(refusal).in_record(place),
            None => refusal.into(),
        }
    }
}

/// The lists of a run, one after the other.
fn lists(mut run: &[u8]) -> impl Iterator<Item = &Values> {
    iter::from_fn(move || {
        let (&length, rest) = run.split_first_chunk()?;
        let (list, rest) = rest.split_at(u16::from_be_bytes(length).into());
        run = rest;
        Some(Values::trusted(list))
    })
}

/// Why a tray was not written. Nothing is changed then.
///
/// ```
/// use digribbon::{Refusal, TrayError, ValueList, pack_tray};
///
/// let lists = [ValueList::from_values([1, 2])?, ValueList::from_values([3, 200])?];
/// let error = pack_tray("i1 i1", &lists).unwrap_err();
/// assert_eq!(error, Refusal::OutOfRange);
/// assert_eq!(error.record_position(), Some(2));
/// assert_eq!(error.to_string(), "refusal 13 at value 2 of record 2: An integer is out of its option's range.");
///
/// match error {
///     TrayError::Refused(error) => assert_eq!(error.value_position(), Some(2)),
///     TrayError::ListTooLong { position, .. } => println!("list {position} is too long"),
///     _ => println!("{error}"),
/// }
/// # Ok::<(), digribbon::TextTooLong>(())
/// ```
#[derive(Clone, Copy, Debug, PartialEq, Eq, Hash)]
#[non_exhaustive]
pub enum TrayError {
    /// The library refused it.
    Refused(Error),
    /// A list is too long for a tray, which is no refusal of the library and has no number.
    ListTooLong {
        /// Which list it is, from 1.
        position: usize,
        /// How many bytes its first values take, as many of them as the format has bytes.
        length: usize,
    },
}

impl TrayError {
    /// The library's refusal; `None` where a list is too long.
    #[must_use]
    pub const fn refusal(self) -> Option<Refusal> {
        match self {
            TrayError::Refused(error) => Some(error.refusal()),
            TrayError::ListTooLong { .. } => None,
        }
    }

    /// Which record it is about, from 1; `None` where it is about the whole tray.
    #[must_use]
    pub fn record_position(self) -> Option<usize> {
        match self {
            TrayError::Refused(error) => error.record_position(),
            TrayError::ListTooLong { position, .. } => Some(position),
        }
    }
}

impl From<Error> for TrayError {
    fn from(error: Error) -> TrayError {
        TrayError::Refused(error)
    }
}

/// Whether the library refused the tray for this reason, whichever record it is about.
impl PartialEq<Refusal> for TrayError {
    fn eq(&self, refusal: &Refusal) -> bool {
        self.refusal() == Some(*refusal)
    }
}

impl fmt::Display for TrayError {
    fn fmt(&self, f: &mut fmt::Formatter<'_>) -> fmt::Result {
        match self {
            TrayError::Refused(error) => error.fmt(f),
            TrayError::ListTooLong { position, length } => {
                write!(f, "list {position}: {length} bytes are too long for a tray, whose lists end at 65,535")
            }
        }
    }
}

impl error::Error for TrayError {}
