//! Refusals: number, sentence, cause, and the value, the pair and the record that one is about.

use std::num::NonZero;
use std::{error, fmt};

/// Who causes a refusal.
#[derive(Clone, Copy, Debug, PartialEq, Eq, Hash)]
pub enum Cause {
    /// Who wrote the format.
    Author,
    /// Who gave the values.
    Supplier,
    /// The data that were read.
    CardData,
    /// The program that calls.
    Host,
}

impl fmt::Display for Cause {
    fn fmt(&self, f: &mut fmt::Formatter<'_>) -> fmt::Result {
        f.write_str(match self {
            Cause::Author => "profile author",
            Cause::Supplier => "supplier of values",
            Cause::CardData => "card data",
            Cause::Host => "host program",
        })
    }
}

macro_rules! refusals {
    ($($number:literal $name:ident $cause:ident $sentence:literal)*) => {
        /// Why a call was refused, as in `docs/REFUSALS.md`.
        ///
        /// ```
        /// use digribbon::{Cause, Refusal};
        ///
        /// let refusal = Refusal::LimitNoPower;
        /// assert_eq!(refusal.number(), 5);
        /// assert_eq!(refusal.sentence(), "The limit of ! is no power of two.");
        /// assert_eq!(refusal.cause(), Cause::Author);
        /// ```
        #[derive(Clone, Copy, Debug, PartialEq, Eq, Hash)]
        #[non_exhaustive]
        pub enum Refusal {
            $(#[doc = $sentence] $name = $number,)*
        }

        impl Refusal {
            /// Every refusal, in the order of the numbers, which go from 1 on.
            pub const ALL: &'static [Refusal] = &[$(Refusal::$name),*];

            /// What it says.
            #[must_use]
            pub const fn sentence(self) -> &'static str {
                match self {
                    $(Refusal::$name => $sentence,)*
                }
            }

            /// Who causes it.
            #[must_use]
            pub const fn cause(self) -> Cause {
                match self {
                    $(Refusal::$name => Cause::$cause,)*
                }
            }
        }
    };
}

refusals! {
    1 UnknownOption Author "The format has a byte that is no option, or a byte above 127."
    2 NumeralTooLarge Author "A numeral is 2^64 or more."
    3 SizeOutside Author "The size of i, I, l, L or s is outside 1 to 16."
    4 LimitOutside Author "The limit of ! is outside 1 to 16."
    5 LimitNoPower Author "The limit of ! is no power of two."
    6 AlignmentNoPower Author "An alignment is above 1 and no power of two."
    7 MisplacedX Author "X stands at the end, or before a blank, X, <, >, =, !, c, s, z or x."
    8 MissingNumeral Author "c has no numeral."
    9 LengthTooLarge Author "The length, or the list bound's sum, is above 2^63-1."
    10 NoFixedSize Author "z or s has no fixed size, so the format cannot be measured."
    11 NoValueLeft Supplier "No value is left, or no pair of text lengths."
    12 WrongKind Supplier "A value has the wrong kind."
    13 OutOfRange Supplier "An integer is out of its option's range."
    14 ZeroInText Supplier "A text for z contains a zero."
    15 TextDoesNotFit Supplier "A text is longer than c's size, or than s's length can say."
    16 StartOutside CardData "The start position lies outside the data."
    17 DataEnd CardData "The data end too early."
    18 IntegerTooWide CardData "An integer does not fit 64 bits."
    19 MissingZero CardData "A text of z has no zero at its end."
    20 TextAbove65535 CardData "A text is longer than 65,535 bytes."
    21 Malformed Host "The value list is malformed, a pair of text lengths is not whole, the data or the state's length is above 2^63-1, or the state's limit is no power of two of 1 to 16."
    22 ResultTooLong Host "The result is longer than the lent buffer."
    23 DamagedRun Host "The lengths of a run's lists don't end at its last byte."
    24 NoSuchDate Supplier "There is no such date, or its year is before 2000."
    25 DayTooLarge Supplier "A day number is above 65,535."
    26 MonthsOutside Supplier "The months are outside 1 to 12."
    27 LeastAboveGreatest Supplier "A least text length is above its greatest."
}

impl Refusal {
    /// Its number in `docs/REFUSALS.md`, which the library's C functions return.
    #[must_use]
    pub const fn number(self) -> u64 {
        self as u64
    }

    /// The refusal of a number.
    #[must_use]
    pub fn from_number(number: u64) -> Option<Refusal> {
        let place = usize::try_from(number).ok()?.checked_sub(1)?;
        Refusal::ALL.get(place).copied()
    }
}

/// A refused call: why, and which value it is about, in a tray of which record, or which pair of text lengths. A
/// refusal leaves everything as it was.
///
/// ```
/// use digribbon::{Cause, Refusal, ValueList};
///
/// let values = ValueList::from_values([7, 200])?;
/// let error = digribbon::pack("i2 i1", &values).unwrap_err();
/// assert_eq!(error, Refusal::OutOfRange);
/// assert_eq!(error.value_position(), Some(2));
/// assert_eq!(error.to_string(), "refusal 13 at value 2: An integer is out of its option's range.");
///
/// match error.refusal() {
///     Refusal::NoValueLeft => println!("more values, please"),
///     refusal if refusal.cause() == Cause::Author => println!("the format is wrong: {error}"),
///     _ => println!("{error}"),
/// }
/// # Ok::<(), digribbon::TextTooLong>(())
/// ```
#[derive(Clone, Copy, Debug, PartialEq, Eq, Hash)]
pub struct Error {
    refusal: Refusal,
    value: Option<NonZero<usize>>,
    pair: Option<NonZero<usize>>,
    record: Option<NonZero<usize>>,
}

impl Error {
    /// A refusal that is about the value at a position, from 1.
    pub(crate) fn at_value(refusal: Refusal, position: usize) -> Error {
        Error { value: NonZero::new(position), ..Error::from(refusal) }
    }

    /// A refusal that is about the pair of text lengths at a position, from 1.
    pub(crate) fn at_pair(refusal: Refusal, position: usize) -> Error {
        Error { pair: NonZero::new(position), ..Error::from(refusal) }
    }

    /// The same about a record of a tray, from 1.
    pub(crate) fn in_record(self, position: usize) -> Error {
        Error { record: NonZero::new(position), ..self }
    }

    /// Why.
    #[must_use]
    pub const fn refusal(self) -> Refusal {
        self.refusal
    }

    /// The refusal's number.
    #[must_use]
    pub const fn number(self) -> u64 {
        self.refusal.number()
    }

    /// What the refusal says.
    #[must_use]
    pub const fn sentence(self) -> &'static str {
        self.refusal.sentence()
    }

    /// Who causes the refusal.
    #[must_use]
    pub const fn cause(self) -> Cause {
        self.refusal.cause()
    }

    /// Which value of the list the refusal is about, from 1. Writing says it of every refusal that the supplier of the
    /// values causes; where no value is left, it is the one that is missing.
    #[must_use]
    pub fn value_position(self) -> Option<usize> {
        self.value.map(NonZero::get)
    }

    /// Which range the refusal is about, from 1: a range is a pair of text lengths.
    /// [`packsize_range`](crate::packsize_range) says it of every refusal that the supplier of the ranges causes; where
    /// none is left, it is the one that is missing.
    #[must_use]
    pub fn pair_position(self) -> Option<usize> {
        self.pair.map(NonZero::get)
    }

    /// Which record of a tray the refusal is about, from 1. [`pack_tray`](crate::pack_tray) says it of every refusal but
    /// [`ResultTooLong`](Refusal::ResultTooLong), which is about the whole tray.
    #[must_use]
    pub fn record_position(self) -> Option<usize> {
        self.record.map(NonZero::get)
    }
}

impl From<Refusal> for Error {
    fn from(refusal: Refusal) -> Error {
        Error { refusal, value: None, pair: None, record: None }
    }
}

/// Whether the call was refused for this reason, whichever value, pair or record it is about.
impl PartialEq<Refusal> for Error {
    fn eq(&self, refusal: &Refusal) -> bool {
        self.refusal == *refusal
    }
}

impl fmt::Display for Error {
    fn fmt(&self, f: &mut fmt::Formatter<'_>) -> fmt::Result {
        write!(f, "refusal {}", self.number())?;
        match (self.pair, self.value, self.record) {
            (Some(pair), ..) => write!(f, " at pair {pair}")?,
            (None, Some(value), Some(record)) => write!(f, " at value {value} of record {record}")?,
            (None, Some(value), None) => write!(f, " at value {value}")?,
            (None, None, Some(record)) => write!(f, " at record {record}")?,
            (None, None, None) => (),
        }
        write!(f, ": {}", self.sentence())
    }
}

impl error::Error for Error {}
