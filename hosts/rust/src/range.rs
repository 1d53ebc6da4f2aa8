//! Record lengths before the texts are known: the pairs of text lengths that a call is lent, and which pair a refusal
//! is about.

use crate::{Error, Refusal, calls, position};
use std::borrow::Borrow;
use std::ops::RangeInclusive;

/// The least and the greatest length of a record.
pub(crate) fn packsize_range(
    format: &[u8],
    lengths: impl IntoIterator<Item: Borrow<RangeInclusive<u16>>>,
) -> Result<RangeInclusive<u64>, Error> {
    let mut pairs = Vec::new();
    // An option is at least a byte, and takes at most one pair.
    for range in lengths.into_iter().take(format.len()) {
        pairs.try_reserve(1).map_err(|_| Refusal::ResultTooLong)?;
        pairs.push(pair_of(range.borrow()));
    }
    match calls::packsize_range(format, &pairs) {
        Ok([least, greatest]) => Ok(least..=greatest),
        Err(refusal) => Err(error(format, &pairs, refusal)),
    }
}

/// A refusal of these pairs, with the pair that it is about.
fn error(format: &[u8], pairs: &[[u8; 4]], refusal: Refusal) -> Error {
    match refusal {
        Refusal::NoValueLeft | Refusal::TextDoesNotFit | Refusal::LeastAboveGreatest => {
            let ask = |first: usize| calls::packsize_range(format, &pairs[..first]);
            Error::at_pair(refusal, position::refused(refusal, pairs.len(), ask))
        }
        _ => refusal.into(),
    }
}

fn pair_of(range: &RangeInclusive<u16>) -> [u8; 4] {
    let ([a, b], [c, d]) = (range.start().to_be_bytes(), range.end().to_be_bytes());
    [a, b, c, d]
}
